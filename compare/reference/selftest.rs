//! `reference --selftest`: 01's examples P1 to P13, the listing's example, the figures of document 001, and the
//! readings' points with answers worked out by hand from the papers. The items of 02 have their own files.

use crate::reference::binary::integer;
use crate::reference::figures::*;
use crate::reference::items::*;
use crate::{selftest_bundles, selftest_messages};

const A: &str = "POST /s HTTP/1.1\r\nHost: a\r\nContent-Length: 3\r\n\r\nabc";
pub const P5: &str = "0004504f535404687474700161022f73000361626300";
pub struct Tests {
    answer: fn(Items, &[u8]) -> String,
    /// The items that have landed for the rows to come.
    pub items: Items,
    passed: usize,
    failed: usize,
}

/// The answer of a refusal.
pub fn refused(number: u32, place: usize) -> String {
    format!("{{\"at\":{place},\"n\":{number}}}")
}

pub fn hex(bytes: &[u8]) -> String {
    if bytes.is_empty() {
        return "-".to_string();
    }
    bytes.iter().map(|b| format!("{:02x}", b)).collect()
}

impl Tests {
    pub fn answer(&self, line: &str) -> String {
        (self.answer)(self.items, line.as_bytes())
    }
    pub fn check(&mut self, name: &str, got: &str, wanted: &str) {
        if got == wanted {
            self.passed += 1;
        } else {
            self.failed += 1;
            println!("FAILED {}\n  got    {}\n  wanted {}", name, got, wanted);
        }
    }
    pub fn says(&mut self, name: &str, line: &str, wanted: &str) {
        let got = self.answer(line);
        self.check(name, &got, wanted);
    }
    pub fn req(&mut self, name: &str, input: &str, number: u32, place: usize) {
        let line = format!("h1req 0 {}", hex(input.as_bytes()));
        self.outcome(name, &line, number, place);
    }
    fn resp(&mut self, name: &str, input: &str, number: u32, place: usize) {
        let line = format!("h1resp {}", hex(input.as_bytes()));
        self.outcome(name, &line, number, place);
    }
    pub fn bin(&mut self, name: &str, input: &str, number: u32, place: usize) {
        self.outcome(name, &format!("bin {}", input), number, place);
    }
    /// A refusal with its place; for number 0, accepted with that length.
    pub fn outcome(&mut self, name: &str, line: &str, number: u32, place: usize) {
        let got = self.answer(line);
        if number == 0 {
            let start = format!("{{\"len\":{},\"m\":", place);
            let good = got.starts_with(&start) && got.contains(",\"n\":0,\"r\":");
            let wanted = format!("{}...", start);
            self.check(name, if good { &wanted } else { &got }, &wanted);
        } else {
            self.check(name, &got, &refused(number, place));
        }
    }
}

pub fn run(answer: fn(Items, &[u8]) -> String) -> usize {
    let mut t = Tests { answer, items: Items::none(), passed: 0, failed: 0 };
    examples(&mut t);
    figures(&mut t);
    http1(&mut t);
    binary(&mut t);
    writing(&mut t);
    streams(&mut t);
    protocol(&mut t);
    selftest_messages::run(&mut t);
    selftest_bundles::run(&mut t);
    println!("{} passed, {} failed", t.passed, t.failed);
    t.failed
}

fn examples(t: &mut Tests) {
    let value = |bytes: &[u8]| format!("{:?}", integer(bytes, 0).map(|read| (read.value, read.next)));
    t.check("P1", &value(&[0x25]), "Some((37, 1))");
    t.check("P2", &value(&[0x40, 0x25]), "Some((37, 2))");
    t.check("P3", &value(&[0x7b, 0xbd]), "Some((15293, 2))");
    t.check("A is 51 bytes", &A.len().to_string(), "51");
    t.says(
        "P4",
        &format!("h1req 0 {}", hex(A.as_bytes())),
        "{\"len\":51,\"m\":{\"authority\":\"61\",\"content\":\"616263\",\"headers\":[],\"k\":\"req\",\
         \"method\":\"504f5354\",\"path\":\"2f73\",\"scheme\":\"http\",\"trailers\":[]},\"n\":0,\
         \"r\":{\"authority\":[24,1],\"chunks\":[[48,3]],\"headers\":[],\"method\":[0,4],\"path\":[5,2],\
         \"trailers\":[]}}",
    );
    t.says("P5", &format!("h1req2bin 0 22 {}", hex(A.as_bytes())), &format!("{{\"n\":0,\"out\":\"{}\"}}", P5));
    t.says("P5, 21 bytes of room", &format!("h1req2bin 0 21 {}", hex(A.as_bytes())), "{\"at\":0,\"n\":13}");
    t.says(
        "P6 accepted",
        &format!("bin {}", FIGURE_13),
        &format!(
            "{{\"len\":48,\"m\":{{\"content\":\"{}\",\"headers\":[],\"info\":[],\"k\":\"resp\",\"status\":200,\
             \"trailers\":[[\"747261696c6572\",\"74657874\"]]}},\"n\":0,\"r\":{{\"chunks\":[[5,29]],\"headers\":[],\
             \"info\":[],\"trailers\":[[36,7,44,4]]}}}}",
            &FIGURE_13[10..68]
        ),
    );
    t.says("P6 written back", &format!("bin2bin 48 {}", FIGURE_13), &format!("{{\"n\":0,\"out\":\"{}\"}}", FIGURE_13));
    t.req("P7", "", 1, 0);
    t.bin("P8", "-", 9, 0);
    t.bin("P9", "04", 10, 0);
    let p10 = A.replace("3\r\n\r\n", "3\r\nTransfer-Encoding: chunked\r\n\r\n");
    t.req("P10", &p10, 7, 76);
    t.says(
        "P11",
        &format!("bin {}", &P5[..34]),
        "{\"len\":17,\"m\":{\"authority\":\"61\",\"content\":\"\",\"headers\":[],\"k\":\"req\",\
         \"method\":\"504f5354\",\"path\":\"2f73\",\"scheme\":\"http\",\"trailers\":[]},\"n\":0,\
         \"r\":{\"authority\":[12,1],\"chunks\":[],\"headers\":[],\"method\":[2,4],\"path\":[14,2],\"trailers\":[]}}",
    );
    t.bin("P12", &P5[..32], 9, 16);
    t.bin("P13", &format!("{}01", FIGURE_13), 12, 48);
    let stream = format!("{}GET /t HTTP/1.1\r\nHost: a\r\n\r\n", A);
    t.says(
        "listing",
        &format!("listing {}", hex(stream.as_bytes())),
        "{\"text\":\"message start length fields content trailers\\n1 0 51 0 3 0\\n2 51 28 0 0 0\\nend 79 0\\n\"}",
    );
    t.says(
        "listing of nothing",
        "listing -",
        "{\"text\":\"message start length fields content trailers\\nend 0 0\\n\"}",
    );
    t.says(
        "listing, cut",
        &format!("listing {}", hex(&stream.as_bytes()[..78])),
        "{\"text\":\"message start length fields content trailers\\n1 0 51 0 3 0\\nend 78 1\\n\"}",
    );
    t.says(
        "listing, refused",
        &format!("listing {}", hex(format!("{}GET  /t HTTP/1.1\r\n", A).as_bytes())),
        "{\"text\":\"message start length fields content trailers\\n1 0 51 0 3 0\\nend 51 2\\n\"}",
    );
    t.says(
        "listing above 65,536",
        &format!("listing {}", hex(&vec![b'x'; 65_537])),
        "{\"text\":\"message start length fields content trailers\\nend 65536 8\\n\"}",
    );
    t.says(
        "listing of 65,536",
        &format!("listing {}", hex(&vec![b'x'; 65_536])),
        "{\"text\":\"message start length fields content trailers\\nend 0 8\\n\"}",
    );
}

fn figures(t: &mut Tests) {
    let figure_7 = format!("{}\r\n", FIGURE_7);
    // Figure 7 under https as we write it: the authority in control data, no host field.
    let written = "00034745540568747470730f7777772e6578616d706c652e636f6d0a2f68656c6c6f2e74787440570a757365722d6167\
                   656e74346375726c2f372e31362e33206c69626375726c2f372e31362e33204f70656e53534c2f302e392e376c207a6c\
                   69622f312e322e330f6163636570742d6c616e677561676506656e2c206d690000";
    let wanted = format!("{{\"n\":0,\"out\":\"{}\"}}", written);
    t.says("Figure 7 to Binary", &format!("h1req2bin 1 1000 {}", hex(figure_7.as_bytes())), &wanted);
    t.says("Figure 8 anew", &format!("bin2bin 1000 {}", FIGURE_8), &wanted);
    t.bin("Figure 8", FIGURE_8, 0, FIGURE_8.len() / 2);
    t.bin("Figure 9", FIGURE_9, 0, 144);
    t.says("Figure 9 anew", &format!("bin2bin 1000 {}", FIGURE_9), &wanted);
    t.req("Figure 7 without its empty line", FIGURE_7, 1, FIGURE_7.len());
    t.resp("Figure 10", FIGURE_10, 0, FIGURE_10.len());
    t.bin("Figure 11", FIGURE_11, 0, 368);
    let ten = t.answer(&format!("h1resp2bin 1000 {}", hex(FIGURE_10.as_bytes())));
    t.check("Figure 10 to Binary", ten.get(..13).unwrap_or(&ten), "{\"n\":0,\"out\":");
    t.says("Figure 11 anew is Figure 10 to Binary", &format!("bin2bin 1000 {}", FIGURE_11), &ten);
    let figure_12 = format!("{}\r\n", FIGURE_12);
    t.says(
        "Figure 12 is Figure 13",
        &format!("h1resp2bin 48 {}", hex(figure_12.as_bytes())),
        &format!("{{\"n\":0,\"out\":\"{}\"}}", FIGURE_13),
    );
    t.says(
        "Figure 13 in HTTP/1.1",
        &format!("bin2h1 0 1000 {}", FIGURE_13),
        &format!(
            "{{\"n\":0,\"out\":\"{}\"}}",
            hex(b"HTTP/1.1 200 \r\ntransfer-encoding: chunked\r\n\r\n1d\r\nThis content contains CRLF.\r\n\r\n0\r\n\
                  trailer: text\r\n\r\n")
        ),
    );
}

fn http1(t: &mut Tests) {
    let head = |lines: &str| format!("GET /s HTTP/1.1\r\nHost: a\r\n{}\r\n", lines);
    // R1: the allowance used up exactly, the empty line to come.
    let filler = "x".repeat(8_192 - 17 - 9 - 4);
    let full = format!("GET /s HTTP/1.1\r\nHost: a\r\nb:{}\r\n", &filler);
    t.check("R1 the test's size", &full.len().to_string(), "8192");
    t.req("R1", &full, 8, 8_192);
    let full = format!("GET /s HTTP/1.1\r\nHost: a\r\nb:{}\r\n\r\n", &filler[2..]);
    t.req("head of 8,192", &full, 0, 8_192);
    let full = format!("GET /s HTTP/1.1\r\nHost: a\r\nb:{}\r\n\r\n", &filler[1..]);
    t.req("head of 8,193", &full, 8, 8_191);
    t.req("head of 8,193, one short", &full[..8_191], 1, 8_191);
    t.req("head of 8,193, cut at the allowance", &full[..8_192], 8, 8_191);
    t.req("no LF in the allowance", &"x".repeat(8_192), 8, 0);
    t.req("no LF, one short of it", &"x".repeat(8_191), 1, 8_191);
    // R2
    t.req("R2 LF alone", "\n", 2, 0);
    t.req("R2 empty line first", "\r\n", 2, 0);
    t.req("R2 CR CR LF", "GET /s HTTP/1.1\r\nHost: a\r\r\n\r\n", 2, 17);
    t.req("bare CR", "GET /s HTTP/1.1\r\nHost: \ra\r\n\r\n", 2, 17);
    t.req("bare LF", "GET /s HTTP/1.1\nHost: a\r\n\r\n", 2, 0);
    t.req("bare LF as end of head", "GET /s HTTP/1.1\r\nHost: a\r\n\n", 2, 26);
    // R3
    t.req("R3 three spaces", "GET  /s HTTP/1.1\r\n", 2, 0);
    t.req("R3 version 1.0", "G(T /s HTTP/1.0\r\n", 3, 0);
    t.req("R3 no version", "GET /s \r\n", 3, 0);
    t.req("R3 empty method", " /s HTTP/1.1\r\n", 2, 0);
    t.req("R3 empty target", "GET  HTTP/1.1\r\n", 2, 0);
    t.req("R3 HEAD", "HEAD #s HTTP/1.1\r\n", 4, 0);
    t.req("R3 head is a method", "head /s HTTP/1.1\r\nHost: a\r\n\r\n", 0, 29);
    t.req("R3 long method, bad path", &format!("{} s HTTP/1.1\r\n", "M".repeat(33)), 8, 0);
    t.req("R3 long bad method", &format!("{}( s HTTP/1.1\r\n", "M".repeat(33)), 2, 0);
    t.req("R3 asterisk", "OPTIONS * HTTP/1.1\r\n", 4, 0);
    t.req("R3 fragment", "GET /s#t HTTP/1.1\r\n", 2, 0);
    t.req("R3 long bad path", &format!("GET /{}# HTTP/1.1\r\n", "p".repeat(4_096)), 2, 0);
    t.req("R3 long path", &format!("GET /{} HTTP/1.1\r\n", "p".repeat(4_096)), 8, 0);
    // R4, R8
    t.resp("R4 no second space", "HTTP/1.0 200\r\n", 2, 0);
    t.resp("R4 version", "HTTP/1.0 600 \r\n", 3, 0);
    t.resp("R4 no version", " 200 OK\r\n", 3, 0);
    t.resp("R4 four digits", "HTTP/1.1 2000 \r\n", 2, 0);
    t.resp("R4 reason byte", "HTTP/1.0 999 a\u{7f}\r\n", 2, 0);
    t.resp("R4 status 099", "HTTP/1.1 099 \r\n", 5, 0);
    t.resp("R4 status 600", "HTTP/1.1 600 \r\n", 5, 0);
    t.resp("R4 status 101", "HTTP/1.1 101 \r\n", 4, 0);
    t.resp("R4 blanks in the reason", "HTTP/1.1 204  \t \r\n\r\n", 0, 20);
    let info = "HTTP/1.1 100 \r\n\r\n";
    t.resp("R4 four informational", &format!("{}HTTP/1.1 204 \r\n\r\n", info.repeat(4)), 0, 85);
    t.resp("R4 fifth informational", &info.repeat(5), 8, 68);
    t.resp("R4 101 as the fifth", &format!("{}HTTP/1.1 101 \r\n", info.repeat(4)), 4, 68);
    t.resp("R8", "HTTP/1.1 100 \r\nContent-Length: 0\r\n\r\nx\n", 7, 36);
    t.resp("final without length", "HTTP/1.1 200 \r\n\r\n", 7, 17);
    t.resp("204 with length 0", "HTTP/1.1 204 \r\ncontent-length: 0\r\n\r\n", 7, 36);
    t.resp("304 chunked", "HTTP/1.1 304 \r\ntransfer-encoding: chunked\r\n\r\n", 7, 45);
    t.resp("R11 host is kept in a response", "HTTP/1.1 304 \r\nhost: \r\nhost: (\r\n\r\n", 0, 34);
    // R5
    t.req("64 lines", &head(&"a:\r\n".repeat(63)), 0, 17 + 9 + 63 * 4 + 2);
    t.req("R5 65th line", &head(&format!("{}b\r\n", "a:\r\n".repeat(63))), 8, 17 + 9 + 63 * 4);
    t.req("R5 65th line, bad end", &head(&format!("{}b\n", "a:\r\n".repeat(63))), 2, 17 + 9 + 63 * 4);
    t.req("no colon", &head("abc\r\n"), 2, 26);
    t.req("blank before colon", &head("abc : d\r\n"), 2, 26);
    t.req("folded", &head("abc: d\r\n e\r\n"), 2, 34);
    t.req("empty name", &head(": d\r\n"), 2, 26);
    // R6
    t.says(
        "R6",
        &format!("h1req 1 {}", hex(head("A: \t \r\n").as_bytes())),
        "{\"len\":35,\"m\":{\"authority\":\"61\",\"content\":\"\",\"headers\":[[\"61\",\"\"]],\"k\":\"req\",\
         \"method\":\"474554\",\"path\":\"2f73\",\"scheme\":\"https\",\"trailers\":[]},\"n\":0,\
         \"r\":{\"authority\":[23,1],\"chunks\":[],\"headers\":[[26,1,31,0]],\"method\":[0,3],\"path\":[4,2],\
         \"trailers\":[]}}",
    );
    // Host and R7
    t.req("no Host", "GET /s HTTP/1.1\r\n\r\n", 6, 19);
    t.req("two Hosts", &head("host: a\r\n"), 6, 37);
    t.req("empty Host, two lengths", "GET /s HTTP/1.1\r\nHost:\r\nContent-Length: 1, 1\r\n\r\n", 6, 48);
    t.req("bad Host", "GET /s HTTP/1.1\r\nHost: a/b\r\n\r\n", 6, 30);
    t.req("Host of 255", &format!("GET /s HTTP/1.1\r\nHost: {}\r\n\r\n", "a".repeat(255)), 0, 17 + 6 + 255 + 4);
    t.req("Host of 256", &format!("GET /s HTTP/1.1\r\nHost: {}\r\n\r\n", "a".repeat(256)), 6, 17 + 6 + 256 + 4);
    for value in ["5, 5", "+5", "-5", "", "5 5", "0x5", "5;"] {
        let input = head(&format!("Content-Length: {}\r\n", value));
        t.req("R7 bad length", &input, 7, input.len());
    }
    for value in ["gzip, chunked", "", "chunked, chunked", "identity", "chunked;a"] {
        let input = head(&format!("Transfer-Encoding: {}\r\n", value));
        t.req("R7 bad coding", &input, 7, input.len());
    }
    t.req("two equal lengths", &head("Content-Length: 5\r\ncontent-length: 5\r\n"), 7, 66);
    t.req("R7 length 32,769", &head("Content-Length: 32769\r\n"), 8, 26);
    t.req("R7 length 2^64 + 3", &format!("{}abc", head("Content-Length: 18446744073709551619\r\n")), 8, 26);
    let many = format!("Content-Length: {}\r\n", "340282366920938463463374607431768211459".repeat(3));
    t.req("R7 length of 117 digits", &format!("{}abc", head(&many)), 8, 26);
    let zeros = format!("Content-Length: {}3\r\n", "0".repeat(60));
    t.req("R7 leading zeros", &format!("{}abcd", head(&zeros)), 0, 26 + 79 + 2 + 3);
    t.req("data one short", &A[..50], 1, 50);
    // R9, R10
    let chunked = |rest: &str| format!("{}{}", head("Transfer-Encoding: CHUNKED\r\n"), rest);
    let start = 17 + 9 + 28 + 2;
    t.req("R9 empty extension", &chunked("5;\r\nabcde\r\n0\r\n\r\n"), 0, start + 4 + 7 + 5);
    t.req("R9 leading zeros, A", &chunked("0000000000000000000000000000000000A\r\n0123456789\r\n00\r\n\r\n"), 0, start + 55);
    t.req("R9 no digit", &chunked(";a\r\n"), 2, start);
    t.req("R9 blank", &chunked("5 ;a\r\n"), 2, start);
    t.req("R9 2^64 + 5", &chunked("10000000000000005\r\nabcde\r\n"), 8, start);
    t.req("R9 40 digits", &chunked(&format!("{}\r\nabcde\r\n", "f".repeat(40))), 8, start);
    t.req("R9 32,769", &chunked("8001\r\n"), 8, start);
    t.req("R9 32,768, more", &chunked("8000\r\n"), 1, start + 6);
    t.req("R9 total, at once", &chunked("1\r\na\r\n8000\r\n"), 8, start + 6);
    let chunks = "1\r\na\r\n".repeat(256);
    t.req("R9 256 chunks", &chunked(&format!("{}0\r\n\r\n", chunks)), 0, start + 256 * 6 + 5);
    t.req("R9 257th chunk", &chunked(&format!("{}1\r\n", chunks)), 8, start + 256 * 6);
    t.req("chunk line of 256", &chunked(&format!("1;{}\r\na\r\n0\r\n\r\n", "e".repeat(252))), 0, start + 256 + 3 + 5);
    t.req("chunk line of 257", &chunked(&format!("1;{}\r\na\r\n", "e".repeat(253))), 8, start);
    t.req("R10 wrong end, one byte in", &chunked("1\r\nab"), 1, start + 5);
    t.req("R10 wrong end", &chunked("1\r\nabc"), 2, start + 4);
    t.req("R10 end without CR", &chunked("1\r\na\n0\r\n"), 2, start + 4);
    // R11
    t.req("R11 cut", &chunked("0\r\nhost: a\r\n"), 1, start + 3 + 9);
    t.req("R11 bad line behind", &chunked("0\r\nhost: a\r\nb\r\n"), 2, start + 12);
    for name in ["host", "Content-Length", "transfer-encoding"] {
        let input = chunked(&format!("0\r\n{}: 0\r\n\r\nx", name));
        t.req("R11 refused", &input, 7, input.len() - 1);
    }
    t.req("R11 64 trailers", &chunked(&format!("0\r\n{}\r\n", "te:\r\n".repeat(64))), 0, start + 3 + 320 + 2);
    t.req("R11 65th trailer", &chunked(&format!("0\r\nhost:\r\n{}", "te:\r\n".repeat(64))), 8, start + 3 + 7 + 315);
    t.resp(
        "R11 host in a response's trailers",
        "HTTP/1.1 200 \r\ntransfer-encoding: chunked\r\n\r\n0\r\nhost: a\r\n\r\n",
        7,
        45 + 3 + 11,
    );
    let trailer = |n: usize| chunked(&format!("0\r\na:{}\r\n\r\nX", "b".repeat(n - 6)));
    t.req("trailer part of 2,048", &trailer(2_048), 0, start + 3 + 2_048);
    t.req("trailer part of 2,049", &trailer(2_049), 8, start + 3 + 2_047);
    // R12
    t.req("R12 rest of the stream", &format!("{}\r\n", head("")), 0, 28);
    t.resp("R12 304", "HTTP/1.1 304 \r\n\r\n\r\n", 0, 17);
    t.outcome("R25 scheme 2", "h1req 2 -", 4, 0);
}

fn binary(t: &mut Tests) {
    let start = "0003474554046874747001610 12f".replace(' ', ""); // GET http a /
    let start = start.as_str();
    let at = 1 + 4 + 5 + 2 + 2;
    t.outcome("R13 size before framing", &format!("bin {}", hex(&vec![0x44; 65_536])), 8, 0);
    t.outcome("R13 size before framing, full", &format!("bin {}", hex(&vec![0x04; 65_535])), 10, 0);
    t.bin("R13 cut framing", "80000000"[..6].as_ref(), 9, 0);
    t.bin("framing of 4 in 8 bytes", "c000000000000004", 10, 0);
    t.bin("R16 method of 33, cut", "0021", 8, 1);
    t.bin("R16 method of 32, cut", "0020", 9, 1);
    t.bin("empty method", "0000", 2, 1);
    t.bin("method HEAD", "000448454144", 4, 1);
    t.bin("method bad", "000128", 2, 1);
    t.bin("R16 scheme empty", "000347455400", 4, 5);
    t.bin("R16 scheme ftp", "000347455403667470", 4, 5);
    t.bin("R16 scheme huge", "0003474554ffffffffffffffff", 9, 5);
    t.bin("R16 authority of 256", "000347455404687474704100", 8, 10);
    t.bin("R16 authority bad", "0003474554046874747001 2f".replace(' ', "").as_str(), 2, 10);
    t.bin("R16 path of 4,097", "0003474554046874747001615001", 8, 12);
    t.bin("path empty", "00034745540468747470016100", 2, 12);
    t.bin("path without slash", "00034745540468747470016101 23".replace(' ', "").as_str(), 4, 12);
    t.bin("path bad", "00034745540468747470016102 2f23".replace(' ', "").as_str(), 2, 12);
    t.bin("header missing", start, 9, at);
    t.bin("R15", &format!("{}03003a", start), 9, at);
    t.bin("R14 zero name", &format!("{}03003a00", start), 11, at + 1);
    t.bin("R14 cut name length", &format!("{}0140", start), 11, at + 1);
    t.bin("R14 line crosses", &format!("{}0401410261", start), 11, at + 1);
    t.bin("R18", &format!("{}0301410100", start), 11, at + 1);
    t.bin("bad name", &format!("{}03014100", start), 2, at + 1);
    t.bin("name with colon", &format!("{}03013a00", start), 2, at + 1);
    t.bin("value with blank end", &format!("{}0401610120", start), 2, at + 1);
    t.bin("value with CR", &format!("{}060161036 20d62", start).replace(' ', ""), 2, at + 1);
    t.bin("value with blank inside", &format!("{}060161036 22062", start).replace(' ', ""), 0, at + 7);
    t.bin("R17 65th known", &format!("{}40c1{}00", start, "016100".repeat(64)), 8, at + 2 + 192);
    t.bin("64 known", &format!("{}40c0{}", start, "016100".repeat(64)), 0, at + 2 + 192);
    let open = start.replacen("00", "02", 1);
    t.bin("R17 65th cut", &format!("{}{}40", open, "016100".repeat(64)), 9, at + 192);
    t.bin("R17 65th", &format!("{}{}3f", open, "016100".repeat(64)), 8, at + 192);
    t.bin("R17 end", &format!("{}{}00", open, "016100".repeat(64)), 0, at + 192 + 1);
    t.bin("R14 cut value", &format!("{}01610261", open), 9, at + 2);
    t.bin("R14 cut value length", &format!("{}016140", open), 9, at + 2);
    t.bin("R14 cut name", &format!("{}0261", open), 9, at);
    t.bin("R18 indeterminate", &format!("{}01410261", open), 9, at + 2);
    t.bin("R19 terminator missing", &format!("{}016100", open), 9, at + 3);
    t.bin("R19 long zeros", &format!("{}40008000000040000000", open), 0, at + 10);
    t.bin("R19 content's terminator", &format!("{}000161", open), 9, at + 3);
    t.bin("content missing", &format!("{}00", open), 0, at + 1);
    t.bin("R20", "01406400", 9, 4);
    t.bin("status 99", "01406300", 5, 1);
    t.bin("status 600", "01425800", 5, 1);
    t.bin("status 101", "01406500", 4, 1);
    t.bin("status huge", "01ffffffffffffffff", 5, 1);
    t.bin("status cut", "0140", 9, 1);
    t.bin("fifth informational", &format!("01{}4064", "406400".repeat(4)), 8, 13);
    t.bin("four informational", &format!("01{}40cc00", "406400".repeat(4)), 0, 16);
    // R21: dropped unread, twice, nonsense; its bytes are judged.
    let te = "117472616e736665722d656e636f64696e67";
    t.bin("R21", &format!("{}26{te}00{te}00", start), 0, at + 1 + 38);
    t.bin("R21 bytes", &format!("{}14{te}010d", start), 2, at + 1);
    // R22
    let cl = "0e636f6e74656e742d6c656e677468";
    t.bin("R22 missing content", &format!("{}11{cl}0131", start), 7, at + 18);
    t.bin("R22 wrong", &format!("{}11{cl}013100", start), 7, at + 19);
    t.bin("R22 right", &format!("{}13{cl}03303031 0161", start).replace(' ', ""), 0, at + 22);
    t.bin("R22 huge", &format!("{}24{cl}14{} 0161", start, "3138343436373434303733373039353531363137").replace(' ', ""), 7, at + 1 + 36 + 2);
    t.bin("R22 repeated", &format!("{}22{cl}0130{cl}0130", start), 7, at + 1 + 34);
    t.bin("R22 not digits", &format!("{}11{cl}012b", start), 7, at + 18);
    t.bin("R22 in a 204", &format!("0140cc11{cl}0130"), 7, 21);
    t.bin("R22 in a 100", &format!("01406411{cl}0130"), 7, 21);
    t.bin("204 with content", "0140cc00016100", 7, 6);
    t.bin("204 with trailer", "0140cc000003016100", 7, 9);
    t.bin("204 with dropped trailer", "0140cc00000402746500", 0, 10);
    t.bin("transfer-encoding in a trailer", &format!("0140c8000013{te}00"), 7, 25);
    t.bin("host in a response's header", "0140c8 0604686f737400 00".replace(' ', "").as_str(), 0, 11);
    t.bin("host in a trailer", "0140c80000 0604686f737400".replace(' ', "").as_str(), 7, 12);
    // R23
    let bare = start.replace("0161", "00");
    t.bin("R23 none", &format!("{}00", bare), 6, at);
    t.bin("R23 host", &format!("{}0704686f73740161", bare), 0, at - 1 + 8);
    t.bin("R23 unequal", &format!("{}0704686f73740162", start), 6, at + 8);
    t.bin("R23 equal", &format!("{}0704686f73740161", start), 0, at + 8);
    t.bin("R23 two", &format!("{}0e04686f7374016104686f73740161", start), 6, at + 15);
    t.bin("R23 empty", &format!("{}0604686f737400", start), 6, at + 7);
    t.bin("R23 bad", &format!("{}0704686f7374012f", bare), 6, at - 1 + 8);
    // sizes
    t.bin("content 32,769", &format!("{}0080008001", start), 8, at + 1);
    t.bin("content 32,768 cut", &format!("{}0080008000", start), 9, at + 1);
    t.bin("total 32,769", &format!("{}00016180008000", open), 8, at + 3);
    t.bin("257th chunk", &format!("{}00{}3f", open, "0161".repeat(256)), 8, at + 1 + 512);
    t.bin("256 chunks", &format!("{}00{}00", open, "0161".repeat(256)), 0, at + 1 + 513);
    // R24
    t.bin("R24 padding", &format!("{}000000000000", start), 0, at + 6);
    t.bin("R24 padding broken", &format!("{}0000000000ff01", start), 12, at + 5);
    t.bin("trailers cut", &format!("{}000040", start), 9, at + 2);
}

fn writing(t: &mut Tests) {
    let out = |text: &str| format!("{{\"n\":0,\"out\":\"{}\"}}", hex(text.as_bytes()));
    t.says(
        "P5 to HTTP/1.1",
        &format!("bin2h1 0 51 {}", P5),
        &out("POST /s HTTP/1.1\r\nhost: a\r\ncontent-length: 3\r\n\r\nabc"),
    );
    t.says("13", &format!("bin2h1 0 50 {}", P5), "{\"at\":0,\"n\":13}");
    t.says("14 before 13", &format!("bin2h1 1 0 {}", P5), "{\"at\":0,\"n\":14}");
    t.says("R25 before all", &format!("bin2h1 2 0 {}", hex(&vec![4; 65_536])), "{\"at\":0,\"n\":4}");
    t.says("R25 for a response", &format!("bin2h1 -1 0 {}", FIGURE_13), "{\"at\":0,\"n\":4}");
    t.says("R26", "bin2h1 1 17 0140cc00", &out("HTTP/1.1 204 \r\n\r\n"));
    t.says("empty content in a response", "bin2h1 1 99 0140c800", &out("HTTP/1.1 200 \r\ncontent-length: 0\r\n\r\n"));
    t.says(
        "informational",
        "bin2h1 0 99 01406403016100 41300000".replace(" 4", "4").as_str(),
        &out("HTTP/1.1 100 \r\na: \r\n\r\nHTTP/1.1 304 \r\n\r\n"),
    );
    t.says(
        "R29",
        "bin2h1 0 99 0140c8000003016100",
        &out("HTTP/1.1 200 \r\ntransfer-encoding: chunked\r\n\r\n0\r\na: \r\n\r\n"),
    );
    // R27: 64 kept fields and host.
    let request = |n: usize| format!("000347455404687474700161012f{}{}", section_length(n), "016100".repeat(n));
    t.says("R27 64 kept", &format!("bin2h1 0 9999 {}", request(64)), "{\"at\":0,\"n\":8}");
    let lines = "a: \r\n".repeat(63);
    t.says("R27 63 kept", &format!("bin2h1 0 9999 {}", request(63)), &out(&format!("GET / HTTP/1.1\r\nhost: a\r\n{}\r\n", lines)));
    t.says("R27 8 before 13", &format!("bin2h1 0 0 {}", request(64)), "{\"at\":0,\"n\":8}");
    // R30
    let message = hex(b"GET /s HTTP/1.1\r\nHost: a\r\nB: 1\r\nb: 2\r\nc:\r\n\r\n");
    let field = |at, from, len, n, start| {
        format!("{{\"at\":{at},\"from\":\"{from}\",\"len\":{len},\"n\":{n},\"start\":{start}}}")
    };
    t.says("R30 first", &format!("field_h1req 0 62 ffff {}", message), &field(0, "message", 1, 0, 29));
    t.says("R30 empty value", &format!("field_h1req 0 63 ffff {}", message), &field(0, "message", 0, 0, 40));
    t.says("R30 upper case", &format!("field_h1req 0 42 ffff {}", message), &field(0, "default", 2, 0, 0));
    t.says("R30 empty name", &format!("field_h1req 0 - - {}", message), &field(0, "default", 0, 0, 0));
    t.says("R30 dropped", &format!("field_h1req 0 686f7374 ff {}", message), &field(0, "default", 1, 0, 0));
    t.says("R30 cut", &format!("field_h1req 0 62 ffff {}", &message[..84]), &field(42, "default", 2, 1, 0));
    t.says("R30 scheme", &format!("field_h1req 7 62 ffff {}", message), &field(0, "default", 2, 4, 0));
    t.says(
        "R30 final head",
        &format!("field_h1resp 62 ff {}", hex(b"HTTP/1.1 100 \r\nb: 1\r\n\r\nHTTP/1.1 204 \r\n\r\n")),
        &field(0, "default", 1, 0, 0),
    );
    t.says("R30 trailer is no header", &format!("field_bin 747261696c6572 - {}", FIGURE_13), &field(0, "default", 0, 0, 0));
    t.says("R30 Figure 8", &format!("field_bin 6163636570742d6c616e6775616765 - {}", FIGURE_8), &field(0, "message", 6, 0, 127));
}

/// The command `stream`: the calls' answers, the end and what is left there, the written text, the meanings taken off.
fn streams(t: &mut Tests) {
    let answer = |calls: &str, end: (u32, usize), out: &str, rest: usize, taken: &str| {
        let (n, at) = end;
        let out = if out.is_empty() { String::new() } else { hex(out.as_bytes()) };
        format!(
            "{{\"calls\":[{calls}],\"end\":{{\"at\":{at},\"n\":{n}}},\"out\":\"{out}\",\"rest\":{rest},\"taken\":[{taken}]}}"
        )
    };
    let meaning = |method: &str, path: &str, content: &str, headers: &str, trailers: &str| {
        let (method, path) = (hex(method.as_bytes()), hex(path.as_bytes()));
        let content = if content.is_empty() { String::new() } else { hex(content.as_bytes()) };
        format!(
            "{{\"authority\":\"61\",\"content\":\"{content}\",\"headers\":[{headers}],\"k\":\"req\",\"method\":\"{method}\",\
             \"path\":\"{path}\",\"scheme\":\"http\",\"trailers\":[{trailers}]}}"
        )
    };
    let post = "POST /s HTTP/1.1\r\nhost: a\r\ncontent-length: 3\r\n\r\nabc";
    let get = "GET / HTTP/1.1\r\nhost: a\r\n\r\n"; // 16 + 9 + 2
    let post_meaning = meaning("POST", "/s", "abc", "", "");
    let get_meaning = meaning("GET", "/", "", "", "");
    let short = "000347455404687474700161012f00";
    let yes = |length: usize| format!("{{\"len\":{length},\"n\":0}}");
    let no = |number: u32, place: usize| format!("{{\"at\":{place},\"n\":{number}}}");

    t.says("stream of no call", "stream 0 0 -", &answer("", (1, 0), "", 0, ""));
    t.says("stream of no call, scheme 2", "stream 2 9 6162", &answer("", (4, 0), "", 2, ""));
    t.says("stream of no call, cut", "stream 1 0 474554", &answer("", (1, 3), "", 3, ""));
    t.says(
        "stream of no call, A, then LF",
        &format!("stream 0 0 {}0a0d", hex(A.as_bytes())),
        &answer("", (2, 0), "", 2, &format!("[51,{post_meaning}]")),
    );
    t.says(
        "stream, exact",
        &format!("stream 0 78 - {P5} {short}"),
        &answer(
            &[yes(51), yes(27)].join(","),
            (1, 0),
            &[post, get].concat(),
            0,
            &format!("[51,{post_meaning}],[27,{get_meaning}]"),
        ),
    );
    t.says(
        "stream, one too small",
        &format!("stream 0 77 78 {P5} {short}"),
        &answer(&[yes(51), no(13, 0)].join(","), (1, 1), post, 1, &format!("[51,{post_meaning}]")),
    );
    // the second does not fit behind the first, the third does; the last has no room left
    t.says(
        "stream, later ones go on",
        &format!("stream 0 54 0d0a {short} {P5} {short} {short}"),
        &answer(
            &[yes(27), no(13, 0), yes(27), no(13, 0)].join(","),
            (2, 0),
            &[get, get].concat(),
            2,
            &format!("[27,{get_meaning}],[27,{get_meaning}]"),
        ),
    );
    // refused for their own sake: framing 4, empty, the other scheme, a wrong content-length
    let other = short.replace("0468747470", "056874747073");
    let wrong = "000347455404687474700161012f110e636f6e74656e742d6c656e6774680131";
    t.says(
        "stream, refused calls",
        &format!("stream 0 999 - 04 - {other} {short} {wrong} {P5}01"),
        &answer(
            &[no(10, 0), no(9, 0), no(14, 0), yes(27), no(7, 32), no(12, 22)].join(","),
            (1, 0),
            get,
            0,
            &format!("[27,{get_meaning}]"),
        ),
    );
    t.says(
        "stream, the tail is a request",
        &format!("stream 0 27 {}47 {short}", hex(A.as_bytes())),
        &answer(&yes(27), (1, 1), get, 1, &format!("[27,{get_meaning}],[51,{post_meaning}]")),
    );
    // a response is written, and no request: version 3
    t.says(
        "stream, a response",
        &format!("stream 0 99 - {short} 0140cc00 {short}"),
        &answer(
            &[yes(27), yes(17), yes(27)].join(","),
            (3, 0),
            &[get, "HTTP/1.1 204 \r\n\r\n", get].concat(),
            44,
            &format!("[27,{get_meaning}]"),
        ),
    );
    // chunked-looking content that is written as a chunk, beside a dropped statement of a coding
    let coding = "117472616e736665722d656e636f64696e67076368756e6b6564";
    let headers = format!("1d{coding}017800");
    let input = format!("0003505554 0468747470 0161 012f {headers} 05300d0a0d0a 03017400").replace(' ', "");
    let text = "PUT / HTTP/1.1\r\nhost: a\r\ntransfer-encoding: chunked\r\nx: \r\n\r\n5\r\n0\r\n\r\n\r\n0\r\nt: \r\n\r\n";
    let content = "0\r\n\r\n";
    t.says(
        "stream, chunked-looking content",
        &format!("stream 0 999 31 {input}"),
        &answer(
            &yes(text.len()),
            (1, 1),
            text,
            1,
            &format!("[{},{}]", text.len(), meaning("PUT", "/", content, "[\"78\",\"\"]", "[\"74\",\"\"]")),
        ),
    );
    t.says("stream, scheme 2", &format!("stream 2 999 - {P5} -"), &answer(&[no(4, 0), no(4, 0)].join(","), (4, 0), "", 0, ""));
    for line in [
        "stream", "stream 0", "stream 0 0", "stream 0 0 ", "stream 0 0 0", "stream 0 0 zz", "stream a 0 -", "stream 0 a -", "stream 0 -1 -",
        "stream 0 0 - 0", "stream 0 0 - - AA", "stream 0 0 - ", "stream 0 0 -  -", "stream  0 0 -",
    ] {
        t.says(&format!("bad command '{}'", line), line, "{\"error\":\"bad command\"}");
    }
}

fn section_length(lines: usize) -> String {
    format!("{:04x}", 0x4000 + 3 * lines)
}

fn protocol(t: &mut Tests) {
    for line in ["", "x", "h1req", "h1req 0", "h1req 0 4", "h1req 0 zz", "h1req a 00", "h1req 0 00 00", "bin2bin -1 00", "bin AA"] {
        t.says(&format!("bad command '{}'", line), line, "{\"error\":\"bad command\"}");
    }
}
