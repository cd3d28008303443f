//! Selftest rows of the items of document 02 that change how messages are read and written. The answers are worked out by
//! hand from the papers.

use crate::reference::binary::integer;
use crate::reference::figures::*;
use crate::reference::items::*;
use crate::selftest::{hex, refused, Tests, P5};

/// The answer of a turning that wrote this text.
fn wrote(text: &str) -> String {
    format!("{{\"n\":0,\"out\":\"{}\"}}", hex(text.as_bytes()))
}

fn wrote_hex(out: &str) -> String {
    format!("{{\"n\":0,\"out\":\"{out}\"}}")
}

const BAD: &str = "{\"error\":\"bad command\"}";
/// `content-length` behind its length: 15 bytes.
const CL: &str = "0e636f6e74656e742d6c656e677468";
/// `transfer-encoding` behind its length: 18 bytes.
const TE: &str = "117472616e736665722d656e636f64696e67";

pub fn run(t: &mut Tests) {
    head(t);
    closed(t);
    former(t);
    draft(t);
    long(t);
    target(t);
    connection(t);
    steps(t);
}

impl Tests {
    /// An HTTP/1.1 response, with options.
    fn reply(&mut self, name: &str, options: &str, input: &str, number: u32, place: usize) {
        let line = format!("h1resp {options} {}", hex(input.as_bytes()));
        self.outcome(name, &line, number, place);
    }
}

/// Item 5: replies to HEAD and 304.
fn head(t: &mut Tests) {
    t.items = Items::none();
    t.says("head= before its item", "bin head=0 0140c800", BAD);
    t.bin("304 with a length, before its item", &format!("01413011{CL}0135"), 7, 21);

    t.items = Items::up_to(Item::Head);
    t.req("HEAD", "HEAD /s HTTP/1.1\r\nHost: a\r\n\r\n", 0, 29);
    t.req("HEAD with content", "HEAD /s HTTP/1.1\r\nHost: a\r\nContent-Length: 1\r\n\r\nx", 0, 49);
    t.req("CONNECT", "CONNECT /s HTTP/1.1\r\n", 4, 0);
    t.bin("HEAD in Binary", "00044845414404687474700161012f00", 0, 16);

    let status = |code: u32, lines: &str| format!("HTTP/1.1 {code} \r\n{lines}\r\n"); // 15 bytes, the lines, 2
    let length = "content-length: 5\r\n"; // 19
    let coding = "transfer-encoding: chunked\r\n"; // 28
    t.says(
        "a HEAD reply, with bytes behind it",
        &format!("h1resp head=1 {}", hex(format!("{}abc", status(200, length)).as_bytes())),
        "{\"len\":36,\"m\":{\"content\":\"\",\"headers\":[],\"info\":[],\"k\":\"resp\",\"stated\":5,\"status\":200,\"trailers\":[]},\
         \"n\":0,\"r\":{\"chunks\":[],\"headers\":[],\"info\":[],\"trailers\":[]}}",
    );
    let both = format!("{length}{coding}");
    for (name, told, code, lines, number, place) in [
        ("not told", "head=0", 200, length, 1, 36),
        ("chunked is dropped", "head=7", 200, coding, 0, 45),
        ("neither line", "head=4294967295", 200, "", 0, 17),
        ("neither line, not told", "head=0", 200, "", 7, 17),
        ("both lines", "head=1", 200, &both, 7, 64),
        ("two equal lengths", "head=1", 404, &length.repeat(2), 7, 55),
        ("two codings", "head=1", 404, &coding.repeat(2), 7, 73),
        ("another coding", "head=1", 200, "transfer-encoding: gzip\r\n", 7, 42),
        ("204 with a length", "head=1", 204, length, 7, 36),
        ("204 chunked", "head=1", 204, coding, 7, 45),
        ("204 with neither", "head=1", 204, "", 0, 17),
        ("103 with a length", "head=1", 103, length, 7, 36),
        ("304 with a length", "head=0", 304, length, 0, 36),
        ("304 chunked (S24)", "head=0", 304, coding, 7, 45),
        ("304 chunked, told (S24)", "head=1", 304, coding, 0, 45),
        ("304 with both", "head=1", 304, &both, 7, 64),
        ("15 digits", "head=1", 200, "content-length: 000999999999999999\r\n", 0, 53),
        ("16 digits", "head=1", 200, "b: c\r\ncontent-length: 1000000000000000\r\n", 8, 21),
        ("16 digits in a 304", "head=0", 304, "content-length: 1000000000000000\r\n", 8, 15),
        ("16 digits, not told", "head=0", 200, "content-length: 1000000000000000\r\n", 8, 15),
        ("no digits, however long", "head=1", 200, "content-length: 1000000000000000x\r\n", 7, 52),
        ("16 digits twice", "head=1", 200, &"content-length: 1000000000000000\r\n".repeat(2), 7, 85),
    ] {
        t.reply(name, told, &status(code, lines), number, place);
    }
    t.reply("the remark is of the final reply", "head=1", &format!("{}{}x", status(103, ""), status(200, length)), 0, 53);

    // Binary: framing and status are 3 bytes, the section's length is at 3, its first line at 4
    for (name, told, input, number, place) in [
        ("Binary, stated", "head=1", format!("0140c811{CL}0135"), 0, 21),
        ("Binary, not told", "head=0", format!("0140c811{CL}0135"), 7, 21),
        ("Binary, content behind", "head=1", format!("0140c811{CL}01310161"), 7, 23),
        ("Binary, content without a statement", "head=1", "0140c8000161".to_string(), 7, 6),
        ("Binary, kept trailer", "head=1", "0140c8000003016100".to_string(), 7, 9),
        ("Binary, dropped trailer", "head=1", "0140c800000402746500".to_string(), 0, 10),
        ("Binary, refused trailer", "head=1", "0140c800000604686f737400".to_string(), 7, 12),
        ("Binary, 16 digits before the content", "head=1", format!("0140c820{CL}10{}0161", "31".repeat(16)), 8, 4),
        ("Binary, 15 digits behind zeros", "head=1", format!("0140c820{CL}1030{}", "31".repeat(15)), 0, 36),
        ("Binary, twice", "head=1", format!("0140c822{CL}0135{CL}0135"), 7, 38),
        ("Binary, no digits", "head=1", format!("0140c811{CL}012b"), 7, 21),
        ("Binary, a coding is no statement (S25)", "head=1", format!("0140c824{CL}0135{TE}00"), 0, 40),
        ("Binary, 204", "head=1", format!("0140cc11{CL}0130"), 7, 21),
        ("Binary, 304", "head=0", format!("01413011{CL}0135"), 0, 21),
        ("Binary, 304 with content", "head=0", format!("01413011{CL}01310161"), 7, 23),
        ("Binary, a request is not changed", "head=1", format!("000347455404687474700161012f11{CL}01310161"), 0, 34),
    ] {
        t.outcome(name, &format!("bin {told} {input}"), number, place);
    }

    t.says("written", &format!("bin2h1 head=1 0 99 0140c811{CL}0135"), &wrote("HTTP/1.1 200 \r\ncontent-length: 5\r\n\r\n"));
    t.says("written, missing", "bin2h1 head=1 0 17 0140c800", &wrote("HTTP/1.1 200 \r\n\r\n"));
    t.says("written, missing, not told", "bin2h1 0 36 0140c800", &wrote("HTTP/1.1 200 \r\ncontent-length: 0\r\n\r\n"));
    t.says("written, 204", "bin2h1 head=1 0 17 0140cc00", &wrote("HTTP/1.1 204 \r\n\r\n"));
    t.says("written, 304", &format!("bin2h1 0 36 01413011{CL}0135"), &wrote("HTTP/1.1 304 \r\ncontent-length: 5\r\n\r\n"));
    t.says("written, room", &format!("bin2h1 0 35 01413011{CL}0135"), "{\"at\":0,\"n\":13}");
    // b before the length, whose zeros go: first in the header, plain decimal
    let written = format!("01413015{CL}013501620163 0000").replace(' ', "");
    t.says("anew", &format!("bin2bin 99 01413017 01620163 {CL}03303035").replace(" 01620163 ", "01620163"), &wrote_hex(&written));
    let reply = hex(status(304, "b: c\r\nContent-Length: 005\r\n").as_bytes());
    t.says("304 to Binary", &format!("h1resp2bin 99 {reply}"), &wrote_hex(&written));
    let reply = hex(status(200, "transfer-encoding: chunked\r\n").as_bytes());
    t.says("chunked to Binary", &format!("h1resp2bin head=1 6 {reply}"), &wrote_hex("0140c8000000"));
    t.says(
        "no kept field",
        &format!("field_bin head=1 {} ff 0140c811{CL}0135", &CL[2..]),
        "{\"at\":0,\"from\":\"default\",\"len\":1,\"n\":0,\"start\":0}",
    );
    for line in ["bin heads=1 00", "bin head= 00", "bin head=4294967296 00", "bin head=-1 00", "bin head=1 head=1 00", "bin 00 head=1", "h1req head=1 0 00"] {
        t.says(line, line, BAD);
    }
}

/// Item 10: replies that end when the line closes.
fn closed(t: &mut Tests) {
    let reply = "HTTP/1.1 200 \r\nb: c\r\n\r\n"; // 23 bytes
    t.items = Items::up_to(Item::Salvage);
    t.says("closed= before its item", "h1resp closed=1 00", BAD);
    t.reply("no length line, before its item", "head=0", reply, 7, 23);

    t.items = Items::up_to(Item::Closed);
    let more = format!("{reply}abc\r\n");
    t.says(
        "closed",
        &format!("h1resp closed=1 {}", hex(more.as_bytes())),
        "{\"len\":28,\"m\":{\"content\":\"6162630d0a\",\"headers\":[[\"62\",\"63\"]],\"info\":[],\"k\":\"resp\",\"status\":200,\
         \"trailers\":[]},\"n\":0,\"r\":{\"chunks\":[[23,5]],\"headers\":[[15,1,18,1]],\"info\":[],\"trailers\":[]}}",
    );
    let full = |size: usize| format!("{reply}{}", "x".repeat(size));
    let with = |status: u32, lines: &str, behind: &str| format!("HTTP/1.1 {status} \r\n{lines}\r\n{behind}");
    for (name, options, input, number, place) in [
        ("open", "closed=0", more.clone(), 1, 28),
        ("open behind the head", "closed=0", reply.to_string(), 1, 23),
        ("closed behind the head", "closed=1", reply.to_string(), 0, 23),
        ("closed behind an informational head", "closed=1", format!("{}{more}", with(103, "", "")), 0, 45),
        ("open, 32,768", "closed=0", full(32_768), 1, 32_791),
        ("open, 32,769", "closed=0", full(32_769), 8, 23),
        ("closed, 32,768", "closed=256", full(32_768), 0, 32_791),
        ("closed, 32,769", "closed=1", full(32_769), 8, 23),
        ("closed on nothing", "closed=1", String::new(), 1, 0),
        ("closed in a head", "closed=1", reply[..22].to_string(), 1, 22),
        ("closed behind an informational head alone", "closed=1", with(103, "", ""), 1, 17),
        ("closed in a counted content", "closed=1", with(200, "content-length: 5\r\n", "abcd"), 1, 40),
        ("closed in chunks", "closed=1", with(200, "transfer-encoding: chunked\r\n", "1\r\na\r\n"), 1, 51),
        ("another coding", "closed=1", with(200, "transfer-encoding: gzip\r\n", "a"), 7, 42),
        ("204", "closed=1", with(204, "", "abc"), 0, 17),
        ("304", "closed=1", with(304, "", "abc"), 0, 17),
        ("a HEAD reply", "closed=1 head=1", with(200, "", "abc"), 0, 17),
        ("a HEAD reply, open", "head=1 closed=0", with(200, "", "abc"), 0, 17),
    ] {
        t.reply(name, options, &input, number, place);
    }
    t.says("to Binary", &format!("h1resp2bin closed=1 16 {}", hex(more.as_bytes())), &wrote_hex("0140c80401620163056162630d0a00"));
    t.says("to Binary, open", &format!("h1resp2bin 16 {}", hex(more.as_bytes())), &refused(1, 28));
    t.says(
        "field question",
        &format!("field_h1resp closed=1 62 - {}", hex(more.as_bytes())),
        "{\"at\":0,\"from\":\"message\",\"len\":1,\"n\":0,\"start\":18}",
    );
    t.says("bin is not told", "bin closed=1 00", BAD);
}

/// Item 9: empty posts say so.
fn former(t: &mut Tests) {
    let post = "0004504f535404687474700161012f"; // POST http a /, and the header section to come
    let bare = "POST / HTTP/1.1\r\nhost: a\r\n\r\n"; // 28 bytes
    let says = "POST / HTTP/1.1\r\nhost: a\r\ncontent-length: 0\r\n\r\n"; // 47
    t.items = Items::up_to(Item::Closed);
    t.says("former= before its item", &format!("bin2h1 former=1 0 99 {post}00"), BAD);
    t.says("an empty post, before its item", &format!("bin2h1 0 28 {post}00"), &wrote(bare));

    t.items = Items::up_to(Item::Former);
    t.says("an empty post", &format!("bin2h1 0 47 {post}00"), &wrote(says));
    t.says("an empty post, room", &format!("bin2h1 0 46 {post}00"), &refused(13, 0));
    t.says("the former rule", &format!("bin2h1 former=1 0 28 {post}00"), &wrote(bare));
    t.says("the former rule, told 256", &format!("bin2h1 former=256 0 28 {post}00"), &wrote(bare));
    t.says("told 0", &format!("bin2h1 former=0 0 47 {post}00"), &wrote(says));
    for (method, text) in [("GET", "03474554"), ("HEAD", "0448454144")] {
        t.says(method, &format!("bin2h1 0 99 00{text}04687474700161012f00"), &wrote(&format!("{method} / HTTP/1.1\r\nhost: a\r\n\r\n")));
    }
    t.says("get", "bin2h1 0 99 000367657404687474700161012f00", &wrote("get / HTTP/1.1\r\nhost: a\r\ncontent-length: 0\r\n\r\n"));
    // no kept trailers, and kept ones
    t.says("dropped trailers", &format!("bin2h1 0 47 {post}00000402746500"), &wrote(says));
    t.says(
        "kept trailers",
        &format!("bin2h1 0 99 {post}000003017400"),
        &wrote("POST / HTTP/1.1\r\nhost: a\r\ntransfer-encoding: chunked\r\n\r\n0\r\nt: \r\n\r\n"),
    );
    // the line counts: host, length and 62 fields are 64
    let fields = |count: usize| format!("{:04x}{}", 0x4000 + 3 * count, "016100".repeat(count));
    t.says("63 fields", &format!("bin2h1 0 999 {post}{}", fields(63)), &refused(8, 0));
    let lines = "a: \r\n".repeat(63);
    t.says("63 fields, the former rule", &format!("bin2h1 former=1 0 999 {post}{}", fields(63)), &wrote(&bare.replace("a\r\n", &format!("a\r\n{lines}"))));
    t.says("a response", "bin2h1 former=1 0 36 0140c800", &wrote("HTTP/1.1 200 \r\ncontent-length: 0\r\n\r\n"));
    t.says("bin2bin is not told", "bin2bin former=1 99 0140c800", BAD);
}

/// Item 7: readers that speak the 2021 draft.
fn draft(t: &mut Tests) {
    t.items = Items::up_to(Item::Former);
    t.says("edition= before its item", "bin edition=0 0140c800", BAD);

    t.items = Items::up_to(Item::Draft);
    // another number is 17 at 0, before all else
    t.says("edition 2", "bin edition=2 -", &refused(17, 0));
    t.says("edition 256, input too large", &format!("bin edition=256 {}", "00".repeat(65_536)), &refused(17, 0));
    t.says("edition before scheme", "bin2h1 edition=4294967295 7 0 04", &refused(17, 0));
    t.says("edition in bin2bin", &format!("bin2bin edition=2 0 {P5}"), &refused(17, 0));
    t.says("edition in the field question", "field_bin edition=2 62 ffff 0140c800", "{\"at\":0,\"from\":\"default\",\"len\":2,\"n\":17,\"start\":0}");
    t.says("scheme, told the draft", "bin2h1 edition=1 7 0 04", &refused(4, 0));

    // the draft's own figures: 8 and 13 are the RFC's, 9 has no padding
    t.outcome("Figure 8", &format!("bin edition=1 {FIGURE_8}"), 0, 135);
    t.outcome("Figure 9 of the draft", &format!("bin edition=1 {}", &FIGURE_9[..268]), 0, 134);
    t.outcome("Figure 9 of the draft, truncated", &format!("bin edition=1 {}", &FIGURE_9[..264]), 0, 132);
    t.outcome("Figure 9 of the RFC", &format!("bin edition=1 {FIGURE_9}"), 12, 134);
    t.outcome("Figure 11", &format!("bin edition=1 {FIGURE_11}"), 0, 368);
    t.outcome("Figure 13", &format!("bin edition=1 {FIGURE_13}"), 0, 48);
    t.says("Figure 13 anew", &format!("bin2bin edition=1 48 {FIGURE_13}"), &wrote_hex(FIGURE_13));

    let start = "000347455404687474700161012f"; // GET http a /: 14 bytes
    let bare = "0003474554046874747000012f"; // no authority: 13 bytes
    for (name, input, number, place, in_rfc) in [
        // an empty value is 2 at its line everywhere
        ("empty value", format!("{start}03016100"), 2, 15, (0, 18)),
        ("empty value, dropped", format!("{start}0402746500"), 2, 15, (0, 19)),
        ("empty value, a coding", format!("{start}13{TE}00"), 2, 15, (0, 34)),
        ("empty host", format!("{bare}0604686f737400"), 2, 14, (6, 20)),
        ("empty value in an informational head", "01406403016100 40c8".replace(' ', ""), 2, 4, (9, 9)),
        ("empty value in trailers", "0140c8000003017400".to_string(), 2, 6, (0, 9)),
        ("empty value, indeterminate", "0340c801610000".to_string(), 2, 3, (0, 7)),
        ("an empty value waits for its length", format!("{start}020161"), 11, 15, (11, 15)),
        // no padding
        ("a zero behind", format!("{P5}00"), 12, 22, (0, 23)),
        ("another byte behind", format!("{P5}0001"), 12, 22, (12, 23)),
        ("zeros are content and trailers", format!("{start}000000"), 0, 17, (0, 17)),
        ("and one more", format!("{start}00000000"), 12, 17, (0, 18)),
        ("indeterminate, one more", "0340c800000000".to_string(), 12, 6, (0, 7)),
        // the end before the final header section
        ("no header", start.to_string(), 0, 14, (9, 14)),
        ("no header, no authority", bare.to_string(), 6, 13, (9, 13)),
        ("no header, cut path", start[..26].to_string(), 9, 12, (9, 12)),
        ("no header, indeterminate", start.replacen("00", "02", 1), 0, 14, (9, 14)),
        ("no header, response", "0140c8".to_string(), 0, 3, (9, 3)),
        ("no header, 204", "0340cc".to_string(), 0, 3, (9, 3)),
        ("1xx without its section", "014064".to_string(), 9, 3, (9, 3)),
        ("1xx without a final status", "01406400".to_string(), 9, 4, (9, 4)),
        ("1xx, then no header", "0140640040c8".to_string(), 0, 6, (9, 6)),
        ("cut header", "0140c804016101".to_string(), 9, 3, (9, 3)),
        // as it was
        ("a section of 0", "0140c800".to_string(), 0, 4, (0, 4)),
        ("a section of 1", "0140c80100".to_string(), 11, 4, (11, 4)),
        ("a colon name", format!("{start}04013a0161"), 2, 15, (2, 15)),
        ("framing 4", "04".to_string(), 10, 0, (10, 0)),
    ] {
        t.outcome(name, &format!("bin edition=1 {input}"), number, place);
        t.outcome(name, &format!("bin edition=0 {input}"), in_rfc.0, in_rfc.1);
        t.outcome(name, &format!("bin {input}"), in_rfc.0, in_rfc.1);
    }
    t.says("anew is RFC 9292", &format!("bin2bin edition=1 17 {start}"), &wrote_hex(&format!("{start}000000")));
    t.says("to HTTP/1.1", "bin2h1 edition=1 0 36 0140c8", &wrote("HTTP/1.1 200 \r\ncontent-length: 0\r\n\r\n"));
    t.says("to HTTP/1.1, a HEAD reply", "bin2h1 head=1 edition=1 0 17 0140c8", &wrote("HTTP/1.1 200 \r\n\r\n"));
    t.says("a bundle reads RFC 9292", "append 5 0 ffffffffffffffffffff 0140cc", &refused(9, 3));
    for line in ["h1req edition=1 0 00", "bundle edition=1 -", "append edition=1 1 0 - 00", "bin edition=4294967296 00"] {
        t.says(line, line, BAD);
    }
}

/// Item 8: who writes long integers?
fn long(t: &mut Tests) {
    for (bytes, shortest) in [
        (&[0x3f][..], true),
        (&[0x40, 0x3f], false),
        (&[0x40, 0x40], true),
        (&[0x80, 0, 0x3f, 0xff], false),
        (&[0x80, 0, 0x40, 0], true),
        (&[0xc0, 0, 0, 0, 0x3f, 0xff, 0xff, 0xff], false),
        (&[0xc0, 0, 0, 0, 0x40, 0, 0, 0], true),
        (&[0xc0, 0, 0, 0, 0, 0, 0, 0], false),
    ] {
        t.check("shortest", &format!("{:?}", integer(bytes, 0).map(|read| read.shortest)), &format!("Some({shortest})"));
    }

    let long = |answer: &str| answer.split("\"long\":").nth(1).and_then(|rest| rest.split(',').next()).unwrap_or("none").to_string();
    let full = "4000 4003474554 400468747470 400161 40012f 4006 400162 400163 400164 4006 400174 400175".replace(' ', "");
    t.items = Items::up_to(Item::Draft);
    t.check("before its item", &long(&t.answer(&format!("bin {full}"))), "none");

    t.items = Items::up_to(Item::Long);
    for (name, options, input, wanted) in [
        ("none", "", P5.to_string(), "none"),
        // framing, four of control, section, name, value, content, section, name, value
        ("every one, known length", "", full.clone(), "12"),
        ("every one, in eight bytes", "", "c000000000000001 c0000000000000c8 c000000000000000".replace(' ', ""), "3"),
        // framing, status, name and value and end, chunk and end, name and value and end
        ("every one, indeterminate", "", "4003 800000c8 400162 400163 4000 400164 4000 400174 400175 4000".replace(' ', ""), "10"),
        ("informational", "", "01 80000064 4000 40c8 4000".replace(' ', ""), "3"),
        ("a status in two bytes is short", "", "0140c800".to_string(), "none"),
        ("63 in two bytes", "", format!("0140c8 403f 0162 3c{}", "76".repeat(60)).replace(' ', ""), "1"),
        ("64 in two bytes", "", format!("0140c8 4040 0162 3d{}", "76".repeat(61)).replace(' ', ""), "none"),
        ("a dropped field's", "", "0140c8 06 40027465 0178".replace(' ', ""), "1"),
        ("zeros of content and trailers", "", "0140c800 4000 80000000".replace(' ', ""), "2"),
        ("padding counts nothing", "", "0140c800 00 4000 0000".replace(' ', ""), "1"),
        ("in the draft", "edition=1 ", "4001 40c8".replace(' ', ""), "1"),
    ] {
        let answer = t.answer(&format!("bin {options}{input}"));
        t.check(&format!("long integers: {name}"), &long(&answer), wanted);
        t.check(&format!("accepted: {name}"), answer.get(..6).unwrap_or(&answer), "{\"len\"");
    }
    t.says("refused", &format!("bin {full}01"), &refused(12, full.len() / 2));
    t.says("append", "append 1 0 ffffffffffffffffffff 400140cc4000", "{\"long\":2,\"n\":0,\"out\":\"024000060140cc000000\",\"used\":10}");
    t.says("append of none", "append 1 0 ffffffffffffffffffff 0140cc00", "{\"n\":0,\"out\":\"024000060140cc000000\",\"used\":10}");
}

/// Item 2: targets with a scheme in them.
fn target(t: &mut Tests) {
    t.items = Items::up_to(Item::Long);
    t.req("absolute-form, before its item", "POST http://a/s HTTP/1.1\r\n", 4, 0);
    t.bin("asterisk in Binary, before its item", "00074f5054494f4e5304687474700161012a00", 4, 16);

    t.items = Items::up_to(Item::Target);
    let request = |target: &str, host: &str| format!("{target} HTTP/1.1\r\n{host}\r\n");
    let answer = |len: usize, method: &str, authority: (&str, usize), path: (&str, usize, usize), before: &str| {
        let method_length = method.len();
        let (authority_hex, path_hex) = (hex(authority.0.as_bytes()), hex(path.0.as_bytes()));
        let before = if before.is_empty() { String::new() } else { format!("\"before\":\"{before}\",") };
        format!(
            "{{\"len\":{len},\"m\":{{\"authority\":\"{authority_hex}\",\"content\":\"\",\"headers\":[],\"k\":\"req\",\"method\":\"{}\",\
             \"path\":\"{path_hex}\",\"scheme\":\"http\",\"trailers\":[]}},\"n\":0,\"r\":{{\"authority\":[{},{}],{before}\"chunks\":[],\
             \"headers\":[],\"method\":[0,{method_length}],\"path\":[{},{}],\"trailers\":[]}}}}",
            hex(method.as_bytes()), authority.1, authority.0.len(), path.1, path.2
        )
    };
    for (line, host, wanted) in [
        // the target begins behind the method and a space; host is ignored
        ("POST http://a/s", "Host: b\r\n", answer(37, "POST", ("a", 12), ("/s", 13, 2), "")),
        ("GET HtTp://A:8/?x", "Host:\r\n", answer(37, "GET", ("A:8", 11), ("/?x", 14, 3), "")),
        ("GET http://a", "Host: @\r\n", answer(34, "GET", ("a", 11), ("/", 12, 0), "2f")),
        ("GET http://a?q", "Host: a\r\n", answer(36, "GET", ("a", 11), ("/?q", 12, 2), "2f")),
        ("GET http://a?x/y", "Host: a\r\n", answer(38, "GET", ("a", 11), ("/?x/y", 12, 4), "2f")),
        ("OPTIONS http://a", "Host: a\r\n", answer(38, "OPTIONS", ("a", 15), ("*", 16, 0), "2a")),
        ("OPTIONS http://a?", "Host: a\r\n", answer(39, "OPTIONS", ("a", 15), ("/?", 16, 1), "2f")),
        ("OPTIONS http://a/", "Host: a\r\n", answer(39, "OPTIONS", ("a", 15), ("/", 16, 1), "")),
        ("options http://a", "Host: a\r\n", answer(38, "options", ("a", 15), ("/", 16, 0), "2f")),
        ("OPTIONS *", "Host: b\r\n", answer(31, "OPTIONS", ("b", 26), ("*", 8, 1), "")),
    ] {
        t.says(line, &format!("h1req 0 {}", hex(request(line, host).as_bytes())), &wanted);
    }
    let long_authority = format!("GET http://{}/", "h".repeat(256));
    let path = |size: usize| "p".repeat(size);
    for (line, number) in [
        ("GET ", 2),
        ("GET http:/a", 4),
        ("GET http:a", 4),
        ("GET httpx://a", 4),
        ("GET ftp://a", 4),
        ("GET http//a", 4),
        ("GET *", 4),
        ("options *", 4),
        ("OPTIONS *x", 4),
        ("OPTIONS *#", 4),
        ("OPTIONS **", 4),
        ("CONNECT http://a", 4),
        ("GET http://a#", 2),
        ("GET http://#", 2),
        ("GET https://a/\u{e9}", 2),
        ("GET http://", 6),
        ("GET http:///s", 6),
        ("GET http://?s", 6),
        ("GET https://u@a/", 6),
        (&long_authority, 6),
        (&format!("GET https://a/{}", path(4_096)), 8),
        (&format!("GET http://a?{}", path(4_095)), 8),
        ("GET https://a/", 14),
        ("OPTIONS HTTPS://a", 14),
    ] {
        // the line alone is judged so, before any field line
        t.req(line, &format!("{line} HTTP/1.1\r\n"), number, 0);
    }
    t.outcome("http under https", &format!("h1req 1 {}", hex(b"GET http://a/ HTTP/1.1\r\n")), 14, 0);
    t.req("path of 4,096", &request(&format!("GET http://a/{}", path(4_095)), "Host: a\r\n"), 0, 4 + 8 + 4_096 + 11 + 9 + 2);
    t.req("query of 4,095", &request(&format!("GET http://a?{}", path(4_094)), "Host: a\r\n"), 0, 4 + 8 + 4_095 + 11 + 9 + 2);
    t.req("authority of 255", &request(&format!("GET http://{}", path(255)), "Host: a\r\n"), 0, 4 + 7 + 255 + 11 + 9 + 2);
    t.req("no Host", &request("GET http://a/", ""), 6, 26);
    t.req("two Hosts", &request("GET http://a/", "Host: a\r\nHost: a\r\n"), 6, 44);
    t.req("origin-form judges Host", &request("GET /", "Host: @\r\n"), 6, 27);
    t.req("* judges Host", &request("OPTIONS *", "Host: @\r\n"), 6, 31);

    // Binary: the path's part of OPTIONS http a is at 16
    let binary = |method: &str, path: &str| format!("00{}04687474700161{}00", method, path);
    for (name, method, path, number, place) in [
        ("*", "074f5054494f4e53", "012a", 0, 19),
        ("*x", "074f5054494f4e53", "022a78", 4, 16),
        ("* of GET", "03474554", "012a", 4, 12),
        ("absolute-form", "074f5054494f4e53", "08687474703a2f2f61", 4, 16),
        ("empty", "074f5054494f4e53", "00", 2, 16),
    ] {
        t.bin(&format!("Binary path {name}"), &binary(method, path), number, place);
    }
    let options = hex(request("OPTIONS http://A", "Host: b\r\n").as_bytes());
    t.says("absolute-form to Binary", &format!("h1req2bin 0 99 {options}"), &wrote_hex("00074f5054494f4e5304687474700141012a000000"));
    let query = hex(request("GET http://a?q", "Host: b\r\n").as_bytes());
    t.says("query to Binary", &format!("h1req2bin 0 99 {query}"), &wrote_hex("000347455404687474700161032f3f71000000"));
    t.says("* to HTTP/1.1", &format!("bin2h1 0 99 {}", binary("074f5054494f4e53", "012a")), &wrote("OPTIONS * HTTP/1.1\r\nhost: a\r\ncontent-length: 0\r\n\r\n"));
    t.says("* in a bundle", "bundle 0a00001500074f5054494f4e5304687474700161012a000000", "{\"entries\":[[5,0,0,4,21]],\"n\":0}");
}

/// Item 3: fields named by Connection.
fn connection(t: &mut Tests) {
    let kept = |answer: &str| {
        let names = answer.split("\"headers\":[").nth(1).and_then(|rest| rest.split("],\"").next()).unwrap_or("refused");
        names.split("[\"").skip(1).filter_map(|field| field.split('"').next()).collect::<Vec<_>>().join(" ")
    };
    let line = |lines: &str| format!("h1req 0 {}", hex(format!("GET / HTTP/1.1\r\nHost: a\r\n{lines}\r\n").as_bytes()));
    t.items = Items::up_to(Item::Target);
    t.check("before its item", &kept(&t.answer(&line("Connection: x\r\nx: 1\r\n"))), "78");

    t.items = Items::up_to(Item::Connection);
    for (name, lines, wanted) in [
        ("named", "Connection: x\r\nx: 1\r\ny: 2\r\n", "79"),
        ("named behind it", "x: 1\r\ny: 2\r\nConnection: x\r\n", "79"),
        ("in either case", "X: 1\r\nconnection: close, Y\r\nY: 2\r\nz: 3\r\n", "78 7a"),
        ("list, blanks", "connection: \tx\t, y ,,z\r\nx: 1\r\ny: 2\r\nz: 3\r\nu: 4\r\n", "75"),
        ("two lines", "connection: x\r\nx: 1\r\nConnection: y\r\ny: 2\r\n", ""),
        ("all of that name", "x: 1\r\nconnection: x\r\nX: 2\r\ny: 3\r\n", "79"),
        ("no token names nothing", "connection: x y, \"x\", x;q, (x\r\nx: 1\r\ny: 2\r\n", "78 79"),
        ("quotes protect nothing", "connection: \"a,x,b\"\r\nx: 1\r\n", ""),
        ("a longer name", "connection: xx\r\nx: 1\r\n", "78"),
        ("a shorter name", "connection: x\r\nxx: 1\r\n", "7878"),
        ("empty value", "connection:\r\nx: 1\r\n", "78"),
        ("proxy-connection names nothing", "proxy-connection: x\r\nx: 1\r\n", "78"),
        ("host and lengths are judged first", "connection: host, content-length, connection\r\ncontent-length: 0\r\nx: 1\r\n", "78"),
    ] {
        t.check(name, &kept(&t.answer(&line(lines))), wanted);
    }
    t.req("a length that is named frames", "GET / HTTP/1.1\r\nHost: a\r\nConnection: content-length\r\nContent-Length: 3\r\n\r\nabc", 0, 77);
    t.req("two lengths that are named", "GET / HTTP/1.1\r\nHost: a\r\nConnection: content-length\r\nContent-Length: 0\r\nContent-Length: 0\r\n\r\n", 7, 93);

    // each informational head obeys its own; trailers are untouched; a response's host is an ordinary field
    let response = "HTTP/1.1 103 \r\nconnection: x\r\nx: 1\r\ny: 2\r\n\r\nHTTP/1.1 200 \r\nx: 3\r\nconnection: y, host\r\nhost: h\r\ny: 4\r\n\
                    transfer-encoding: chunked\r\n\r\n0\r\nconnection: t\r\nt: 5\r\ny: 6\r\n\r\n";
    let binary = "01 4067 15 0a636f6e6e656374696f6e0178 01780131 01790132 40c8 22 01780133 0a636f6e6e656374696f6e07792c20686f7374 04686f73740168 01790134 \
                  00 15 0a636f6e6e656374696f6e0174 01740135 01790136"
        .replace(' ', "");
    let written = "01 4067 04 01790132 40c8 04 01780133 00 08 01740135 01790136".replace(' ', "");
    t.says("a response", &format!("h1resp2bin 99 {}", hex(response.as_bytes())), &wrote_hex(&written));
    t.says("a Binary response", &format!("bin2bin 99 {binary}"), &wrote_hex(&written));
    t.says(
        "field question",
        &format!("field_bin 79 - {binary}"),
        "{\"at\":0,\"from\":\"default\",\"len\":0,\"n\":0,\"start\":0}",
    );
    // item 5: "Content-Length fills it (even named by Connection)"
    let named = "HTTP/1.1 304 \r\nconnection: content-length\r\ncontent-length: 5\r\n\r\n";
    t.says("a stated length that is named", &format!("h1resp2bin 99 {}", hex(named.as_bytes())), &wrote_hex(&format!("01413011{CL}01350000")));
    let listed = "{\"text\":\"message start length fields content trailers\\n1 0 54 1 0 0\\nend 54 0\\n\"}";
    t.says("listing", &line("Connection: x\r\nx: 1\r\nb: c\r\n").replace("h1req 0", "listing"), listed);
    let two = format!("{}{}", line("Connection: x\r\nx: 1\r\n"), &line("x: 1\r\n")["h1req 0 ".len()..]);
    let listed = "{\"text\":\"message start length fields content trailers\\n1 0 48 0 0 0\\n2 48 33 1 0 0\\nend 81 0\\n\"}";
    t.says("a stream of two", &two.replace("h1req 0", "listing"), listed);
    named_ranges(t);
    named_rules(t);
    named_counts(t);
}

/// `connection` behind its length: 11 bytes.
const CONNECTION: &str = "0a636f6e6e656374696f6e";

/// Item 3: what is kept keeps its ranges; each head by itself; the question; what is appended.
fn named_ranges(t: &mut Tests) {
    // Host is at 16, X at 25, Connection at 31, Y at 46
    let request = hex(b"GET / HTTP/1.1\r\nHost: a\r\nX: 1\r\nConnection: x\r\nY:2\r\n\r\n");
    t.says(
        "ranges of a request",
        &format!("h1req 0 {request}"),
        "{\"len\":53,\"m\":{\"authority\":\"61\",\"content\":\"\",\"headers\":[[\"79\",\"32\"]],\"k\":\"req\",\"method\":\"474554\",\"path\":\"2f\",\
         \"scheme\":\"http\",\"trailers\":[]},\"n\":0,\"r\":{\"authority\":[22,1],\"chunks\":[],\"headers\":[[46,1,48,1]],\"method\":[0,3],\
         \"path\":[4,1],\"trailers\":[]}}",
    );
    // x is at 3, Connection (naming X) at 7, y at 20, the terminator at 24
    t.says(
        "ranges of an indeterminate response",
        &format!("bin 0340c801780131{CONNECTION}01580179013200"),
        "{\"len\":25,\"m\":{\"content\":\"\",\"headers\":[[\"79\",\"32\"]],\"info\":[],\"k\":\"resp\",\"status\":200,\"trailers\":[]},\"n\":0,\
         \"r\":{\"chunks\":[],\"headers\":[[21,1,23,1]],\"info\":[],\"trailers\":[]}}",
    );
    let response = "HTTP/1.1 102 \r\nconnection: x\r\nx: 1\r\ny: 2\r\n\r\nHTTP/1.1 103 \r\nx: 3\r\ny: 4\r\n\r\nHTTP/1.1 204 \r\nx: 5\r\ny: 6\r\nConnection: Y\r\n\r\n";
    let written = "01 4066 04 01790132 4067 08 0178013301790134 40cc 04 01780135 00 00".replace(' ', "");
    t.says("three heads", &format!("h1resp2bin 99 {}", hex(response.as_bytes())), &wrote_hex(&written));
    let binary = format!("01 4066 15 {CONNECTION}0178 01780131 01790132 4067 08 0178013301790134 40cc 15 01780135 01790136 {CONNECTION}0159").replace(' ', "");
    t.says("three heads in Binary", &format!("bin2bin 99 {binary}"), &wrote_hex(&written));
    let anew = "HTTP/1.1 102 \r\ny: 2\r\n\r\nHTTP/1.1 103 \r\nx: 3\r\ny: 4\r\n\r\nHTTP/1.1 204 \r\nx: 5\r\n\r\n";
    t.says("three heads to HTTP/1.1", &format!("bin2h1 0 999 {binary}"), &wrote(anew));

    let default = "{\"at\":0,\"from\":\"default\",\"len\":2,\"n\":0,\"start\":0}";
    t.says("the question for a named field", &format!("field_h1req 0 78 ffff {request}"), default);
    t.says("for one that is not", &format!("field_h1req 0 79 ffff {request}"), "{\"at\":0,\"from\":\"message\",\"len\":1,\"n\":0,\"start\":48}");
    // x before Connection and behind it, the trailer x
    let twice = "POST / HTTP/1.1\r\nHost: a\r\nx: 1\r\nConnection: X\r\nx: 2\r\nTransfer-Encoding: chunked\r\n\r\n0\r\nx: 3\r\n\r\n";
    t.says("no other of its name", &format!("field_h1req 0 78 ffff {}", hex(twice.as_bytes())), default);

    // 204 with Connection naming x: 21 bytes, written in 6
    let reply = format!("0140cc11{CONNECTION}017801780131");
    t.says("append", &format!("append 5 0 ffffffffffffffffffff {reply}"), "{\"n\":0,\"out\":\"0a4000060140cc000000\",\"used\":10}");
    t.says("no entry as it stands", &format!("bundle 0a400015{reply}"), &refused(15, 0));
    t.outcome("an empty Connection in the draft", &format!("bin edition=1 0140c80c{CONNECTION}00"), 2, 4);
    t.outcome("an empty Connection", &format!("bin 0140c80c{CONNECTION}00"), 0, 16);
}

/// Item 3: "Host and length rules are judged on the whole section first"; "trailers are untouched".
fn named_rules(t: &mut Tests) {
    let request = |lines: &str| format!("GET / HTTP/1.1\r\nHost: a\r\n{lines}\r\n"); // 16 + 9 + lines + 2
    let (host, length, coding) = ("Connection: host\r\n", "Connection: content-length\r\n", "Connection: transfer-encoding\r\n"); // 18, 28, 31
    let (zero, chunked) = ("Content-Length: 0\r\n", "Transfer-Encoding: chunked\r\n"); // 19, 28
    t.req("Host that is named", &request(host), 0, 45);
    t.req("two Hosts that are named", &request(&format!("{host}Host: a\r\n")), 6, 54);
    t.req("both lengths, one named", &request(&format!("{length}{zero}{chunked}")), 7, 102);
    t.req("both lengths, the other named", &request(&format!("{coding}{zero}{chunked}")), 7, 105);
    t.req("a coding that is named frames", &format!("{}0\r\n\r\n", request(&format!("{coding}{chunked}"))), 0, 91);
    t.req("a length too large that is named", &request(&format!("{length}Content-Length: 32769\r\n")), 8, 53);
    t.req("a trailer that the head names is refused", &format!("{}0\r\nhost: a\r\n\r\n", request(&format!("{host}{chunked}"))), 7, 87);
    t.reply("204 with a length that is named", "head=0", &format!("HTTP/1.1 204 \r\n{length}{zero}\r\n"), 7, 64);
    t.reply("103 with a coding that is named", "head=0", &format!("HTTP/1.1 103 \r\n{coding}{chunked}\r\n"), 7, 76);
    t.reply("closed, a length that is named", "closed=1", &format!("HTTP/1.1 200 \r\n{length}{zero}\r\nabc"), 0, 64);

    // Binary: GET http a / is 14 bytes; Connection: host is 16, host: a is 7
    let hosts = |value: &str| format!("000347455404687474700161012f17{CONNECTION}04686f737404686f7374{value}");
    t.bin("host that is named, equal", &hosts("0161"), 0, 38);
    t.bin("host that is named, unequal", &hosts("0162"), 6, 38);
    // Connection: content-length is 26, content-length: n is 17; then one byte of content
    let lengths = |value: &str| format!("0140c82b{CONNECTION}{CL}{CL}{value}0161");
    t.bin("a length that is named, right", &lengths("0131"), 0, 49);
    t.bin("a length that is named, wrong", &lengths("0132"), 7, 49);
}

/// Item 3: "Named fields count toward 64 and 8,192" (S22) of what is read, not of what is written.
fn named_counts(t: &mut Tests) {
    t.req("65th line", &format!("GET / HTTP/1.1\r\nHost: a\r\nconnection: x\r\n{}", "x:\r\n".repeat(63)), 8, 16 + 9 + 15 + 62 * 4);
    let reply = |lines: String| format!("h1resp2bin 99 {}", hex(format!("HTTP/1.1 204 \r\n{lines}\r\n").as_bytes()));
    t.says("63 named lines", &reply(format!("connection: x\r\n{}", "x:\r\n".repeat(63))), &wrote_hex("0140cc000000"));
    t.says("64 Connection lines", &reply("connection: x\r\n".repeat(64)), &wrote_hex("0140cc000000"));
    t.says("65 Connection lines", &reply("connection: x\r\n".repeat(65)), &refused(8, 15 + 64 * 15));
    // Connection: x is 13 bytes, an empty x is 3; 64 lines are 202, 65 are 205
    let lines = |named: usize| format!("{CONNECTION}0178{}", "017800".repeat(named));
    t.bin("64 lines in Binary", &format!("0140cc40ca{}", lines(63)), 0, 207);
    t.bin("65th line in Binary", &format!("0140cc40cd{}", lines(64)), 8, 207);
    t.bin("65th line, indeterminate", &format!("0340cc{}00", lines(64)), 8, 205);
    let head = |size: usize| format!("GET / HTTP/1.1\r\nHost: a\r\nconnection: x\r\nx:{}\r\n\r\n", "v".repeat(size)); // 46 + size
    t.req("a head of 8,192", &head(8_146), 0, 8_192);
    t.req("a head of 8,193", &head(8_147), 8, 8_191);
    t.says(
        "64 lines, two written",
        &format!("bin2h1 0 99 000347455404687474700161012f40cb{}01620163", lines(62)),
        &wrote("GET / HTTP/1.1\r\nhost: a\r\nb: c\r\n\r\n"),
    );
}

/// Item 13: a reader for the tag itself.
fn steps(t: &mut Tests) {
    t.items = Items::up_to(Item::Sweep);
    t.says("steps, before its item", "steps 0 8192 -", "{\"error\":\"not built\"}");

    t.items = Items::up_to(Item::Steps);
    let refused_at = |number: u32, place: usize, steps: usize| format!("{{\"at\":{place},\"n\":{number},\"steps\":{steps}}}");
    let more = |steps: usize| format!("{{\"n\":1,\"steps\":{steps}}}");
    let end = |steps: usize, fields: usize, content: usize, trailers: usize| {
        format!("{{\"content\":{content},\"fields\":{fields},\"len\":{steps},\"n\":0,\"steps\":{steps},\"trailers\":{trailers}}}")
    };
    t.says("begun with too little room", "steps 0 8191 4154", &refused_at(19, 0, 0));
    t.says("room before scheme", "steps 7 0 4154", &refused_at(19, 0, 0));
    t.says("scheme", "steps 7 8192 4154", &refused_at(4, 0, 0));
    t.says("no byte", "steps 0 8192 -", &more(0));

    let head = |lines: &str| format!("POST /s HTTP/1.1\r\nHost: a\r\n{lines}\r\n"); // 18 + 9 + lines + 2
    let filler = "x".repeat(8_192 - 18 - 9 - 4);
    let chunked = head("transfer-encoding: chunked\r\n"); // 57
    for (name, input, wanted) in [
        ("one byte", "P".to_string(), more(1)),
        ("whole", head("b: c\r\n"), end(35, 1, 0, 0)),
        ("with bytes behind", format!("{}xyz", head("b: c\r\n")), end(35, 1, 0, 0)),
        ("one byte short", head("b: c\r\n")[..34].to_string(), more(34)),
        ("a content", format!("{}abcd", head("content-length: 3\r\n")), end(51, 0, 3, 0)),
        ("a content of 0", head("content-length: 0\r\n"), end(48, 0, 0, 0)),
        ("a refusal in the request line", "POST  /s HTTP/1.1\r\nHost".to_string(), refused_at(2, 0, 19)),
        ("a bare LF", "GET /\n".to_string(), refused_at(2, 0, 6)),
        ("a refusal behind the head", head("Host: a\r\n"), refused_at(6, 38, 38)),
        ("two lengths", format!("{}x", head("content-length: 1\r\ncontent-length: 1\r\n")), refused_at(7, 67, 67)),
        ("a content too large", head("content-length: 32769\r\n"), refused_at(8, 27, 52)),
        ("an allowance used up exactly", format!("POST /s HTTP/1.1\r\nHost: a\r\nb:{filler}\r\n\r\n"), refused_at(8, 8_192, 8_192)),
        ("no LF in the allowance", "x".repeat(8_200), refused_at(8, 0, 8_192)),
        ("chunks and trailers", format!("{chunked}1\r\na\r\n2\r\nbc\r\n0\r\nte: x\r\nt: u\r\n\r\nz"), end(57 + 6 + 7 + 3 + 7 + 6 + 2, 0, 3, 1)),
        ("a wrong chunk end, with its second byte", format!("{chunked}1\r\nabc"), refused_at(2, 61, 63)),
        ("a wrong chunk end, its first byte", format!("{chunked}1\r\nab"), more(62)),
        ("a chunk too large", format!("{chunked}8001\r\nx"), refused_at(8, 57, 63)),
        // items 2, 3 and 5
        ("absolute-form", "HEAD http://a HTTP/1.1\r\nHost:\r\n\r\n".to_string(), end(33, 0, 0, 0)),
        ("another scheme", "GET https://a HTTP/1.1\r\nHost:\r\n\r\n".to_string(), refused_at(14, 0, 24)),
        ("Connection", head("x: 1\r\nConnection: X, z\r\ny: 2\r\nz: 3\r\nX: 4\r\n"), end(29 + 18 + 24, 1, 0, 0)),
    ] {
        t.says(name, &format!("steps 0 8192 {}", hex(input.as_bytes())), &wanted);
    }
    for line in ["steps", "steps 0 8192", "steps 0 x 00", "steps head=1 0 8192 00"] {
        t.says(line, line, BAD);
    }
}
