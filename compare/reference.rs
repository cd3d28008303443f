//! `reference`: speaks the comparing protocol over the plain reading of documents 01 and 02 in reference/*.rs.
//!
//! Build:     rustc -O -o target/compare/reference compare/reference.rs
//! Run:       target/compare/reference [--items 4,5,1] < commands > answers
//! Self-test: target/compare/reference --selftest
//!
//! The items of document 02 that have landed are told; without --items it is document 01 as it stands.

#[path = "reference/answers.rs"]
mod answers;
#[path = "reference/mod.rs"]
mod reference;
#[path = "reference/selftest.rs"]
mod selftest;
#[path = "reference/selftest_bundles.rs"]
mod selftest_bundles;
#[path = "reference/selftest_messages.rs"]
mod selftest_messages;
#[path = "reference/words.rs"]
mod words;

use answers::*;
use reference::items::*;
use reference::octets::decimal;
use reference::table::{self, Table};
use reference::{binary, bundle, http1, salvage, steps, sweep, writing};
use std::io::{self, BufRead, BufReader, BufWriter, Write};
use words::*;

/// Each command, the item it comes with (None: the base), and the options it takes.
const COMMANDS: [(&str, Option<Item>, &[&str]); 22] = [
    ("h1req", None, &[]),
    ("h1resp", None, &["head", "closed"]),
    ("bin", None, &["head", "edition"]),
    ("h1req2bin", None, &[]),
    ("h1resp2bin", None, &["head", "closed"]),
    ("bin2h1", None, &["head", "former", "edition"]),
    ("bin2bin", None, &["head", "edition"]),
    ("field_h1req", None, &[]),
    ("field_h1resp", None, &["head", "closed"]),
    ("field_bin", None, &["head", "edition"]),
    ("listing", None, &[]),
    ("stream", None, &[]),
    ("bundle", Some(Item::Bundle), &[]),
    ("append", Some(Item::Bundle), &["table"]),
    ("flock_list", Some(Item::Bundle), &[]),
    ("salvage", Some(Item::Salvage), &[]),
    ("salvage_text", Some(Item::Salvage), &[]),
    ("totals", Some(Item::Table), &["table"]),
    ("rebuild", Some(Item::Table), &["table"]),
    ("mark", Some(Item::Sweep), &["table"]),
    ("sweep", Some(Item::Sweep), &["table"]),
    ("steps", Some(Item::Steps), &[]),
];

/// The answer to one command line; None if it is no command.
fn command(items: Items, line: &[u8]) -> Option<String> {
    let words: Vec<&[u8]> = line.split(|&b| b == b' ').collect();
    let (name, item, taken) = COMMANDS.iter().find(|(name, _, _)| name.as_bytes() == words[0])?;
    if item.is_some_and(|item| !items.has(item)) {
        return Some("{\"error\":\"not built\"}".to_string());
    }
    let (Options { told, table }, words) = options(items, taken, &words[1..])?;
    let told = &told;
    // A table is lent to each call that has one, and shown only where it was told.
    let shown = table.is_some();
    let mut table = table.unwrap_or_else(Table::empty);
    Some(match (*name, words) {
        ("h1req", [scheme, hex]) => {
            let (scheme, input) = (scheme_of(scheme)?, bytes_of(hex)?);
            read_answer(&input, http1::read_request(&input, scheme, told), told)
        }
        ("h1resp", [hex]) => {
            let input = bytes_of(hex)?;
            read_answer(&input, http1::read_response(&input, told), told)
        }
        ("bin", [hex]) => {
            let input = bytes_of(hex)?;
            read_answer(&input, binary::read(&input, told), told)
        }
        ("h1req2bin", [scheme, room, hex]) => {
            turn_answer(writing::http1_request_to_binary(&bytes_of(hex)?, scheme_of(scheme)?, decimal(room)?, told))
        }
        ("h1resp2bin", [room, hex]) => {
            turn_answer(writing::http1_response_to_binary(&bytes_of(hex)?, decimal(room)?, told))
        }
        ("bin2h1", [scheme, room, hex]) => {
            turn_answer(writing::binary_to_http1(&bytes_of(hex)?, scheme_of(scheme)?, decimal(room)?, told))
        }
        ("bin2bin", [room, hex]) => turn_answer(writing::binary_to_binary(&bytes_of(hex)?, decimal(room)?, told)),
        ("field_h1req", [scheme, name, default, hex]) => field_answer(
            http1::read_request(&bytes_of(hex)?, scheme_of(scheme)?, told),
            &bytes_of(name)?,
            &bytes_of(default)?,
        ),
        ("field_h1resp", [name, default, hex]) => {
            field_answer(http1::read_response(&bytes_of(hex)?, told), &bytes_of(name)?, &bytes_of(default)?)
        }
        ("field_bin", [name, default, hex]) => {
            field_answer(binary::read(&bytes_of(hex)?, told), &bytes_of(name)?, &bytes_of(default)?)
        }
        ("listing", [hex]) => text_answer(&writing::listing(&bytes_of(hex)?, told)),
        ("stream", [scheme, room, tail, inputs @ ..]) => {
            let (scheme, room, tail) = (scheme_of(scheme)?, decimal(room)?, bytes_of(tail)?);
            let inputs: Vec<Vec<u8>> = inputs.iter().map(|hex| bytes_of(hex)).collect::<Option<_>>()?;
            stream_answer(scheme, room, &tail, &inputs, told)
        }
        ("bundle", [hex]) => bundle_answer(bundle::read(&bytes_of(hex)?, items)),
        ("append", [flock, used, buffer, message]) => {
            let (flock, used, buffer) = (number_of(flock)?, number_of(used)?, bytes_of(buffer)?);
            let outcome = table::append(&mut table, &buffer, used, flock, &bytes_of(message)?, items);
            append_answer(&buffer, used, outcome, shown.then_some(&table), items)
        }
        ("flock_list", [flock, room, hex]) => {
            turn_answer(bundle::list(&bytes_of(hex)?, number_of(flock)?, decimal(room)?, items))
        }
        ("salvage", [room, hex]) => salvage_answer(salvage::salvage(&bytes_of(hex)?, decimal(room)?, items)),
        ("salvage_text", [hex]) => text_answer(&salvage::text(&bytes_of(hex)?, items)),
        ("totals", [flock]) => totals_answer(table::totals(&table, number_of(flock)?)),
        ("rebuild", [hex]) => {
            let outcome = table::rebuild(&mut table, &bytes_of(hex)?, items);
            rebuild_answer(outcome, shown.then_some(&table))
        }
        ("mark", [entry, used, buffer]) => {
            let (entry, used, buffer) = (number_of(entry)?, number_of(used)?, bytes_of(buffer)?);
            let outcome = sweep::mark(&mut table, &buffer, used, entry, items);
            buffer_answer(outcome.map(|out| (out, None)), shown.then_some(&table))
        }
        ("sweep", [used, buffer]) => {
            let outcome = sweep::sweep(&mut table, &bytes_of(buffer)?, number_of(used)?, items);
            buffer_answer(outcome.map(|(out, used)| (out, Some(used))), shown.then_some(&table))
        }
        ("steps", [scheme, room, hex]) => {
            let input = bytes_of(hex)?;
            steps_answer(input.len(), steps::walk(&input, scheme_of(scheme)?, decimal(room)?, told))
        }
        _ => return None,
    })
}

/// One answer line, whatever comes. A fault of this program shows as an answer and ends nothing.
pub fn answer(items: Items, line: &[u8]) -> String {
    match std::panic::catch_unwind(|| command(items, line)) {
        Ok(Some(answer)) => answer,
        Ok(None) => "{\"error\":\"bad command\"}".to_string(),
        Err(_) => "{\"error\":\"panic\"}".to_string(),
    }
}

fn serve(items: Items) -> io::Result<()> {
    let mut input = BufReader::with_capacity(1 << 18, io::stdin());
    let mut output = BufWriter::with_capacity(1 << 18, io::stdout());
    let mut line = Vec::new();
    loop {
        // No whole line at hand: let a waiting peer have what was answered before reading on.
        if !input.buffer().contains(&b'\n') {
            output.flush()?;
        }
        line.clear();
        if input.read_until(b'\n', &mut line)? == 0 {
            break;
        }
        if line.last() == Some(&b'\n') {
            line.pop();
        }
        output.write_all(answer(items, &line).as_bytes())?;
        output.write_all(b"\n")?;
    }
    output.flush()
}

fn usage() -> ! {
    eprintln!("usage: reference --selftest | reference [--items NUMBER,NUMBER,..]");
    std::process::exit(2);
}

fn main() {
    let arguments: Vec<String> = std::env::args().skip(1).collect();
    let words: Vec<&str> = arguments.iter().map(|word| word.as_str()).collect();
    let items = match words[..] {
        ["--selftest"] => {
            let failed = selftest::run(answer);
            std::process::exit(if failed == 0 { 0 } else { 1 });
        }
        [] => Items::none(),
        ["--items", list] => Items::parse(list).unwrap_or_else(|| usage()),
        _ => usage(),
    };
    if serve(items).is_err() {
        std::process::exit(1);
    }
}
