//! What one would write by hand in the place of `jp` for each query of the table: a line is read into a
//! `serde_json::Value`, code that knows the query walks it, and the nodes are printed as `jp` prints them.
//! Its bytes are those that the others are compared with.
//!
//!     by_hand [--decimals] [--workers N] [--output nodes|values|lines] QUERY < documents.jsonl
//!
//! With `--decimals` numbers are what `serde_json` makes of them, doubles where they are not whole: the input
//! of these cases has no other numbers than those that a double prints as they stand.
//!
//! One worker is one thread. With more a thread reads blocks of whole lines, N threads answer them, and the
//! calling one writes the answers in order. Status 3: a line is faulty, and what stands before it is printed.

mod lines;
mod queries;

use lines::Lines;
use memchr::memchr;
use queries::{query, Query};
use serde_json::Value;
use std::collections::BTreeMap;
use std::fs::File;
use std::io::{self, BufRead, BufReader, Read, Write};
use std::mem::ManuallyDrop;
use std::os::unix::io::FromRawFd;
use std::process::exit;
use std::sync::mpsc::{channel, sync_channel, Receiver, Sender};
use std::sync::{Arc, Mutex};
use std::thread;

const FLUSH: usize = 1 << 16;
const BLOCK: usize = 1 << 18;
const LONGEST_ARRAY: usize = 16_777_216;

fn is_blank(line: &[u8]) -> bool {
    line.iter().all(|byte| matches!(byte, b' ' | b'\t' | b'\r'))
}

/// What `jp` asks of a document: all numbers are whole, or decimals are asked for, and no array is too long.
fn is_allowed(value: &Value, decimals: bool) -> bool {
    let allowed = |inner: &Value| is_allowed(inner, decimals);
    match value {
        Value::Number(number) => decimals || !number.is_f64(),
        Value::Array(items) => items.len() <= LONGEST_ARRAY && items.iter().all(allowed),
        Value::Object(members) => members.values().all(allowed),
        _ => true,
    }
}

/// What is asked of each line.
struct Asked {
    query: Query,
    decimals: bool,
}

/// Answers one line; false where it is faulty.
fn answer(asked: &Asked, line: &[u8], lines: &mut Lines) -> bool {
    lines.number += 1;
    let line = line.strip_suffix(b"\n").unwrap_or(line);
    if is_blank(line) {
        return true;
    }
    match serde_json::from_slice::<Value>(line) {
        Ok(value) if is_allowed(&value, asked.decimals) => {
            match &asked.query {
                Query::Prints(print) => print(&value, lines),
                Query::Keeps(test) if test(&value) => lines.copy(line),
                Query::Keeps(_) => {}
            }
            true
        }
        _ => false,
    }
}

fn one_thread(asked: &Asked, input: &File, mut output: &File) -> io::Result<bool> {
    let mut input = BufReader::with_capacity(FLUSH, input);
    let mut lines = Lines::behind(0, 2 * FLUSH);
    let mut line = Vec::new();
    let mut good = true;
    while good && input.read_until(b'\n', &mut line)? != 0 {
        good = answer(asked, &line, &mut lines);
        line.clear();
        if lines.bytes.len() >= FLUSH {
            output.write_all(&lines.bytes)?;
            lines.bytes.clear();
        }
    }
    output.write_all(&lines.bytes)?;
    Ok(good)
}

/// Whole lines of the input: which block they are, and how many lines stand before them.
struct Block {
    place: usize,
    before: u64,
    bytes: Vec<u8>,
}

struct Answer {
    place: usize,
    bytes: Vec<u8>,
    good: bool,
}

/// Reads up to the last line feed of a block or, where it has none, of the first block that has one; what
/// stands behind it is left in `rest`. False at the end of the input.
fn read_lines(input: &File, bytes: &mut Vec<u8>, rest: &mut Vec<u8>) -> io::Result<bool> {
    loop {
        let searched = bytes.len();
        bytes.reserve(BLOCK);
        if input.take(BLOCK as u64).read_to_end(bytes)? == 0 {
            return Ok(false);
        }
        if let Some(at) = bytes[searched..].iter().rposition(|byte| *byte == b'\n') {
            rest.extend_from_slice(&bytes[searched + at + 1..]);
            bytes.truncate(searched + at + 1);
            return Ok(true);
        }
    }
}

fn read_blocks(input: &File, mut give: impl FnMut(Block) -> bool) -> io::Result<()> {
    let mut rest = Vec::new();
    let mut before = 0;
    let mut more = true;
    for place in 0.. {
        let mut bytes = std::mem::take(&mut rest);
        more = more && read_lines(input, &mut bytes, &mut rest)?;
        let count = bytes.iter().filter(|byte| **byte == b'\n').count() as u64;
        let block = Block {
            place,
            before,
            bytes,
        };
        before += count;
        if block.bytes.is_empty() || !give(block) || !more {
            break;
        }
    }
    Ok(())
}

fn answer_block(asked: &Asked, block: Block) -> Answer {
    let mut lines = Lines::behind(block.before, 2 * FLUSH);
    let mut rest = &block.bytes[..];
    let mut good = true;
    while good && !rest.is_empty() {
        let (line, behind) = rest.split_at(memchr(b'\n', rest).map_or(rest.len(), |at| at + 1));
        good = answer(asked, line, &mut lines);
        rest = behind;
    }
    Answer {
        place: block.place,
        bytes: lines.bytes,
        good,
    }
}

fn work(asked: &Asked, blocks: &Mutex<Receiver<Block>>, tell: &Sender<Answer>) {
    loop {
        let next = blocks.lock().expect("no panic").recv();
        let told = next
            .ok()
            .and_then(|block| tell.send(answer_block(asked, block)).ok());
        if told.is_none() {
            return;
        }
    }
}

/// Writes the answers in the order of their places, up to the first with a faulty line.
fn write_in_order(answers: Receiver<Answer>, mut output: &File) -> io::Result<bool> {
    let mut waiting = BTreeMap::new();
    let mut next = 0;
    for answer in answers {
        waiting.insert(answer.place, answer);
        while let Some(answer) = waiting.remove(&next) {
            output.write_all(&answer.bytes)?;
            if !answer.good {
                return Ok(false);
            }
            next += 1;
        }
    }
    Ok(true)
}

fn many_threads(asked: &Asked, workers: usize, input: &File, output: &File) -> io::Result<bool> {
    let (give, blocks) = sync_channel::<Block>(2 * workers);
    let (tell, answers) = channel::<Answer>();
    // Shared, so that the reader is refused as soon as no worker is left.
    let blocks = Arc::new(Mutex::new(blocks));
    thread::scope(|threads| {
        let reader = threads.spawn(move || read_blocks(input, |block| give.send(block).is_ok()));
        for _ in 0..workers {
            let (blocks, tell) = (Arc::clone(&blocks), tell.clone());
            threads.spawn(move || work(asked, &blocks, &tell));
        }
        drop((blocks, tell));
        let good = write_in_order(answers, output)?;
        reader.join().expect("no panic")?;
        Ok(good)
    })
}

fn refuse(status: i32, reason: &str) -> ! {
    eprintln!("by_hand: {}", reason);
    exit(status)
}

fn main() {
    let words: Vec<String> = std::env::args().skip(1).collect();
    let (text, options) = words
        .split_last()
        .unwrap_or_else(|| refuse(64, "command line"));
    let (mut workers, mut form) = (1, "nodes");
    let decimals = options.iter().any(|option| option == "--decimals");
    let options: Vec<&String> = options
        .iter()
        .filter(|option| *option != "--decimals")
        .collect();
    for option in options.chunks(2) {
        match option {
            [word, count] if *word == "--workers" => workers = count.parse().unwrap_or(0),
            [word, name] if *word == "--output" => form = name,
            _ => refuse(64, "command line"),
        }
    }
    if !(1..=64).contains(&workers) {
        refuse(64, "command line")
    }
    let query = query(form, text).unwrap_or_else(|| refuse(2, "this query is not written by hand"));
    let asked = Asked { query, decimals };
    // The standard ends, with no buffer between.
    let (input, output) = unsafe {
        (
            ManuallyDrop::new(File::from_raw_fd(0)),
            ManuallyDrop::new(File::from_raw_fd(1)),
        )
    };
    let done = if workers == 1 {
        one_thread(&asked, &input, &output)
    } else {
        many_threads(&asked, workers, &input, &output)
    };
    match done {
        Ok(true) => {}
        Ok(false) => refuse(3, "a line is no document"),
        Err(_) => refuse(4, "read or write"),
    }
}
