//! Runs scripts through the reference and a program, compares what they print, and shortens a script that tells
//! them apart.

use crate::front::{lines, run, Mode};
use crate::generate::{awkward, script, Generated, Script};
use std::collections::BTreeMap;
use std::io::{Read, Write};
use std::process::{Command, Stdio};
use std::time::Instant;

/// What the program prints for a script, and how it ended if not well. The script is written in pieces of at most
/// `piece` bytes.
pub fn run_program(program: &str, script: &[u8], piece: usize) -> (Vec<u8>, Option<String>) {
    let mut child = Command::new(program)
        .stdin(Stdio::piped())
        .stdout(Stdio::piped())
        .spawn()
        .unwrap_or_else(|error| panic!("cannot run {program}: {error}"));
    let mut input = child.stdin.take().unwrap();
    let script = script.to_vec();
    let writer = std::thread::spawn(move || {
        // A program that ends early leaves the rest unread; the outputs then differ.
        let _ = script.chunks(piece).try_for_each(|part| input.write_all(part));
    });
    let mut printed = Vec::new();
    child.stdout.take().unwrap().read_to_end(&mut printed).expect("the program's output is read");
    writer.join().unwrap();
    let status = child.wait().unwrap();
    (printed, (!status.success()).then(|| status.to_string()))
}

/// A program and how it is fed.
#[derive(Clone, Copy)]
struct Other<'a> {
    mode: Mode,
    program: &'a str,
    piece: usize,
}

/// Do the outputs differ? `None` for a script with a line that the language does not fix, which tells nothing.
fn tells_apart(other: Other, script: &Script) -> Option<bool> {
    let bytes = script.bytes();
    let (reference, front) = run(other.mode, &bytes);
    if front.unfixed {
        return None;
    }
    let (printed, ended) = run_program(other.program, &bytes, other.piece);
    Some(printed != reference || ended.is_some())
}

fn differs(other: Other, script: &Script) -> bool {
    tells_apart(other, script) == Some(true)
}

/// Removes lines while the difference stays, for about a minute at most.
fn shorten(other: Other, mut script: Script) -> Script {
    let start = Instant::now();
    let mut size = script.lines.len() / 2;
    while size > 0 {
        let mut at = 0;
        let mut removed = false;
        while at < script.lines.len() {
            if start.elapsed().as_secs() > 60 {
                println!("(not wholly shortened)");
                return script;
            }
            let end = (at + size).min(script.lines.len());
            let lines = [&script.lines[..at], &script.lines[end..]].concat();
            let shorter = Script { lines, ended: script.ended };
            if differs(other, &shorter) {
                script = shorter;
                removed = true;
            } else {
                at = end;
            }
        }
        if !(removed && size == 1) {
            size /= 2;
        }
    }
    script
}

/// A line as text; of a very long one the beginning.
fn shown(line: &[u8]) -> String {
    match line.get(..2_000) {
        Some(beginning) => format!("{} .. ({} bytes)", beginning.escape_ascii(), line.len()),
        None => line.escape_ascii().to_string(),
    }
}

/// The script, and what both print for it.
fn show(other: Other, script: &Script) {
    let bytes = script.bytes();
    let (reference, _) = run(other.mode, &bytes);
    let (printed, ended) = run_program(other.program, &bytes, other.piece);
    let last = if script.ended { "" } else { " (the last line without its end)" };
    for (title, text) in [(format!("the script{last}:"), &bytes), ("the reference prints:".to_string(), &reference)] {
        println!("{title}");
        lines(text).iter().for_each(|line| println!("    {}", shown(line)));
    }
    println!("the program prints:");
    lines(&printed).iter().for_each(|line| println!("    {}", shown(line)));
    for (at, (a, b)) in lines(&reference).iter().zip(lines(&printed)).enumerate() {
        if let (false, Some(place)) = (*a == b, (0..a.len().min(b.len())).find(|&i| a[i] != b[i])) {
            println!("line {} of what they print differs from its byte {} on", at + 1, place + 1);
        }
    }
    if printed.last().is_some_and(|&b| b != b'\n') {
        println!("    (the last line without its end)");
    }
    if let Some(ended) = ended {
        println!("the program ended with {ended}");
    }
}

/// Counts of what was printed, by kind.
#[derive(Default)]
pub struct Tally(BTreeMap<String, usize>);

impl Tally {
    fn add(&mut self, what: &str, n: usize) {
        *self.0.entry(what.to_string()).or_default() += n;
    }

    fn note(&mut self, printed: &str) {
        let words: Vec<&str> = printed.split(' ').collect();
        match words[0] {
            "refused" => self.add(&format!("refused {:>2}", words[1]), 1),
            "rows" if words.len() == 2 => self.add("proposal taken", 1),
            "rows" => {
                self.add("update done", 1);
                if words[3] != "0" {
                    self.add("update done that dropped", 1);
                    self.add("answers dropped", words[3].parse().unwrap());
                }
            }
            "new" | "kept" => self.add(&format!("answer {}", words[0]), 1),
            "table" | "query" | "update" => self.add(&format!("added {}", words[0]), 1),
            "order" => self.add("slots shown", 1),
            "row" => self.add("row shown", 1),
            _ => self.add(printed, 1),
        }
    }

    /// Counts what a script prints.
    pub fn take(&mut self, made: &Generated) {
        for printed in &made.printed {
            self.note(printed);
        }
        self.add("scripts whose last line has no end", usize::from(!made.script.ended));
        self.add("evictions", made.evictions);
        self.add("record new, as long as a slot", made.just_fits);
        self.add("record new, longer than a slot", made.too_long);
        for (kind, n) in ["INSERT", "UPDATE", "DELETE"].iter().zip(made.drops) {
            self.add(&format!("answers dropped by {kind}"), n);
        }
        for (ground, n) in ["first", "does not fit", "updated or flushed", "other keys"].iter().zip(made.grounds) {
            self.add(&format!("new, ground: {ground}"), n);
        }
        for (what, n) in &made.pairs {
            self.add(&format!("over two tables: {what}"), *n);
        }
        for (what, n) in &made.names {
            self.add(&format!("text: {what}"), *n);
        }
        for (what, n) in &made.rings {
            self.add(&format!("ring: {what}"), *n);
        }
        for (what, n) in &made.nulls {
            self.add(&format!("null: {what}"), *n);
        }
        for (what, n) in &made.outer {
            self.add(&format!("outer: {what}"), *n);
        }
        for (what, n) in &made.exact {
            self.add(&format!("exact: {what}"), *n);
        }
        for (what, n) in &made.looks {
            self.add(&format!("look: {what}"), *n);
        }
    }

    pub fn print(&self) {
        for (what, n) in &self.0 {
            println!("    {n:>9}  {what}");
        }
    }
}

/// Inputs that no script gives; true if there was no difference.
fn compare_awkward(mode: Mode, program: &str) -> bool {
    for (at, input) in awkward().iter().enumerate() {
        let script = Script::of(input);
        for piece in [input.len().max(1), 1_000] {
            let other = Other { mode, program, piece };
            if differs(other, &script) {
                println!("DIFFERENCE, awkward input {at}, {} bytes", input.len());
                show(other, &shorten(other, script));
                return false;
            }
        }
    }
    println!("{} awkward inputs: no difference", awkward().len());
    true
}

/// Compares `count` seeds from `first` on; true if there was no difference.
pub fn compare(mode: Mode, program: &str, first: u64, count: u64, length: usize) -> bool {
    if mode == Mode::Desk && !compare_awkward(mode, program) {
        return false;
    }
    let mut tally = Tally::default();
    let mut all_lines = 0;
    for seed in first..first + count {
        let Ok(made) = std::panic::catch_unwind(|| script(mode, seed, length)) else {
            println!("the reference contradicts itself, seed {seed}");
            return false;
        };
        all_lines += made.script.lines.len();
        tally.take(&made);
        // Most scripts are written at once, some in small pieces, so that reads end inside lines.
        let piece = if seed % 7 == 3 { 1 + (seed % 601) as usize } else { made.script.bytes().len().max(1) };
        let other = Other { mode, program, piece };
        let differ = tells_apart(other, &made.script);
        if differ.unwrap_or_else(|| panic!("seed {seed} makes a line that the language does not fix")) {
            println!("DIFFERENCE, seed {seed} ({:?}), {} lines", made.profile, made.script.lines.len());
            show(other, &shorten(other, made.script));
            return false;
        }
    }
    println!("{count} scripts from seed {first}, {all_lines} lines: no difference");
    tally.print();
    true
}
