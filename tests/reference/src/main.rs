//! An independent reference of the table store, made from document 01 and requests A.1, A.2 and A.4 to A.8 of document 02
//! alone, with a generator of random scripts and a comparison with a program. It shares no code with the project.

mod bench;
mod check;
mod compare;
mod exact;
mod front;
mod generate;
mod meaning;
mod pattern;
mod plain;
mod shown;
mod sound;
mod store;
mod text;

use front::Mode;
use std::io::{BufRead, Write};

const USAGE: &str = "usage: reference desk | calls                     (standard input to standard output)
       reference check                            (examples)
       reference script MODE SEED [LINES]         (prints the script of a seed)
       reference tally MODE LINES SEED ..         (how often each outcome occurs in the scripts of these seeds)
       reference compare MODE PROGRAM FIRST COUNT [LINES]
       reference bench FILE                       (the calls of a script of bench/, timed, without assertions)
       reference texts CELLS                      (statement texts, and what each compiles to)
       reference patterns                         (pairs of a question and an update, and their patterns)
MODE is desk or calls";

fn mode(word: &str) -> Option<Mode> {
    match word {
        "desk" => Some(Mode::Desk),
        "calls" => Some(Mode::Calls),
        _ => None,
    }
}

fn main() {
    let arguments: Vec<String> = std::env::args().skip(1).collect();
    let words: Vec<&str> = arguments.iter().map(String::as_str).collect();
    match act(&words) {
        Some(true) => {}
        Some(false) => std::process::exit(1),
        None => {
            eprintln!("{USAGE}");
            std::process::exit(2);
        }
    }
}

/// Each line is answered before the next one is read.
fn answer_lines(mut answer: impl FnMut(&[u8]) -> Option<String>) {
    let answered = answer_each(&mut answer);
    answered.expect("standard input is read and standard output written");
}

fn answer_each(answer: &mut dyn FnMut(&[u8]) -> Option<String>) -> std::io::Result<()> {
    let mut input = std::io::stdin().lock();
    let mut out = std::io::stdout().lock();
    let mut line = Vec::new();
    while input.read_until(b'\n', &mut line)? > 0 {
        if line.last() == Some(&b'\n') {
            line.pop();
        }
        if let Some(text) = answer(&line) {
            out.write_all(format!("{text}\n").as_bytes())?;
            out.flush()?;
        }
        line.clear();
    }
    Ok(())
}

fn act(words: &[&str]) -> Option<bool> {
    let length = |at: usize| words.get(at).map_or(Some(300), |w| w.parse().ok());
    match words {
        ["check"] => Some(check::check()),
        ["texts", cells] => {
            let mut texts = shown::Texts::new(cells.parse().ok()?);
            answer_lines(|line| texts.line(line));
            Some(true)
        }
        ["patterns"] => {
            let mut pairs = shown::Pairs::default();
            answer_lines(|line| pairs.line(line));
            Some(true)
        }
        [word] => {
            let mut front = front::Front::new(mode(word)?);
            answer_lines(|line| front.line(line));
            Some(true)
        }
        ["script", word, seed, ..] => {
            let made = generate::script(mode(word)?, seed.parse().ok()?, length(3)?);
            std::io::stdout().write_all(&made.script.bytes()).expect("standard output is written");
            Some(true)
        }
        ["tally", word, length, seeds @ ..] => {
            let (mode, length) = (mode(word)?, length.parse().ok()?);
            let mut tally = compare::Tally::default();
            for seed in seeds {
                tally.take(&generate::script(mode, seed.parse().ok()?, length));
            }
            tally.print();
            Some(true)
        }
        ["bench", file] => Some(bench::bench(file)),
        ["compare", word, program, first, count, ..] => {
            Some(compare::compare(mode(word)?, program, first.parse().ok()?, count.parse().ok()?, length(5)?))
        }
        _ => None,
    }
}
