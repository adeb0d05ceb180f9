//! The two front ends: `desk`, and `calls` (one call a line, with the lengths lent).

use crate::meaning::{record_shape, show_row, values_of};
use crate::store::{Answer, Store};
use crate::text::constant;

#[derive(Clone, Copy, PartialEq, Debug)]
pub enum Mode {
    Desk,
    Calls,
}

pub struct Front {
    mode: Mode,
    pub store: Store,
    pub lent: (usize, usize),
    /// Calls: the buffer of the last ASK, while a ROW may follow it.
    pub buffer: Option<Vec<u8>>,
    /// Calls: the buffer of the last ASK that was answered; at first without bytes.
    last: Vec<u8>,
    /// Calls: a line came that this language does not fix (the comparison leaves such a script out).
    pub unfixed: bool,
}

/// Calls: the bytes a script may have.
pub const CALLS_BYTES: usize = 65_536;

/// Calls: the longest answer buffer. The longest record, 65,535 rows of 8 columns, has 2,097,128 bytes.
pub const BUFFER: usize = 2_200_000;

const BAD: &str = "bad line";

/// Calls: the parts of a state that lines SPOIL of this language change.
const FIXED: [&str; 9] =
    ["start", "ring", "qnull", "unull", "qouter", "pending", "pendingupdate", "pendingcount", "pendingvalue"];

fn refused(number: u8) -> String {
    format!("refused {number}")
}

/// Of an update or a commit.
fn changed(result: Result<(usize, usize), u8>) -> String {
    match result {
        Ok((rows, dropped)) => format!("rows {rows} dropped {dropped}"),
        Err(number) => refused(number),
    }
}

fn joined(values: &[i32]) -> String {
    values.iter().map(|v| v.to_string()).collect::<Vec<_>>().join(" ")
}

/// The rows of a record behind a colon.
fn rows_of(record: &[u8]) -> String {
    let (columns, rows) = record_shape(record).expect("an answer is a record");
    let shown: Vec<String> = (0..rows as u64).map(|i| joined(&values_of(show_row(record, i).unwrap()))).collect();
    assert!(record.len() >= 8 + 4 * columns * rows);
    if shown.is_empty() {
        String::from(":")
    } else {
        format!(": {}", shown.join(" / "))
    }
}

/// Digits only, within `most`.
fn digits(word: &[u8], most: u64) -> Option<u64> {
    if word.is_empty() {
        return None;
    }
    let mut number = 0u64;
    for digit in word {
        if !digit.is_ascii_digit() {
            return None;
        }
        number = number.checked_mul(10)?.checked_add(u64::from(digit - b'0'))?;
    }
    (number <= most).then_some(number)
}

fn values(words: &[&[u8]]) -> Option<Vec<i32>> {
    words.iter().map(|word| constant(word).flatten()).collect()
}

impl Front {
    pub fn new(mode: Mode) -> Front {
        let (store, lent) = match mode {
            Mode::Desk => {
                let (store, result) = Store::open(4_096, 256, 4, 64);
                assert_eq!(result, Ok(()));
                (store, (4_096, 256))
            }
            Mode::Calls => (Store::open(0, 0, 0, 0).0, (0, 0)),
        };
        Front { mode, store, lent, buffer: None, last: vec![], unfixed: false }
    }

    /// What a line (without its end) prints; `None`: nothing.
    pub fn line(&mut self, line: &[u8]) -> Option<String> {
        match self.mode {
            Mode::Desk => Some(self.desk_line(line).unwrap_or_else(|| BAD.to_string())),
            Mode::Calls => match self.calls_line(line) {
                Some(printed) => printed,
                None => {
                    self.unfixed = true;
                    Some(BAD.to_string())
                }
            },
        }
    }

    /// What an answer prints before its length and rows.
    fn read(answer: &Answer) -> String {
        format!("{} read {}", if answer.kept { "kept" } else { "new" }, answer.rows_read)
    }

    fn add(&mut self, text: &[u8]) -> String {
        match self.store.add(self.lent, text) {
            Ok((kind, number)) => format!("{kind} {number}"),
            Err(number) => refused(number),
        }
    }

    fn update(&mut self, n: u64, values: &[i32]) -> String {
        changed(self.store.update(self.lent, n, values))
    }

    fn flush(&mut self) -> String {
        match self.store.flush(self.lent) {
            Ok(()) => String::from("flushed"),
            Err(number) => refused(number),
        }
    }

    /// `None`: a bad line.
    fn desk_line(&mut self, line: &[u8]) -> Option<String> {
        if line.len() > 512 {
            return None;
        }
        if let Some(text) = line.strip_prefix(b"ADD ") {
            return Some(self.add(text));
        }
        let words: Vec<&[u8]> = line.split(|&b| b == b' ').collect();
        match words[0] {
            b"FLUSH" if words.len() == 1 => Some(self.flush()),
            b"ASK" if words.len() >= 2 => {
                let n = digits(words[1], 2_147_483_647)?;
                let values = values(&words[2..])?;
                Some(match self.store.ask(self.lent, n, &values, 65_536) {
                    Ok(answer) => format!("{} {}", Front::read(&answer), rows_of(&answer.record)),
                    Err(number) => refused(number),
                })
            }
            b"DO" if words.len() >= 2 => {
                let n = digits(words[1], 2_147_483_647)?;
                let values = values(&words[2..])?;
                Some(self.update(n, &values))
            }
            _ => None,
        }
    }

    /// `None`: a line that this language does not fix. `Some(None)`: nothing is printed.
    fn calls_line(&mut self, line: &[u8]) -> Option<Option<String>> {
        let words: Vec<&[u8]> = line.split(|&b| b == b' ').collect();
        if words[0] == b"ROW" && words.len() == 2 {
            // Behind anything but an answered ASK the language does not fix it; `examples` shows the last answer's row.
            self.unfixed |= self.buffer.is_none();
            return Some(Some(match show_row(&self.last, digits(words[1], 2_147_483_647)?) {
                Ok(row) => format!("row : {}", joined(&values_of(row))),
                Err(number) => refused(number),
            }));
        }
        self.buffer = None;
        if let Some(text) = line.strip_prefix(b"ADD ") {
            return Some(Some(self.add(text)));
        }
        let number = |at: usize, most: u64| words.get(at).and_then(|word| digits(word, most));
        match words[0] {
            b"OPEN" if words.len() == 5 => {
                let (cells, bytes) = (number(1, 32_769)?, number(2, 262_145)?);
                let (store, result) = Store::open(cells, bytes, number(3, 1_000_000)?, number(4, 1_000_000)?);
                self.store = store;
                self.lent = (cells as usize, bytes as usize);
                Some(Some(match result {
                    Ok(()) => String::from("opened"),
                    Err(number) => refused(number),
                }))
            }
            b"LEND" if words.len() == 3 => {
                self.lent = (number(1, 32_769)? as usize, number(2, 262_145)? as usize);
                Some(None)
            }
            b"ASK" if words.len() >= 3 && words.len() <= 12 => {
                let (n, length) = (number(1, 2_147_483_647)?, number(2, BUFFER as u64)? as usize);
                let values = values(&words[3..])?;
                Some(Some(match self.store.ask(self.lent, n, &values, length) {
                    Ok(answer) => {
                        let mut buffer = vec![0; length];
                        buffer[..answer.record.len()].copy_from_slice(&answer.record);
                        self.last = buffer.clone();
                        self.buffer = Some(buffer);
                        format!("{} bytes {} {}", Front::read(&answer), answer.record.len(), rows_of(&answer.record))
                    }
                    Err(number) => refused(number),
                }))
            }
            b"DO" if words.len() >= 2 && words.len() <= 11 => {
                let n = number(1, 2_147_483_647)?;
                let values = values(&words[2..])?;
                Some(Some(self.update(n, &values)))
            }
            b"PROPOSE" if words.len() >= 2 && words.len() <= 11 => {
                let n = number(1, 2_147_483_647)?;
                let values = values(&words[2..])?;
                Some(Some(match self.store.propose(self.lent, n, &values) {
                    Ok(rows) => format!("rows {rows}"),
                    Err(number) => refused(number),
                }))
            }
            b"COMMIT" if words.len() == 1 => Some(Some(changed(self.store.commit(self.lent)))),
            b"WITHDRAW" if words.len() == 1 => Some(Some(match self.store.withdraw(self.lent) {
                Ok(()) => String::from("withdrawn"),
                Err(number) => refused(number),
            })),
            b"FLUSH" if words.len() == 1 => Some(Some(self.flush())),
            b"SPOIL" | b"SET" if words.len() >= 3 => {
                let part = std::str::from_utf8(words[1]).ok()?;
                // Of these lines the language fixes only those that spoil what a ring adds to a table, a null test, the
                // marks of a question's comparisons, or the note.
                self.unfixed |= words[0] == b"SET" || !FIXED.contains(&part);
                let numbers = values(&words[2..])?;
                if words[0] == b"SET" {
                    return self.store.set(part, &numbers).map(|()| None);
                }
                let mut state = self.store.state();
                state.spoil(part, &numbers)?;
                let taken = state.is_sound() && self.lent == (state.cells, state.bytes);
                Some(Some(match (taken, state.is_open()) {
                    (false, _) => refused(2),
                    (true, false) => String::from("flushed"),
                    (true, true) => String::from("open"),
                }))
            }
            b"SLOTS" if words.len() == 1 => {
                let order: String = self.store.order.iter().map(|slot| format!(" {slot}")).collect();
                Some(Some(format!("order{order} held {}", self.store.held)))
            }
            _ => None,
        }
    }
}

/// The lines of a script: ended by byte 10, a last one without it only if it has a byte.
pub fn lines(script: &[u8]) -> Vec<&[u8]> {
    let mut lines: Vec<&[u8]> = script.split(|&b| b == b'\n').collect();
    if lines.last().is_some_and(|line| line.is_empty()) {
        lines.pop();
    }
    lines
}

/// What the reference prints for a script.
pub fn run(mode: Mode, script: &[u8]) -> (Vec<u8>, Front) {
    let mut front = Front::new(mode);
    front.unfixed = mode == Mode::Calls && script.len() > CALLS_BYTES;
    let mut printed = Vec::new();
    for line in lines(script) {
        if let Some(text) = front.line(line) {
            printed.extend(text.as_bytes());
            printed.push(b'\n');
        }
    }
    (printed, front)
}
