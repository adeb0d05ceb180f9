//! The calls of a script of `bench/`, timed. The assertions of `store.rs` are test equipment and are left out here: the
//! store is called below them.

use crate::meaning::show_row;
use crate::store::Store;
use std::fs;

const CELLS: usize = 32_768;
const MEMORY: usize = 262_144;
const SLOT_BYTES: u64 = 4_096;
const RECORD: usize = 16_392;
const LENT: (usize, usize) = (CELLS, MEMORY);

extern "C" {
    /// The processor time that the process has used, in microseconds.
    fn clock() -> i64;
}

enum Call {
    Open(u64),
    Add(Vec<u8>),
    Ask(u64, Vec<i32>),
    Update(u64, Vec<i32>),
    Propose(u64, Vec<i32>),
    Commit,
    Withdraw,
    Flush,
    Show(u64),
    /// The test of the state alone.
    Sound,
    Nothing,
}

/// What each call of a run is made on.
#[derive(Clone, Copy, PartialEq)]
enum Run {
    /// The state that the last call left.
    Going,
    /// The same, and the records are summed.
    Summing,
    /// The state that was there before the run.
    Staying,
}

#[derive(Default)]
struct Counters {
    refused: u64,
    cached: u64,
    read: u64,
    bytes: u64,
    changed: u64,
    dropped: u64,
    sum: u64,
}

fn made(line: &str) -> Option<Call> {
    let rest = line.get(2..).unwrap_or("");
    let mut words = rest.split_whitespace();
    let mut number = || words.next().and_then(|w| w.parse().ok());
    match line.as_bytes()[0] {
        b'A' => Some(Call::Add(rest.as_bytes().to_vec())),
        b'O' => Some(Call::Open(number()?)),
        b'Q' => Some(Call::Ask(number()?, words.map_while(|w| w.parse().ok()).collect())),
        b'U' => Some(Call::Update(number()?, words.map_while(|w| w.parse().ok()).collect())),
        b'P' => Some(Call::Propose(number()?, words.map_while(|w| w.parse().ok()).collect())),
        b'M' => Some(Call::Commit),
        b'B' => Some(Call::Withdraw),
        b'F' => Some(Call::Flush),
        b'W' => Some(Call::Show(number()?)),
        b'S' => Some(Call::Sound),
        b'N' => Some(Call::Nothing),
        _ => None,
    }
}

impl Counters {
    fn make(&mut self, store: &mut Store, answer: &mut [u8], call: &Call, summing: bool) {
        let taken = match call {
            Call::Open(slots) => {
                let (opened, result) = Store::open(CELLS as u64, MEMORY as u64, *slots, SLOT_BYTES);
                *store = opened;
                result
            }
            Call::Add(text) => store.add_here(LENT, text).map(|_| ()),
            Call::Ask(n, values) => store.ask_here(LENT, *n, values, RECORD).map(|given| {
                self.cached += u64::from(given.kept);
                self.read += given.rows_read as u64;
                self.bytes += given.record.len() as u64;
                answer[..given.record.len()].copy_from_slice(&given.record);
                if summing {
                    for byte in given.record {
                        self.sum = self.sum.wrapping_mul(3).wrapping_add(u64::from(byte));
                    }
                }
            }),
            Call::Update(n, values) => store.update_here(LENT, *n, values).map(|(rows, dropped)| {
                self.changed += rows as u64;
                self.dropped += dropped as u64;
            }),
            Call::Propose(n, values) => store.propose_here(LENT, *n, values).map(|rows| self.changed += rows as u64),
            Call::Commit => store.commit_here(LENT).map(|(rows, dropped)| {
                self.changed += rows as u64;
                self.dropped += dropped as u64;
            }),
            Call::Withdraw => store.withdraw_here(LENT),
            Call::Flush => store.flush_here(LENT),
            Call::Show(row) => show_row(answer, *row).map(|_| ()),
            Call::Sound => store.state().is_sound().then_some(()).ok_or(2),
            Call::Nothing => Ok(()),
        };
        self.refused += u64::from(taken.is_err());
    }
}

fn run(store: &mut Store, answer: &mut [u8], calls: &[Call], turns: usize, how: Run) {
    if calls.is_empty() {
        return;
    }
    let mut counted = Counters::default();
    for call in calls.iter().cycle().take(turns) {
        let before = (how == Run::Staying).then(|| store.clone());
        counted.make(store, answer, call, how == Run::Summing);
        if let Some(before) = before {
            store.take_back(before);
        }
    }
    let Counters { refused, cached, read, bytes, changed, dropped, sum } = counted;
    print!("calls {turns} refused {refused} cached {cached} read {read} bytes {bytes}");
    print!(" changed {changed} dropped {dropped}");
    if how == Run::Summing {
        print!(" sum {sum}");
    }
    println!();
}

/// Whether the script could be read.
pub fn bench(path: &str) -> bool {
    let Ok(script) = fs::read_to_string(path) else {
        return false;
    };
    let (mut store, _) = Store::open(0, 0, 0, SLOT_BYTES);
    let mut answer = vec![0; RECORD];
    let mut calls: Vec<Call> = Vec::new();
    for line in script.lines().filter(|line| !line.is_empty()) {
        let turns = || line.get(2..).and_then(|w| w.trim().parse().ok()).unwrap_or(0);
        match line.as_bytes()[0] {
            b'L' => calls.clear(),
            b'R' => run(&mut store, &mut answer, &calls, turns(), Run::Going),
            b'K' => run(&mut store, &mut answer, &calls, turns(), Run::Staying),
            b'C' => run(&mut store, &mut answer, &calls, turns(), Run::Summing),
            b'T' => println!("time {}", unsafe { clock() }),
            _ => calls.extend(made(line)),
        }
    }
    true
}
