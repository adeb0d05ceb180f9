//! The store that keeps answers: cells, slots, order of use. A plain store runs beside it, and every call asserts
//! that both give the same results, that every kept answer is the plain store's, that an update drops the answers that
//! rows tried one by one say, and that an answer is worked out anew only on one of four grounds. The calls whose names
//! end in `_here` are the store alone, for `bench.rs`.

use crate::exact::{premise, Pair, Premise};
use crate::meaning::{all_true, cell, holds, number, record, Rows, RECORD_ROWS};
use crate::pattern::{agrees, patterns, patterns_of_pushed, stored};
use crate::plain::{worked_out, Note, Plain};
use crate::sound::{sizes_pass, QuestionPart, State, TablePart, UpdatePart};
use crate::text::{Catalogue, Change, Statement, Update};
use std::collections::HashMap;

/// The rows that are tried one by one for a kept answer and an update.
const TRIED: usize = 1_500;

/// The question's number with its values.
#[derive(Clone, PartialEq, Eq, Hash, Debug)]
pub struct Key {
    pub question: usize,
    pub values: Vec<i32>,
}

#[derive(Clone, Debug)]
pub struct Kept {
    pub key: Key,
    pub length: usize,
}

/// What happened since the opening, for the four grounds.
#[derive(Clone)]
enum Event {
    Answered(Key),
    /// The update, its values, and the row that it pushed out.
    Updated(usize, Vec<i32>, Option<Vec<i32>>),
    Flushed,
}

pub struct Answer {
    pub kept: bool,
    pub rows_read: usize,
    pub record: Vec<u8>,
}

/// The grounds on which an answer may be worked out anew.
#[derive(Clone, Copy, PartialEq, Debug)]
pub enum Ground {
    First,
    DoesNotFit,
    UpdatedOrFlushed,
    OtherKeys,
}

#[derive(Clone)]
pub struct Store {
    slots: usize,
    pub slot_bytes: usize,
    cells: Vec<i32>,
    memory: Vec<u8>,
    pub catalogue: Catalogue,
    /// Rows that each table holds.
    counts: Vec<usize>,
    /// The starting place of each table: where its oldest row lies in its area.
    starts: Vec<usize>,
    /// The marks of each question's comparisons, in the order of the text: outside all OR, NOT and parentheses (A.6). They
    /// are of the comparisons that a state holds, where NOT is pushed in.
    outer: Vec<Vec<bool>>,
    /// The slot list, held ones first.
    pub order: Vec<usize>,
    pub held: usize,
    /// By slot.
    kept: Vec<Option<Kept>>,
    note: Option<Note>,
    plain: Plain,
    history: Vec<Event>,
    /// The rows that the last accepted proposal gave: those of its commit, if it comes to that.
    proposed: usize,
    /// A part of the state beside these marks was set (`set`): it is none that an opening gave, and nothing is asserted
    /// of it but that new answers are those of its rows.
    was_set: bool,
    /// SET has put a note there that leaves the state not sound: every call gets 2.
    spoiled: bool,
    /// The plain store's answers of the keys kept, with the updates done of their tables until then.
    answers: HashMap<Key, (Vec<usize>, Vec<u8>)>,
    /// Why the last ask was worked out anew, how long its record was, whether it took a held slot, and the questions of
    /// the answers that the last update dropped: counted for the report of what was tried.
    pub last_ground: Option<Ground>,
    pub last_length: usize,
    pub last_evicted: bool,
    pub last_dropped: Vec<usize>,
    /// What the last update did about a ring, counted for the same report.
    pub last_ring: RingReport,
}

/// The questions of the answers dropped for the row pushed out alone, and for this and the INSERT; where the oldest row of
/// the updated table lay before.
#[derive(Clone, Default)]
pub struct RingReport {
    pub pushed: bool,
    pub alone: Vec<usize>,
    pub both: Vec<usize>,
    pub start: usize,
}

impl Store {
    fn made(cells: usize, bytes: usize, slots: usize, slot_bytes: usize) -> Store {
        Store {
            slots,
            slot_bytes,
            cells: vec![0; cells],
            memory: vec![0; bytes],
            catalogue: Catalogue::default(),
            counts: vec![],
            starts: vec![],
            outer: vec![],
            order: (0..slots).collect(),
            held: 0,
            kept: vec![None; slots],
            note: None,
            plain: Plain::open(cells, bytes),
            history: vec![],
            proposed: 0,
            was_set: false,
            spoiled: false,
            answers: HashMap::new(),
            last_ground: None,
            last_length: 0,
            last_evicted: false,
            last_dropped: vec![],
            last_ring: RingReport::default(),
        }
    }

    /// A store and whether the opening was taken (else refusal 1).
    pub fn open(cells: u64, bytes: u64, slots: u64, slot_bytes: u64) -> (Store, Result<(), u8>) {
        if sizes_pass(cells, bytes, slots, slot_bytes) {
            (Store::made(cells as usize, bytes as usize, slots as usize, slot_bytes as usize), Ok(()))
        } else {
            (Store::made(0, 0, 0, 8), Err(1))
        }
    }

    fn lent(&self, lent: (usize, usize)) -> Result<(), u8> {
        if !self.spoiled && lent == (self.cells.len(), self.memory.len()) {
            Ok(())
        } else {
            Err(2)
        }
    }

    // ------------------------------------------------------------ cells

    /// The first cell of a table's area.
    fn area(&self, table: usize) -> usize {
        self.catalogue.tables[..table].iter().map(|t| t.columns.len() * t.rows).sum()
    }

    /// Rows count from the oldest one; in a ring they run round from its starting place.
    fn row_start(&self, table: usize, row: usize) -> usize {
        let place = (self.starts[table] + row) % self.catalogue.tables[table].rows;
        self.area(table) + place * self.catalogue.tables[table].columns.len()
    }

    fn row(&self, table: usize, row: usize) -> Vec<i32> {
        let start = self.row_start(table, row);
        self.cells[start..start + self.catalogue.tables[table].columns.len()].to_vec()
    }

    fn rows(&self, table: usize) -> Vec<Vec<i32>> {
        (0..self.counts[table]).map(|i| self.row(table, i)).collect()
    }

    fn put_row(&mut self, table: usize, row: usize, values: &[i32]) {
        let start = self.row_start(table, row);
        self.cells[start..start + values.len()].copy_from_slice(values);
    }

    // ------------------------------------------------------------ calls

    pub fn add(&mut self, lent: (usize, usize), text: &[u8]) -> Result<(&'static str, usize), u8> {
        let result = self.add_here(lent, text);
        if self.was_set {
            return result;
        }
        assert_eq!(result, self.plain.add(lent, text), "adding agrees with the plain store");
        self.check();
        result
    }

    pub fn add_here(&mut self, lent: (usize, usize), text: &[u8]) -> Result<(&'static str, usize), u8> {
        self.lent(lent)?;
        let statement = self.catalogue.read(self.cells.len(), text)?;
        match &statement {
            Statement::Table(_) => {
                self.counts.push(0);
                self.starts.push(0);
            }
            Statement::Question(question) => self.outer.push(question.outer()),
            Statement::Update(_) => {}
        }
        self.note = None;
        Ok(self.catalogue.append(statement))
    }

    pub fn ask(&mut self, lent: (usize, usize), n: u64, values: &[i32], buffer: usize) -> Result<Answer, u8> {
        self.last_ground = None;
        self.last_evicted = false;
        if self.was_set {
            let result = self.ask_here(lent, n, values, buffer);
            if let Some(answer) = result.as_ref().ok().filter(|answer| !answer.kept) {
                let question = &self.catalogue.questions[n as usize];
                let tables: Vec<Vec<Vec<i32>>> = question.tables.iter().map(|&table| self.rows(table)).collect();
                let rows: Vec<&[Vec<i32>]> = tables.iter().map(Vec::as_slice).collect();
                let all = worked_out(question, &rows, values);
                assert_eq!(Ok(&answer.record), all.as_ref(), "the record is that of all rows or pairs");
            }
            return result;
        }
        let plain = self.plain.ask(lent, n, values, buffer);
        let result = self.ask_here(lent, n, values, buffer);
        match (&result, &plain) {
            (Ok(answer), Ok(record)) => {
                assert_eq!(&answer.record, record, "the record is the plain store's");
                self.last_length = record.len();
                let key = Key { question: n as usize, values: values.to_vec() };
                // Where other marks were set, the state is that of another text.
                if answer.kept || self.outer[key.question] == self.catalogue.questions[key.question].outer() {
                    let rows_read = if answer.kept { 0 } else { self.plain.rows_read(key.question, values) };
                    assert_eq!(answer.rows_read, rows_read, "the rows read are as many as the papers say");
                }
                if !answer.kept {
                    self.last_ground = Some(self.ground(&key, record.len()).expect("new, but on none of the grounds"));
                }
                self.history.push(Event::Answered(key));
            }
            (Err(a), Err(b)) => assert_eq!(a, b, "asking is refused as by the plain store"),
            _ => panic!("asking is refused by one store only"),
        }
        self.check();
        result
    }

    pub fn ask_here(&mut self, lent: (usize, usize), n: u64, values: &[i32], buffer: usize) -> Result<Answer, u8> {
        self.lent(lent)?;
        if n >= self.catalogue.questions.len() as u64 {
            return Err(10);
        }
        let key = Key { question: n as usize, values: values.to_vec() };
        let question = &self.catalogue.questions[key.question];
        if values.len() != question.marks {
            return Err(11);
        }
        let holder = (0..self.slots).find(|&slot| self.kept[slot].as_ref().is_some_and(|kept| kept.key == key));
        if let Some(slot) = holder {
            let length = self.kept[slot].as_ref().unwrap().length;
            if buffer < length {
                return Err(13);
            }
            self.to_front(slot);
            let start = slot * self.slot_bytes;
            let record = self.memory[start..start + length].to_vec();
            return Ok(Answer { kept: true, rows_read: 0, record });
        }
        let mut rows_read = 0;
        let mut listed = Vec::new();
        let mut list = |rows: &Rows| {
            if listed.len() <= RECORD_ROWS && holds(&question.condition, rows, values) {
                listed.push(question.columns.iter().map(|&c| cell(c, rows)).collect());
            }
        };
        let first = question.tables[0];
        let second = question.tables.get(1).map(|&table| (table, self.rows(table)));
        let stored = stored(question);
        let such = stored.outer_of_first(&self.outer[key.question]);
        for i in 0..self.counts[first] {
            let row = self.row(first, i);
            rows_read += 1;
            match &second {
                None => list(&[(first, &row)]),
                // A row of the first table that fails one of these is in no pair that is listed.
                Some(_) if !all_true(&such, first, &row, values) => {}
                Some((table, others)) => {
                    for other in others {
                        rows_read += 1;
                        list(&[(first, &row), (*table, other)]);
                    }
                }
            }
        }
        let record = record(question.columns.len(), &listed)?;
        if buffer < record.len() {
            return Err(13);
        }
        if self.slots > 0 && record.len() <= self.slot_bytes {
            let slot = *self.order.last().unwrap();
            if self.held == self.slots {
                self.last_evicted = true;
            } else {
                self.held += 1;
            }
            self.to_front(slot);
            self.kept[slot] = Some(Kept { key, length: record.len() });
            let start = slot * self.slot_bytes;
            self.memory[start..start + record.len()].copy_from_slice(&record);
        }
        Ok(Answer { kept: false, rows_read, record })
    }

    fn to_front(&mut self, slot: usize) {
        self.order.retain(|&s| s != slot);
        self.order.insert(0, slot);
    }

    /// The rows inserted, matched or deleted, and the kept answers dropped.
    pub fn update(&mut self, lent: (usize, usize), n: u64, values: &[i32]) -> Result<(usize, usize), u8> {
        let pushed = self.plain.pushed_out(n);
        let keys = self.keys();
        let result = self.update_here(lent, n, values);
        if self.was_set {
            return result;
        }
        let plain = self.plain.update(lent, n, values);
        assert_eq!(result.map(|(rows, _)| rows), plain, "an update agrees with the plain store");
        if result.is_ok() {
            self.updated(n as usize, values, pushed, &keys);
        }
        self.check();
        result
    }

    fn keys(&self) -> Vec<Key> {
        self.kept.iter().flatten().map(|kept| kept.key.clone()).collect()
    }

    /// An update was done, or a commit did it: the row that it pushed out, and the keys kept before.
    fn updated(&mut self, n: usize, values: &[i32], pushed: Option<Vec<i32>>, keys: &[Key]) {
        let stayed = self.keys();
        for key in keys {
            self.check_dropping(n, values, pushed.as_deref(), key, !stayed.contains(key));
        }
        self.history.push(Event::Updated(n, values.to_vec(), pushed));
    }

    /// An update that 2 and 10 to 12 let pass.
    fn let_pass(&self, lent: (usize, usize), n: u64, values: &[i32]) -> Result<Update, u8> {
        self.lent(lent)?;
        if n >= self.catalogue.updates.len() as u64 {
            return Err(10);
        }
        let update = &self.catalogue.updates[n as usize];
        if values.len() != update.marks {
            return Err(11);
        }
        if matches!(update.change, Change::Insert(_)) && self.is_full(update.table) {
            return Err(12);
        }
        Ok(update.clone())
    }

    pub fn update_here(&mut self, lent: (usize, usize), n: u64, values: &[i32]) -> Result<(usize, usize), u8> {
        let update = self.let_pass(lent, n, values)?;
        let table = update.table;
        let count = self.counts[table];
        let width = self.catalogue.tables[table].columns.len();
        let size = self.catalogue.tables[table].rows;
        // The row that is pushed out is looked at before anything changes: a full table that lets an INSERT pass is a ring.
        let pushes = matches!(update.change, Change::Insert(_)) && count == size;
        let pushed = pushes.then(|| self.row(table, 0));
        let start = self.starts[table];
        let rows = match &update.change {
            Change::Insert(operands) => {
                let row: Vec<i32> = operands.iter().map(|&o| number(o, &[], values)).collect();
                if pushes {
                    // The new row takes the cells of the oldest; the next place holds the oldest from now on.
                    self.put_row(table, 0, &row);
                    self.starts[table] = (start + 1) % size;
                } else {
                    self.put_row(table, count, &row);
                    self.counts[table] += 1;
                }
                1
            }
            Change::Set(sets) => {
                let mut matched = 0;
                for i in 0..count {
                    let mut row = self.row(table, i);
                    if holds(&update.condition, &[(table, &row)], values) {
                        matched += 1;
                        for (column, operand) in sets {
                            row[*column] = number(*operand, &[], values);
                        }
                        self.put_row(table, i, &row);
                    }
                }
                matched
            }
            Change::Delete => {
                // Also where no row goes, the oldest row that stays lies first from now on.
                let mut stay = self.rows(table);
                stay.retain(|row| !holds(&update.condition, &[(table, row)], values));
                self.starts[table] = 0;
                for (i, row) in stay.iter().enumerate() {
                    self.put_row(table, i, row);
                }
                for i in stay.len()..count {
                    self.put_row(table, i, &vec![0; width]);
                }
                self.counts[table] = stay.len();
                count - stay.len()
            }
        };
        let mut dropped = Vec::new();
        let mut report = RingReport { pushed: pushes, start, ..RingReport::default() };
        for slot in 0..self.slots {
            let Some(kept) = &self.kept[slot] else { continue };
            let (by_update, by_pushed) = self.dropping(n as usize, values, pushed.as_deref(), &kept.key);
            if by_update || by_pushed {
                dropped.push(slot);
            }
            if by_pushed {
                let questions = if by_update { &mut report.both } else { &mut report.alone };
                questions.push(kept.key.question);
            }
        }
        self.last_ring = report;
        self.last_dropped = dropped.iter().map(|&slot| self.kept[slot].as_ref().unwrap().key.question).collect();
        self.drop_slots(&dropped);
        self.note = None;
        Ok((rows, dropped.len()))
    }

    /// Does a pattern of the two, filled with the update's values, agree with the key: one of the update's own, and one of
    /// the row that it pushed out?
    fn matching(&self, update: usize, values: &[i32], pushed: Option<&[i32]>, key: &Key) -> (bool, bool) {
        let question = &self.catalogue.questions[key.question];
        let update = &self.catalogue.updates[update];
        let by_update = patterns(question, update);
        let by_pushed = pushed.map_or(vec![], |row| patterns_of_pushed(question, update.table, row));
        let agree = |list: Vec<_>| list.iter().any(|pattern| agrees(pattern, values, &key.values));
        (agree(by_update), agree(by_pushed))
    }

    /// Is the key's answer dropped, or would it be if it were kept: for the update itself, and for the row that it pushed
    /// out? A pattern matches, and under the premise of A.7 its rule says so too.
    fn dropping(&self, update: usize, values: &[i32], pushed: Option<&[i32]>, key: &Key) -> (bool, bool) {
        let matched = self.matching(update, values, pushed, key);
        match self.pair(update, values, key) {
            Some(pair) if matched != (false, false) => pair.drops(pushed),
            _ => matched,
        }
    }

    /// The two, if the premise of A.7 holds of them.
    fn pair<'a>(&'a self, update: usize, values: &'a [i32], key: &'a Key) -> Option<Pair<'a>> {
        let question = &self.catalogue.questions[key.question];
        let update = &self.catalogue.updates[update];
        let width = self.catalogue.tables[update.table].columns.len();
        let holds = premise(question, update) == Premise::Holds;
        holds.then_some(Pair { question, key: &key.values, update, values, width })
    }

    fn drop_slots(&mut self, dropped: &[usize]) {
        for &slot in dropped {
            self.kept[slot] = None;
        }
        let (held, free): (Vec<usize>, Vec<usize>) = self.order.iter().partition(|&&slot| self.kept[slot].is_some());
        self.held = held.len();
        self.order = [held, free].concat();
    }

    pub fn flush(&mut self, lent: (usize, usize)) -> Result<(), u8> {
        let result = self.flush_here(lent);
        if self.was_set {
            return result;
        }
        assert_eq!(result, self.plain.flush(lent), "a flush agrees with the plain store");
        if result.is_ok() {
            self.history.push(Event::Flushed);
        }
        self.check();
        result
    }

    pub fn flush_here(&mut self, lent: (usize, usize)) -> Result<(), u8> {
        self.lent(lent)?;
        let all: Vec<usize> = (0..self.slots).collect();
        self.drop_slots(&all);
        self.note = None;
        Ok(())
    }

    // ------------------------------------------------------------ look before you write

    /// The rows that the update would insert, match or delete. Nothing changes but the note.
    pub fn propose(&mut self, lent: (usize, usize), n: u64, values: &[i32]) -> Result<usize, u8> {
        let result = self.propose_here(lent, n, values);
        if self.was_set {
            return result;
        }
        assert_eq!(result, self.plain.propose(lent, n, values), "a proposal agrees with the plain store");
        self.proposed = result.unwrap_or(self.proposed);
        self.check();
        result
    }

    pub fn propose_here(&mut self, lent: (usize, usize), n: u64, values: &[i32]) -> Result<usize, u8> {
        let update = self.let_pass(lent, n, values)?;
        let meets = |row: &&Vec<i32>| holds(&update.condition, &[(update.table, row)], values);
        let rows = match update.change {
            Change::Insert(_) => 1,
            Change::Set(_) | Change::Delete => self.rows(update.table).iter().filter(meets).count(),
        };
        self.note = Some(Note { update: n as usize, values: values.to_vec() });
        Ok(rows)
    }

    /// The noted update, done: the rows inserted, matched or deleted, and the kept answers dropped.
    pub fn commit(&mut self, lent: (usize, usize)) -> Result<(usize, usize), u8> {
        let note = self.note.clone();
        let pushed = note.as_ref().and_then(|note| self.plain.pushed_out(note.update as u64));
        let keys = self.keys();
        let result = self.commit_here(lent);
        if self.was_set {
            return result;
        }
        assert_eq!(result.map(|(rows, _)| rows), self.plain.commit(lent), "a commit agrees with the plain store");
        if let (Ok((rows, _)), Some(note)) = (result, note) {
            assert_eq!(rows, self.proposed, "a commit's rows are as many as were proposed");
            self.updated(note.update, &note.values, pushed, &keys);
        }
        self.check();
        result
    }

    pub fn commit_here(&mut self, lent: (usize, usize)) -> Result<(usize, usize), u8> {
        self.lent(lent)?;
        let note = self.note.clone().ok_or(17)?;
        let result = self.update_here(lent, note.update as u64, &note.values);
        assert!(result.is_ok(), "in a sound state the noted update is not refused");
        result
    }

    pub fn withdraw(&mut self, lent: (usize, usize)) -> Result<(), u8> {
        let result = self.withdraw_here(lent);
        if self.was_set {
            return result;
        }
        assert_eq!(result, self.plain.withdraw(lent), "a withdrawal agrees with the plain store");
        self.check();
        result
    }

    pub fn withdraw_here(&mut self, lent: (usize, usize)) -> Result<(), u8> {
        self.lent(lent)?;
        self.note.take().map(|_| ()).ok_or(17)
    }

    // ------------------------------------------------------------ states by value

    /// The state that was there before some calls, with the memories as they are now. For `bench.rs`.
    pub fn take_back(&mut self, before: Store) {
        let now = std::mem::replace(self, before);
        self.cells = now.cells;
        self.memory = now.memory;
    }

    /// The state, part by part. Its names are in small letters: a text's names are folded where it is read.
    pub fn state(&self) -> State {
        let folded = |name: &String| name.to_ascii_lowercase().into_bytes();
        let table = |number: usize| {
            let table = &self.catalogue.tables[number];
            Some(TablePart {
                name: folded(&table.name),
                columns: table.columns.iter().map(folded).collect(),
                capacity: table.rows,
                rows: self.counts[number],
                ring: table.ring,
                start: self.starts[number],
            })
        };
        let question = |number: usize| {
            let question = &self.catalogue.questions[number];
            Some(QuestionPart::of(&self.catalogue, question, &self.outer[number]))
        };
        State {
            cells: self.cells.len(),
            bytes: self.memory.len(),
            slots: self.slots,
            slot_bytes: self.slot_bytes,
            tables: (0..self.catalogue.tables.len()).map(table).collect(),
            questions: (0..self.catalogue.questions.len()).map(question).collect(),
            updates: self.catalogue.updates.iter().map(|u| Some(UpdatePart::of(u))).collect(),
            kept: self.kept.clone(),
            order: self.order.clone(),
            held: self.held,
            note: self.note.clone(),
        }
    }

    /// Sets a part of the state to what leaves it sound, or a part of the note to anything; `None`: no such part here, or not sound.
    pub fn set(&mut self, part: &str, numbers: &[i32]) -> Option<()> {
        let mut state = self.state();
        state.spoil(part, numbers)?;
        let parts = ["length", "keyvalue", "capacity", "start", "ring", "qouter"];
        let is_sound = state.is_sound();
        if !(is_sound && parts.contains(&part) || part.starts_with("pending")) {
            return None;
        }
        let parts = state.tables.iter().flatten();
        for ((table, start), part) in self.catalogue.tables.iter_mut().zip(&mut self.starts).zip(parts) {
            table.rows = part.capacity;
            table.ring = part.ring;
            *start = part.start;
        }
        for (outer, part) in self.outer.iter_mut().zip(state.questions.iter().flatten()) {
            outer.clone_from(&part.outer);
        }
        self.kept = state.kept;
        self.note = state.note;
        self.spoiled = !is_sound;
        self.was_set |= part != "qouter";
        Some(())
    }

    // ------------------------------------------------------------ what is asserted

    /// A ground for working a key out anew: it was not answered before; its record fits no slot; since it was last
    /// answered a flush came, or an update that drops it or would if it were kept; since then as many other keys as there
    /// are slots were answered.
    fn ground(&self, key: &Key, length: usize) -> Option<Ground> {
        let last = self.history.iter().rposition(|event| matches!(event, Event::Answered(k) if k == key));
        let since = match last {
            None => return Some(Ground::First),
            Some(last) => &self.history[last + 1..],
        };
        if length > self.slot_bytes {
            return Some(Ground::DoesNotFit);
        }
        let mut others: Vec<&Key> = Vec::new();
        for event in since {
            match event {
                Event::Flushed => return Some(Ground::UpdatedOrFlushed),
                Event::Updated(update, values, pushed) => {
                    let (by_update, by_pushed) = self.dropping(*update, values, pushed.as_deref(), key);
                    if by_update || by_pushed {
                        return Some(Ground::UpdatedOrFlushed);
                    }
                }
                Event::Answered(other) => {
                    if !others.contains(&other) {
                        others.push(other);
                    }
                }
            }
        }
        (others.len() >= self.slots).then_some(Ground::OtherKeys)
    }

    /// Under the premise of A.7: a row that the rule finds is affected, rows tried one by one say the same, and no answer to
    /// be dropped is left for want of a pattern.
    fn check_dropping(&self, update: usize, values: &[i32], pushed: Option<&[i32]>, key: &Key, dropped: bool) {
        let Some(pair) = self.pair(update, values, key) else { return };
        let by_rule = pair.drops(pushed);
        assert_eq!(dropped, by_rule != (false, false), "an answer is dropped by the rule, and a pattern matches then");
        if let Some(by_trial) = pair.drops_by_trial(pushed, TRIED) {
            assert_eq!(dropped, by_trial, "rows tried one by one say what the regions say");
        }
    }

    /// The state is sound, the note and the rows that the cells hold are the plain store's, and so is every kept answer.
    fn check(&mut self) {
        assert!(self.state().is_sound(), "the state is sound");
        assert_eq!(self.note.as_ref(), self.plain.note(), "the note is the plain store's");
        let mut sorted = self.order.clone();
        sorted.sort_unstable();
        assert_eq!(sorted, (0..self.slots).collect::<Vec<_>>(), "the slot list names each slot once");
        for (place, &slot) in self.order.iter().enumerate() {
            assert_eq!(place < self.held, self.kept[slot].is_some(), "held slots stand first");
        }
        for (slot, kept) in self.kept.iter().enumerate() {
            let Some(kept) = kept else { continue };
            let twice = self.kept[..slot].iter().flatten().any(|other| other.key == kept.key);
            assert!(!twice, "no key is held twice");
            assert!(8 <= kept.length && kept.length <= self.slot_bytes);
            let start = slot * self.slot_bytes;
            let updates = self.plain.updates_of(kept.key.question);
            if self.answers.get(&kept.key).map_or(true, |(until, _)| *until != updates) {
                let answer = self.plain.answer(kept.key.question, &kept.key.values).expect("a kept answer is not refused");
                self.answers.insert(kept.key.clone(), (updates, answer));
            }
            let answer = &self.answers[&kept.key].1;
            assert_eq!(&self.memory[start..start + kept.length], &answer[..], "a kept answer is the plain store's");
        }
        assert!(self.catalogue.cells_used() <= self.cells.len());
        for table in 0..self.catalogue.tables.len() {
            assert!(self.counts[table] <= self.catalogue.tables[table].rows);
            assert_eq!(self.rows(table), self.plain.rows(table), "the cells hold the plain store's rows");
            self.check_area(table);
        }
    }

    /// The cells of a table's area, one by one: the plain store's rows run round from the starting place, and every other
    /// cell is 0, as the opening and DELETEs leave it.
    fn check_area(&self, table: usize) {
        let rows = self.plain.rows(table);
        let size = self.catalogue.tables[table].rows;
        let width = self.catalogue.tables[table].columns.len();
        let start = self.plain.starting_place(table);
        assert_eq!(self.starts[table], start, "the oldest row lies where the pushes since the last DELETE left it");
        let area = self.area(table);
        for (place, cells) in self.cells[area..area + size * width].chunks(width).enumerate() {
            let row = rows.get((place + size - start) % size);
            let right = row.map_or_else(|| cells.iter().all(|&cell| cell == 0), |row| row == cells);
            assert!(right, "place {place} of table {table}'s area holds its row, or zeros");
        }
    }

    /// A table's area and its starting place, for the examples.
    pub fn area_now(&self, table: usize) -> (&[i32], usize) {
        let area = self.area(table);
        let table_here = &self.catalogue.tables[table];
        (&self.cells[area..area + table_here.rows * table_here.columns.len()], self.starts[table])
    }

    /// The length of a question's record now, if it has one, for the generator.
    pub fn length_now(&self, question: usize, values: &[i32]) -> Option<usize> {
        let marks = self.catalogue.questions.get(question)?.marks;
        if marks != values.len() {
            return None;
        }
        self.plain.answer(question, values).ok().map(|record| record.len())
    }

    /// The rows that a table holds, for the generator.
    pub fn height(&self, table: usize) -> usize {
        self.counts[table]
    }

    /// Would an INSERT into this table be refused? For the generator.
    pub fn is_full(&self, table: usize) -> bool {
        self.counts[table] == self.catalogue.tables[table].rows && !self.catalogue.tables[table].ring
    }

    /// A table's rows, the oldest first, for the generator.
    pub fn rows_now(&self, table: usize) -> &[Vec<i32>] {
        self.plain.rows(table)
    }

    /// The row that an update would push out now, for the generator.
    pub fn pushed_out(&self, update: usize) -> Option<Vec<i32>> {
        self.plain.pushed_out(update as u64)
    }

    /// The lengths that the opening lent, for the generator.
    pub fn lengths(&self) -> (usize, usize) {
        (self.cells.len(), self.memory.len())
    }

    /// The note, for the generator.
    pub fn note_now(&self) -> Option<&Note> {
        self.note.as_ref()
    }

    /// The rows of a table run round: the oldest one does not lie first. For the generator.
    pub fn is_wrapped(&self, table: usize) -> bool {
        self.starts[table] != 0
    }

    /// The keys kept, for the generator.
    pub fn kept_keys(&self) -> Vec<(usize, Vec<i32>)> {
        self.kept.iter().flatten().map(|k| (k.key.question, k.key.values.clone())).collect()
    }
}
