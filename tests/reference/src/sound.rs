//! Which states are sound, by document 01's sentence and requests A.1, A.2, A.4, A.5, A.6 and A.8 of document 02, for the
//! lines SPOIL of the program `examples`. A line changes one part of a copy of the state. Parts are these papers': what the
//! program alone knows (its numbers for comparisons, connectives and forms of updates) is not here. A state's names are in
//! small letters.

use crate::pattern::stored;
use crate::plain::Note;
use crate::store::Kept;
use crate::text::{has_repeat, is_name, Catalogue, Change, Column, Condition, Operand, Question, Update};
use crate::text::{COMPARISONS, LIST, MARKS, NAME, QUESTIONS, ROWS, TABLES, UPDATES};

#[derive(Clone)]
pub struct TablePart {
    pub name: Vec<u8>,
    pub columns: Vec<Vec<u8>>,
    /// ROWS or RING, and the rows held.
    pub capacity: usize,
    pub rows: usize,
    pub ring: bool,
    /// The starting place: where the oldest row lies.
    pub start: usize,
}

/// A comparison. In a null test the column stands on both sides.
#[derive(Clone)]
pub struct Compared {
    left: Operand<usize>,
    right: Operand<usize>,
    is_null_test: bool,
}

impl Compared {
    /// The comparisons of a condition, in the order of the text.
    fn all(condition: &Option<Condition<Operand>>, place: &dyn Fn(Column) -> usize) -> Vec<Compared> {
        fn of(condition: &Condition<Operand>, place: &dyn Fn(Column) -> usize) -> Vec<Compared> {
            let compared = |left: Operand, right: Operand, is_null_test: bool| {
                vec![Compared { left: left.placed(place), right: right.placed(place), is_null_test }]
            };
            match condition {
                Condition::Compare(left, _, right) => compared(*left, *right, false),
                Condition::Null(operand, _) => compared(*operand, *operand, true),
                Condition::Not(inner) | Condition::Group(inner) => of(inner, place),
                Condition::And(left, right) | Condition::Or(left, right) => [of(left, place), of(right, place)].concat(),
            }
        }
        condition.as_ref().map_or(vec![], |condition| of(condition, place))
    }

    /// A null test is on one column, and on nothing else.
    fn passes(&self) -> bool {
        !self.is_null_test || matches!(self.left, Operand::Column(_)) && self.left == self.right
    }
}

/// Of each comparison of a condition without NOT and parentheses, in the order of the text: does a sentence with this
/// condition have it outside all OR, NOT and parentheses? A left side of AND that is more than a comparison stands in
/// parentheses or under NOT in every such sentence.
fn may_be_outer(condition: &Condition<Operand>) -> Vec<bool> {
    match condition {
        Condition::Compare(..) | Condition::Null(..) => vec![true],
        Condition::And(left, right) => {
            let is_comparison = matches!(**left, Condition::Compare(..) | Condition::Null(..));
            [vec![is_comparison; left.comparisons().len()], may_be_outer(right)].concat()
        }
        Condition::Or(..) => vec![false; condition.comparisons().len()],
        Condition::Not(_) | Condition::Group(_) => unreachable!("NOT was pushed in"),
    }
}

/// The operands of comparisons, left to right.
fn operands(tested: &[Compared]) -> Vec<Operand<usize>> {
    tested.iter().flat_map(|one| [one.left, one.right]).collect()
}

/// Columns are places counted through the question's tables, the first table's before the second's.
#[derive(Clone)]
pub struct QuestionPart {
    pub table: usize,
    pub second: Option<usize>,
    /// The place of the second table's first column; of a question over one table nothing is known of it.
    pub start: Option<usize>,
    pub columns: Vec<usize>,
    pub tested: Vec<Compared>,
    /// Of each comparison: is it marked as standing outside all OR, NOT and parentheses, and can it be?
    pub outer: Vec<bool>,
    pub may_be_outer: Vec<bool>,
    pub marks: usize,
}

#[derive(Clone)]
pub struct UpdatePart {
    pub table: usize,
    pub change: Change,
    pub tested: Vec<Compared>,
    pub marks: usize,
}

impl UpdatePart {
    pub fn of(update: &Update) -> UpdatePart {
        UpdatePart {
            table: update.table,
            change: update.change.clone(),
            tested: Compared::all(&update.condition, &|column| column.place),
            marks: update.marks,
        }
    }
}

impl QuestionPart {
    pub fn of(catalogue: &Catalogue, question: &Question, outer: &[bool]) -> QuestionPart {
        let place = |column| catalogue.counted(question, column);
        let second = question.tables.get(1).copied();
        QuestionPart {
            table: question.tables[0],
            second,
            start: second.map(|_| catalogue.tables[question.tables[0]].columns.len()),
            columns: question.columns.iter().map(|&column| place(column)).collect(),
            tested: Compared::all(&question.condition, &place),
            outer: outer.to_vec(),
            may_be_outer: stored(question).condition.as_ref().map_or(vec![], may_be_outer),
            marks: question.marks,
        }
    }

    /// Only a question over two tables reads these marks.
    fn outer_passes(&self) -> bool {
        self.second.is_none() || self.outer.iter().zip(&self.may_be_outer).all(|(is, may_be)| !is || *may_be)
    }
}

/// SPOIL qsecond: the number that says that there is no second table.
const NO_TABLE: usize = 255;

/// A count that was raised names places that hold nothing: `None`.
#[derive(Clone)]
pub struct State {
    pub cells: usize,
    pub bytes: usize,
    pub slots: usize,
    pub slot_bytes: usize,
    pub tables: Vec<Option<TablePart>>,
    pub questions: Vec<Option<QuestionPart>>,
    pub updates: Vec<Option<UpdatePart>>,
    /// By slot; those of the slot list's first `held` are held.
    pub kept: Vec<Option<Kept>>,
    pub order: Vec<usize>,
    pub held: usize,
    pub note: Option<Note>,
}

pub fn sizes_pass(cells: u64, bytes: u64, slots: u64, slot_bytes: u64) -> bool {
    cells <= 32_768
        && bytes <= 262_144
        && slots <= 64
        && (8..=4_096).contains(&slot_bytes)
        && slots * slot_bytes <= bytes
}

/// A name that refusals 4 and 5 let pass, in small letters. Such a name is no keyword.
fn name_passes(name: &[u8]) -> bool {
    name.len() <= NAME && is_name(name) && !name.iter().any(u8::is_ascii_uppercase)
}

fn differ<T: PartialEq>(items: &[T]) -> bool {
    (0..items.len()).all(|i| !items[..i].contains(&items[i]))
}

fn comparisons_pass(tested: &[Compared]) -> bool {
    tested.len() <= COMPARISONS && tested.iter().all(Compared::passes)
}

/// Columns are the tables', and marks are 1, 2 and on, as many as the statement says.
fn operands_pass(all: &[Operand<usize>], columns: usize, marks: usize) -> bool {
    let found: Vec<usize> = all.iter().filter_map(|o| if let Operand::Mark(m) = o { Some(*m) } else { None }).collect();
    marks <= MARKS
        && found == (1..=marks).collect::<Vec<_>>()
        && all.iter().all(|o| if let Operand::Column(c) = o { *c < columns } else { true })
}

impl State {
    fn width(&self, table: usize) -> Option<usize> {
        self.tables.get(table)?.as_ref().map(|t| t.columns.len())
    }

    fn tables_pass(&self) -> bool {
        let Some(tables) = self.tables.iter().map(Option::as_ref).collect::<Option<Vec<&TablePart>>>() else {
            return false;
        };
        let table_passes = |t: &&TablePart| {
            name_passes(&t.name)
                && (1..=LIST).contains(&t.columns.len())
                && t.columns.iter().all(|c| name_passes(c))
                && !has_repeat(&t.columns)
                && (1..=ROWS as usize).contains(&t.capacity)
                && t.rows <= t.capacity
                && t.start < t.capacity
                && (t.start == 0 || t.ring && t.rows == t.capacity)
        };
        tables.len() <= TABLES
            && tables.iter().all(table_passes)
            && !has_repeat(&tables.iter().map(|t| &t.name).collect::<Vec<_>>())
            && tables.iter().map(|t| t.columns.len() * t.capacity).sum::<usize>() <= self.cells
    }

    /// The columns of a question's tables together, if these are there and different, and the second's begin where the
    /// first's end.
    fn question_width(&self, question: &QuestionPart) -> Option<usize> {
        let first = self.width(question.table)?;
        let Some(second) = question.second else {
            return Some(first);
        };
        let passes = second != question.table && question.start.map_or(true, |start| start == first);
        self.width(second).filter(|_| passes).map(|width| first + width)
    }

    fn question_passes(&self, question: &QuestionPart) -> bool {
        self.question_width(question).is_some_and(|width| {
            (1..=LIST).contains(&question.columns.len())
                && question.columns.iter().all(|&c| c < width)
                && comparisons_pass(&question.tested)
                && question.outer_passes()
                && operands_pass(&operands(&question.tested), width, question.marks)
        })
    }

    fn update_passes(&self, update: &UpdatePart) -> bool {
        let Some(width) = self.width(update.table) else {
            return false;
        };
        let (changes, values) = match &update.change {
            Change::Insert(values) => (values.len() == width, values.clone()),
            Change::Set(sets) => {
                let columns: Vec<usize> = sets.iter().map(|(column, _)| *column).collect();
                let pass = (1..=LIST).contains(&sets.len()) && columns.iter().all(|&c| c < width) && differ(&columns);
                (pass, sets.iter().map(|(_, value)| *value).collect())
            }
            Change::Delete => (true, vec![]),
        };
        let values: Vec<Operand<usize>> = values.iter().map(|value| value.placed(|column| column.place)).collect();
        let all = [values, operands(&update.tested)].concat();
        changes && comparisons_pass(&update.tested) && operands_pass(&all, width, update.marks)
    }

    fn slots_pass(&self) -> bool {
        let mut sorted = self.order.clone();
        sorted.sort_unstable();
        if sorted != (0..self.slots).collect::<Vec<_>>() || self.held > self.slots {
            return false;
        }
        let held: Option<Vec<&Kept>> = self.order[..self.held].iter().map(|&slot| self.kept[slot].as_ref()).collect();
        held.is_some_and(|held| {
            let answer_passes = |kept: &&Kept| {
                let question = self.questions.get(kept.key.question).and_then(Option::as_ref);
                (8..=self.slot_bytes).contains(&kept.length)
                    && question.is_some_and(|question| question.marks == kept.key.values.len())
            };
            held.iter().all(answer_passes) && differ(&held.iter().map(|kept| &kept.key).collect::<Vec<_>>())
        })
    }

    /// The update that a note names is one that 10 to 12 would not refuse now.
    fn note_passes(&self) -> bool {
        let Some(note) = &self.note else { return true };
        let Some(update) = self.updates.get(note.update).and_then(Option::as_ref) else {
            return false;
        };
        let table = self.tables.get(update.table).and_then(Option::as_ref);
        let is_full = table.is_some_and(|table| table.rows >= table.capacity && !table.ring);
        note.values.len() == update.marks && !(matches!(update.change, Change::Insert(_)) && is_full)
    }

    pub fn is_sound(&self) -> bool {
        sizes_pass(self.cells as u64, self.bytes as u64, self.slots as u64, self.slot_bytes as u64)
            && self.tables_pass()
            && self.questions.len() <= QUESTIONS
            && self.questions.iter().all(|q| q.as_ref().is_some_and(|q| self.question_passes(q)))
            && self.updates.len() <= UPDATES
            && self.updates.iter().all(|u| u.as_ref().is_some_and(|u| self.update_passes(u)))
            && self.slots_pass()
            && self.note_passes()
    }

    /// A question over one table was given a second one: where its columns begin in that state is not known. Sound is
    /// then: if they begin where the first table's end.
    pub fn is_open(&self) -> bool {
        self.questions.iter().flatten().any(|question| question.second.is_some() && question.start.is_none())
    }

    /// Changes one part. What stands past a count, in a free slot, or in a note that is not there, is no part of the state:
    /// nothing changes. `None`: no such part.
    pub fn spoil(&mut self, part: &str, numbers: &[i32]) -> Option<()> {
        let (&value, places) = numbers.split_last()?;
        let places: Vec<usize> = places.iter().map(|&place| usize::try_from(place).ok()).collect::<Option<_>>()?;
        if part == "keyvalue" {
            let [slot, at] = places[..] else { return None };
            put(some(&mut self.kept, slot).map(|kept| &mut kept.key.values), at, value);
            return Some(());
        }
        if part == "pendingvalue" {
            let [at] = places[..] else { return None };
            put(self.note.as_mut().map(|note| &mut note.values), at, value);
            return Some(());
        }
        let size = usize::try_from(value).ok()?;
        let byte = u8::try_from(value).unwrap_or(0); // 0 is in no name
        match (part, &places[..]) {
            ("slots", []) => {
                self.slots = size;
                self.order.truncate(size);
                self.kept.resize(size, None);
            }
            ("bytes", []) => self.slot_bytes = size,
            ("cells", []) => self.cells = size,
            ("memory", []) => self.bytes = size,
            ("tables", []) => self.tables.resize(size, None),
            ("queries", []) => self.questions.resize(size, None),
            ("updates", []) => self.updates.resize(size, None),
            ("held", []) => self.held = size,
            ("order", &[at]) => put(Some(&mut self.order), at, size),
            ("capacity", &[t]) => with(&mut self.tables, t, |table| table.capacity = size),
            ("rows", &[t]) => with(&mut self.tables, t, |table| table.rows = size),
            ("start", &[t]) => with(&mut self.tables, t, |table| table.start = size),
            ("ring", &[t]) if size <= 1 => with(&mut self.tables, t, |table| table.ring = size == 1),
            ("columns", &[t]) => with(&mut self.tables, t, |table| table.columns.resize(size, vec![])),
            ("namelen", &[t]) => with(&mut self.tables, t, |table| table.name.resize(size, 0)),
            ("name", &[t, at]) => with(&mut self.tables, t, |table| put(Some(&mut table.name), at, byte)),
            ("column", &[t, c, at]) => with(&mut self.tables, t, |table| put(table.columns.get_mut(c), at, byte)),
            ("qtable", &[q]) => with(&mut self.questions, q, |question| question.table = size),
            ("qsecond", &[q]) => {
                let second = (size != NO_TABLE).then_some(size);
                with(&mut self.questions, q, |question| question.second = second);
            }
            ("qstart", &[q]) => with(&mut self.questions, q, |question| question.start = Some(size)),
            ("qcount", &[q]) => with(&mut self.questions, q, |question| question.columns.resize(size, 0)),
            ("qselected", &[q, at]) => with(&mut self.questions, q, |question| put(Some(&mut question.columns), at, size)),
            // Bit i is the mark of comparison i; those past the comparisons do not matter.
            ("qouter", &[q]) if size <= 255 => with(&mut self.questions, q, |question| {
                question.outer.iter_mut().enumerate().for_each(|(i, outer)| *outer = size >> i & 1 == 1);
            }),
            ("qparameters", &[q]) => with(&mut self.questions, q, |question| question.marks = size),
            // IS NULL or IS NOT NULL, 0 or 1: the operands stay.
            ("qnull", &[q, at]) if size <= 1 => with(&mut self.questions, q, |question| to_null_test(&mut question.tested, at)),
            ("unull", &[u, at]) if size <= 1 => with(&mut self.updates, u, |update| to_null_test(&mut update.tested, at)),
            ("utable", &[u]) => with(&mut self.updates, u, |update| update.table = size),
            ("ucount", &[u]) => with(&mut self.updates, u, |update| match &mut update.change {
                Change::Insert(values) => values.resize(size, Operand::Constant(0)),
                Change::Set(sets) => sets.resize(size, (0, Operand::Constant(0))),
                Change::Delete => {}
            }),
            ("ucolumn", &[u, at]) => with(&mut self.updates, u, |update| {
                if let Change::Set(sets) = &mut update.change {
                    if let Some((column, _)) = sets.get_mut(at) {
                        *column = size;
                    }
                }
            }),
            ("uparameters", &[u]) => with(&mut self.updates, u, |update| update.marks = size),
            ("length", &[slot]) => with(&mut self.kept, slot, |kept| kept.length = size),
            ("key", &[slot]) => with(&mut self.kept, slot, |kept| kept.key.question = size),
            ("keycount", &[slot]) => with(&mut self.kept, slot, |kept| kept.key.values.resize(size, 0)),
            // Is a note there? One that was not is of update 0, without values.
            ("pending", []) if size <= 1 => {
                let note = self.note.take().unwrap_or(Note { update: 0, values: vec![] });
                self.note = (size == 1).then_some(note);
            }
            ("pendingupdate", []) if size <= 255 => self.note.iter_mut().for_each(|note| note.update = size),
            ("pendingcount", []) if size <= 255 => self.note.iter_mut().for_each(|note| note.values.resize(size, 0)),
            _ => return None,
        }
        Some(())
    }
}

/// The place's thing, if it holds one.
fn some<T>(places: &mut [Option<T>], at: usize) -> Option<&mut T> {
    places.get_mut(at).and_then(Option::as_mut)
}

fn with<T>(places: &mut [Option<T>], at: usize, change: impl FnOnce(&mut T)) {
    if let Some(thing) = some(places, at) {
        change(thing);
    }
}

fn to_null_test(tested: &mut [Compared], at: usize) {
    if let Some(one) = tested.get_mut(at) {
        one.is_null_test = true;
    }
}

fn put<T>(list: Option<&mut Vec<T>>, at: usize, value: T) {
    if let Some(place) = list.and_then(|list| list.get_mut(at)) {
        *place = value;
    }
}
