//! Fewer answers dropped (A.7). A pattern has matched; where question and update are of one table and neither compares a
//! column with a column, the answer goes exactly if some row is affected, whatever rows there are.
//!
//! It is decided by regions. A comparison with a number tells the numbers below it, it and those above it apart, and no
//! others; so do IS NULL the null, and SET the number that it sets. So each column's numbers fall into a few regions, and
//! one number of each stands for all of it. A second decision, for what is asserted, tries rows one by one.

use crate::meaning::{and, compare, holds, not, null_test, number, or, truth, truth_as_written, Truth, NULL};
use crate::pattern::columns_tested;
use crate::plain::{updated, worked_out};
use crate::text::{Change, Column, Condition, Operand, Question, Update};

/// What a matched answer goes by.
#[derive(Clone, Copy, PartialEq, Eq, Debug)]
pub enum Premise {
    /// The rule of this file.
    Holds,
    /// The patterns alone: the question is over two tables (or over another one, and then no pattern matches).
    TwoTables,
    /// The patterns alone: one of the two compares a column with a column.
    ColumnWithColumn,
}

/// By the text: `a = a` is one, and so is one that cannot matter. IS NULL, IS NOT NULL and SET are none.
fn compares_columns(condition: &Option<Condition<Operand>>) -> bool {
    let all = condition.as_ref().map_or(vec![], Condition::comparisons);
    all.iter().any(|one| matches!(one, Condition::Compare(Operand::Column(_), _, Operand::Column(_))))
}

/// Of an INSERT, and of the row that it pushes out, only the question's WHERE can break it.
pub fn premise(question: &Question, update: &Update) -> Premise {
    if question.tables != [update.table] {
        Premise::TwoTables
    } else if compares_columns(&question.condition) || compares_columns(&update.condition) {
        Premise::ColumnWithColumn
    } else {
        Premise::Holds
    }
}

/// What an UPDATE or DELETE does with a row that meets its condition: the question's truth before and after (none after a
/// DELETE), and whether a selected column alters. Numbers alter: from the null to the null is no change.
#[derive(Clone, Copy, Debug)]
pub struct Effect {
    pub before: Truth,
    pub after: Option<Truth>,
    pub alters: bool,
}

impl Effect {
    /// The row enters or leaves what the question takes, or is taken before and after and alters in a selected column.
    pub fn affects(self) -> bool {
        let was_taken = self.before == Truth::True;
        let is_taken = self.after == Some(Truth::True);
        was_taken != is_taken || was_taken && is_taken && self.alters
    }
}

/// A set of truths: `set[truth as usize]`.
type Truths = [bool; 3];

const TRUTHS: [Truth; 3] = [Truth::True, Truth::False, Truth::Unknown];

fn each(set: Truths) -> impl Iterator<Item = Truth> {
    TRUTHS.into_iter().filter(move |&truth| set[truth as usize])
}

fn set_of(truths: impl Iterator<Item = Truth>) -> Truths {
    let mut set = [false; 3];
    truths.for_each(|truth| set[truth as usize] = true);
    set
}

/// A question with a key's values and an update with its values, for which the premise holds.
#[derive(Clone, Copy)]
pub struct Pair<'a> {
    pub question: &'a Question,
    pub key: &'a [i32],
    pub update: &'a Update,
    pub values: &'a [i32],
    /// The columns of their table.
    pub width: usize,
}

/// A row of which some cells are not chosen yet, and for each column the numbers that may stand there.
struct Chosen<'a> {
    cells: &'a [Option<i32>],
    regions: &'a [Vec<i32>],
}

impl Chosen<'_> {
    /// The numbers that may stand in a column.
    fn at(&self, place: usize) -> &[i32] {
        match &self.cells[place] {
            Some(chosen) => std::slice::from_ref(chosen),
            None => &self.regions[place],
        }
    }

    fn numbers<'b>(&'b self, operand: &'b Operand, values: &'b [i32]) -> &'b [i32] {
        match operand {
            Operand::Column(column) => self.at(column.place),
            Operand::Constant(constant) => std::slice::from_ref(constant),
            Operand::Mark(mark) => &values[mark - 1..*mark],
        }
    }

    /// The truths that a condition may have; perhaps some more.
    fn truths(&self, condition: &Condition<Operand>, values: &[i32]) -> Truths {
        let of = |part: &Condition<Operand>| self.truths(part, values);
        let both = |left, right, table: fn(Truth, Truth) -> Truth| {
            set_of(each(of(left)).flat_map(|l| each(of(right)).map(move |r| table(l, r))))
        };
        match condition {
            Condition::Compare(left, relation, right) => {
                let rights = self.numbers(right, values);
                let lefts = self.numbers(left, values).iter();
                set_of(lefts.flat_map(|&l| rights.iter().map(move |&r| compare(l, *relation, r))))
            }
            Condition::Null(operand, test) => set_of(self.numbers(operand, values).iter().map(|&n| null_test(n, *test))),
            Condition::Not(inner) => set_of(each(of(inner)).map(not)),
            Condition::Group(inner) => of(inner),
            Condition::And(left, right) => both(left, right, and),
            Condition::Or(left, right) => both(left, right, or),
        }
    }

    /// An absent WHERE always holds.
    fn truths_of_where(&self, condition: &Option<Condition<Operand>>, values: &[i32]) -> Truths {
        condition.as_ref().map_or(set_of([Truth::True].into_iter()), |condition| self.truths(condition, values))
    }
}

impl Pair<'_> {
    pub fn takes(&self, row: &[i32]) -> bool {
        holds(&self.question.condition, &[(self.update.table, row)], self.key)
    }

    /// The row of an INSERT.
    pub fn inserted(&self) -> Option<Vec<i32>> {
        match &self.update.change {
            Change::Insert(operands) => Some(operands.iter().map(|&o| number(o, &[], self.values)).collect()),
            Change::Set(_) | Change::Delete => None,
        }
    }

    /// The places that an UPDATE sets, each with its number.
    fn sets(&self) -> Vec<(usize, i32)> {
        match &self.update.change {
            Change::Set(sets) => sets.iter().map(|&(place, value)| (place, number(value, &[], self.values))).collect(),
            Change::Insert(_) | Change::Delete => vec![],
        }
    }

    /// Is a matched answer dropped: for the update itself, and for the row that it pushed out? Of an INSERT the rows are
    /// known.
    pub fn drops(&self, pushed: Option<&[i32]>) -> (bool, bool) {
        match self.inserted() {
            Some(row) => (self.takes(&row), pushed.is_some_and(|row| self.takes(row))),
            None => (self.some_row(&Effect::affects).is_some(), false),
        }
    }

    // ------------------------------------------------------------ by regions

    /// The comparisons that name this column, each with the values of its marks.
    fn comparisons_on(&self, place: usize) -> Vec<(&Condition<Operand>, &[i32])> {
        let of_question = self.question.condition.as_ref().map_or(vec![], Condition::comparisons);
        let of_update = self.update.condition.as_ref().map_or(vec![], Condition::comparisons);
        let with = |all: Vec<_>, values| all.into_iter().map(move |one| (one, values));
        let mut all: Vec<_> = with(of_question, self.key).chain(with(of_update, self.values)).collect();
        all.retain(|(one, _)| columns_tested(one).iter().any(|column| column.place == place));
        all
    }

    /// A number of each region of a column: the null, each number that it is compared with or set to, and the middle of
    /// what lies between these and beside them. A comparison with the null tells nothing apart. Of regions that no
    /// comparison and no setting tells apart one is enough.
    fn regions(&self, place: usize) -> Vec<i32> {
        let comparisons = self.comparisons_on(place);
        let set = self.sets().iter().find(|(set, _)| *set == place).map(|(_, number)| *number);
        let mut bounds: Vec<i64> = set.into_iter().map(i64::from).collect();
        for (comparison, values) in &comparisons {
            if let Condition::Compare(left, _, right) = comparison {
                let other = if matches!(left, Operand::Column(_)) { right } else { left };
                bounds.push(i64::from(number(*other, &[], values)));
            }
        }
        bounds.retain(|&bound| bound != i64::from(NULL));
        bounds.sort_unstable();
        bounds.dedup();
        let past = i64::from(i32::MAX) + 1;
        let mut numbers = vec![i64::from(NULL)];
        let mut low = i64::from(NULL) + 1;
        for bound in bounds.into_iter().chain([past]) {
            if low < bound {
                numbers.push((low + bound - 1).div_euclid(2));
            }
            if bound < past {
                numbers.push(bound);
            }
            low = bound + 1;
        }
        let mut told_apart = Vec::new();
        let mut found = Vec::new();
        for number in numbers.into_iter().map(|number| i32::try_from(number).expect("within 32 bits")) {
            // No other column stands in these comparisons.
            let row = vec![number; self.width];
            let rows = [(self.update.table, &row[..])];
            let truths: Vec<Truth> = comparisons.iter().map(|(one, values)| truth_as_written(one, &rows, values)).collect();
            let tells = (truths, set == Some(number));
            if !told_apart.contains(&tells) {
                told_apart.push(tells);
                found.push(number);
            }
        }
        found
    }

    /// What an UPDATE makes of a row.
    fn after(&self, row: &[i32]) -> Vec<i32> {
        let mut after = row.to_vec();
        self.sets().iter().for_each(|&(place, number)| after[place] = number);
        after
    }

    /// `None`: the row does not meet the update's condition.
    fn effect(&self, row: &[i32]) -> Option<Effect> {
        let table = self.update.table;
        let truth_of = |row: &[i32]| truth(&self.question.condition, &[(table, row)], self.key);
        if !holds(&self.update.condition, &[(table, row)], self.values) {
            return None;
        }
        if let Change::Delete = self.update.change {
            return Some(Effect { before: truth_of(row), after: None, alters: false });
        }
        let after = self.after(row);
        let alters = self.question.columns.iter().any(|column| row[column.place] != after[column.place]);
        Some(Effect { before: truth_of(row), after: Some(truth_of(&after)), alters })
    }

    /// A row of 32-bit numbers that meets the condition of an UPDATE or DELETE, with such an effect, if there is one.
    pub fn some_row(&self, wanted: &dyn Fn(Effect) -> bool) -> Option<Vec<i32>> {
        let regions: Vec<Vec<i32>> = (0..self.width).map(|place| self.regions(place)).collect();
        self.search(wanted, &regions, &mut vec![None; self.width], 0)
    }

    /// Column by column; a beginning that no row with such an effect has is left at once.
    fn search(
        &self,
        wanted: &dyn Fn(Effect) -> bool,
        regions: &[Vec<i32>],
        cells: &mut Vec<Option<i32>>,
        next: usize,
    ) -> Option<Vec<i32>> {
        if next == self.width {
            let row: Vec<i32> = cells.iter().map(|cell| cell.expect("every cell is chosen")).collect();
            return self.effect(&row).filter(|&effect| wanted(effect)).map(|_| row);
        }
        if !self.may_be(wanted, &Chosen { cells, regions }) {
            return None;
        }
        for &number in &regions[next] {
            cells[next] = Some(number);
            let found = self.search(wanted, regions, cells, next + 1);
            if found.is_some() {
                return found;
            }
        }
        cells[next] = None;
        None
    }

    /// May a row with these cells have such an effect?
    fn may_be(&self, wanted: &dyn Fn(Effect) -> bool, chosen: &Chosen) -> bool {
        let meets = chosen.truths_of_where(&self.update.condition, self.values);
        if !meets[Truth::True as usize] {
            return false;
        }
        let befores = chosen.truths_of_where(&self.question.condition, self.key);
        let mut afters: Vec<Option<Truth>> = vec![None];
        if let Change::Set(_) = self.update.change {
            let mut cells = chosen.cells.to_vec();
            self.sets().iter().for_each(|&(place, number)| cells[place] = Some(number));
            let after = Chosen { cells: &cells, regions: chosen.regions };
            afters = each(after.truths_of_where(&self.question.condition, self.key)).map(Some).collect();
        }
        let mut selected = self.sets();
        selected.retain(|(place, _)| self.question.columns.iter().any(|column| column.place == *place));
        let mut alterations = Vec::new();
        if selected.iter().any(|(place, number)| chosen.at(*place).iter().any(|old| old != number)) {
            alterations.push(true);
        }
        if selected.iter().all(|(place, number)| chosen.at(*place).contains(number)) {
            alterations.push(false);
        }
        let effect_of = |before, after, alters| Effect { before, after, alters };
        each(befores).any(|before| {
            afters.iter().any(|&after| alterations.iter().any(|&alters| wanted(effect_of(before, after, alters))))
        })
    }

    // ------------------------------------------------------------ by trial

    /// The numbers that stand in the two statements and in their values, whatever they stand for.
    pub fn numbers_given(&self) -> Vec<i64> {
        let mut all: Vec<i32> = [self.key, self.values].concat();
        let conditions = [&self.question.condition, &self.update.condition];
        for one in conditions.into_iter().flatten().flat_map(Condition::comparisons) {
            if let Condition::Compare(left, _, right) = one {
                let constant = |operand: &Operand| if let Operand::Constant(n) = operand { Some(*n) } else { None };
                all.extend([left, right].into_iter().filter_map(constant));
            }
        }
        all.extend(self.sets().iter().map(|(_, number)| *number));
        let mut all: Vec<i64> = all.into_iter().filter(|&n| n != NULL).map(i64::from).collect();
        all.sort_unstable();
        all
    }

    /// The numbers that are tried: the null, the ends, and all from two below the least number given to two above the
    /// greatest; where these lie far apart, those about each number given.
    fn tried_numbers(&self) -> Vec<i32> {
        let given = self.numbers_given();
        let mut tried: Vec<i64> = [i32::MIN, i32::MIN + 1, i32::MAX].map(i64::from).to_vec();
        if let (Some(least), Some(greatest)) = (given.first(), given.last()) {
            if greatest - least <= 20 {
                tried.extend(least - 2..=greatest + 2);
            } else {
                given.iter().for_each(|n| tried.extend(n - 2..=n + 2));
            }
        }
        tried.sort_unstable();
        tried.dedup();
        tried.into_iter().filter_map(|n| i32::try_from(n).ok()).collect()
    }

    /// The places of the columns that the two statements name.
    fn named(&self) -> Vec<usize> {
        let tested = |condition: &Option<Condition<Operand>>| condition.as_ref().map_or(vec![], columns_tested);
        let columns: Vec<Column> =
            [tested(&self.question.condition), tested(&self.update.condition), self.question.columns.clone()].concat();
        let set: Vec<usize> = self.sets().iter().map(|(place, _)| *place).collect();
        (0..self.width).filter(|place| set.contains(place) || columns.iter().any(|column| column.place == *place)).collect()
    }

    /// Is a matched answer dropped? Each row is put alone into a table, and the question asked before and after: the
    /// answer to an affected row alone changes, and no other. `None` if these are more than `most` rows.
    pub fn drops_by_trial(&self, pushed: Option<&[i32]>, most: usize) -> Option<bool> {
        let answer = |rows: &[Vec<i32>]| worked_out(self.question, &[rows], self.key).expect("one row fits a record");
        if let Some(row) = self.inserted() {
            let rows = [Some(row), pushed.map(<[i32]>::to_vec)];
            return Some(rows.into_iter().flatten().any(|row| answer(&[row]) != answer(&[])));
        }
        let numbers = self.tried_numbers();
        let rows = |places: &[usize]| numbers.len().checked_pow(places.len() as u32).filter(|&rows| rows <= most);
        let mut places: Vec<usize> = (0..self.width).collect();
        if rows(&places).is_none() {
            places = self.named();
        }
        for mut which in 0..rows(&places)? {
            let mut row = vec![0; self.width];
            for &place in &places {
                row[place] = numbers[which % numbers.len()];
                which /= numbers.len();
            }
            let mut table = vec![row];
            let before = answer(&table);
            updated(self.update, &mut table, self.values);
            if answer(&table) != before {
                return Some(true);
            }
        }
        Some(false)
    }
}
