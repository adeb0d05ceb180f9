//! Random scripts. A seed gives a profile and then the lines; the reference runs along, so that most lines can be
//! biased to be taken (existing tables, columns, marks, keys kept, buffers that just fit).

use crate::check::{exact_lines, keypad_lines, look_lines, null_lines, outer_lines, ring_lines};
use crate::exact::{premise, Pair, Premise};
use crate::front::{Front, Mode, BUFFER, CALLS_BYTES};
use crate::meaning::{all_true, truth, Rows, Truth, NULL};
use crate::pattern::{agrees, columns_tested, gone, patterns, patterns_of_pushed, Gone, Place};
use crate::plain::Note;
use crate::text::{constant, is_name, same_name, Change, Column, Condition, NullTest, Operand, Question, Relation, Update};
use crate::text::KEYWORDS;
use std::collections::{BTreeMap, BTreeSet};

pub struct Random(u64);

impl Random {
    pub fn new(seed: u64) -> Random {
        let mut random = Random(seed.wrapping_mul(0x9E37_79B9_7F4A_7C15) ^ 0x5851_F42D_4C95_7F2D);
        random.next();
        random
    }

    fn next(&mut self) -> u64 {
        self.0 = self.0.wrapping_add(0x9E37_79B9_7F4A_7C15);
        let mut z = self.0;
        z = (z ^ (z >> 30)).wrapping_mul(0xBF58_476D_1CE4_E5B9);
        z = (z ^ (z >> 27)).wrapping_mul(0x94D0_49BB_1331_11EB);
        z ^ (z >> 31)
    }

    /// From 0 to n - 1.
    pub fn below(&mut self, n: usize) -> usize {
        (self.next() % n.max(1) as u64) as usize
    }

    fn between(&mut self, low: usize, high: usize) -> usize {
        low + self.below(high - low + 1)
    }

    /// True in `percent` of a hundred.
    fn chance(&mut self, percent: usize) -> bool {
        self.below(100) < percent
    }

    fn pick<T: Clone>(&mut self, from: &[T]) -> T {
        from[self.below(from.len())].clone()
    }

    /// A name for a table or column, now and then a word that a later request makes a keyword.
    fn new_name(&mut self, from: &[&str]) -> String {
        if self.chance(4) {
            return self.pick(&LATER).to_string();
        }
        self.pick(from).to_string()
    }
}

#[derive(Clone, Copy, PartialEq, Debug)]
pub enum Profile {
    /// Few tables, many repeated asks, few slots, records that just fit or do not.
    Repeats,
    /// Long conditions, small constants, several marks.
    Patterns,
    /// Conditions whose clause counts lie about 64.
    Counts,
    /// Small tables, soon full; cells that just suffice.
    Full,
    /// Numbers at the ends of 32 bits, often the null.
    Edges,
    /// Texts that miss by a little.
    Misses,
    /// Openings refused and taken, wrong lengths lent.
    Openings,
    /// No slot, or 64 of them.
    Slots,
    /// Wide and long tables, long records; in some scripts pairs of about 65,536 rows.
    Large,
    /// Some of all.
    Mixed,
}

pub const PROFILES: [Profile; 10] = [
    Profile::Repeats,
    Profile::Patterns,
    Profile::Counts,
    Profile::Full,
    Profile::Edges,
    Profile::Misses,
    Profile::Openings,
    Profile::Slots,
    Profile::Large,
    Profile::Mixed,
];

/// Lines without their ends; `ended`: the last one has its end.
#[derive(Clone)]
pub struct Script {
    pub lines: Vec<Vec<u8>>,
    pub ended: bool,
}

impl Script {
    pub fn of(input: &[u8]) -> Script {
        let lines = crate::front::lines(input).iter().map(|line| line.to_vec()).collect();
        Script { lines, ended: input.last().map_or(true, |&b| b == b'\n') }
    }

    pub fn bytes(&self) -> Vec<u8> {
        let mut all = self.lines.join(&b'\n');
        if self.ended && !self.lines.is_empty() {
            all.push(b'\n');
        }
        all
    }
}

pub struct Generated {
    pub profile: Profile,
    pub script: Script,
    /// The reference's outputs, one for each line that prints.
    pub printed: Vec<String>,
    pub grounds: [usize; 4],
    pub evictions: usize,
    /// Records worked out that are as long as a slot, and longer.
    pub just_fits: usize,
    pub too_long: usize,
    /// Answers dropped by INSERT, UPDATE, DELETE.
    pub drops: [usize; 3],
    /// What came of questions over two tables.
    pub pairs: BTreeMap<String, usize>,
    /// What came of texts with capitals in names.
    pub names: BTreeMap<String, usize>,
    /// What came of tables that run round.
    pub rings: BTreeMap<String, usize>,
    /// What came of nulls and null tests.
    pub nulls: BTreeMap<String, usize>,
    /// What came of the comparisons that rows read in a pair go by.
    pub outer: BTreeMap<String, usize>,
    /// What came of the rule that drops fewer answers.
    pub exact: BTreeMap<String, usize>,
    /// What came of proposals, commits and withdrawals.
    pub looks: BTreeMap<String, usize>,
}

/// What an update finds: the rows of its table, the row that it would push out, and the keys kept.
struct Before {
    rows: Vec<Vec<i32>>,
    pushed: Option<Vec<i32>>,
    keys: Vec<(usize, Vec<i32>)>,
}

struct Generator {
    random: Random,
    mode: Mode,
    profile: Profile,
    /// With pairs of about 65,536 rows.
    square: bool,
    /// Begins with the examples of names in capitals.
    keypad: bool,
    /// Begins with the examples of a table that runs round.
    rings: bool,
    /// Begins with the examples of nulls.
    nulls: bool,
    /// Begins with the examples of rows read in a pair.
    outer: bool,
    /// Begins with the examples of fewer answers dropped.
    exact: bool,
    /// Begins with the examples of looking before writing.
    look: bool,
    front: Front,
    made: Generated,
    pending: Pending,
}

/// What is counted of a note: the calls since it was made, the keys that were kept then, and the call by which the last note
/// went.
#[derive(Default)]
struct Pending {
    since: BTreeSet<String>,
    keys: Vec<(usize, Vec<i32>)>,
    gone_by: Option<String>,
}

const TABLE_NAMES: [&str; 11] = ["t", "u", "stage", "log1", "ab_c", "xz", "twelve_bytes", "select", "v9", "ring", "null"];
const COLUMN_NAMES: [&str; 14] =
    ["a", "b", "c", "d", "site", "level", "e", "f_", "z", "rows", "twelve_bytes", "ring", "is", "null"];
/// Words that later requests make keywords. In capitals they are names until they are in `KEYWORDS`, in other letters
/// always.
const LATER: [&str; 7] = ["count", "sum", "min", "max", "nearest", "on", "limit"];
/// The null in a text, in two spellings.
const NULLS: [&str; 3] = ["-2147483648", "-2147483648", "-002147483648"];
const RELATIONS: [&str; 6] = ["=", "<>", "<", "<=", ">", ">="];
const EDGES: [&str; 12] = [
    "-2147483648", "2147483647", "-2147483647", "2147483646", "0", "-1", "1", "-0", "-00000000000002147483648",
    "00000000000000002147483647", "007", "-2147483648",
];
const OUTSIDE: [&str; 7] = [
    "2147483648", "-2147483649", "4294967296", "99999999999", "-99999999999999999999999999", "18446744073709551616",
    "4294967295",
];

fn words(text: &str) -> Vec<String> {
    text.split(' ').map(String::from).collect()
}

/// The words of a text, each dot a word of its own.
fn dotted_words(text: &str) -> Vec<String> {
    words(&text.replace('.', " . ")).into_iter().filter(|word| !word.is_empty()).collect()
}

/// Is this one of the names?
fn has_name(names: &[String], name: &str) -> bool {
    names.iter().any(|one| same_name(one, name))
}

/// The names of a text, roughly: its words that are no keyword and no constant.
fn names_in(text: &str) -> Vec<String> {
    let words = text.split(|c: char| !c.is_ascii_alphanumeric() && c != '_');
    words.filter(|word| is_name(word.as_bytes())).map(String::from).collect()
}

/// Is there a letter in this name that is a capital?
fn has_capital(name: &str) -> bool {
    name.bytes().any(|b| b.is_ascii_uppercase())
}

/// A table's name and columns.
type Named = (String, Vec<String>);

/// The columns as they are written in a question over two tables.
fn dotted(table: &Named) -> Vec<String> {
    table.1.iter().map(|column| format!("{}.{column}", table.0)).collect()
}

fn has_null_test(condition: &Condition<Operand>) -> bool {
    match condition {
        Condition::Compare(..) => false,
        Condition::Null(..) => true,
        Condition::Not(inner) | Condition::Group(inner) => has_null_test(inner),
        Condition::And(left, right) | Condition::Or(left, right) => has_null_test(left) || has_null_test(right),
    }
}

/// The columns that a condition says are equal to a mark, with these marks.
fn equal_to_marks(condition: &Condition<Operand>) -> Vec<(Column, usize)> {
    match condition {
        Condition::Compare(Operand::Column(column), Relation::Equal, Operand::Mark(mark))
        | Condition::Compare(Operand::Mark(mark), Relation::Equal, Operand::Column(column)) => vec![(*column, *mark)],
        Condition::Compare(..) | Condition::Null(..) => vec![],
        Condition::Not(inner) | Condition::Group(inner) => equal_to_marks(inner),
        Condition::And(left, right) | Condition::Or(left, right) => [equal_to_marks(left), equal_to_marks(right)].concat(),
    }
}

/// The null tests of a condition and its comparisons with the null constant, each with what stands next around it.
fn null_places(condition: &Condition<Operand>, around: &str) -> Vec<String> {
    let is_null = |operand: &Operand<Column>| *operand == Operand::Constant(NULL);
    match condition {
        Condition::Compare(left, _, right) if is_null(left) || is_null(right) => vec![format!("the null constant{around}")],
        Condition::Compare(..) => vec![],
        Condition::Null(_, NullTest::IsNull) => vec![format!("IS NULL{around}")],
        Condition::Null(_, NullTest::IsNotNull) => vec![format!("IS NOT NULL{around}")],
        Condition::Not(inner) => null_places(inner, " under NOT"),
        Condition::Group(inner) => null_places(inner, around),
        Condition::And(left, right) => [null_places(left, " in AND"), null_places(right, " in AND")].concat(),
        Condition::Or(left, right) => [null_places(left, " in OR"), null_places(right, " in OR")].concat(),
    }
}

/// Of each comparison, in the order of the text: the outermost of OR, NOT and parentheses that it stands in.
fn hidden(condition: &Condition<Operand>) -> Vec<Option<&'static str>> {
    let by = |what: &'static str| vec![Some(what); condition.comparisons().len()];
    match condition {
        Condition::Compare(..) | Condition::Null(..) => vec![None],
        Condition::And(left, right) => [hidden(left), hidden(right)].concat(),
        Condition::Or(..) => by("OR"),
        Condition::Not(_) => by("NOT"),
        Condition::Group(_) => by("parentheses"),
    }
}

/// What the items of `outer_text` are made of: `x` and `v` are columns of the first table, `y` and `w` of the second, `n` is
/// a number.
const OF_FIRST: [&str; 22] = [
    "x = ?", "x = ?", "x = ?", "? = x", "x = n", "x = n", "n = x", "x <> n", "x <> ?", "x < n", "x >= n", "v > ?", "v <= ?",
    "n < x", "x = v", "v >= x", "x IS NULL", "x IS NOT NULL", "v IS NOT NULL", "x > n", "x = -2147483648", "v <> n",
];
const OF_NO_COLUMN: [&str; 9] = ["? = n", "? = n", "n = ?", "? = ?", "1 = 1", "2 < 1", "? <> n", "? >= 1", "n = -2147483648"];
const OF_SECOND: [&str; 8] = ["y = ?", "y <> n", "w IS NOT NULL", "y < 3", "w IS NULL", "y = n", "? <= w", "y = w"];
const OF_BOTH: [&str; 7] = ["x = y", "x = y", "y = x", "v <= w", "x <> w", "w > v", "x >= y"];
const WRAPPED: [&str; 32] = [
    "( x = ? AND y = n )", "NOT ( x = ? OR y <> n )",
    "NOT NOT x = ?", "NOT NOT x = ?", "NOT NOT v <> n", "NOT NOT ? = n",
    "( x = ? )", "( x = ? )", "( x = n )", "( ( x = n ) )", "( x = ? AND v <> n )", "( x <> n AND x = y )", "( 1 = 1 AND x = n )",
    "NOT x = ?", "NOT x = n", "NOT NOT x = ?", "NOT NOT x = n", "NOT NOT NOT x = n", "NOT ( x = ? )", "( NOT x = n )",
    "( x = ? OR y = n )", "( x = n OR v = n )", "NOT ( x = n AND y = n )", "NOT ( x = n OR v IS NULL )", "( ? = n )", "NOT ? = n",
    "( x IS NOT NULL )", "NOT x IS NULL", "NOT NOT x IS NOT NULL", "( y = ? )", "NOT x = y", "( ( x = n ) AND v >= n )",
];

fn kind_of(change: &Change) -> &'static str {
    match change {
        Change::Insert(_) => "INSERT",
        Change::Set(_) => "UPDATE",
        Change::Delete => "DELETE",
    }
}

/// Of a matched answer that goes by the patterns alone.
fn exact_broken(pair: &Pair, pushed: Option<&[i32]>, broken: Premise) -> String {
    let kind = kind_of(&pair.update.change);
    if broken == Premise::TwoTables {
        return format!("two tables, dropped by {kind} by the patterns");
    }
    // With two columns compared this is no decision, but tells where the rule might leave it.
    let though = match pair.drops_by_trial(pushed, 1_500) {
        Some(false) => ", though no row tried is affected",
        _ => "",
    };
    format!("a column with a column, dropped by {kind} by the patterns{though}")
}

/// Of a matched answer that goes by the rule: what came of it, and why.
fn exact_reasons(pair: &Pair, pushed: Option<&[i32]>, by_pushed: bool, dropped: bool) -> Vec<String> {
    let how = if dropped { "dropped" } else { "left" };
    let kind = kind_of(&pair.update.change);
    let mut all = vec![format!("{how} by {kind}")];
    if pair.question.condition.is_none() {
        all.push(format!("{how} by {kind}, the question without WHERE"));
    }
    if pair.update.condition.is_none() && kind != "INSERT" {
        all.push(format!("{how} by {kind} without WHERE"));
    }
    // Is it close: does a value that is one off make it otherwise?
    let one_off = (0..pair.values.len()).flat_map(|at| [-1, 1].map(|off| (at, off))).any(|(at, off)| {
        let mut values = pair.values.to_vec();
        values[at] = values[at].saturating_add(off);
        (Pair { values: &values, ..*pair }.drops(pushed) != (false, false)) != dropped
    });
    if one_off {
        all.push(format!("{how} by {kind}, otherwise with a value one off"));
    }
    if let Some(row) = pair.inserted() {
        if pushed.is_some() {
            let taken = match (pair.takes(&row), pushed.is_some_and(|row| pair.takes(row))) {
                (true, true) => "both are taken",
                (true, false) => "the row inserted is taken",
                (false, true) => "the row pushed out is taken",
                (false, false) if by_pushed => "neither is taken, though a pattern of the row pushed out matched",
                (false, false) => "neither is taken",
            };
            all.push(format!("{how} by INSERT that pushes a row out, {taken}"));
        }
        if !dropped && truth(&pair.question.condition, &[(pair.update.table, &row)], pair.key) == Truth::Unknown {
            all.push(String::from("left by INSERT, the row is unknown"));
        }
        return all;
    }
    if dropped {
        let enters_from = |truth: Truth| pair.some_row(&|e| e.before == truth && e.after == Some(Truth::True)).is_some();
        let other = pair.some_row(&|e| e.affects() && !(e.before == Truth::Unknown && e.after == Some(Truth::True)));
        if enters_from(Truth::Unknown) {
            let alone = if other.is_none() { " alone" } else { "" };
            all.push(format!("dropped by UPDATE, a row may enter from unknown{alone}"));
        }
        if kind == "UPDATE" && pair.some_row(&|e| (e.before == Truth::True) != (e.after == Some(Truth::True))).is_none() {
            all.push(String::from("dropped by UPDATE, no row enters or leaves, some alter"));
        }
        return all;
    }
    // Rows that the question takes, whatever the update.
    let any = Update { table: pair.update.table, change: Change::Delete, condition: None, marks: 0 };
    let takes_some = Pair { update: &any, values: &[], ..*pair }.some_row(&|e| e.before == Truth::True).is_some();
    let is_end = |n: &i64| (*n - i64::from(i32::MAX)).abs() < 3 || (*n - i64::from(NULL)).abs() < 4;
    let numbers = pair.numbers_given();
    let has_null = pair.key.contains(&NULL) || pair.values.contains(&NULL);
    let close = numbers.windows(2).any(|two| two[0] != two[1] && two[1] - two[0] <= 2);
    let why = if !takes_some {
        "the question takes no row"
    } else if pair.some_row(&|_| true).is_none() {
        "no row meets the update"
    } else if pair.some_row(&|e| e.before == Truth::True && e.after == Some(Truth::True)).is_some() {
        "rows taken before and after are unaltered"
    } else {
        "the rows met are not taken"
    };
    all.push(format!("left by {kind}, {why}"));
    if has_null {
        all.push(format!("left by {kind}, {why}, a null value"));
    } else if numbers.iter().any(is_end) {
        all.push(format!("left by {kind}, {why}, a number at an end of the range"));
    } else if close {
        all.push(format!("left by {kind}, {why}, numbers at most 2 apart"));
    }
    all
}

/// What `exact_question` asks: `c`, `d` and `e` are columns, `n`, `k` and `m` numbers that lie close together, in this order.
const BOUNDED: [&str; 48] = [
    "c > ?", "c >= ?", "c < ?", "c <= ?", "c <> ?", "c = ?", "c > n", "c <= n", "n > c", "? <= c",
    "c > n AND c < m", "c >= n AND c < m", "c > n AND c < m AND c <> k", "c >= n AND c <= m AND c <> k", "c > ? AND c < ?",
    "c >= ? AND c <= ?", "c <> n AND c <> m", "c <> n AND c <> k AND c <> m", "c < n OR c > m", "c <= ? OR c > ?",
    "NOT ( c <= n OR c >= m )", "NOT ( c > n AND c < m )", "NOT c < ?", "NOT ( c < ? OR d <> n )", "NOT c = ? AND NOT c = ?",
    "c IS NULL", "c IS NOT NULL", "c IS NULL AND d > ?", "c IS NOT NULL AND c < ?", "c IS NULL OR c > ?", "NOT c IS NULL AND c <> ?",
    "c < n OR NOT c < n", "c > ? AND d < ?", "c = ? AND d > n", "c = n OR d = ?", "c > n AND d <= ? AND e <> m",
    "c <> n AND d IS NULL", "? = n AND c > m", "c > ? OR ? = n", "c > 2147483647", "c > 2147483646", "c < -2147483647",
    "c <= -2147483647", "c = -2147483648 OR c > n", "c > n AND c = c", "c <= d AND c > n", "c > ? AND d <> e", "c < n OR d = d",
];
/// What `exact_change` meets.
const MET: [&str; 34] = [
    "c < n", "c <= n", "c > n", "c >= ?", "c < ?", "c <= ?", "c <> n", "c <> ?", "c = ?", "c = n", "n < c", "c > n AND c < m",
    "c > ? AND c < ?", "c >= n AND c <= m AND c <> k", "c < n OR c > m", "NOT ( c < n OR c > m )", "NOT c < ?", "c IS NULL",
    "c IS NOT NULL", "c IS NULL AND d = ?", "c IS NOT NULL AND d <> ?", "c > n AND d < ?", "c <> ? AND d <> n", "d > ?", "d = n",
    "? = n AND c < m", "c = ? OR d > m", "c < -2147483646", "c > 2147483646", "c <> 2147483647", "c = c AND c < n",
    "d < c AND c > n", "c < n AND d <> e", "c <= ? AND d = d",
];

impl Generator {
    // ------------------------------------------------------------ numbers

    /// A value, at some rate the null.
    fn value(&mut self) -> i32 {
        let nulls = match self.profile {
            Profile::Edges => 15,
            Profile::Mixed => 10,
            Profile::Counts => 4,
            _ => 7,
        };
        if self.random.chance(nulls) {
            return NULL;
        }
        self.number()
    }

    fn number(&mut self) -> i32 {
        let edges = match self.profile {
            Profile::Edges => 70,
            Profile::Mixed => 10,
            _ => 1,
        };
        if self.random.chance(edges) {
            return self.random.pick(&[i32::MIN, i32::MIN, i32::MAX, i32::MIN + 1, i32::MAX - 1, 0, -1, 1]);
        }
        let most = match self.profile {
            Profile::Slots => 30,
            Profile::Large => 10,
            _ => 3,
        };
        self.random.below(most + 1) as i32
    }

    fn constant(&mut self) -> String {
        let edges = if self.profile == Profile::Edges { 60 } else { 2 };
        if self.random.chance(edges) {
            if self.random.chance(8) {
                return self.random.pick(&OUTSIDE).to_string();
            }
            return self.random.pick(&EDGES).to_string();
        }
        if self.random.chance(3) {
            return self.random.pick(&NULLS).to_string();
        }
        let value = self.number();
        if self.random.chance(3) {
            return if value < 0 { format!("-0{}", -i64::from(value)) } else { format!("0{value}") };
        }
        value.to_string()
    }

    // ------------------------------------------------------------ texts

    /// A column of this list, now and then one that the table may not have.
    fn column(&mut self, columns: &[String]) -> String {
        if columns.is_empty() || self.random.below(250) == 0 {
            return self.random.pick(&COLUMN_NAMES).to_string();
        }
        self.random.pick(columns)
    }

    fn operand(&mut self, columns: &[String], marks: &mut usize) -> String {
        let roll = self.random.below(100);
        if roll < 55 {
            self.column(columns)
        } else if roll < 78 && *marks > 0 {
            *marks -= 1;
            String::from("?")
        } else {
            self.constant()
        }
    }

    /// IS NULL or IS NOT NULL, as often the one as the other.
    fn null_test(&mut self, columns: &[String]) -> Vec<String> {
        let mut all = vec![self.column(columns)];
        all.extend(words(self.random.pick(&["IS NULL", "IS NOT NULL"])));
        all
    }

    fn comparison(&mut self, columns: &[String], marks: &mut usize) -> Vec<String> {
        if self.random.chance(if self.profile == Profile::Edges { 20 } else { 11 }) {
            return self.null_test(columns);
        }
        let relation = if self.random.chance(55) { "=" } else { self.random.pick(&RELATIONS) };
        let (left, right) = if self.random.chance(55) {
            let column = self.column(columns);
            let other = if *marks > 0 && self.random.chance(60) {
                *marks -= 1;
                String::from("?")
            } else {
                self.constant()
            };
            if self.random.chance(75) {
                (column, other)
            } else {
                (other, column)
            }
        } else {
            (self.operand(columns, marks), self.operand(columns, marks))
        };
        vec![left, relation.to_string(), right]
    }

    /// A condition of `n` comparisons; `room`: the parentheses and NOTs that may still stand around.
    fn condition(&mut self, n: usize, room: usize, columns: &[String], marks: &mut usize) -> Vec<String> {
        let wrap = room > 0 && self.random.chance(if self.profile == Profile::Patterns { 30 } else { 15 });
        if wrap {
            let not = self.random.chance(50);
            let parentheses = !not || n > 1 && self.random.chance(90);
            let mut all = Vec::new();
            if not {
                all.push(String::from("NOT"));
            }
            if parentheses {
                all.push(String::from("("));
            }
            let used = usize::from(not) + usize::from(parentheses);
            all.extend(self.condition(n, room.saturating_sub(used), columns, marks));
            if parentheses {
                all.push(String::from(")"));
            }
            return all;
        }
        if n <= 1 {
            return self.comparison(columns, marks);
        }
        let left = self.random.between(1, n - 1);
        let mut all = self.condition(left, room, columns, marks);
        all.push(self.random.pick(&["AND", "AND", "OR"]).to_string());
        all.extend(self.condition(n - left, room, columns, marks));
        all
    }

    /// Groups of ORs (or NOTs of ANDs) under AND, then some more under OR, for clause counts about rule 5's limit:
    /// the product of the groups' sizes and one for each more. Pairs of these counts give 64, 65, 66 and others near.
    fn groups(&mut self, columns: &[String], marks: &mut usize) -> Vec<String> {
        let shapes: [(&[usize], usize); 16] = [
            (&[2], 0),
            (&[3], 0),
            (&[2, 2], 0),
            (&[4], 0),
            (&[5], 0),
            (&[2, 2], 1),
            (&[3, 2], 0),
            (&[6], 0),
            (&[4, 2], 0),
            (&[2, 2, 2], 0),
            (&[4, 2, 2], 0),
            (&[4, 4], 0),
            (&[2, 2, 2, 2], 0),
            (&[3, 2, 2], 1),
            (&[3, 3], 2),
            (&[3, 3, 2], 0),
        ];
        let (shape, more) = self.random.pick(&shapes);
        let mut all = Vec::new();
        for (i, &size) in shape.iter().enumerate() {
            if i > 0 {
                all.push(String::from("AND"));
            }
            let negated = self.random.chance(25);
            all.extend(words(if negated { "NOT (" } else { "(" }));
            for j in 0..size {
                if j > 0 {
                    all.push(String::from(if negated { "AND" } else { "OR" }));
                }
                if self.random.chance(8) {
                    all.extend(self.null_test(columns));
                    continue;
                }
                let column = self.column(columns);
                let relation = if self.random.chance(75) {
                    if negated { "<>" } else { "=" }
                } else {
                    self.random.pick(&RELATIONS)
                };
                let other = if *marks > 0 && self.random.chance(40) {
                    *marks -= 1;
                    String::from("?")
                } else {
                    self.random.below(4).to_string()
                };
                all.extend([column, relation.to_string(), other]);
            }
            all.push(String::from(")"));
        }
        for _ in 0..more {
            all.extend([String::from("OR"), self.column(columns), String::from("="), self.random.below(4).to_string()]);
        }
        all
    }

    /// As `groups`, with all comparisons on one column, equal to constants of a list.
    fn groups_on(&mut self, column: &str, constants: &[&str], shape: &[usize], more: usize) -> String {
        let comparison = |random: &mut Random| format!("{column} = {}", random.pick(constants));
        let mut parts: Vec<String> = Vec::new();
        for &size in shape {
            let group: Vec<String> = (0..size).map(|_| comparison(&mut self.random)).collect();
            parts.push(format!("( {} )", group.join(" OR ")));
        }
        let mut all = parts.join(" AND ");
        for _ in 0..more {
            all.push_str(&format!(" OR {}", comparison(&mut self.random)));
        }
        all
    }

    /// A question and an update whose clause counts just pass rule 5's limit or just do not. Worked out, most have no
    /// pattern; else the answer asked before goes.
    fn count_pair(&mut self) {
        let counts: [(&[usize], usize, &[usize], usize, bool); 12] = [
            (&[4], 0, &[4, 4], 0, true),
            (&[5], 0, &[3, 2, 2], 1, true),
            (&[3, 2, 2], 1, &[5], 0, true),
            (&[6], 0, &[3, 3], 2, true),
            (&[3, 2], 0, &[3, 3], 2, true),
            (&[2, 2, 2], 0, &[4, 2], 0, true),
            (&[7], 0, &[3, 3], 0, true),
            (&[2], 0, &[2, 2, 2, 2], 0, false),
            (&[4], 0, &[8], 0, false),
            (&[3], 0, &[3, 3], 2, false),
            (&[3, 3], 2, &[3], 0, false),
            (&[3], 0, &[5, 2], 0, false),
        ];
        let (of_update, more_update, of_question, more_question, delete) = self.random.pick(&counts);
        let (table, columns) = self.some_table();
        let column = self.column(&columns);
        let g = self.groups_on(&column, &["0", "1"], of_update, more_update);
        let low = if self.random.chance(15) { "1" } else { "2" };
        let f = self.groups_on(&column, &[low, "3", "3", "2"], of_question, more_question);
        let f = if self.random.chance(30) { f.replacen("= 3", "= ?", 1) } else { f };
        // A null test counts one, and is false of the update's constants.
        let f = if self.random.chance(35) { f.replacen("= 3", "IS NULL", 1) } else { f };
        let question = self.question_of(&table, &column, &f);
        self.add(&question);
        let set = self.random.pick(&["0", "?", "1"]);
        let update = if delete {
            format!("DELETE FROM {table} WHERE {g}")
        } else {
            format!("UPDATE {table} SET {column} = {set} WHERE {g}")
        };
        self.add(&words(&update));
        self.try_last_pair();
    }

    /// A question and an update with several of its marks in the class of the question's mark.
    fn mark_pair(&mut self) {
        let (table, columns) = self.some_table();
        let (c, d) = (self.column(&columns), self.column(&columns));
        let f = self.random.pick(&["c = ?", "c = ? AND d = c", "? = d AND c = d", "? = ? AND ? = c", "c = ? OR d = ?"]);
        let g = self.random.pick(&["c = ? AND c = ?", "? = d AND d = c AND ? = c", "c = ? AND d = ? AND c = d", "? = ? AND c = ?"]);
        let named = |text: &str| {
            let word = |w: &str| match w {
                "c" => c.clone(),
                "d" => d.clone(),
                _ => w.to_string(),
            };
            text.split(' ').map(word).collect::<Vec<_>>().join(" ")
        };
        let question = self.question_of(&table, &d, &named(f));
        self.add(&question);
        let update = match self.random.below(4) {
            0 => format!("UPDATE {table} SET {c} = ? WHERE {}", named(g)),
            1 => format!("INSERT INTO {table} VALUES ( {} )", vec!["?"; columns.len()].join(" , ")),
            _ => format!("DELETE FROM {table} WHERE {}", named(g)),
        };
        self.add(&words(&update));
        for _ in 0..self.random.between(1, 4) {
            self.try_last_pair();
        }
    }

    /// A comparison, often negated, with a constant and an update of rows with a constant at or beside it; or of two
    /// columns, and an update of rows where these are equal.
    fn opposite_pair(&mut self) {
        let (table, columns) = self.some_table();
        let (c, d) = (self.column(&columns), self.column(&columns));
        let relation = self.random.pick(&RELATIONS);
        let of_columns = self.random.chance(30);
        let f = format!("{c} {relation} {}", if of_columns { &d } else { "2" });
        let f = if self.random.chance(70) { format!("NOT {f}") } else { f };
        let question = self.question_of(&table, &c, &f);
        self.add(&question);
        let beside = self.random.between(1, 3);
        let update = match self.random.below(3) {
            _ if of_columns => format!("DELETE FROM {table} WHERE {d} = {c}"),
            0 => format!("UPDATE {table} SET {c} = {beside} WHERE {c} = {}", self.random.between(1, 3)),
            1 => format!("INSERT INTO {table} VALUES ( {} )", vec![beside.to_string(); columns.len()].join(" , ")),
            _ => format!("DELETE FROM {table} WHERE {c} = {beside}"),
        };
        self.add(&words(&update));
        self.try_last_pair();
    }

    /// A question over a table; now and then over this and another one, which it leaves free.
    fn question_of(&mut self, table: &str, selected: &str, f: &str) -> Vec<String> {
        let alone = words(&format!("SELECT {selected} FROM {table} WHERE {f}"));
        let mut others: Vec<String> = self.front.store.catalogue.tables.iter().map(|t| t.name.clone()).collect();
        others.retain(|name| !same_name(name, table));
        if others.is_empty() || self.random.chance(65) {
            return alone;
        }
        let other = self.random.pick(&others);
        let from = if self.random.chance(50) { format!("{table} , {other}") } else { format!("{other} , {table}") };
        let dotted = |text: &str| {
            let word = |w: &str| if is_name(w.as_bytes()) { format!("{table}.{w}") } else { w.to_string() };
            text.split(' ').map(word).collect::<Vec<_>>().join(" ")
        };
        let paired = format!("SELECT {} FROM {from} WHERE {}", dotted(selected), dotted(f));
        if paired.len() > 256 {
            return alone;
        }
        dotted_words(&paired)
    }

    /// The last question asked, the last update done, the same asked again.
    fn try_last_pair(&mut self) {
        let question = self.front.store.catalogue.questions.len().wrapping_sub(1);
        let update = self.front.store.catalogue.updates.len().wrapping_sub(1);
        let (Some(q), Some(u)) =
            (self.front.store.catalogue.questions.get(question), self.front.store.catalogue.updates.get(update))
        else {
            return;
        };
        let (question_marks, update_marks) = (q.marks, u.marks);
        self.try_pair((question, question_marks), (update, update_marks));
    }

    /// A question asked, an update done, the same asked again; numbers and marks.
    fn try_pair(&mut self, question: (usize, usize), update: (usize, usize)) {
        let asked_values = self.values(question.1);
        let buffer = match self.mode {
            Mode::Calls => format!(" {}", self.enough(question.0, &asked_values)),
            Mode::Desk => String::new(),
        };
        let asked = format!("ASK {}{buffer}{}", question.0, self.written(&asked_values));
        self.emit_text(&asked);
        let mut values = self.values(update.1);
        if !asked_values.is_empty() && self.random.chance(50) {
            for value in &mut values {
                if self.random.chance(50) {
                    *value = self.random.pick(&asked_values);
                }
            }
        }
        let done = format!("{}{}", update.0, self.written(&values));
        self.done(&done);
        self.emit_text(&asked);
    }

    // ------------------------------------------------------------ capitals in names

    /// The tokens with names in other letters, at each use anew: most small, some with capitals.
    fn recased(&mut self, tokens: &[String]) -> Vec<String> {
        let plain = if self.profile == Profile::Misses { 30 } else { 55 };
        let way = self.random.below(100);
        let mut all = Vec::new();
        for token in tokens {
            let token = match token {
                name if !is_name(name.as_bytes()) => name.clone(),
                name if way < plain => name.to_ascii_lowercase(),
                // As the keypad types.
                name if way >= 92 => self.in_capitals(name),
                name => self.in_some_capitals(name),
            };
            all.push(token);
        }
        all
    }

    /// Seldom a keyword: then the text is mostly none.
    fn in_capitals(&mut self, name: &str) -> String {
        let capitals = name.to_ascii_uppercase();
        if KEYWORDS.contains(&capitals.as_str()) && self.random.chance(90) {
            return name.to_ascii_lowercase();
        }
        capitals
    }

    fn in_some_capitals(&mut self, name: &str) -> String {
        let mut letters = name.to_ascii_lowercase().into_bytes();
        match self.random.below(10) {
            0..=3 => {}
            4 | 5 => return self.in_capitals(name),
            6 => letters[0].make_ascii_uppercase(),
            7 => letters[1..].make_ascii_uppercase(),
            _ => letters.iter_mut().filter(|_| self.random.chance(50)).for_each(|b| b.make_ascii_uppercase()),
        }
        if KEYWORDS.iter().any(|keyword| keyword.as_bytes() == letters) {
            return self.in_capitals(name);
        }
        String::from_utf8(letters).expect("a name is ASCII")
    }

    /// A keyword in letters that make it a name.
    fn no_keyword(&mut self, keyword: &str) -> String {
        let mut letters = keyword.as_bytes().to_vec();
        let at = self.random.below(letters.len());
        match self.random.below(4) {
            0 => letters.make_ascii_lowercase(),
            1 => letters[1..].make_ascii_lowercase(),
            _ => letters[at].make_ascii_lowercase(),
        }
        String::from_utf8(letters).expect("a keyword is ASCII")
    }

    /// Texts about capitals that miss by a little; some are taken.
    fn name_miss(&mut self) -> Vec<String> {
        let (table, columns) = self.some_table();
        let (c, d) = (self.column(&columns), self.column(&columns));
        let odd = self.random.pick(&[
            "_A", "1A", "A_", "A1", "A_1", "ROWS3", "ROWS_", "3ROWS", "NOT_", "AND3", "-A", "1_A", "A-1", "ROWSROWS", "É", "aÉ",
            "RING3", "RING_", "RINGS", "3RING", "aRING", "NULL3", "NULL_", "NULLS", "3NULL", "aNULL", "ISNULL", "IS3", "IS_", "3IS",
            "ABCDEFGHIJKL", "ABCDEFGHIJKLM", "ABCDEFGHIJK_", "ABCDEFGHIJK_1", "Z0123456789Z", "Z0123456789ZZ", "A.B", "K\u{212a}",
            "A@", "@A", "A[", "[A", "A`", "`A", "A{", "{A",
        ]);
        let keyword = self.random.pick(&KEYWORDS);
        let near = self.no_keyword(keyword);
        let (upper, lower) = (table.to_ascii_uppercase(), table.to_ascii_lowercase());
        let later = self.random.pick(&LATER).to_ascii_uppercase();
        let miss = match self.random.below(22) {
            0..=5 => return self.with_misspelled_keyword(),
            6..=8 => return self.with_keyword_for_name(),
            // Keywords in other letters, and odd words, as names.
            9 => format!("TABLE {near} ( {near} , {c} ) ROWS 2"),
            10 => format!("SELECT {near} FROM {table}"),
            11 => format!("DELETE FROM {near} WHERE {near} = 1"),
            12 => format!("TABLE {odd} ( a ) ROWS 1"),
            13 => format!("TABLE new ( {odd} ) ROWS 1"),
            14 => format!("SELECT {c} FROM {table} WHERE {odd} = 1"),
            15 => format!("TABLE new ( a ) {} 3", self.random.pick(&["Rows", "rows", "ROWs", "ROWS3", "ROWS_", "rOWS", "Ring", "ring", "RINg", "RING3", "RING_"])),
            // Taken, repeated, or named twice.
            16 => format!("TABLE {} ( a ) ROWS 1", self.random.pick(&[&upper, &lower])),
            17 => format!("TABLE new ( {} , {c} , b1 ) ROWS 1", c.to_ascii_uppercase()),
            18 => format!("UPDATE {upper} SET {} = 1 , {} = ?", c.to_ascii_uppercase(), c.to_ascii_lowercase()),
            19 => format!("SELECT {upper} . {c} FROM {lower} , {upper} WHERE {table} . {} > ?", d.to_ascii_uppercase()),
            // Words that later requests make keywords.
            20 => format!("TABLE {later} ( {later} ) ROWS 1"),
            _ => format!("SELECT {later} FROM {table} WHERE {c} = {later}"),
        };
        words(&miss)
    }

    /// A place of the tokens where such a word stands.
    fn place_of(&mut self, tokens: &[String], is_such: fn(&str) -> bool) -> Option<usize> {
        let places: Vec<usize> = (0..tokens.len()).filter(|&at| is_such(&tokens[at])).collect();
        (!places.is_empty()).then(|| self.random.pick(&places))
    }

    /// A statement with one of its keywords in other letters.
    fn with_misspelled_keyword(&mut self) -> Vec<String> {
        let mut tokens = self.recased_statement();
        if let Some(at) = self.place_of(&tokens, |token| KEYWORDS.contains(&token)) {
            tokens[at] = self.no_keyword(&tokens[at].clone());
        }
        tokens
    }

    /// A statement with a keyword for one of its names.
    fn with_keyword_for_name(&mut self) -> Vec<String> {
        let mut tokens = self.recased_statement();
        if let Some(at) = self.place_of(&tokens, |token| is_name(token.as_bytes())) {
            tokens[at] = self.random.pick(&KEYWORDS).to_string();
        }
        tokens
    }

    fn recased_statement(&mut self) -> Vec<String> {
        let tokens = self.statement();
        self.recased(&tokens)
    }

    // ------------------------------------------------------------ statements

    fn where_part(&mut self, columns: &[String], marks: &mut usize) -> Vec<String> {
        if self.random.chance(6) {
            return vec![];
        }
        let mut all = words("WHERE");
        if self.profile == Profile::Counts && self.random.chance(80) {
            all.extend(self.groups(columns, marks));
            return all;
        }
        let n = match self.profile {
            Profile::Patterns => self.random.between(1, 8),
            Profile::Repeats | Profile::Large => self.random.between(1, 2),
            _ => self.random.pick(&[1, 1, 1, 2, 2, 2, 3, 3, 4, 5, 8]),
        };
        let room = self.random.pick(&[8, 8, 8, 3, 9]);
        all.extend(self.condition(n, room, columns, marks));
        all
    }

    /// A table's name and columns; now and then a name that may be unknown.
    fn some_table(&mut self) -> (String, Vec<String>) {
        let tables = &self.front.store.catalogue.tables;
        if tables.is_empty() || self.random.below(60) == 0 {
            let columns = COLUMN_NAMES.iter().map(|c| c.to_string()).collect();
            return (self.random.pick(&TABLE_NAMES).to_string(), columns);
        }
        let table = self.random.pick(tables);
        (table.name, table.columns)
    }

    fn listed(items: Vec<Vec<String>>) -> Vec<String> {
        let mut all = Vec::new();
        for (i, item) in items.into_iter().enumerate() {
            if i > 0 {
                all.push(String::from(","));
            }
            all.extend(item);
        }
        all
    }

    fn table_text(&mut self) -> Vec<String> {
        let catalogue = &self.front.store.catalogue;
        let mut name = self.random.new_name(&TABLE_NAMES);
        for _ in 0..6 {
            if catalogue.tables.iter().any(|t| same_name(&t.name, &name)) && self.random.chance(90) {
                name = self.random.new_name(&TABLE_NAMES);
            }
        }
        let count = match self.profile {
            Profile::Large => self.random.pick(&[1, 2, 4, 7, 8, 8]),
            Profile::Misses | Profile::Openings => self.random.between(1, 8),
            _ => self.random.pick(&[1, 2, 2, 2, 3, 3, 4, 8]),
        };
        // Some columns have the names of another table's.
        let others: Vec<String> = catalogue.tables.last().map_or(vec![], |table| table.columns.clone());
        let mut columns: Vec<String> = Vec::new();
        while columns.len() < count {
            let mut column = self.random.new_name(&COLUMN_NAMES);
            if !others.is_empty() && self.random.chance(40) {
                column = self.random.pick(&others);
            }
            if !has_name(&columns, &column) || self.random.below(100) == 0 {
                columns.push(column);
            }
        }
        let left = self.front.lent.0.saturating_sub(self.front.store.catalogue.cells_used());
        // Small rings fill soon and run round often.
        let is_ring = self.random.chance(if self.profile == Profile::Full { 50 } else { 34 });
        let small = self.random.pick(&[1, 2, 2, 3, 3, 3, 4, 5, 8]);
        let rows = match self.profile {
            Profile::Openings if is_ring && self.random.chance(70) => small,
            Profile::Large if is_ring => self.random.pick(&[512, 128, 127, 20, 5, 3]),
            Profile::Full | Profile::Openings | Profile::Large => 0,
            _ if is_ring && self.random.chance(94) => small.min((left / count).clamp(1, 512)),
            _ => 0,
        };
        let rows = match self.profile {
            _ if rows > 0 => rows,
            Profile::Full if self.random.chance(40) => (left / count + self.random.below(2)).min(9),
            Profile::Full => self.random.between(1, 4),
            Profile::Openings if self.mode == Mode::Desk && left / count > 512 => self.random.pick(&[512, 500, 333]),
            Profile::Openings if self.random.chance(60) => left / count + self.random.below(2),
            Profile::Large => self.random.pick(&[512, 512, 511, 128, 127]),
            _ => self.random.pick(&[3, 5, 8, 16, 24, 40, 1, 512]).min((left / count).clamp(1, 512)),
        };
        let mut all = words("TABLE");
        all.extend([name, String::from("(")]);
        all.extend(Self::listed(columns.into_iter().map(|column| vec![column]).collect()));
        all.extend([")", if is_ring { "RING" } else { "ROWS" }].map(String::from));
        all.push(rows.to_string());
        all
    }

    fn select_text(&mut self) -> Vec<String> {
        if self.random.chance(35) {
            return self.pair_text();
        }
        self.single_text()
    }

    fn single_text(&mut self) -> Vec<String> {
        let (table, columns) = self.some_table();
        let mut marks = 8;
        let count = match self.profile {
            Profile::Large => self.random.pick(&[1, 4, 8, 8]),
            _ => self.random.pick(&[1, 1, 1, 2, 2, 3, 7, 8]),
        };
        let selected: Vec<Vec<String>> = (0..count).map(|_| vec![self.column(&columns)]).collect();
        let mut all = words("SELECT");
        all.extend(Self::listed(selected));
        all.extend([String::from("FROM"), table]);
        all.extend(self.where_part(&columns, &mut marks));
        all
    }

    /// Two different tables, mostly such as hold rows.
    fn some_pair(&mut self) -> Option<[Named; 2]> {
        let count = self.front.store.catalogue.tables.len();
        if count < 2 {
            return None;
        }
        let mut found = [0, 1];
        for _ in 0..4 {
            let first = self.random.below(count);
            found = [first, (first + self.random.between(1, count - 1)) % count];
            if found.iter().all(|&table| self.front.store.height(table) > 0) {
                break;
            }
        }
        Some(found.map(|n| {
            let table = &self.front.store.catalogue.tables[n];
            (table.name.clone(), table.columns.clone())
        }))
    }

    /// A comparison of a column of the one table with one of the other, often of the same name.
    fn join(&mut self, first: &[String], second: &[String]) -> Vec<String> {
        let name = |column: &String| column.split('.').nth(1).map(str::to_lowercase);
        let left = self.random.pick(first);
        let mut right = self.random.pick(second);
        if let Some(same) = second.iter().find(|&column| name(column) == name(&left)) {
            if self.random.chance(60) {
                right = same.clone();
            }
        }
        let relation = if self.random.chance(75) { "=" } else { self.random.pick(&RELATIONS) };
        if self.random.chance(50) {
            vec![left, relation.to_string(), right]
        } else {
            vec![right, relation.to_string(), left]
        }
    }

    fn pair_where(&mut self, first: &[String], second: &[String], marks: &mut usize) -> Vec<String> {
        let both = [first, second].concat();
        if self.random.chance(25) {
            return self.where_part(&both, marks);
        }
        let mut all = words("WHERE");
        all.extend(self.join(first, second));
        if self.random.chance(75) {
            all.push(self.random.pick(&["AND", "AND", "AND", "OR"]).to_string());
            if self.profile == Profile::Counts && self.random.chance(60) {
                all.extend(self.groups(&both, marks));
            } else {
                let n = match self.profile {
                    Profile::Patterns => self.random.between(1, 5),
                    _ => self.random.pick(&[1, 1, 1, 2, 3]),
                };
                let room = self.random.pick(&[8, 8, 8, 3, 9]);
                all.extend(self.condition(n, room, &both, marks));
            }
        }
        all
    }

    /// A question over two tables.
    fn pair_text(&mut self) -> Vec<String> {
        if self.random.chance(35) {
            return self.outer_text();
        }
        let mut made = Vec::new();
        for _ in 0..4 {
            let Some(pair) = self.some_pair() else {
                return self.single_text();
            };
            let [first, second] = [dotted(&pair[0]), dotted(&pair[1])];
            let both = [first.clone(), second.clone()].concat();
            let count = match self.profile {
                Profile::Large => self.random.pick(&[1, 1, 1, 2, 8]),
                _ => self.random.pick(&[1, 1, 1, 1, 2, 2, 3, 8]),
            };
            let selected: Vec<Vec<String>> = (0..count).map(|_| vec![self.column(&both)]).collect();
            let mut all = words("SELECT");
            all.extend(Self::listed(selected));
            all.extend(["FROM", &pair[0].0, ",", &pair[1].0].map(String::from));
            all.extend(self.pair_where(&first, &second, &mut 8));
            made = dotted_words(&all.join(" "));
            if all.join(" ").len() <= 256 {
                break;
            }
        }
        made
    }

    /// A question that joins two tables, and an update of one of them.
    fn join_pair(&mut self) {
        let Some(mut pair) = self.some_pair() else {
            return self.ask();
        };
        let x = self.random.pick(&pair[0].1);
        let y = if has_name(&pair[1].1, &x) && self.random.chance(60) { x.clone() } else { self.random.pick(&pair[1].1) };
        let (v, w) = (self.random.pick(&pair[0].1), self.random.pick(&pair[1].1));
        let f = self.random.pick(&[
            "x = ? AND x = y",
            "y = ? AND x = y",
            "x = y",
            "? = x AND y = x AND w = ?",
            "x = y AND y = 2",
            "x = 1 AND y = ?",
            "x < y AND v = ?",
            "NOT x <> y AND y = ?",
            "x = ? OR y = ?",
            "x = y AND y < v AND v = ?",
            "x = y AND v = w AND w = ?",
            "x <> ? AND y = x",
            "x = y AND y <> v AND v = x",
            "x = y AND w IS NULL",
            "x IS NULL AND y = ?",
            "x = y AND NOT v IS NULL AND y = ?",
            "x IS NOT NULL AND y IS NULL OR w = ?",
            "NOT ( x < y OR w IS NULL )",
        ]);
        let selected = self.random.pick(&["x", "y", "v", "w", "v , w", "w , x , y"]);
        let named = |text: &str| {
            let word = |word: &str| match word {
                "x" => format!("{}.{x}", pair[0].0),
                "v" => format!("{}.{v}", pair[0].0),
                "y" => format!("{}.{y}", pair[1].0),
                "w" => format!("{}.{w}", pair[1].0),
                _ => word.to_string(),
            };
            text.split(' ').map(word).collect::<Vec<_>>().join(" ")
        };
        let from = format!("{} , {}", pair[0].0, pair[1].0);
        self.add(&dotted_words(&format!("SELECT {} FROM {from} WHERE {}", named(selected), named(f))));
        let side = self.random.below(2);
        let (c, d) = if side == 0 { (x, v) } else { (y, w) };
        let (table, columns) = std::mem::take(&mut pair[side]);
        let update = match self.random.below(13) {
            0 | 1 => self.insert_into(&table, columns.len()),
            9 => words(&format!("UPDATE {table} SET {c} = -2147483648 WHERE {d} = ?")),
            10 => words(&format!("UPDATE {table} SET {c} = ? WHERE {c} IS NULL")),
            11 => words(&format!("DELETE FROM {table} WHERE {c} IS NULL")),
            12 => self.insert_with_null(&table, columns.len()),
            2 => words(&format!("UPDATE {table} SET {c} = ? WHERE {c} = ?")),
            3 => words(&format!("UPDATE {table} SET {d} = ? WHERE {c} = ?")),
            4 => words(&format!("UPDATE {table} SET {c} = ? WHERE {d} = ?")),
            5 => words(&format!("UPDATE {table} SET {c} = 2 WHERE {d} = 1")),
            6 => words(&format!("DELETE FROM {table} WHERE {c} = ?")),
            7 => words(&format!("DELETE FROM {table} WHERE {c} = ? AND {d} = ?")),
            _ => words(&format!("DELETE FROM {table} WHERE {d} = 1")),
        };
        self.add(&update);
        for _ in 0..self.random.between(1, 3) {
            self.try_last_pair();
        }
    }

    /// A question over two tables that there is, and an update that there is of one of them.
    fn touch_pair(&mut self) {
        let catalogue = &self.front.store.catalogue;
        let mut found: Vec<((usize, usize), (usize, usize))> = Vec::new();
        for (q, question) in catalogue.questions.iter().enumerate().filter(|(_, q)| q.tables.len() == 2) {
            for (u, update) in catalogue.updates.iter().enumerate().filter(|(_, u)| question.tables.contains(&u.table)) {
                found.push(((q, question.marks), (u, update.marks)));
            }
        }
        if found.is_empty() {
            return self.ask();
        }
        let (question, update) = self.random.pick(&found);
        self.try_pair(question, update);
    }

    // ------------------------------------------------------------ rows read in a pair

    fn outer_item(&mut self) -> &'static str {
        match self.random.below(100) {
            0..=36 => self.random.pick(&OF_FIRST),
            37..=43 => self.random.pick(&OF_NO_COLUMN),
            44..=52 => self.random.pick(&OF_SECOND),
            53..=64 => self.random.pick(&OF_BOTH),
            _ => self.random.pick(&WRAPPED),
        }
    }

    /// A question over two tables with a row of ANDs: comparisons of the first table's columns and of none, by which some of
    /// its rows go, others, and some in parentheses or under NOT; now and then an OR beside them.
    fn outer_text(&mut self) -> Vec<String> {
        let mut made = Vec::new();
        for _ in 0..4 {
            let Some(pair) = self.some_pair() else {
                return self.single_text();
            };
            let places = [0, 0, 1, 1].map(|which| self.random.pick(&dotted(&pair[which])));
            let table = self.front.store.catalogue.tables.iter().position(|t| t.name == pair[0].0).expect("it is there");
            let items: Vec<&str> = (0..self.random.pick(&[1, 1, 2, 2, 2, 3, 3])).map(|_| self.outer_item()).collect();
            let mut f = items.join(" AND ");
            match self.random.below(100) {
                0..=5 => f = format!("{f} OR {}", self.outer_item()),
                6..=9 => f = format!("{} OR {f}", self.outer_item()),
                10..=12 => f = format!("( {f} )"),
                13..=20 => f = format!("( {f} ) AND {}", self.outer_item()),
                21..=24 => f = format!("NOT ( {} ) AND {}", items.join(" OR "), self.outer_item()),
                _ => {}
            }
            let [x, v, y, w] = &places;
            let mut named: Vec<String> = Vec::new();
            for word in f.split(' ') {
                named.push(match word {
                    "x" => x.clone(),
                    "v" => v.clone(),
                    "y" => y.clone(),
                    "w" => w.clone(),
                    // A null in the text is rare: a comparison with it is never true.
                    "n" => self.ring_value(table).max(NULL + 1).to_string(),
                    _ => word.to_string(),
                });
            }
            let selected = self.random.pick(&[x, v, y, w]).to_string();
            let text = format!("SELECT {selected} FROM {} , {} WHERE {}", pair[0].0, pair[1].0, named.join(" "));
            made = dotted_words(&text);
            if text.len() <= 256 {
                break;
            }
        }
        made
    }

    /// Values for a question over two tables: of one row of its first table where a mark is compared with a column of it,
    /// the constant that it is compared with, or any.
    fn outer_values(&mut self, question: &Question) -> Vec<i32> {
        let mut values: Vec<i32> = (0..question.marks).map(|_| self.value()).collect();
        let rows = self.front.store.rows_now(question.tables[0]).to_vec();
        let row = if rows.is_empty() { vec![] } else { self.random.pick(&rows) };
        for comparison in question.condition.as_ref().map_or(vec![], Condition::comparisons) {
            let Condition::Compare(left, _, right) = comparison else { continue };
            for (one, other) in [(left, right), (right, left)] {
                let Operand::Mark(mark) = *one else { continue };
                match *other {
                    Operand::Column(column) if column.table == question.tables[0] && self.random.chance(85) => {
                        values[mark - 1] = row.get(column.place).copied().unwrap_or(values[mark - 1]);
                    }
                    Operand::Constant(constant) if self.random.chance(75) => values[mark - 1] = constant,
                    _ => {}
                }
            }
        }
        values
    }

    /// Rows for both tables of a question over two, some of them with nulls, and asks of it.
    fn outer_calls(&mut self) {
        let questions = self.front.store.catalogue.questions.iter().enumerate();
        let pairs: Vec<usize> = questions.filter(|(_, q)| q.tables.len() == 2).map(|(n, _)| n).collect();
        if pairs.is_empty() {
            return self.ask();
        }
        // Mostly one with comparisons that count, or would outside OR, NOT and parentheses.
        let mut n = self.random.pick(&pairs);
        for _ in 0..3 {
            let question = &self.front.store.catalogue.questions[n];
            let everywhere = vec![true; question.outer().len()];
            if question.outer_of_first(&everywhere).is_empty() && self.random.chance(80) {
                n = self.random.pick(&pairs);
            }
        }
        let question = self.front.store.catalogue.questions[n].clone();
        for &table in &question.tables {
            let rows = self.front.store.height(table);
            for _ in rows..self.random.pick(&[rows, rows + 1, 2, 3]) {
                if let Some((insert, marks)) = self.update_of(table, |change| matches!(change, Change::Insert(_))) {
                    let values: Vec<i32> = (0..marks).map(|_| self.value()).collect();
                    let text = self.written(&values);
                    self.done(&format!("{insert}{text}"));
                }
            }
        }
        for _ in 0..self.random.between(1, 3) {
            let values = self.outer_values(&question);
            let buffer = match self.mode {
                Mode::Calls => format!(" {}", self.enough(n, &values)),
                Mode::Desk => String::new(),
            };
            let text = self.written(&values);
            self.emit_text(&format!("ASK {n}{buffer}{text}"));
        }
        if self.mode == Mode::Calls && self.random.chance(40) {
            self.spoil_outer(n);
        }
    }

    /// Calls: other marks for some question's comparisons, mostly of one with comparisons that may not be marked.
    fn spoil_some_outer(&mut self) {
        let state = self.front.store.state();
        let mut n = 0;
        for _ in 0..4 {
            n = self.random.below(state.questions.len() + 1);
            let part = state.questions.get(n).and_then(Option::as_ref);
            if part.is_some_and(|part| part.second.is_some() && part.may_be_outer.contains(&false)) {
                break;
            }
        }
        self.spoil_outer(n);
    }

    /// Calls: other marks for a question's comparisons: its own, some of those that may be marked, one more, or any.
    fn spoil_outer(&mut self, n: usize) {
        let mask = |marks: &[bool]| marks.iter().enumerate().map(|(i, &mark)| usize::from(mark) << i).sum::<usize>();
        let state = self.front.store.state();
        let part = state.questions.get(n).and_then(Option::as_ref);
        let (own, may_be) = part.map_or((0, 0), |part| (mask(&part.outer), mask(&part.may_be_outer)));
        let count = part.map_or(0, |part| part.outer.len());
        let past = 255 >> count << count;
        let k = match self.random.below(14) {
            0 => own,
            1 => may_be,
            2..=4 => may_be & self.random.below(256),
            5..=9 => may_be & self.random.below(256) | 1 << self.random.below(count),
            10 => own | past,
            11 => own & self.random.below(256) | past & self.random.below(256),
            12 => self.random.pick(&[0, 1, 2, 128, 255]),
            _ => self.random.below(256),
        };
        self.emit_text(&format!("SPOIL qouter {n} {k}"));
    }

    /// What the line shows of the comparisons that rows read in a pair go by, and how often.
    fn outer_outcomes(&self, line: &[u8], printed: &str) -> Vec<(String, usize)> {
        let store = &self.front.store;
        let text = String::from_utf8_lossy(line);
        let words: Vec<&str> = text.split(' ').collect();
        if text.starts_with("SPOIL qouter ") {
            return vec![(self.outer_spoil_outcome(&words, printed), 1)];
        }
        let n: Option<usize> = words.get(1).and_then(|word| word.parse().ok());
        let Some(question) = n.and_then(|n| store.catalogue.questions.get(n)).filter(|q| q.tables.len() == 2) else {
            return vec![];
        };
        if words[0] != "ASK" || !printed.starts_with("new") {
            return vec![];
        }
        let first_value = if self.mode == Mode::Calls { 3 } else { 2 };
        let given = words.iter().skip(first_value).map(|word| constant(word.as_bytes()).flatten());
        let values: Vec<i32> = given.collect::<Option<_>>().expect("an answered question has its values");
        let [first, second] = question.tables[..] else { unreachable!("two tables") };
        let (r1, r2) = (store.height(first), store.height(second));
        let such = question.outer_of_first(&question.outer());
        let mut all = Vec::new();
        if r1 == 0 || r2 == 0 {
            all.push((format!("answer new, the {} table empty", if r1 == 0 { "first" } else { "second" }), 1));
        }
        let Some(condition) = &question.condition else {
            all.push((String::from("answer new, none such: no WHERE"), 1));
            return all;
        };
        if such.is_empty() {
            // Those that would count elsewhere, by what hides them.
            let all_of_first = question.outer_of_first(&vec![true; condition.comparisons().len()]);
            let is_of_first = |one: &Condition<Operand>| all_of_first.iter().any(|other| std::ptr::eq(*other, one));
            let places = condition.comparisons().into_iter().zip(hidden(condition));
            let mut by: Vec<&str> = places.filter(|(one, _)| is_of_first(one)).filter_map(|(_, by)| by).collect();
            by.sort_unstable();
            by.dedup();
            let why = if by.is_empty() { String::from("all name the second table") } else { format!("for {}", by.join(", ")) };
            all.push((format!("answer new, none such: {why}"), 1));
            return all;
        }
        if r1 == 0 {
            return all;
        }
        let rows = store.rows_now(first);
        let m = rows.iter().filter(|row| all_true(&such, first, row, &values)).count();
        let how = match m {
            0 => "m is 0",
            _ if m < r1 => "m between 0 and r1",
            _ => "m is r1, with such a comparison",
        };
        all.push((format!("answer new, {how}"), 1));
        if such.len() < condition.comparisons().len() {
            all.push((format!("answer new, {how}, beside other comparisons"), 1));
        }
        let truth_of = |one: &Condition<Operand>, row: &Vec<i32>| truth(&Some(one.clone()), &[(first, row)], &values);
        let unknown = |row: &&Vec<i32>| {
            let truths: Vec<Truth> = such.iter().map(|one| truth_of(one, row)).collect();
            truths.contains(&Truth::Unknown) && !truths.contains(&Truth::False)
        };
        all.push((String::from("rows of the first table left for unknown alone"), rows.iter().filter(unknown).count()));
        if such.iter().any(|one| matches!(one, Condition::Null(..))) {
            all.push((format!("answer new with a null test that counts, {how}"), 1));
        }
        let is_free = |one: &&Condition<Operand>| {
            matches!(one, Condition::Compare(left, _, right) if left.table().is_none() && right.table().is_none())
        };
        if such.iter().any(is_free) {
            all.push((format!("answer new with a comparison of no column that counts, {how}"), 1));
        }
        all
    }

    /// Of a line that gives a question's comparisons other marks.
    fn outer_spoil_outcome(&self, words: &[&str], printed: &str) -> String {
        let state = self.front.store.state();
        let (n, k): (usize, usize) = (words[2].parse().expect("a number"), words[3].parse().expect("a number"));
        let Some(part) = state.questions.get(n).and_then(Option::as_ref) else {
            return format!("marks of no question, {printed}");
        };
        let marks: Vec<bool> = (0..part.outer.len()).map(|i| k >> i & 1 == 1).collect();
        let over = if part.second.is_some() { "two tables" } else { "one table" };
        let which = match () {
            _ if self.front.lent != (state.cells, state.bytes) => "other lengths lent",
            _ if marks == part.outer && k >> marks.len() != 0 => "its own and some past its comparisons",
            _ if marks == part.outer => "its own",
            _ if marks.iter().zip(&part.may_be_outer).any(|(is, may_be)| *is && !may_be) => "some that no text has",
            _ if marks.iter().zip(&part.outer).any(|(is, own)| *is && !own) => "some that another text has",
            _ => "fewer than its own",
        };
        format!("marks of a question over {over}: {which}, {printed}")
    }

    // ------------------------------------------------------------ fewer answers dropped

    /// A number that conditions are made of: small, or at an end of the range.
    fn bound(&mut self) -> i32 {
        let ends = match self.profile {
            Profile::Edges => 55,
            Profile::Mixed => 15,
            _ => 5,
        };
        if self.random.chance(ends) {
            let inside = self.random.below(3) as i32;
            return if self.random.chance(50) { i32::MAX - inside } else { i32::MIN + 1 + inside };
        }
        self.random.below(7) as i32 - 1
    }

    /// Three of the columns, different ones where there are as many.
    fn three(&mut self, columns: &[String]) -> [String; 3] {
        let at = self.random.below(columns.len());
        [0, 1, 2].map(|i| columns[(at + i) % columns.len()].clone())
    }

    /// A text of `BOUNDED` or `MET` with its columns and numbers.
    fn bounded(&mut self, columns: &[String; 3], text: &str) -> String {
        let n = self.bound();
        let m = n.saturating_add(self.random.pick(&[0, 1, 2, 2, 3]));
        let word = |word: &str| match word {
            "c" => columns[0].clone(),
            "d" => columns[1].clone(),
            "e" => columns[2].clone(),
            "n" => n.to_string(),
            "k" => n.saturating_add(1).to_string(),
            "m" => m.to_string(),
            _ => word.to_string(),
        };
        text.split(' ').map(word).collect::<Vec<_>>().join(" ")
    }

    /// A question that takes a range of a column, a few numbers of it, or all but some; now and then over two tables, with a
    /// column beside a column, or without WHERE.
    fn exact_question(&mut self, table: &str, columns: &[String; 3]) -> Vec<String> {
        let selected = self.random.pick(&["c", "c", "d", "d", "c , d", "d , e , c"]);
        let selected = self.bounded(columns, selected);
        if self.random.chance(8) {
            return words(&format!("SELECT {selected} FROM {table}"));
        }
        let f = self.random.pick(&BOUNDED);
        let f = self.bounded(columns, f);
        if self.random.chance(25) {
            return self.question_of(table, &selected, &f);
        }
        words(&format!("SELECT {selected} FROM {table} WHERE {f}"))
    }

    /// An update of such rows.
    fn exact_change(&mut self, table: &Named, columns: &[String; 3]) -> Vec<String> {
        let name = &table.0;
        let met = self.random.pick(&MET);
        let met = self.bounded(columns, met);
        let met = if self.random.chance(8) { String::new() } else { format!(" WHERE {met}") };
        let text = match self.random.below(20) {
            0..=8 => {
                let [c, d, _] = columns;
                let value = match self.random.below(10) {
                    0..=5 => String::from("?"),
                    6 => self.random.pick(&NULLS).to_string(),
                    _ => self.bound().to_string(),
                };
                match self.random.below(10) {
                    0..=6 => format!("UPDATE {name} SET {c} = {value}{met}"),
                    7 if c != d => format!("UPDATE {name} SET {c} = {value} , {d} = ?{met}"),
                    _ => format!("UPDATE {name} SET {d} = {value}{met}"),
                }
            }
            9..=15 => format!("DELETE FROM {name}{met}"),
            _ => return self.insert_into(name, table.1.len()),
        };
        words(&text)
    }

    /// Questions and updates about ranges of one column of a table.
    fn exact_statements(&mut self, table: &Named) {
        let columns = self.three(&table.1);
        for _ in 0..self.random.between(1, 2) {
            let question = self.exact_question(&table.0, &columns);
            self.add(&question);
            let update = self.exact_change(table, &columns);
            self.add(&update);
        }
    }

    /// A question and an update about ranges of one column, tried together.
    fn exact_pair(&mut self) {
        let table = self.some_table();
        let columns = self.three(&table.1);
        let question = self.exact_question(&table.0, &columns);
        self.add(&question);
        let update = self.exact_change(&table, &columns);
        self.add(&update);
        let catalogue = &self.front.store.catalogue;
        let (Some(question), Some(update)) = (catalogue.questions.len().checked_sub(1), catalogue.updates.len().checked_sub(1))
        else {
            return self.ask();
        };
        self.exact_try(question, update);
    }

    /// A question and an update that there are of one table, tried together.
    fn exact_calls(&mut self) {
        let (questions, updates) = (self.front.store.catalogue.questions.len(), self.front.store.catalogue.updates.len());
        if questions == 0 || updates == 0 {
            return self.ask();
        }
        let mut found = (0, 0);
        for _ in 0..30 {
            found = (self.random.below(questions), self.random.below(updates));
            let store = &self.front.store;
            let (question, update) = (&store.catalogue.questions[found.0], &store.catalogue.updates[found.1]);
            let is_full = matches!(update.change, Change::Insert(_)) && store.is_full(update.table);
            let such = question.tables.contains(&update.table) && !is_full && !patterns(question, update).is_empty();
            // Most go by the rule, some beside it.
            if such && (premise(question, update) == Premise::Holds || self.random.chance(20)) {
                break;
            }
        }
        self.exact_try(found.0, found.1);
    }

    /// Values at or close to these numbers, some at the ends of the range or null.
    fn values_near(&mut self, numbers: &[i32], count: usize) -> Vec<i32> {
        let mut values = Vec::new();
        for _ in 0..count {
            let near = self.random.pick(numbers).saturating_add(self.random.pick(&[0, 0, 0, 1, -1, 1, -1, 2, -2]));
            values.push(match self.random.below(25) {
                0 | 1 => NULL,
                2 => self.random.pick(&[i32::MAX, i32::MIN + 1, i32::MAX - 1, i32::MIN + 2]),
                3 => self.bound(),
                _ => near,
            });
        }
        values
    }

    /// The question asked, and perhaps others over the table; the update done with values close to the question's numbers,
    /// and again with a value a little off; the same asked again.
    fn exact_try(&mut self, question: usize, update: usize) {
        let catalogue = &self.front.store.catalogue;
        let (q, u) = (catalogue.questions[question].clone(), catalogue.updates[update].clone());
        let mut numbers = vec![0];
        for comparison in [&q.condition, &u.condition].into_iter().flatten().flat_map(Condition::comparisons) {
            if let Condition::Compare(left, _, right) = comparison {
                let constant = |operand: &Operand| if let Operand::Constant(n) = operand { Some(*n) } else { None };
                numbers.extend([left, right].into_iter().filter_map(constant).filter(|n| *n != NULL));
            }
        }
        let rows = self.front.store.rows_now(u.table).to_vec();
        if !rows.is_empty() {
            let row = self.random.pick(&rows);
            numbers.push(self.random.pick(&row));
        }
        let key = self.values_near(&numbers, q.marks);
        let mut keys = vec![(question, key.clone())];
        if q.marks > 0 && self.random.chance(50) {
            let mut beside = key.clone();
            let at = self.random.below(beside.len());
            beside[at] = beside[at].saturating_add(self.random.pick(&[1, -1]));
            keys.push((question, beside));
        }
        if self.random.chance(40) {
            let all = self.front.store.catalogue.questions.iter().enumerate();
            let others: Vec<(usize, usize)> = all.filter(|(_, q)| q.tables == [u.table]).map(|(n, q)| (n, q.marks)).collect();
            if !others.is_empty() {
                let (n, marks) = self.random.pick(&others);
                keys.push((n, self.values_near(&numbers, marks)));
            }
        }
        let mut asked = Vec::new();
        for (n, values) in keys {
            let buffer = match self.mode {
                Mode::Calls => format!(" {}", self.enough(n, &values)),
                Mode::Desk => String::new(),
            };
            asked.push(format!("ASK {n}{buffer}{}", self.written(&values)));
        }
        asked.iter().for_each(|line| self.emit_text(line));
        // The key's own values count twice.
        numbers.extend(key.iter().filter(|n| **n != NULL));
        numbers.extend(key.iter().filter(|n| **n != NULL));
        let mut values = self.values_near(&numbers, u.marks);
        for _ in 0..self.random.between(1, 4) {
            let text = self.written(&values);
            self.done(&format!("{update}{text}"));
            if self.random.chance(70) {
                asked.iter().for_each(|line| self.emit_text(line));
            }
            if values.is_empty() {
                break;
            }
            let at = self.random.below(values.len());
            values[at] = match self.random.below(12) {
                0 => NULL,
                1 => self.random.pick(&numbers),
                _ => values[at].saturating_add(self.random.pick(&[1, -1, 1, -1, 2, -2])),
            };
        }
        if self.random.chance(50) {
            asked.iter().for_each(|line| self.emit_text(line));
        }
    }

    // ------------------------------------------------------------ what came of the rule that drops fewer

    /// What the line's update made of the answers kept that a pattern matched.
    fn exact_outcomes(&self, line: &[u8], printed: &str, before: Option<&Before>) -> Vec<String> {
        let store = &self.front.store;
        let text = String::from_utf8_lossy(line);
        let (Some(before), Some(rest)) = (before.filter(|_| printed.starts_with("rows ")), text.strip_prefix("DO ")) else {
            return vec![];
        };
        let mut words = rest.split(' ');
        let n: usize = words.next().and_then(|word| word.parse().ok()).expect("an update done has a number");
        let given: Option<Vec<i32>> = words.map(|word| constant(word.as_bytes()).flatten()).collect();
        let values = given.expect("an update done has values");
        let update = &store.catalogue.updates[n];
        let width = store.catalogue.tables[update.table].columns.len();
        let stayed = store.kept_keys();
        let pushed = before.pushed.as_deref();
        let mut all = Vec::new();
        for (n, key) in &before.keys {
            let question = &store.catalogue.questions[*n];
            let agree = |list: Vec<_>| list.iter().any(|pattern| agrees(pattern, &values, key));
            let by_pushed = pushed.is_some_and(|row| agree(patterns_of_pushed(question, update.table, row)));
            if !agree(patterns(question, update)) && !by_pushed {
                continue;
            }
            let dropped = !stayed.contains(&(*n, key.clone()));
            let pair = Pair { question, key, update, values: &values, width };
            match premise(question, update) {
                Premise::Holds => all.extend(exact_reasons(&pair, pushed, by_pushed, dropped)),
                broken => all.push(exact_broken(&pair, pushed, broken)),
            }
        }
        all
    }

    // ------------------------------------------------------------ look before you write

    /// An update is done: its number and values. In `calls` some are proposed first and then committed, now and then with a
    /// call between.
    fn done(&mut self, update: &str) {
        if self.mode == Mode::Desk || !self.random.chance(10) {
            return self.emit_text(&format!("DO {update}"));
        }
        self.emit_text(&format!("PROPOSE {update}"));
        if self.random.chance(30) {
            self.leave_note();
        }
        self.emit_text("COMMIT");
    }

    /// An update to be proposed, mostly of a table with rows, as often an INSERT as an UPDATE or a DELETE; now and then an
    /// INSERT into a full ring.
    fn update_to_propose(&mut self) -> Option<usize> {
        let store = &self.front.store;
        let updates = &store.catalogue.updates;
        let is_insert = |n: &usize| matches!(updates[*n].change, Change::Insert(_));
        let is_of_full_ring = |n: &usize| {
            let table = &store.catalogue.tables[updates[*n].table];
            is_insert(n) && table.ring && store.height(updates[*n].table) == table.rows
        };
        let of_kind = |kind: usize| {
            let is_such = |n: &usize| match kind {
                0 => is_of_full_ring(n),
                1 => is_insert(n) && !store.is_full(updates[*n].table),
                2 => matches!(updates[*n].change, Change::Set(_)) && store.height(updates[*n].table) > 0,
                3 => matches!(updates[*n].change, Change::Delete) && store.height(updates[*n].table) > 0,
                _ => true,
            };
            (0..updates.len()).filter(is_such).collect::<Vec<usize>>()
        };
        let kinds = [0, 0, 1, 1, 2, 2, 2, 2, 3, 3, 3, 3, 4].map(of_kind);
        for _ in 0..6 {
            let found = self.random.pick(&kinds);
            if !found.is_empty() {
                return Some(self.random.pick(&found));
            }
        }
        None
    }

    /// Its number and values, mostly meant for a row that is there.
    fn proposal(&mut self, n: usize) -> String {
        let update = self.front.store.catalogue.updates[n].clone();
        let mut values: Vec<i32> = match self.random.below(10) {
            0 => self.iced_values(&update),
            1..=3 => (0..update.marks).map(|_| self.ring_value(update.table)).collect(),
            _ => (0..update.marks).map(|_| self.value()).collect(),
        };
        let rows = self.front.store.rows_now(update.table).to_vec();
        if !rows.is_empty() && self.random.chance(75) {
            let row = self.random.pick(&rows);
            for (column, mark) in update.condition.as_ref().map_or(vec![], equal_to_marks) {
                values[mark - 1] = row[column.place];
            }
        }
        format!("{n}{}", self.written(&values))
    }

    fn propose(&mut self) {
        match self.update_to_propose() {
            Some(n) => {
                let proposal = self.proposal(n);
                self.emit_text(&format!("PROPOSE {proposal}"));
            }
            None => self.emit_text("PROPOSE 0"),
        }
    }

    /// The number and values of an update that 10, 11 or 12 refuses.
    fn refused_update(&mut self) -> String {
        let store = &self.front.store;
        let updates = &store.catalogue.updates;
        let into_full = |n: &usize| matches!(updates[*n].change, Change::Insert(_)) && store.is_full(updates[*n].table);
        let full: Vec<usize> = (0..updates.len()).filter(into_full).collect();
        let count = updates.len();
        let (n, marks) = match self.random.below(10) {
            0..=4 if !full.is_empty() => {
                let n = self.random.pick(&full);
                (n, updates[n].marks)
            }
            5..=7 if count > 0 => {
                let n = if full.is_empty() || self.random.chance(70) { self.random.below(count) } else { self.random.pick(&full) };
                let marks = updates[n].marks;
                (n, if marks > 0 && self.random.chance(50) { marks - 1 } else { marks + 1 })
            }
            _ => (self.random.pick(&[count, count, count + 1, 15, 16, 17, 255, 256, 2_147_483_647]), self.random.below(3)),
        };
        let values: Vec<i32> = (0..marks).map(|_| self.value()).collect();
        format!("{n}{}", self.written(&values))
    }

    /// A text that is refused, mostly.
    fn refused_text(&mut self) -> String {
        let (table, columns) = self.some_table();
        let c = self.column(&columns);
        let text = match self.random.below(9) {
            0 => format!("SELECT FROM {table}"),
            1 => format!("DELETE FROM {table} WHERE"),
            2 => format!("UPDATE {table} SET {c} = 2147483648"),
            3 => String::from("TABLE new (a) RING 513"),
            4 => String::from("DELETE FROM nil"),
            5 => format!("TABLE {table} (a) ROWS 1"),
            6 => format!("INSERT INTO {table} VALUES ({})", vec!["?"; columns.len() % 8 + 1].join(", ")),
            7 => format!("SELECT {table}.{c} FROM {table}, {table}"),
            _ => " ".repeat(257),
        };
        format!("ADD {text}")
    }

    /// A call that leaves the note as it is.
    fn leave_note(&mut self) {
        let table = self.front.store.note_now().map(|note| self.front.store.catalogue.updates[note.update].table);
        if let Some(ring) = table.filter(|&table| self.front.store.is_wrapped(table)) {
            if self.random.chance(10) {
                // Refused as long as the oldest row does not lie first.
                return self.emit_text(&format!("SPOIL ring {ring} 0"));
            }
        }
        match self.random.below(22) {
            0..=3 => self.ask(),
            4..=9 => match table.and_then(|table| self.ring_ask(table)) {
                Some(line) => self.emit_text(&line),
                None => self.ask(),
            },
            10 | 11 => {
                let (n, values) = self.key();
                let line = match self.random.below(3) {
                    0 => format!("ASK {} 100{}", self.random.pick(&[16, 17, 255, 2_147_483_647]), self.written(&values)),
                    1 if values.len() < 9 => format!("ASK {n} 100{} 1", self.written(&values)),
                    _ => format!("ASK {n} 7{}", self.written(&values)),
                };
                self.emit_text(&line);
            }
            12 | 13 => {
                let update = self.refused_update();
                self.emit_text(&format!("DO {update}"));
            }
            14 | 15 => {
                let update = self.refused_update();
                self.emit_text(&format!("PROPOSE {update}"));
            }
            16 => {
                let text = self.refused_text();
                self.emit_text(&text);
            }
            17 | 18 => self.spoil_note(),
            19 | 20 => self.look_with_wrong_lengths(),
            _ => self.emit_text("SLOTS"),
        }
    }

    /// A call that removes the note, if it is accepted.
    fn remove_note(&mut self) {
        match self.random.below(12) {
            0 | 1 => {
                // Mostly another update than the one that is noted.
                let update = match self.update_to_propose() {
                    Some(n) => self.proposal(n),
                    None => self.some_update(),
                };
                self.emit_text(&format!("DO {update}"));
            }
            2 | 3 => self.emit_text("FLUSH"),
            4 | 5 => self.emit_text("WITHDRAW"),
            6 => self.emit_text("COMMIT"),
            _ => self.add_one_more(),
        }
    }

    /// A text that is taken, of a kind that has a place left.
    fn add_one_more(&mut self) {
        let catalogue = &self.front.store.catalogue;
        let mut kinds: Vec<fn(&mut Generator) -> Vec<String>> = Vec::new();
        if catalogue.tables.len() < 8 && catalogue.cells_used() < self.front.lent.0 {
            kinds.push(Generator::small_table_text);
        }
        if catalogue.questions.len() < 16 {
            kinds.push(Generator::select_text);
        }
        if catalogue.updates.len() < 16 {
            kinds.extend([Generator::insert_text as fn(&mut Generator) -> Vec<String>, Generator::update_text, Generator::delete_text]);
        }
        if kinds.is_empty() {
            return self.emit_text("FLUSH");
        }
        let make = self.random.pick(&kinds);
        self.add_taken(make);
    }

    /// A table that takes few of the cells left.
    fn small_table_text(&mut self) -> Vec<String> {
        let mut tokens = self.table_text();
        let at = tokens.len() - 1;
        tokens[at] = self.random.pick(&["1", "2", "2", "3"]).to_string();
        tokens
    }

    /// Calls with other lengths lent than the opening's, and then with those again.
    fn look_with_wrong_lengths(&mut self) {
        let (cells, bytes) = self.front.lent;
        let (more, less) = ((cells + 1).min(32_769), cells.saturating_sub(1));
        let lent = self.random.pick(&[(less, bytes), (more, bytes), (cells, bytes.saturating_sub(1)), (cells, (bytes + 1).min(262_145))]);
        self.emit_text(&format!("LEND {} {}", lent.0, lent.1));
        for _ in 0..self.random.between(1, 4) {
            match self.random.below(12) {
                0..=2 => self.emit_text("COMMIT"),
                3..=5 => self.emit_text("WITHDRAW"),
                6 | 7 => self.propose(),
                8 => self.emit_text("FLUSH"),
                9 => self.add_one_more(),
                10 => {
                    let update = self.some_update();
                    self.emit_text(&format!("DO {update}"));
                }
                _ => {
                    let update = self.refused_update();
                    self.emit_text(&format!("PROPOSE {update}"));
                }
            }
        }
        self.emit_text(&format!("LEND {cells} {bytes}"));
    }

    /// Another field of the note in a copy of the state.
    fn spoil_note(&mut self) {
        let store = &self.front.store;
        let updates = &store.catalogue.updates;
        let count = updates.len();
        let noted = store.note_now().map_or(0, |note| note.values.len());
        // Those with as many values as are noted, and of these the INSERTs into full tables.
        let as_many: Vec<usize> = (0..count).filter(|&n| updates[n].marks == noted).collect();
        let into_full = |n: &usize| matches!(updates[*n].change, Change::Insert(_)) && store.is_full(updates[*n].table);
        let full: Vec<usize> = as_many.iter().copied().filter(into_full).collect();
        let line = match self.random.below(16) {
            0 => String::from("pending 0"),
            1 => String::from("pending 1"),
            2..=4 if !full.is_empty() => format!("pendingupdate {}", self.random.pick(&full)),
            2..=5 if !as_many.is_empty() => format!("pendingupdate {}", self.random.pick(&as_many)),
            2..=7 => format!("pendingupdate {}", self.random.below(count + 1)),
            8 | 9 => format!("pendingupdate {}", self.random.pick(&[count, count, count + 1, 15, 16, 17, 255])),
            10..=12 => format!("pendingcount {}", self.random.pick(&[noted, noted + 1, noted.saturating_sub(1), 0, 8, 9])),
            13 => format!("pendingcount {}", self.random.pick(&[noted, 1, 16, 255])),
            _ => format!("pendingvalue {} {}", self.random.pick(&[0, noted, 1, 7, 8]), self.value()),
        };
        self.emit_text(&format!("SPOIL {line}"));
    }

    /// A note with as many values as an INSERT into a full table has, and this INSERT in its place; or an INSERT into a full
    /// ring, and no ring in its place.
    fn spoil_towards_full(&mut self) {
        let store = &self.front.store;
        let updates = &store.catalogue.updates;
        let full = |n: usize| {
            let table = &store.catalogue.tables[updates[n].table];
            matches!(updates[n].change, Change::Insert(_)) && store.height(updates[n].table) == table.rows
        };
        let mut found: Vec<(usize, String)> = Vec::new();
        for n in (0..updates.len()).filter(|&n| full(n)) {
            if !store.is_full(updates[n].table) {
                found.push((n, format!("ring {} 0", updates[n].table)));
                continue;
            }
            let others = (0..updates.len()).filter(|&other| updates[other].marks == updates[n].marks);
            let others = others.filter(|&other| !(full(other) && store.is_full(updates[other].table)));
            found.extend(others.map(|other| (other, format!("pendingupdate {n}"))));
        }
        if found.is_empty() {
            return self.spoil_note();
        }
        let (n, spoil) = self.random.pick(&found);
        let proposal = self.proposal(n);
        self.emit_text(&format!("PROPOSE {proposal}"));
        self.emit_text(&format!("SPOIL {spoil}"));
    }

    /// Questions, a proposal, calls that leave the note, replace it or remove it, a commit or withdrawal, and the questions
    /// again.
    fn look_calls(&mut self) {
        let Some(n) = self.update_to_propose() else {
            return self.ask();
        };
        let table = self.front.store.catalogue.updates[n].table;
        let mut asked = Vec::new();
        for _ in 0..self.random.between(0, 2) {
            if let Some(line) = self.ring_ask(table) {
                self.emit_text(&line);
                asked.push(line);
            }
        }
        let proposal = self.proposal(n);
        self.emit_text(&format!("PROPOSE {proposal}"));
        for _ in 0..self.random.pick(&[0, 1, 1, 1, 2, 2, 3]) {
            match self.random.below(40) {
                0..=18 => self.leave_note(),
                19..=21 => asked.iter().for_each(|line| self.emit_text(line)),
                22..=26 => self.propose(),
                27 => self.emit_text(&format!("PROPOSE {proposal}")),
                28 | 29 => {
                    // The same update with other values.
                    let proposal = self.proposal(n);
                    self.emit_text(&format!("PROPOSE {proposal}"));
                }
                30 | 31 => self.spoil_towards_full(),
                _ => self.remove_note(),
            }
        }
        match self.random.below(20) {
            0..=13 => self.emit_text("COMMIT"),
            14..=16 => self.emit_text("WITHDRAW"),
            17 => (0..2).for_each(|_| self.emit_text("COMMIT")),
            18 => ["WITHDRAW", "COMMIT"].iter().for_each(|line| self.emit_text(line)),
            _ => {}
        }
        asked.iter().for_each(|line| self.emit_text(line));
        self.commit_or_withdraw(25);
    }

    fn commit_or_withdraw(&mut self, percent: usize) {
        if self.random.chance(percent) {
            let line = self.random.pick(&["COMMIT", "WITHDRAW"]);
            self.emit_text(line);
        }
    }

    // ------------------------------------------------------------ what came of proposals, commits and withdrawals

    fn count_looks(&mut self, line: &[u8], printed: &str, noted: Option<Note>, before: Option<&Before>) {
        let text = String::from_utf8_lossy(line).to_string();
        let word = text.split(' ').next().unwrap_or_default().to_string();
        let now = self.front.store.note_now().cloned();
        let is_refused = printed.starts_with("refused");
        let kind = |note: &Note| kind_of(&self.front.store.catalogue.updates[note.update].change);
        let call = match &word[..] {
            "OPEN" | "ADD" | "ASK" | "DO" | "FLUSH" | "PROPOSE" | "COMMIT" | "WITHDRAW" if is_refused => format!("{word}, {printed}"),
            "ASK" => format!("ASK, {}", printed.split(' ').next().unwrap_or_default()),
            "ADD" if printed.starts_with("update") => {
                let last = self.front.store.catalogue.updates.last().expect("an update was added");
                format!("ADD of {}", kind_of(&last.change))
            }
            "ADD" => format!("ADD of a {}", printed.split(' ').next().unwrap_or_default()),
            "DO" => {
                let n: usize = text.split(' ').nth(1).and_then(|word| word.parse().ok()).expect("an update done has a number");
                format!("DO of {}", kind_of(&self.front.store.catalogue.updates[n].change))
            }
            "OPEN" | "FLUSH" | "PROPOSE" | "COMMIT" | "WITHDRAW" => word.clone(),
            "SPOIL" if text.starts_with("SPOIL pending") || text.starts_with("SPOIL ring") => word.clone(),
            _ => return,
        };
        let with = if noted.is_some() { "with a note" } else { "without a note" };
        let some = |rows: &str| if rows == "0" { "no row" } else { "rows" };
        let words: Vec<&str> = printed.split(' ').collect();
        let mut all = Vec::new();
        match &word[..] {
            "PROPOSE" | "COMMIT" | "WITHDRAW" if is_refused => {
                all.push(format!("{call}, {with}"));
                if let Some(gone_by) = self.pending.gone_by.as_ref().filter(|_| printed == "refused 17") {
                    all.push(format!("17, the last note gone by {gone_by}"));
                }
            }
            "PROPOSE" => {
                let note = now.as_ref().expect("an accepted proposal leaves a note");
                let update = &self.front.store.catalogue.updates[note.update];
                let pushes = self.front.store.pushed_out(note.update).is_some();
                all.push(format!("PROPOSE of {}, {}{}", kind(note), some(words[1]), if pushes { ", the ring full" } else { "" }));
                let unknown = |row: &Vec<i32>| truth(&update.condition, &[(update.table, row)], &note.values) == Truth::Unknown;
                if self.front.store.rows_now(update.table).iter().any(unknown) {
                    all.push(format!("PROPOSE of {}, rows left for unknown", kind(note)));
                }
                match &noted {
                    Some(old) if old == note => all.push(String::from("note replaced by the same")),
                    Some(old) if old.update == note.update => all.push(String::from("note replaced, other values")),
                    Some(_) => all.push(String::from("note replaced, another update")),
                    None => {}
                }
            }
            "COMMIT" => {
                let note = noted.as_ref().expect("an accepted commit had a note");
                let before = before.expect("a commit's update was there before");
                let pushed = if before.pushed.is_some() { ", a row pushed out" } else { "" };
                let dropped = if words[3] == "0" { "none dropped" } else { "some dropped" };
                all.push(format!("COMMIT of {}, {}, {dropped}{pushed}", kind(note), some(words[1])));
                all.extend(self.pending.since.iter().map(|call| format!("COMMIT behind {call}")));
                if self.pending.since.is_empty() {
                    all.push(String::from("COMMIT at once"));
                }
                let stayed = self.front.store.kept_keys();
                let gone = |key: &&(usize, Vec<i32>)| !stayed.contains(key);
                let later = before.keys.iter().filter(gone).filter(|key| !self.pending.keys.contains(key)).count();
                if later > 0 {
                    all.push(String::from("COMMIT that drops an answer not kept at the proposal"));
                }
                if self.pending.keys.iter().any(|key| !before.keys.contains(key)) {
                    all.push(String::from("COMMIT after an answer kept at the proposal was taken from its slot"));
                }
            }
            "WITHDRAW" => all.push(String::from("WITHDRAW")),
            "SPOIL" if text.starts_with("SPOIL ring") => {
                // Where the oldest row lies first, it is the note for which the copy is not sound.
                if let Some(note) = noted.as_ref().filter(|_| is_refused && self.front.lent == self.front.store.lengths()) {
                    let table = self.front.store.catalogue.updates[note.update].table;
                    if text == format!("SPOIL ring {table} 0") && !self.front.store.is_wrapped(table) {
                        all.push(String::from("state spoiled, a full ring no ring any more, with a note, refused 2 for 12"));
                    }
                }
            }
            "SPOIL" => {
                let part = text.split(' ').nth(1).unwrap_or_default();
                all.push(format!("state spoiled by {part}, {with}, {printed}{}", self.spoiled_note(&text)));
            }
            _ => {}
        }
        match (&noted, &now) {
            (Some(_), None) => {
                all.push(format!("note removed by {call}"));
                self.pending.gone_by = Some(call.clone());
            }
            (Some(old), Some(new)) if old == new && call != "PROPOSE" => all.push(format!("note left by {call}")),
            _ => {}
        }
        if word == "PROPOSE" && !is_refused {
            self.pending.since.clear();
            self.pending.keys = self.front.store.kept_keys();
        } else if now.is_some() && word != "SPOIL" {
            self.pending.since.insert(call);
        }
        for what in all {
            *self.made.looks.entry(what).or_default() += 1;
        }
    }

    /// Of a line that spoils the note: the number for which the copy is not sound.
    fn spoiled_note(&self, text: &str) -> &'static str {
        let mut state = self.front.store.state();
        let words: Vec<&str> = text.split(' ').collect();
        let numbers: Vec<i32> = words[2..].iter().filter_map(|word| word.parse().ok()).collect();
        let Some(note) = state.spoil(words[1], &numbers).and(state.note) else { return "" };
        let store = &self.front.store;
        match store.catalogue.updates.get(note.update) {
            _ if self.front.lent != store.lengths() => " for the lengths lent",
            None => " for 10",
            Some(update) if update.marks != note.values.len() => " for 11",
            Some(update) if matches!(update.change, Change::Insert(_)) && store.is_full(update.table) => " for 12",
            Some(_) => "",
        }
    }

    // ------------------------------------------------------------ nulls

    /// An INSERT with the null among its constants.
    fn insert_with_null(&mut self, table: &str, count: usize) -> Vec<String> {
        let at = self.random.below(count);
        let mut values = Vec::new();
        for i in 0..count {
            let is_null = i == at || self.random.chance(20);
            values.push(if is_null { self.random.pick(&NULLS).to_string() } else { String::from("?") });
        }
        words(&format!("INSERT INTO {table} VALUES ( {} )", values.join(" , ")))
    }

    /// A question that is unknown of hours without a reading, or asks for them.
    fn iced_question(&mut self, table: &Named) -> Vec<String> {
        let (c, d) = (self.random.pick(&table.1), self.random.pick(&table.1));
        let f = self.random.pick(&[
            "c < ?", "NOT c < ?", "c < 2", "NOT c < 2", "c < ? OR NOT c < ?", "c < ? OR c >= ?", "NOT c = ?", "c <> ?", "c = c",
            "c <> c", "c <> d", "c <= d OR c > d", "c IS NULL", "c IS NULL AND d = ?", "NOT c IS NULL AND d = ?", "c IS NOT NULL",
            "c IS NULL OR c < ?", "c IS NOT NULL AND c >= ?", "NOT ( c IS NULL OR d < ? )", "NOT ( c < ? AND d = 1 )",
            "NOT c < 2 OR c < 2 AND d = 1", "c = ?", "c = -2147483648 OR d = ?", "NOT c <> -2147483648", "5 = 5 AND c IS NULL",
        ]);
        let named = |word: &str| match word {
            "c" => c.clone(),
            "d" => d.clone(),
            _ => word.to_string(),
        };
        let f = f.split(' ').map(named).collect::<Vec<_>>().join(" ");
        let selected = self.random.pick(&[&c, &d]).to_string();
        self.question_of(&table.0, &selected, &f)
    }

    /// An update that brings nulls, or takes them away, or is about them.
    fn iced_change(&mut self, table: &Named) -> Vec<String> {
        let (c, d) = (self.random.pick(&table.1), self.random.pick(&table.1));
        let name = &table.0;
        let null = self.random.pick(&NULLS);
        let text = match self.random.below(14) {
            0..=2 => format!("UPDATE {name} SET {c} = ? WHERE {d} = ?"),
            3 => format!("UPDATE {name} SET {c} = {null} WHERE {d} = ?"),
            4 => format!("UPDATE {name} SET {c} = ? WHERE {c} IS NULL"),
            5 => format!("UPDATE {name} SET {c} = {null} WHERE {c} < ?"),
            6 => format!("UPDATE {name} SET {c} = {} WHERE {c} IS NULL AND {d} = ?", self.random.below(4)),
            7 => format!("UPDATE {name} SET {c} = ?"),
            8 => format!("DELETE FROM {name} WHERE {}{c} IS NULL", self.random.pick(&["", "2 = 2 AND ", "NOT NOT "])),
            9 => format!("DELETE FROM {name} WHERE {d} = ? AND NOT {c} IS NOT NULL"),
            10 => format!("DELETE FROM {name} WHERE {c} = {null}"),
            11 => format!("DELETE FROM {name} WHERE {c} <= {null} OR {d} = ?"),
            _ => return self.insert_with_null(name, table.1.len()),
        };
        words(&text)
    }

    /// A question and an update about nulls of one table, tried together.
    fn null_pair(&mut self) {
        let table = self.some_table();
        let question = self.iced_question(&table);
        self.add(&question);
        let update = self.iced_change(&table);
        self.add(&update);
        for _ in 0..self.random.between(1, 3) {
            self.try_last_pair();
        }
    }

    /// Values for an update of a table, meant for one of its rows: where the WHERE says that a column equals a mark, that
    /// row's value; a column that is set goes from the null to a number or back.
    fn iced_values(&mut self, update: &Update) -> Vec<i32> {
        let mut values: Vec<i32> = (0..update.marks).map(|_| self.ring_value(update.table)).collect();
        let rows = self.front.store.rows_now(update.table).to_vec();
        let row = if rows.is_empty() { vec![] } else { self.random.pick(&rows) };
        for (column, mark) in update.condition.as_ref().map_or(vec![], equal_to_marks) {
            if let Some(value) = row.get(column.place) {
                values[mark - 1] = *value;
            }
        }
        let set: Vec<(usize, Operand)> = match &update.change {
            Change::Insert(operands) => operands.iter().copied().enumerate().collect(),
            Change::Set(sets) => sets.clone(),
            Change::Delete => vec![],
        };
        for (column, operand) in set {
            if let Operand::Mark(mark) = operand {
                let is_null = row.get(column) == Some(&NULL);
                let to_null = if self.random.chance(80) { !is_null } else { is_null };
                values[mark - 1] = if to_null && self.random.chance(70) { NULL } else { self.number() };
            }
        }
        values
    }

    fn iced_update(&mut self, n: usize) {
        let update = self.front.store.catalogue.updates[n].clone();
        let values = self.iced_values(&update);
        let text = self.written(&values);
        self.done(&format!("{n}{text}"));
    }

    /// Rows with nulls, questions, updates from the null to a number and back, and the questions again.
    fn iced_calls(&mut self) {
        let updates = self.front.store.catalogue.updates.iter().enumerate();
        let sets: Vec<usize> = updates.filter(|(_, u)| matches!(u.change, Change::Set(_))).map(|(n, _)| n).collect();
        if sets.is_empty() {
            return self.ask();
        }
        let n = self.random.pick(&sets);
        let update = self.front.store.catalogue.updates[n].clone();
        let table = update.table;
        if self.front.store.height(table) == 0 || self.random.chance(25) {
            if let Some((insert, _)) = self.update_of(table, |change| matches!(change, Change::Insert(_))) {
                self.iced_update(insert);
            }
        }
        // Most questions test a column that the update sets.
        let Change::Set(set) = update.change else { unreachable!("it sets") };
        let is_set = |column: &Column| column.table == table && set.iter().any(|(place, _)| *place == column.place);
        let tests = |question: &Question| question.condition.as_ref().is_some_and(|c| columns_tested(c).iter().any(is_set));
        let mut asked = Vec::new();
        for _ in 0..self.random.between(1, 3) {
            let line = if self.random.chance(80) { self.ask_over(table, &tests) } else { self.ring_ask(table) };
            if let Some(line) = line {
                self.emit_text(&line);
                asked.push(line);
            }
        }
        for _ in 0..self.random.between(1, 3) {
            let other = match self.random.below(10) {
                0 => self.update_of(table, |change| matches!(change, Change::Insert(_))),
                1 => self.update_of(table, |change| matches!(change, Change::Delete)),
                _ => None,
            };
            self.iced_update(other.map_or(n, |(other, _)| other));
            if self.random.chance(50) {
                asked.iter().for_each(|line| self.emit_text(line));
            }
        }
        for line in asked {
            self.emit_text(&line);
        }
    }

    /// Calls: a comparison of a stored statement made a null test, its operands as they are.
    fn spoil_null_test(&mut self) {
        let catalogue = &self.front.store.catalogue;
        let of_question = self.random.chance(55);
        let count = if of_question { catalogue.questions.len() } else { catalogue.updates.len() };
        let n = if self.random.chance(95) { self.random.below(count) } else { count };
        let at = self.random.below(4) + if self.random.chance(10) { 4 } else { 0 };
        let part = if of_question { "qnull" } else { "unull" };
        let kind = self.random.below(2);
        self.emit_text(&format!("SPOIL {part} {n} {at} {kind}"));
    }

    /// As `designed_miss`, about IS NULL; some are taken.
    fn null_miss(&mut self) -> Vec<String> {
        let table = self.some_table();
        let (t, c, d) = (&table.0, self.random.pick(&table.1), self.random.pick(&table.1));
        let test = self.random.pick(&["IS NULL", "IS NOT NULL"]);
        let depth = self.random.between(7, 9);
        let many = |n: usize, what: &str, by: &str| vec![what; n].join(by);
        let odd = |f: String| format!("SELECT {c} FROM {t} WHERE {f}");
        let miss = match self.random.below(88) {
            // Those that come to mind first.
            0 | 1 => odd(format!("? {test}")),
            2 | 3 => odd(format!("5 {test}")),
            4 | 5 => odd(format!("( {c} ) {test}")),
            6 | 7 => odd(format!("{c} = NULL")),
            8 | 9 => odd(format!("{c} IS NOT NOT NULL")),
            10 | 11 => odd(format!("{c} {test} = 1")),
            12 | 13 => odd(format!("{c} ISNULL")),
            14 | 15 => odd(format!("{c} {}", self.random.pick(&["IS", "IS NOT"]))),
            16 | 17 => format!("UPDATE {t} SET {c} = NULL"),
            18 | 19 => format!("INSERT INTO {t} VALUES ( {} )", many(table.1.len(), "NULL", " , ")),
            20 | 21 => String::from("TABLE NULL ( a ) ROWS 1"),
            22..=25 => odd(format!("{}{c} IS NOT NULL", "NOT ".repeat(self.random.pick(&[8, 8, 9])))),
            26 | 27 => odd(format!("{}{c} IS NULL", "NOT ".repeat(self.random.between(8, 9)))),
            28..=30 => odd(format!("{} OR {c} {test}", many(self.random.between(7, 8), &format!("{d} = 1"), " OR "))),
            31 => odd(format!("{c} = -2147483648")),
            32..=43 => {
                let behind = self.random.pick(&[
                    "IS NOT NOT NULL", "IS", "IS NOT", "NOT NULL", "NULL", "ISNULL", "NOTNULL", "IS NOTNULL", "ISNOT NULL", "IS NULLS",
                    "IS 5", "IS ?", "IS NOT 5", "IS NOT ?", "IS ( NULL )", "IS NULL NULL", "IS IS NULL", "IS NULL IS NULL", "NOT IS NULL",
                    "IS -2147483648", "IS NOT -2147483648", "IS NULL = 1", "IS NOT NULL = 1", "IS NULL 1", "IS , NULL", "= IS NULL",
                    "IS TRUE", "IS UNKNOWN", "IS NULL )", "( IS NULL", ". IS NULL", "IS . NULL", "IS NULL OR", "IS NOT NULL AND",
                    "is NULL", "Is NULL", "iS NULL", "IS null", "IS Null", "IS NULl", "IS not NULL", "IS Not NULL", "is null", "IS nOT NULL",
                ]);
                odd(format!("{c} {behind}"))
            }
            // No column before IS.
            44 => odd(format!("{} {test}", self.random.pick(&["-2147483648", "NULL", "IS", "", "NOT", "( ? )"]))),
            45 => odd(format!("( {c} {test} )")),
            46 => odd(format!("{c} = {d} {test}")),
            47 => odd(format!("{c} = 1 {test}")),
            // NULL as an operand.
            48 => odd(format!("{c} {} NULL", self.random.pick(&RELATIONS))),
            49 => odd(format!("NULL {} {c}", self.random.pick(&RELATIONS))),
            50 => odd(format!("NULL {}", self.random.pick(&["= NULL", "IS NULL", "IS NOT NULL", "", "= ?"]))),
            51 => format!("UPDATE {t} SET {c} = NULL WHERE {d} {test}"),
            52 => format!("INSERT INTO {t} VALUES ( {} )", many(table.1.len(), "-2147483648", " , ")),
            53 => format!("UPDATE {t} SET {c} = -2147483648 WHERE {d} {test}"),
            54 => format!("UPDATE {t} SET {c} {test}"),
            55 => odd(format!("{c} IS {d}")),
            56 => odd(format!("{c} IS NOT {d}")),
            57 => odd(format!("{c} {test} {d} = 1")),
            58 => odd(format!("{c} {test} AND {d} = ?")),
            59 => odd(format!("NOT {c} {test} OR {d} {test}")),
            60 => odd(format!("{c} , {d} {test}")),
            // Names like these keywords.
            61 => odd(format!("{} {test}", self.random.pick(&["is", "null", "Null", "Is", "nULL", "IS_", "NULL1", "not"]))),
            62 => format!("TABLE {} ( a ) ROWS 2", self.random.pick(&["NULL", "IS", "null", "is", "Null", "NULLS", "ISNULL"])),
            63 => format!("TABLE new ( a , {} ) ROWS 2", self.random.pick(&["NULL", "IS", "null", "is", "Is", "NULL_", "IS1"])),
            64 => format!("SELECT {} FROM {t}", self.random.pick(&["NULL", "IS", "null", "is", "Null", "nULL"])),
            65 => format!("DELETE FROM {}", self.random.pick(&["NULL", "IS", "null", "is", "nUll"])),
            66 => format!("UPDATE {t} SET {} = 1", self.random.pick(&["NULL", "IS", "null", "is"])),
            67 => format!("TABLE new ( a ) {}", self.random.pick(&["ROWS NULL", "RING NULL", "IS 3", "ROWS 3 NULL", "ROWS IS 3"])),
            // Limits.
            68 => odd(format!("{}{c} {test}", "NOT ".repeat(depth))),
            69 => odd(format!("{}{c} {test}{}", "( ".repeat(depth), " )".repeat(depth))),
            70 => odd(format!("NOT {}{d} = 1 OR {c} {test}{}", "( ".repeat(depth - 1), " )".repeat(depth - 1))),
            71 => odd(many(self.random.between(8, 9), &format!("{c} {test}"), " OR ")),
            72 => odd(format!("{} AND {c} {test}", many(self.random.between(7, 8), &format!("{d} <> 1"), " AND "))),
            73 => odd(format!("thirteen_byte {test}")),
            74 => odd(format!("twelve_bytes {test}")),
            75 => odd(format!("nil {test}")),
            76 => odd(format!("nil {test} AND {c} = {}", self.random.pick(&OUTSIDE))),
            77 => odd(format!("{c} = -2147483648 AND {d} {test}")),
            78 => format!("DELETE FROM {t} WHERE {c} {test} OR nil = 1"),
            // Dots.
            79 => odd(format!("{t} . {c} {test}")),
            80 => format!("DELETE FROM {t} WHERE {t} . {c} {test}"),
            _ => return self.null_pair_miss(test),
        };
        words(&miss).into_iter().filter(|word| !word.is_empty()).collect()
    }

    /// As `null_miss`, over two tables.
    fn null_pair_miss(&mut self, test: &str) -> Vec<String> {
        let pair = self.some_pair();
        let [(t, of_t), (u, of_u)] = pair.unwrap_or_else(|| [self.some_table(), self.some_table()]);
        let (c, d) = (self.random.pick(&of_t), self.random.pick(&of_u));
        let f = match self.random.below(11) {
            0 => format!("{c} {test}"),
            1 => format!("{t}.{c} {test} AND {d} {test}"),
            2 => format!("{t}.{c} {test} AND {u}.{d} {test}"),
            3 => format!("NOT {u}.{d} {test} OR {t}.{c} = {u}.{d}"),
            4 => format!("{t}.nil {test}"),
            5 => format!("nil.{c} {test}"),
            6 => format!("{t}.NULL {test}"),
            7 => format!("{t}.{c}. {test}"),
            8 => format!("{t} {test}"),
            9 => format!("( {t}.{c} ) {test}"),
            _ => format!("{t}.{c} = {u}.{d} AND {u}.{d} {test}"),
        };
        let second = if self.random.chance(8) { &t } else { &u };
        dotted_words(&format!("SELECT {t}.{c} FROM {t} , {second} WHERE {f}"))
    }

    // ------------------------------------------------------------ what came of nulls

    /// What the line's update finds, if it has one.
    fn before(&self, line: &[u8]) -> Option<Before> {
        let text = String::from_utf8_lossy(line);
        let n: usize = text.strip_prefix("DO ")?.split(' ').next()?.parse().ok()?;
        let store = &self.front.store;
        let update = store.catalogue.updates.get(n)?;
        Some(Before { rows: store.rows_now(update.table).to_vec(), pushed: store.pushed_out(n), keys: store.kept_keys() })
    }

    /// The truths of a question's condition for the rows or pairs of rows, one of its tables with other rows than now; at
    /// most some thousands.
    fn truths(&self, question: &Question, values: &[i32], other: Option<(usize, &[Vec<i32>])>) -> Vec<Truth> {
        let rows_of = |table: usize| match other {
            Some((which, rows)) if which == table => rows,
            _ => self.front.store.rows_now(table),
        };
        let mut all = Vec::new();
        let mut take = |rows: &Rows| all.push(truth(&question.condition, rows, values));
        match question.tables[..] {
            [table] => rows_of(table).iter().for_each(|row| take(&[(table, row)])),
            [first, second] if rows_of(first).len() * rows_of(second).len() <= 4_000 => {
                for row in rows_of(first) {
                    rows_of(second).iter().for_each(|other| take(&[(first, row), (second, other)]));
                }
            }
            _ => {}
        }
        all
    }

    /// What the line did about nulls, and how often.
    fn null_outcomes(&self, line: &[u8], printed: &str, before: Option<Before>) -> Vec<(String, usize)> {
        let catalogue = &self.front.store.catalogue;
        let text = String::from_utf8_lossy(line);
        let words: Vec<&str> = text.split(' ').collect();
        let n: Option<usize> = words.get(1).and_then(|word| word.parse().ok());
        let first_value = if self.mode == Mode::Calls && words[0] == "ASK" { 3 } else { 2 };
        let given = words.iter().skip(first_value).map(|word| constant(word.as_bytes()).flatten());
        let values: Vec<i32> = given.collect::<Option<_>>().unwrap_or_default();
        match words[0] {
            "ADD" => self.null_text_outcomes(&text, printed),
            "SPOIL" if ["qnull", "unull"].contains(&words[1]) => vec![(format!("state spoiled by {}, {printed}", words[1]), 1)],
            "ASK" if printed.starts_with("new") || printed.starts_with("kept") => {
                let question = &catalogue.questions[n.expect("an answered question has a number")];
                self.null_answer_outcomes(question, &values, printed)
            }
            "DO" if printed.starts_with("rows") => {
                let update = &catalogue.updates[n.expect("an update done has a number")];
                self.null_update_outcomes(update, &values, &before.expect("an update done was there before"))
            }
            _ => vec![],
        }
    }

    fn null_text_outcomes(&self, text: &str, printed: &str) -> Vec<(String, usize)> {
        let mut typed = text.split(|c: char| !c.is_ascii_alphanumeric() && c != '_');
        let mut all = Vec::new();
        if printed.starts_with("refused") {
            if typed.any(|word| word == "IS" || word == "NULL") {
                all.push((format!("text with IS or NULL, {printed}"), 1));
            }
            return all;
        }
        let catalogue = &self.front.store.catalogue;
        let (condition, over) = match printed.split(' ').next() {
            Some("query") => {
                let question = catalogue.questions.last().expect("a question was added");
                let over = if question.tables.len() == 2 { " over two tables" } else { "" };
                (&question.condition, format!("question{over}"))
            }
            Some("update") => {
                let update = catalogue.updates.last().expect("an update was added");
                let null_set = match &update.change {
                    Change::Insert(values) => values.contains(&Operand::Constant(NULL)).then_some("VALUES"),
                    Change::Set(sets) => sets.iter().any(|(_, v)| *v == Operand::Constant(NULL)).then_some("SET"),
                    Change::Delete => None,
                };
                all.extend(null_set.map(|which| (format!("added with the null in {which}"), 1)));
                (&update.condition, String::from("update"))
            }
            _ => return all,
        };
        if let Some(condition) = condition {
            for what in null_places(condition, "") {
                all.push((format!("added {over} with {what}"), 1));
            }
        }
        all
    }

    fn null_answer_outcomes(&self, question: &Question, values: &[i32], printed: &str) -> Vec<(String, usize)> {
        let how = if printed.starts_with("new") { "new" } else { "kept" };
        let rows = if printed.ends_with(':') { "no row" } else { "rows" };
        let over = if question.tables.len() == 2 { " over two tables" } else { "" };
        let mut all = Vec::new();
        if question.condition.as_ref().is_some_and(has_null_test) {
            all.push((format!("answer{over} with a null test, {how}, {rows}"), 1));
        }
        if values.contains(&NULL) {
            all.push((format!("answer{over} with a null value, {how}, {rows}"), 1));
        }
        if printed.split_once(':').is_some_and(|(_, rest)| rest.split(' ').any(|word| word == "-2147483648")) {
            all.push((format!("answer{over} that lists a null, {how}"), 1));
        }
        if how == "new" {
            let unknown = self.truths(question, values, None).iter().filter(|&&truth| truth == Truth::Unknown).count();
            let what = if over.is_empty() { "rows" } else { "pairs of rows" };
            all.push((format!("{what} not taken for unknown"), unknown));
        }
        all
    }

    fn null_update_outcomes(&self, update: &Update, values: &[i32], before: &Before) -> Vec<(String, usize)> {
        let store = &self.front.store;
        let has_null = |row: &Vec<i32>| row.contains(&NULL);
        let truth_of = |row: &Vec<i32>| truth(&update.condition, &[(update.table, row)], values);
        let mut all = Vec::new();
        let now = store.rows_now(update.table);
        let kind = match &update.change {
            Change::Insert(_) => {
                all.push((String::from("INSERT of a row with null"), usize::from(now.last().is_some_and(has_null))));
                all.push((String::from("row with null pushed out"), usize::from(before.pushed.as_ref().is_some_and(has_null))));
                "INSERT"
            }
            Change::Set(_) => {
                for (old, new) in before.rows.iter().zip(now).flat_map(|(old, new)| old.iter().zip(new)) {
                    match (*old == NULL, *new == NULL) {
                        (true, false) => all.push((String::from("UPDATE from the null to a number"), 1)),
                        (false, true) => all.push((String::from("UPDATE from a number to the null"), 1)),
                        _ => {}
                    }
                }
                "UPDATE"
            }
            Change::Delete => {
                let gone = before.rows.iter().filter(|row| has_null(row) && truth_of(row) == Truth::True).count();
                all.push((String::from("DELETE of a row with null"), gone));
                "DELETE"
            }
        };
        if kind != "INSERT" {
            let unknown = before.rows.iter().filter(|row| truth_of(row) == Truth::Unknown).count();
            all.push((format!("{kind}: rows left for unknown"), unknown));
        }
        // The reasons of rule 6, question by question.
        for question in store.catalogue.questions.iter().filter(|q| q.tables.contains(&update.table)) {
            for (why, _) in gone(question, update, before.pushed.as_deref()) {
                match why {
                    Gone::Contradiction => {}
                    Gone::NullTest => all.push((String::from("clause gone for a null test of a constant"), 1)),
                    Gone::NullConstant => all.push((String::from("clause gone for the null constant"), 1)),
                }
            }
        }
        let stayed = store.kept_keys();
        for (n, key) in &before.keys {
            let question = &store.catalogue.questions[*n];
            if !question.tables.contains(&update.table) {
                continue;
            }
            if stayed.contains(&(*n, key.clone())) {
                let left_for = |which: Gone, row: Option<&[i32]>| {
                    let list = gone(question, update, row);
                    list.iter().any(|(why, pattern)| *why == which && agrees(pattern, values, key))
                };
                if left_for(Gone::NullConstant, None) {
                    all.push((format!("answer left by {kind} for the null constant alone"), 1));
                } else if left_for(Gone::NullConstant, before.pushed.as_deref()) {
                    all.push((String::from("answer left for a null in the row pushed out"), 1));
                }
                if left_for(Gone::NullTest, before.pushed.as_deref()) {
                    all.push((format!("answer left by {kind} for a null test of a constant"), 1));
                }
                continue;
            }
            all.extend(self.null_drop_outcomes(question, key, update, values, before).map(|what| (what, 1)));
        }
        all
    }

    /// Of an answer that the update dropped.
    fn null_drop_outcomes(
        &self,
        question: &Question,
        key: &[i32],
        update: &Update,
        values: &[i32],
        before: &Before,
    ) -> impl Iterator<Item = String> {
        let mut all = Vec::new();
        let over = if question.tables.len() == 2 { " over two tables" } else { "" };
        if let Change::Set(_) = update.change {
            let was = self.truths(question, key, Some((update.table, &before.rows)));
            let is = self.truths(question, key, None);
            let altered = |from: Truth, to: Truth| was.iter().zip(&is).any(|(old, new)| *old == from && *new == to);
            for (from, to, what) in [
                (Truth::Unknown, Truth::True, "a row enters from unknown"),
                (Truth::True, Truth::Unknown, "a row leaves to unknown"),
            ] {
                if altered(from, to) {
                    all.push(format!("answer{over} dropped, {what}"));
                }
            }
        }
        if question.condition.as_ref().is_some_and(has_null_test) {
            all.push(format!("answer{over} with a null test dropped"));
        }
        if let Some(row) = &before.pushed {
            let taken = question.tables.len() == 1 && truth(&question.condition, &[(update.table, row)], key) == Truth::True;
            if taken && row.contains(&NULL) {
                all.push(String::from("answer dropped, a row with null in it is pushed out"));
            }
        }
        let by_null = |pattern: &Vec<Place>| {
            let is_null = |(place, value): (&Place, &i32)| matches!(place, Place::Mark(_)) && *value == NULL;
            agrees(pattern, values, key) && pattern.iter().zip(key).any(is_null)
        };
        if patterns(question, update).iter().any(by_null) {
            all.push(format!("answer{over} with a null value dropped by a mark with a null value"));
        }
        all.into_iter()
    }

    // ------------------------------------------------------------ rings

    /// Statements about a ring; its questions select few rows, and its DELETE often none.
    fn ring_statements(&mut self, table: &Named) {
        let (c, d) = (self.random.pick(&table.1), self.random.pick(&table.1));
        let name = &table.0;
        if self.random.chance(70) {
            let f = self.random.pick(&[
                "c = ?", "c = ?", "c = ?", "? = c AND d <> 0", "c < ?", "c = ? OR d = ?", "NOT c <> ?", "c IS NULL", "NOT c < ?",
                "d IS NOT NULL AND c = ?",
            ]);
            let named = |word: &str| match word {
                "c" => c.clone(),
                "d" => d.clone(),
                _ => word.to_string(),
            };
            let f = f.split(' ').map(named).collect::<Vec<_>>().join(" ");
            let question = self.question_of(name, &d, &f);
            self.add(&question);
        }
        if self.random.chance(60) {
            self.add(&words(&format!("SELECT {} FROM {name}", table.1.join(" , "))));
        }
        if self.random.chance(70) {
            let relation = self.random.pick(&["=", "=", "=", ">"]);
            self.add(&words(&format!("DELETE FROM {name} WHERE {c} {relation} ?")));
        }
        if self.random.chance(50) {
            self.add(&words(&format!("UPDATE {name} SET {d} = ? WHERE {c} = ?")));
        }
    }

    /// An update that there is of a table, of the kind that is asked for: its number and marks.
    fn update_of(&mut self, table: usize, is_such: fn(&Change) -> bool) -> Option<(usize, usize)> {
        let updates = self.front.store.catalogue.updates.iter().enumerate();
        let found: Vec<(usize, usize)> =
            updates.filter(|(_, u)| u.table == table && is_such(&u.change)).map(|(n, u)| (n, u.marks)).collect();
        (!found.is_empty()).then(|| self.random.pick(&found))
    }

    /// A value of the ring's oldest row, of another row, or any.
    fn ring_value(&mut self, table: usize) -> i32 {
        let rows = self.front.store.rows_now(table).to_vec();
        let roll = self.random.below(100);
        match rows.first() {
            Some(oldest) if roll < 50 => self.random.pick(oldest),
            Some(_) if roll < 70 => {
                let row = self.random.pick(&rows);
                self.random.pick(&row)
            }
            _ => self.value(),
        }
    }

    /// An ask of a question over the ring, with values of its rows.
    fn ring_ask(&mut self, table: usize) -> Option<String> {
        self.ask_over(table, &|_| true)
    }

    /// An ask of such a question over a table, with values of its rows.
    fn ask_over(&mut self, table: usize, is_such: &dyn Fn(&Question) -> bool) -> Option<String> {
        let questions = self.front.store.catalogue.questions.iter().enumerate();
        let over = questions.filter(|(_, q)| q.tables.contains(&table) && is_such(q));
        let found: Vec<(usize, usize)> = over.map(|(n, q)| (n, q.marks)).collect();
        if found.is_empty() {
            return None;
        }
        let (n, marks) = self.random.pick(&found);
        let mut values: Vec<i32> = Vec::new();
        for _ in 0..4 {
            values = (0..marks).map(|_| self.ring_value(table)).collect();
            // Most such answers hold a row.
            if self.front.store.length_now(n, &values).is_some_and(|length| length > 8) {
                break;
            }
        }
        let buffer = match self.mode {
            Mode::Calls => format!(" {}", self.enough(n, &values)),
            Mode::Desk => String::new(),
        };
        Some(format!("ASK {n}{buffer}{}", self.written(&values)))
    }

    /// An update of a ring. A DELETE takes mostly no row.
    fn ring_update(&mut self, table: usize, is_such: fn(&Change) -> bool) {
        let Some((n, marks)) = self.update_of(table, is_such) else {
            return;
        };
        let deletes = matches!(self.front.store.catalogue.updates[n].change, Change::Delete);
        let values: Vec<i32> = match self.random.below(10) {
            0..=6 if deletes => vec![77; marks],
            0 | 1 => (0..marks).map(|_| self.ring_value(table)).collect(),
            // Mostly other values than those of the row that goes.
            2..=5 => (0..marks).map(|_| self.value().saturating_add(4)).collect(),
            _ => (0..marks).map(|_| self.value()).collect(),
        };
        let text = self.written(&values);
        self.done(&format!("{n}{text}"));
    }

    /// Questions over a ring that is full, updates of it, and the questions again.
    fn ring_calls(&mut self) {
        let is_insert = |change: &Change| matches!(change, Change::Insert(_));
        let catalogue = &self.front.store.catalogue;
        let mut rings: Vec<usize> = (0..catalogue.tables.len()).filter(|&t| catalogue.tables[t].ring).collect();
        rings.retain(|&t| catalogue.updates.iter().any(|u| u.table == t && is_insert(&u.change)));
        if rings.is_empty() {
            return self.ask();
        }
        let table = self.random.pick(&rings);
        let size = self.front.store.catalogue.tables[table].rows;
        for _ in self.front.store.height(table)..size.min(self.front.store.height(table) + 8) {
            self.ring_update(table, is_insert);
        }
        let mut asked = Vec::new();
        for _ in 0..self.random.between(1, 3) {
            if let Some(line) = self.ring_ask(table) {
                self.emit_text(&line);
                asked.push(line);
            }
        }
        for _ in 0..self.random.between(1, 4) {
            match self.random.below(10) {
                0..=4 => self.ring_update(table, is_insert),
                5 | 6 => self.ring_update(table, |change| matches!(change, Change::Delete)),
                7 => self.ring_update(table, |change| matches!(change, Change::Set(_))),
                _ => {
                    if let Some(line) = self.ring_ask(table) {
                        self.emit_text(&line);
                    }
                }
            }
        }
        for line in asked {
            self.emit_text(&line);
        }
        if self.mode == Mode::Calls && self.random.chance(50) {
            // A table that is no ring is sound only if the oldest row lies first: this shows whether it does.
            let spoil = match self.random.below(4) {
                0 => format!("start {table} {}", self.random.pick(&[0, 1, size - 1, size, size + 1])),
                1 => format!("ring {table} 1"),
                _ => format!("ring {table} 0"),
            };
            self.emit_text(&format!("SPOIL {spoil}"));
        }
    }

    /// What the line did about tables that run round.
    fn ring_outcomes(&self, line: &[u8], printed: &str) -> Vec<String> {
        let store = &self.front.store;
        let catalogue = &store.catalogue;
        let text = String::from_utf8_lossy(line);
        let n: Option<usize> = text.split(' ').nth(1).and_then(|word| word.parse().ok());
        let mut all = Vec::new();
        if text.starts_with("SPOIL start ") || text.starts_with("SPOIL ring ") {
            all.push(format!("state spoiled, {printed}"));
        }
        let mut typed = text.split(|c: char| !c.is_ascii_alphanumeric() && c != '_');
        if text.starts_with("ADD ") && typed.any(|word| word == "RING") {
            match printed.strip_prefix("table ") {
                Some(_) if catalogue.tables.last().is_some_and(|table| table.ring) => all.push(String::from("added")),
                None if printed.starts_with("refused") => all.push(format!("text with RING, {printed}")),
                _ => {}
            }
        }
        if let Some(question) = n.and_then(|n| catalogue.questions.get(n)).filter(|_| text.starts_with("ASK ")) {
            let wrapped = question.tables.iter().filter(|&&table| store.is_wrapped(table)).count();
            if wrapped > 0 && printed.starts_with("new") {
                let over = if question.tables.len() == 2 { " over two tables" } else { "" };
                let which = if wrapped == 2 { "both" } else { "rows" };
                all.push(format!("asked{over}, new, {which} run round"));
            }
        }
        let Some(update) = n.and_then(|n| catalogue.updates.get(n)).filter(|_| text.starts_with("DO ")) else {
            return all;
        };
        let table = &catalogue.tables[update.table];
        if !table.ring {
            return all;
        }
        let is_full = store.height(update.table) == table.rows;
        if printed == "refused 11" && is_full && matches!(update.change, Change::Insert(_)) {
            all.push(String::from("INSERT with a wrong number of values, ring full"));
        }
        let Some((rows, _)) = printed.strip_prefix("rows ").and_then(|rest| rest.split_once(" dropped ")) else {
            return all;
        };
        let report = &store.last_ring;
        match update.change {
            Change::Insert(_) if report.pushed => {
                all.push(String::from("row pushed out"));
                if table.rows == 1 {
                    all.push(String::from("row pushed out of a ring of one"));
                } else if !store.is_wrapped(update.table) {
                    all.push(String::from("row pushed out of the last place"));
                }
            }
            Change::Insert(_) => all.push(String::from("INSERT, not full")),
            Change::Set(_) if report.start != 0 && rows != "0" => all.push(String::from("UPDATE of rows that run round")),
            Change::Delete if report.start != 0 => {
                let rows = if rows == "0" { "no row" } else { "rows" };
                all.push(format!("turned by DELETE of {rows}"));
            }
            _ => {}
        }
        for (what, questions) in [("alone", &report.alone), ("and the INSERT", &report.both)] {
            for &question in questions {
                let over = match catalogue.questions[question].tables[..] {
                    [_] => "",
                    [first, _] if first == update.table => " over two tables, the ring first",
                    _ => " over two tables, the ring second",
                };
                all.push(format!("answer{over} dropped for the row pushed out {what}"));
            }
        }
        if report.pushed {
            let stayed = store.kept_keys();
            let over_ring = stayed.iter().filter(|(q, _)| catalogue.questions[*q].tables.contains(&update.table));
            all.extend(over_ring.map(|_| String::from("answer over the ring left when a row was pushed out")));
        }
        all
    }

    fn set_value(&mut self, marks: &mut usize, percent: usize) -> Vec<String> {
        if *marks > 0 && self.random.chance(percent) {
            *marks -= 1;
            return words("?");
        }
        if self.random.chance(12) {
            return words(self.random.pick(&NULLS));
        }
        vec![self.constant()]
    }

    fn insert_text(&mut self) -> Vec<String> {
        let (table, columns) = self.some_table();
        let mut count = columns.len().min(8);
        if self.random.below(60) == 0 {
            count = self.random.between(1, 8);
        }
        self.insert_into(&table, count)
    }

    fn insert_into(&mut self, table: &str, count: usize) -> Vec<String> {
        let mut marks = 8;
        let values: Vec<Vec<String>> = (0..count).map(|_| self.set_value(&mut marks, 80)).collect();
        let mut all = words("INSERT INTO");
        all.push(table.to_string());
        all.extend(words("VALUES ("));
        all.extend(Self::listed(values));
        all.push(String::from(")"));
        all
    }

    fn update_text(&mut self) -> Vec<String> {
        let (table, columns) = self.some_table();
        let mut marks = 8;
        let count = self.random.pick(&[1, 1, 1, 2, 2, 3, 8]).min(columns.len());
        let mut named: Vec<String> = Vec::new();
        for _ in 0..20 {
            let column = self.column(&columns);
            if named.len() < count && (!has_name(&named, &column) || self.random.below(150) == 0) {
                named.push(column);
            }
        }
        let mut sets: Vec<Vec<String>> = Vec::new();
        for column in named {
            let mut set = vec![column, String::from("=")];
            set.extend(self.set_value(&mut marks, 55));
            sets.push(set);
        }
        let mut all = vec![String::from("UPDATE"), table, String::from("SET")];
        all.extend(Self::listed(sets));
        all.extend(self.where_part(&columns, &mut marks));
        all
    }

    fn delete_text(&mut self) -> Vec<String> {
        let (table, columns) = self.some_table();
        let mut marks = 8;
        let mut all = words("DELETE FROM");
        all.push(table);
        all.extend(self.where_part(&columns, &mut marks));
        all
    }

    fn statement(&mut self) -> Vec<String> {
        match self.random.below(100) {
            0..=9 => self.table_text(),
            10..=49 => self.select_text(),
            50..=64 => self.insert_text(),
            65..=84 => self.update_text(),
            _ => self.delete_text(),
        }
    }

    /// As `designed_miss`, about two tables; some are taken.
    fn pair_miss(&mut self) -> Vec<String> {
        let pair = self.some_pair();
        let [(t, of_t), (u, of_u)] = pair.unwrap_or_else(|| [self.some_table(), self.some_table()]);
        let (c, d) = (self.random.pick(&of_t), self.random.pick(&of_u));
        let tables = &self.front.store.catalogue.tables;
        let third = tables.iter().find(|table| !same_name(&table.name, &t) && !same_name(&table.name, &u));
        let (v, e) = third.map_or((String::from("nil"), c.clone()), |table| (table.name.clone(), table.columns[0].clone()));
        let from = if self.random.chance(50) { format!("{t} , {u}") } else { format!("{u} , {t}") };
        let many = |n: usize, what: &str, by: &str| vec![what; n].join(by);
        let miss = match self.random.below(58) {
            // Columns without a dot, and dots elsewhere.
            0 => format!("SELECT {c} FROM {from}"),
            1 => format!("SELECT {t}.{c} , {d} FROM {from}"),
            2 => format!("SELECT {t}.{c} FROM {from} WHERE {d} = 1"),
            3 => format!("SELECT {t}.{c} FROM {from} WHERE {u}.{d} = 1 OR ? = {c}"),
            4 => format!("SELECT {t}.{c} FROM {t}"),
            5 => format!("SELECT {c} , {t}.{c} FROM {t}"),
            6 => format!("SELECT {c} FROM {t} WHERE {t}.{c} = 1"),
            7 => format!("DELETE FROM {t} WHERE {t}.{c} = 1"),
            8 => format!("UPDATE {t} SET {t}.{c} = 1"),
            9 => format!("UPDATE {t} SET {c} = 1 WHERE ? = {t}.{c}"),
            10 => format!("UPDATE {t} SET {c} = {t}.{c}"),
            11 => format!("INSERT INTO {t} VALUES ( {t}.{c} )"),
            12 => String::from("TABLE new ( new.a ) ROWS 3"),
            13 => String::from("TABLE new.a ( a ) ROWS 3"),
            14 => format!("DELETE FROM {t}.{c}"),
            // Unknown names.
            15 => format!("SELECT {t}.nil FROM {from}"),
            16 => format!("SELECT {t}.{c} FROM {from} WHERE {u}.nil = ?"),
            17 => format!("SELECT {t}.{d} , {u}.{c} FROM {from}"),
            18 | 19 => format!("SELECT {v}.{e} FROM {from}"),
            20 => format!("SELECT {t}.{c} FROM {from} WHERE {v}.{e} = {u}.{d}"),
            21 => format!("SELECT nil.{c} FROM {from}"),
            22 => format!("SELECT {t}.{c} FROM {t} , nil"),
            23 => format!("SELECT {t}.{c} FROM nil , {t}"),
            24 => format!("SELECT {c}.{t} FROM {from}"),
            // More or other tables than two.
            25 => format!("SELECT {t}.{c} FROM {from} , {v}"),
            26 => format!("SELECT {c} FROM {from} , {v}"),
            27 => format!("SELECT {t}.{c} FROM {t} ,"),
            28 => format!("SELECT {t}.{c} FROM , {t}"),
            29 => format!("SELECT {t}.{c} FROM {t} {u}"),
            30 => format!("SELECT {t}.{c} FROM ( {from} )"),
            31 => format!("SELECT {t}.{c} FROM {t} . {u}"),
            32 => format!("SELECT {t}.{c} FROM {t} AND {u}"),
            33 => format!("DELETE FROM {from}"),
            34 => format!("UPDATE {from} SET {c} = 1"),
            35 => format!("INSERT INTO {from} VALUES ( 1 )"),
            // One table twice.
            36..=38 => format!("SELECT {t}.{c} FROM {t} , {t}"),
            39 => format!("SELECT {t}.{c} FROM {t} , {t} WHERE {t}.{c} = ?"),
            40 => format!("SELECT {c} FROM {t} , {t}"),
            41 => format!("SELECT {t}.nil FROM {t} , {t}"),
            42 => format!("SELECT {u}.{d} FROM {t} , {t}"),
            43 => format!("SELECT {t}.{c} FROM {t} , {t} , {t}"),
            44 => String::from("SELECT nil.a FROM nil , nil"),
            45 => format!("SELECT {t}.{c} FROM {t} , {t} WHERE {t}.{c} = {}", self.random.pick(&OUTSIDE)),
            // Dots in the wrong place.
            46..=48 => {
                let odd = self.random.pick(&[
                    "t.c.d", ".c", "t.", "t..c", ".", "1.5", "t.1", "1.c", "t.?", "?.c", "t.-1", "-1.c", "t.SELECT", "SET.c",
                    "t.( c )", "t.*", "t.c.", ".t.c", "t , c", "t.1c", "t._c", "t.C", "T.c", "( t.c )", "t.c t.c", "NOT.c", "t.-c",
                ]);
                let named = |word: &String| match word.as_str() {
                    "t" => t.clone(),
                    "c" => c.clone(),
                    "d" => d.clone(),
                    _ => word.clone(),
                };
                let odd = dotted_words(odd).iter().map(named).collect::<Vec<_>>().join(" ");
                if self.random.chance(50) {
                    format!("SELECT {odd} FROM {from}")
                } else {
                    format!("SELECT {t}.{c} FROM {from} WHERE {odd} = {u}.{d}")
                }
            }
            // Limits.
            49 => format!("SELECT thirteen_byte.{c} FROM {from}"),
            50 => format!("SELECT {t}.thirteen_byte FROM {from}"),
            51 => format!("SELECT {t}.{c} FROM {t} , thirteen_byte"),
            52 => format!("SELECT twelve_bytes.{c} , {t}.twelve_bytes FROM {from}"),
            53 => format!("SELECT {} FROM {from}", many(self.random.between(8, 9), &format!("{t}.{c}"), " , ")),
            54 => format!("SELECT {t}.{c} FROM {from} WHERE {}", many(self.random.between(8, 9), &format!("{u}.{d} = ?"), " OR ")),
            55 => format!("SELECT {t}.{c} FROM {from} WHERE {}", many(self.random.between(8, 9), "1 <> 2", " AND ")),
            56 => format!("SELECT {u}.{d} FROM {from} WHERE {}{t}.{c} < {u}.{d}", "NOT ".repeat(self.random.between(7, 9))),
            _ => format!("SELECT {u}.{d} FROM {from} WHERE {t}.{c} = {}", self.random.pick(&OUTSIDE)),
        };
        dotted_words(&miss)
    }

    /// As `designed_miss`, about RING; some are taken.
    fn ring_miss(&mut self) -> Vec<String> {
        let (table, columns) = self.some_table();
        let c = self.column(&columns);
        let eight = "a1 , a2 , a3 , a4 , a5 , a6 , a7 , a8";
        let miss = match self.random.below(30) {
            0..=3 => {
                let size = self.random.pick(&[
                    "0", "513", "-1", "512", "1", "0003", "-0", "99999999999", "-513", "2147483648", "?", "x", "RING", "( 3 )", "= 3",
                    "- 3", "3 3", "3 ROWS 3", "3 RING 3", "3 , 4", "3 x", "0 x", "3 WHERE a = 1", "3a", "",
                ]);
                format!("TABLE new ( a ) RING {size}")
            }
            4 => format!("TABLE new ( a ) ROWS {} RING {}", self.random.between(0, 2), self.random.between(0, 2)),
            5 => format!("TABLE new ( a ) {} 3", self.random.pick(&["ROWS RING", "RING ROWS", "RING RING", ", RING", "( RING"])),
            6 => format!("TABLE new ( a ) {} 3", self.random.pick(&["ring", "Ring", "RINg", "rING", "RINGS", "RING_", "_RING", "RIN", "RING3"])),
            7 => String::from("TABLE new ( a ) RING3"),
            8 => String::from("TABLE RING ( a ) RING 3"),
            9 => String::from("TABLE new ( RING ) RING 3"),
            10 => String::from("TABLE ring ( ring ) RING 2"),
            11 => String::from("TABLE Ring ( Ring , rows ) ROWS 2"),
            12 => String::from("TABLE new RING 3 ( a )"),
            13 => String::from("TABLE new RING 3"),
            14 => String::from("TABLE new ( ) RING 3"),
            15 => format!("TABLE {table} ( a ) RING {}", self.random.pick(&["3", "0"])),
            16 => format!("TABLE new ( a , b , a ) RING {}", self.random.pick(&["3", "513"])),
            17 => format!("TABLE new ( {eight} ) RING {}", self.random.pick(&["512", "513", "256", "1"])),
            18 => format!("TABLE new ( {eight} , a9 ) RING 1"),
            19 => String::from("TABLE thirteen_byte ( a ) RING 1"),
            20 => format!("SELECT RING FROM {table}"),
            21 => format!("SELECT {c} FROM {table} WHERE RING = 1"),
            22 => format!("SELECT {c} FROM {table} RING 3"),
            23 => String::from("SELECT a FROM RING"),
            24 => String::from("SELECT ring FROM Ring WHERE riNG = ?"),
            25 => format!("UPDATE {table} SET RING = 1"),
            26 => format!("UPDATE {table} SET {c} = RING"),
            27 => self.random.pick(&["DELETE FROM RING", "DELETE FROM ring", "INSERT INTO RING VALUES ( 1 )", "RING 3", "RING"]).to_string(),
            28 => format!("INSERT INTO {table} VALUES ( RING )"),
            _ => format!("RING new ( a ) ROWS 3"),
        };
        words(&miss).into_iter().filter(|word| !word.is_empty()).collect()
    }

    /// Sentences past a limit, with unknown or taken names, or none by form.
    fn designed_miss(&mut self) -> Vec<String> {
        match self.random.below(100) {
            0..=34 => return self.pair_miss(),
            35..=50 => return self.ring_miss(),
            51..=77 => return self.null_miss(),
            _ => {}
        }
        let (table, columns) = self.some_table();
        let c = self.column(&columns);
        let d = self.column(&columns);
        let many = |n: usize, what: &str, by: &str| vec![what; n].join(by);
        let nine = "a1 , a2 , a3 , a4 , a5 , a6 , a7 , a8 , a9";
        let depth = self.random.between(7, 10);
        let nots = self.random.below(depth + 1);
        let nested = format!(
            "{}{}{c} = 1{}",
            "NOT ".repeat(nots),
            "( ".repeat(depth - nots),
            " )".repeat(depth - nots)
        );
        let miss = match self.random.below(40) {
            0 => format!("TABLE thirteen_byte ( a ) ROWS 3"),
            1 => format!("TABLE new ( {nine} ) ROWS 3"),
            2 => format!("TABLE new ( a ) ROWS {}", self.random.pick(&["0", "513", "-1", "512", "1", "0512", "-0", "99999999999", "?", "x"])),
            3 => format!("TABLE new ( a , b , a ) ROWS 3"),
            4 => format!("TABLE {table} ( a ) ROWS {}", self.random.pick(&["3", "0"])),
            5 => format!("SELECT {} FROM {table}", many(self.random.between(8, 9), &c, " , ")),
            6 => format!("SELECT {c} FROM {table} WHERE {}", many(self.random.between(8, 9), &format!("{c} = ?"), " OR ")),
            7 => format!("SELECT {c} FROM {table} WHERE {}", many(self.random.between(8, 9), &format!("{c} <> 1"), " AND ")),
            8 | 9 => format!("SELECT {c} FROM {table} WHERE {nested}"),
            10 => format!("DELETE FROM {table} WHERE {nested} OR {d} < ?"),
            11 => format!("INSERT INTO {table} VALUES ( {} )", many(self.random.between(1, 9), "?", " , ")),
            12 => format!("INSERT INTO {table} VALUES ( {c} )"),
            13 => format!("INSERT INTO nil VALUES ( {} )", many(self.random.between(8, 9), "1", " , ")),
            14 => format!("UPDATE {table} SET {c} = 1 , {c} = ?"),
            15 => format!("UPDATE {table} SET {c} = 1 , {c} = ? WHERE nil = 3"),
            16 => format!("UPDATE {table} SET {c} = {d}"),
            17 => format!("UPDATE {table} SET {}", many(9, &format!("{c} = 1"), " , ")),
            18 => format!("UPDATE {table} SET {c} <> 1"),
            19 => format!("DELETE FROM nil"),
            20 => format!("DELETE FROM {table} WHERE nil = 1"),
            21 => format!("SELECT nil FROM {table}"),
            22 => format!("SELECT {c} FROM nil_nil_nil_n"),
            23 => format!("SELECT FROM {table}"),
            24 => format!("SELECT {c} , FROM {table}"),
            25 => format!("SELECT {c} FROM {table} WHERE"),
            26 => format!("SELECT {c} FROM {table} WHERE ( {c} ) = 1"),
            27 => format!("SELECT {c} FROM {table} WHERE {c} = {}", self.random.pick(&OUTSIDE)),
            28 => format!("SELECT {c} FROM {table} WHERE {c} {} 1", self.random.pick(&["< >", "=<", "=>", "= =", "!=", "<>=", "<=>", "> ="])),
            29 => format!("SELECT {c} FROM {table} WHERE {c} = {}", self.random.pick(&["- 3", "--3", "3a", "3_", "+3", "-", "-a", "A", "_a", "3.0", "1 2", "??", "-?"])),
            30 => format!("SELECT {c} FROM {table} WHERE NOT NOT NOT {c} = 1"),
            31 => format!("SELECT {c} FROM {table} WHERE ( {c} = 1 ) ( {d} = 2 )"),
            32 => format!("SELECT {c} FROM {table} WHERE {c} = 1 NOT {d} = 2"),
            33 => format!("SELECT {c} FROM {table} WHERE {c} = 1 AND OR {d} = 2"),
            34 => format!("SELECT {c} FROM {table} WHERE {c} = {d} = 1"),
            35 => format!("DELETE {table}"),
            36 => format!("INSERT INTO {table} VALUES ( )"),
            37 => format!("TABLE new ( ) ROWS 3"),
            38 => format!("UPDATE {table} SET {c} = ? , {d} = ? WHERE {}", many(self.random.between(6, 7), &format!("{c} = ?"), " OR ")),
            _ => format!("TABLE table ( select , from , where_ ) ROWS 2"),
        };
        words(&miss)
    }

    /// One token dropped, doubled, swapped or changed.
    fn changed(&mut self, tokens: &mut Vec<String>) {
        if tokens.is_empty() {
            return;
        }
        let at = self.random.below(tokens.len());
        match self.random.below(10) {
            0 => {
                tokens.remove(at);
            }
            9 => tokens[at] = self.other_letter(&tokens[at].clone()),
            1 => tokens.insert(at, tokens[at].clone()),
            2 if at + 1 < tokens.len() => tokens.swap(at, at + 1),
            3 => tokens[at] = tokens[at].to_lowercase(),
            4 => tokens[at] = tokens[at].to_uppercase(),
            5 => tokens[at] = self.random.pick(&["(", ")", ",", "?", "=", "<", "AND", "OR", "NOT", "WHERE", "nil", "0", "-1", "SET", "FROM", ".", "RING", "ROWS", "IS", "NULL"]).to_string(),
            6 => tokens.insert(at, self.random.pick(&["(", ")", ",", "?", "NOT", "-", "a", "1", ".", "IS", "NULL"]).to_string()),
            7 => {
                let odd = self.random.pick(&["_", "1", "x", "X", "-", ";", "\t", "\r", "é", "'", "*", ".", "\u{0}", "\u{7f}", "<", "=", ">"]);
                if self.random.chance(50) {
                    tokens[at].push_str(odd);
                } else {
                    tokens[at].insert_str(0, odd);
                }
            }
            _ if at + 1 < tokens.len() => {
                let next = tokens.remove(at + 1);
                tokens[at].push_str(&next);
            }
            _ => {
                tokens.remove(at);
            }
        }
    }

    /// One letter small that was a capital, or the other way round.
    fn other_letter(&mut self, token: &str) -> String {
        let places: Vec<usize> = (0..token.len()).filter(|&i| token.as_bytes()[i].is_ascii_alphabetic()).collect();
        if places.is_empty() {
            return token.to_string();
        }
        let at = self.random.pick(&places);
        let flipped = |(i, c): (usize, char)| match c {
            c if i != at => c,
            c if c.is_ascii_lowercase() => c.to_ascii_uppercase(),
            c => c.to_ascii_lowercase(),
        };
        token.char_indices().map(flipped).collect()
    }

    /// The tokens with spaces where they are needed and some where they may stand.
    fn spaced(&mut self, tokens: &[String]) -> Vec<u8> {
        let style = self.random.below(4);
        let mut text = String::new();
        if style == 0 && self.random.chance(30) {
            text.push_str("  ");
        }
        for token in tokens {
            let is_word = |c: char| c.is_ascii_alphanumeric() || c == '_';
            let needed = text.ends_with(is_word) && token.starts_with(is_word);
            let spaces = match style {
                0 => self.random.below(3),
                1 => 0,
                _ => {
                    let close = text.is_empty() || text.ends_with(['(', '.']) || [",", ")", "."].contains(&token.as_str());
                    usize::from(!close)
                }
            };
            text.push_str(&" ".repeat(spaces.max(usize::from(needed))));
            text.push_str(token);
        }
        if style == 0 && self.random.chance(30) {
            text.push(' ');
        }
        if text.len() < 256 && self.random.below(60) == 0 {
            let whole = self.random.between(255, 258);
            let front = self.random.chance(50);
            while text.len() < whole {
                if front {
                    text.insert(0, ' ');
                } else {
                    text.push(' ');
                }
            }
        }
        text.into_bytes()
    }

    // ------------------------------------------------------------ lines

    fn emit(&mut self, line: Vec<u8>) {
        assert!(!line.contains(&b'\n'));
        let noted = self.front.store.note_now().cloned();
        // A commit counts as the update that it does.
        let counted = match &noted {
            Some(note) if line == b"COMMIT" => format!("DO {}{}", note.update, self.written(&note.values)).into_bytes(),
            _ => line.clone(),
        };
        let before = self.before(&counted);
        if let Some(printed) = self.front.line(&line) {
            if self.mode == Mode::Calls {
                self.count_looks(&line, &printed, noted, before.as_ref());
            }
            self.note(&counted, &printed, before);
            self.made.printed.push(printed);
        }
        self.made.script.lines.push(line);
    }

    /// Counts what the line did.
    fn note(&mut self, line: &[u8], printed: &str, before: Option<Before>) {
        let store = &self.front.store;
        if printed.starts_with("new") {
            let ground = store.last_ground.expect("a new answer has a ground");
            self.made.grounds[ground as usize] += 1;
            self.made.evictions += usize::from(store.last_evicted);
            self.made.just_fits += usize::from(store.last_length == store.slot_bytes);
            self.made.too_long += usize::from(store.last_length > store.slot_bytes);
        }
        if let Some(dropped) = printed.split_once(" dropped ").map(|(_, n)| n.parse::<usize>().unwrap()) {
            let text = String::from_utf8_lossy(line);
            let n: usize = text.split(' ').nth(1).unwrap().parse().unwrap();
            let kind = match store.catalogue.updates[n].change {
                Change::Insert(_) => 0,
                Change::Set(_) => 1,
                Change::Delete => 2,
            };
            self.made.drops[kind] += dropped;
        }
        for what in self.pair_outcomes(line, printed) {
            *self.made.pairs.entry(what).or_default() += 1;
        }
        for what in self.name_outcomes(line, printed) {
            *self.made.names.entry(what).or_default() += 1;
        }
        for what in self.ring_outcomes(line, printed) {
            *self.made.rings.entry(what).or_default() += 1;
        }
        for what in self.exact_outcomes(line, printed, before.as_ref()) {
            *self.made.exact.entry(what).or_default() += 1;
        }
        for (what, n) in self.null_outcomes(line, printed, before) {
            *self.made.nulls.entry(what).or_default() += n;
        }
        for (what, n) in self.outer_outcomes(line, printed) {
            *self.made.outer.entry(what).or_default() += n;
        }
    }

    /// What came of a text with capitals in names, and of one in which a name stands in other letters than before.
    fn name_outcomes(&self, line: &[u8], printed: &str) -> Vec<String> {
        let text = String::from_utf8_lossy(line);
        let Some(text) = text.strip_prefix("ADD ").filter(|_| printed != "bad line") else {
            return vec![];
        };
        let names = names_in(text);
        let how = match printed.strip_prefix("refused") {
            Some(_) => printed.to_string(),
            None => format!("added {}", printed.split(' ').next().unwrap_or_default()),
        };
        let mut all = Vec::new();
        if names.iter().any(|name| has_capital(name)) {
            all.push(format!("with capitals, {how}"));
        }
        let tables = &self.front.store.catalogue.tables;
        let known = tables.iter().flat_map(|table| table.columns.iter().chain([&table.name])).chain(&names);
        let typed_otherwise = |one: &String| names.iter().any(|name| name != one && same_name(name, one));
        if known.into_iter().any(typed_otherwise) {
            all.push(format!("one name in two spellings, {how}"));
        }
        all
    }

    /// What the line did about questions over two tables.
    fn pair_outcomes(&self, line: &[u8], printed: &str) -> Vec<String> {
        let store = &self.front.store;
        let catalogue = &store.catalogue;
        let text = String::from_utf8_lossy(line);
        let n: Option<usize> = text.split(' ').nth(1).and_then(|word| word.parse().ok());
        let is_pair = |question: usize| catalogue.questions[question].tables.len() == 2;
        let mut all = Vec::new();
        if text.starts_with("ADD ") && printed.starts_with("query") && is_pair(catalogue.questions.len() - 1) {
            all.push(String::from("added"));
        }
        if let Some(n) = n.filter(|&n| text.starts_with("ASK ") && n < catalogue.questions.len() && is_pair(n)) {
            let question = &catalogue.questions[n];
            let how: Vec<&str> = printed.split(' ').take(if printed.starts_with("refused") { 2 } else { 1 }).collect();
            all.push(format!("asked, {}", how.join(" ")));
            if printed.starts_with("new") {
                let rows = (store.last_length - 8) / 4 / question.columns.len();
                let size = match rows {
                    0 => "no row",
                    1..=512 => "1 to 512 rows",
                    513..=16_381 => "513 to 16,381 rows",
                    16_382..=65_534 => "16,382 to 65,534 rows",
                    _ => "65,535 rows",
                };
                all.push(format!("asked, new: {size}"));
                if store.last_length == 2_097_128 {
                    all.push(String::from("asked, new: the longest record"));
                }
                if printed.split(' ').nth(2).is_some_and(|read| read.parse::<usize>().unwrap() > 65_535) {
                    all.push(String::from("asked, new: more than 65,535 rows read"));
                }
            }
        }
        if text.starts_with("ROW ") && printed.starts_with("row") && n.is_some_and(|n| n >= 512) {
            all.push(String::from("row shown past row 511"));
        }
        if let Some(update) = n.and_then(|n| catalogue.updates.get(n)).filter(|_| printed.contains(" dropped ")) {
            let kind = match update.change {
                Change::Insert(_) => "INSERT into",
                Change::Set(_) => "UPDATE of",
                Change::Delete => "DELETE from",
            };
            let stayed: Vec<usize> = store.kept_keys().iter().map(|(question, _)| *question).collect();
            for (what, questions) in [("dropped", &store.last_dropped), ("left", &stayed)] {
                for &question in questions.iter().filter(|&&question| is_pair(question)) {
                    let table = match catalogue.questions[question].tables.iter().position(|&t| t == update.table) {
                        Some(0) => "the first table",
                        Some(_) => "the second table",
                        None => "another table",
                    };
                    all.push(format!("{what} by {kind} {table}"));
                }
            }
        }
        all
    }

    fn emit_text(&mut self, line: &str) {
        self.emit(line.as_bytes().to_vec());
    }

    fn add(&mut self, tokens: &[String]) {
        let tokens = self.recased(tokens);
        self.add_as_typed(&tokens);
    }

    fn add_as_typed(&mut self, tokens: &[String]) {
        let mut line = b"ADD ".to_vec();
        let mut text = self.spaced(tokens);
        let bytes = if self.profile == Profile::Misses { 20 } else { 500 };
        if !text.is_empty() && self.random.below(bytes) == 0 {
            let at = self.random.below(text.len());
            let byte = self.random.below(256) as u8;
            text[at] = if byte == b'\n' { b'\r' } else { byte };
        }
        line.extend(text);
        self.emit(line);
    }

    fn add_something(&mut self) {
        let misses = match self.profile {
            Profile::Misses => 65,
            Profile::Mixed => 20,
            _ => 6,
        };
        let mut tokens = if !self.random.chance(misses) || self.random.chance(50) {
            self.recased_statement()
        } else if self.random.chance(30) {
            self.name_miss()
        } else {
            let tokens = self.designed_miss();
            self.recased(&tokens)
        };
        if self.random.chance(misses) && self.random.chance(60) {
            self.changed(&mut tokens);
            if self.random.chance(25) {
                self.changed(&mut tokens);
            }
        }
        self.add_as_typed(&tokens);
    }

    /// A statement that the store would take now, if one is found soon.
    fn add_taken(&mut self, make: fn(&mut Generator) -> Vec<String>) {
        for _ in 0..12 {
            let tokens = make(self);
            let tokens = self.recased(&tokens);
            let plain_text = tokens.join(" ").into_bytes();
            if self.front.store.catalogue.read(self.front.lent.0, &plain_text).is_ok() {
                self.add_as_typed(&tokens);
                return;
            }
        }
    }

    fn values(&mut self, marks: usize) -> Vec<i32> {
        let count = if self.random.below(50) == 0 { self.random.below(10) } else { marks };
        (0..count).map(|_| self.value()).collect()
    }

    /// The values as words, each behind a space; in `desk` some in another spelling.
    fn written(&mut self, values: &[i32]) -> String {
        let mut text = String::new();
        let odd = if self.profile == Profile::Edges { 10 } else { 40 };
        for &value in values {
            if self.mode == Mode::Desk && self.random.below(odd) == 0 {
                let zeros = "0".repeat(self.random.pick(&[0, 1, 2, 9, 30]));
                let minus = value < 0 || value == 0 && self.random.chance(50);
                text.push_str(&format!(" {}{zeros}{}", if minus { "-" } else { "" }, value.unsigned_abs()));
            } else {
                text.push_str(&format!(" {value}"));
            }
        }
        text
    }

    fn statement_number(&mut self, count: usize) -> usize {
        if count == 0 || self.random.below(60) == 0 {
            return self.random.pick(&[count, count + 1, 15, 16, 17, 255, 256, 65_536, 2_147_483_647]);
        }
        self.random.below(count)
    }

    /// A question's number and values, often of an answer that is kept.
    fn key(&mut self) -> (usize, Vec<i32>) {
        let count = self.front.store.catalogue.questions.len();
        let n = self.statement_number(count);
        let marks = self.front.store.catalogue.questions.get(n).map_or(0, |question| question.marks);
        let values = self.values(marks);
        let kept = self.front.store.kept_keys();
        if !kept.is_empty() && self.random.chance(45) {
            return self.random.pick(&kept);
        }
        (n, values)
    }

    fn ask(&mut self) {
        let (n, values) = self.key();
        let text = self.written(&values);
        if self.mode == Mode::Desk {
            self.emit_text(&format!("ASK {n}{text}"));
            return;
        }
        let mut length = self.enough(n, &values);
        if self.random.chance(25) {
            length = match self.front.store.length_now(n, &values) {
                Some(exact) => self.random.pick(&[exact, exact, exact - 1, exact + 1, exact - 4, 8, 0]),
                None => self.random.below(20),
            };
        }
        self.emit_text(&format!("ASK {n} {length}{text}"));
        if self.random.chance(12) {
            self.show_rows();
        }
    }

    /// Calls: a buffer that takes the answer. One of 16,392 bytes takes every answer over one table.
    fn enough(&mut self, n: usize, values: &[i32]) -> usize {
        let paired = self.front.store.catalogue.questions.get(n).is_some_and(|question| question.tables.len() == 2);
        if self.mode == Mode::Desk || !paired {
            return 16_392;
        }
        if self.random.chance(6) {
            return self.random.pick(&[16_392, 65_536, 262_148, 2_097_127, 2_097_128, BUFFER]);
        }
        self.front.store.length_now(n, values).map_or(16_392, |exact| exact.max(16_392))
    }

    /// Calls: rows of the last answer, if there is one.
    fn show_rows(&mut self) {
        let Some(rows) = self.front.buffer.as_ref().map(|b| usize::from(b[6]) * 256 + usize::from(b[7])) else {
            return;
        };
        for _ in 0..self.random.between(1, if rows == 0 { 1 } else { 3 }) {
            let row = match self.random.below(20) {
                0..=5 => self.random.pick(&[0, 0, 1, 2]),
                6 | 7 => rows.saturating_sub(1),
                8 | 9 => self.random.below(rows),
                10 => rows / 2,
                11 => rows,
                12 => rows + 1,
                13 => self.random.pick(&[255, 256, 511, 512, 513, 65_534, 65_535, 65_536, 2_147_483_647]),
                _ => self.random.below(rows.min(3)),
            };
            self.emit_text(&format!("ROW {row}"));
        }
    }

    /// An update's number and values.
    fn some_update(&mut self) -> String {
        let count = self.front.store.catalogue.updates.len();
        let n = self.statement_number(count);
        let marks = self.front.store.catalogue.updates.get(n).map_or(0, |u| u.marks);
        let values = self.values(marks);
        format!("{n}{}", self.written(&values))
    }

    fn update(&mut self) {
        let update = self.some_update();
        self.done(&update);
    }

    /// An insert, if there is one; tables stay fuller so.
    fn insert(&mut self) {
        let store = &self.front.store;
        let mut inserts: Vec<usize> = (0..store.catalogue.updates.len())
            .filter(|&n| matches!(store.catalogue.updates[n].change, Change::Insert(_)))
            .collect();
        if self.random.chance(80) {
            let store = &self.front.store;
            inserts.retain(|&n| !store.is_full(store.catalogue.updates[n].table));
        }
        if inserts.is_empty() {
            return self.update();
        }
        // Tables without rows first.
        let store = &self.front.store;
        let into_empty: Vec<usize> =
            inserts.iter().copied().filter(|&n| store.height(store.catalogue.updates[n].table) == 0).collect();
        if !into_empty.is_empty() && self.random.chance(60) {
            inserts = into_empty;
        }
        let n = self.random.pick(&inserts);
        let marks = self.front.store.catalogue.updates[n].marks;
        let values = self.values(marks);
        let text = self.written(&values);
        self.done(&format!("{n}{text}"));
    }

    // ------------------------------------------------------------ lines of desk that are bad, or nearly

    /// Lines that are bad whatever the store holds, and some good ones of unusual form.
    fn odd_desk_line(&mut self) {
        let outside = self.random.pick(&OUTSIDE);
        let edge = self.random.pick(&EDGES);
        let line: Vec<u8> = match self.random.below(44) {
            0 | 1 => vec![],
            2 => b"FLUSH ".to_vec(),
            3 => self.random.pick(&["FLUSH x", "FLUSH 0", "FLUSHFLUSH", "FLUSH FLUSH", "FLUS", "FLUSH;", " FLUSH"]).into(),
            4 => self.random.pick(&["flush", "Flush", "ask 0", "do 0", "Ask 0", "add DELETE FROM t", "dO 0"]).into(),
            5 => b"ADD".to_vec(),
            6 => b"ADD ".to_vec(),
            7 => self.random.pick(&["ADD\tDELETE FROM t", "ADDDELETE FROM t", " ADD DELETE FROM t", "ADD\r", "ADD \r"]).into(),
            8 => self.random.pick(&["ASK", "DO", "AS", "D", "A", "?", "0", "HELP", "SELECT a FROM t"]).into(),
            9 => self.random.pick(&["ASK ", "DO ", "ASK  ", "DO  ", " ", "  "]).into(),
            10 => self.random.pick(&["ASK  0", "DO  0", "ASK  0 1", "DO   0 1"]).into(),
            11 => self.random.pick(&["ASK 0 ", "DO 0 ", "ASK 0  ", "DO 0 1 "]).into(),
            12 => self.random.pick(&["ASK 0  1", "DO 0  1", "DO 0 1  1"]).into(),
            13 => self.random.pick(&[" ASK 0 1", " DO 0 1", "  ASK 0"]).into(),
            14 => self.random.pick(&["ASK -1", "DO -1", "ASK -0", "DO -0", "DO +0", "ASK ?", "ASK a", "DO 0x0", "ASK 0.0"]).into(),
            15 => format!("{} {outside}", self.random.pick(&["ASK", "DO"])).into(),
            16 => {
                let n = self.random.pick(&["2147483647", "2147483648", "4294967295", "4294967296"]);
                format!("{} {n}", self.random.pick(&["ASK", "DO"])).into()
            }
            17 => format!("{} {}", self.random.pick(&["ASK", "DO"]), "9".repeat(self.random.between(9, 40))).into(),
            18 | 19 => format!("{} 0 {outside}", self.random.pick(&["ASK", "DO"])).into(),
            20 | 21 => format!("{} 0 {edge}", self.random.pick(&["ASK", "DO"])).into(),
            22 => format!("{} 15 {outside}", self.random.pick(&["ASK", "DO"])).into(),
            23 => self.random.pick(&["DO 0 1\r", "ASK 0\r", "FLUSH\r", "\r", "ASK 0\t1", "DO\t0", "\tFLUSH", "FLUSH\t"]).into(),
            24 => self.random.pick(&["FLUSH\0", "\0", "\0FLUSH", "ASK 0\0", "ASK \0", "DO 0 \x001", "ADD\0", "ADD \0"]).into(),
            25 => self.random.pick(&[&b"FLUSH\xff"[..], b"\x80", b"ASK \xb2", b"DO 0 \xa01", b"ASK\xa00", b"ADD \xc3\xa9", b"\xffDO 0"]).into(),
            26 => self.random.pick(&["DO 0 1x", "DO 0 x", "DO 0 1_", "ASK 0 1-", "ASK 0 1,1", "ASK 0 1/1", "ASK 0 1:", "DO 0 1;"]).into(),
            27 => self.random.pick(&["DO 0 -", "ASK 0 -", "DO 0 - 1", "ASK 0 --1", "DO 0 -+1", "DO 0 +1", "ASK 0 1-1", "DO 0 -x"]).into(),
            28 | 29 => format!("{} 0{}", self.random.pick(&["ASK", "DO"]), " 1".repeat(self.random.between(7, 12))).into(),
            30 => self.random.pick(&["DO 00", "ASK 000000000000000000000000", "DO 015", "ASK 016"]).into(),
            31 => format!("ADD {}", "x".repeat(self.random.between(252, 258))).into(),
            32 => format!("ADD{}", " ".repeat(self.random.between(253, 262))).into(),
            33 => format!("ADD{}", " ".repeat(self.random.between(507, 511))).into(),
            34 => format!("ADD {}", "x".repeat(self.random.between(506, 510))).into(),
            35 => format!("ASK 0{}", " 1".repeat(self.random.between(252, 255))).into(),
            36 => format!("DO 00{}", " 1".repeat(self.random.between(252, 254))).into(),
            37 => format!("DO 0{}{}", " 1".repeat(self.random.between(8, 250)), self.random.pick(&["", " ", " x", " 2147483648"])).into(),
            38 => format!("FLUSH{}", " ".repeat(self.random.between(506, 508))).into(),
            39 | 40 => self.long_line(),
            41 => vec![self.random.pick(&[b' ', b'x', 0, 255]); self.random.between(510, 515)],
            _ => {
                let length = self.random.between(1, 40);
                let bytes: Vec<u8> = (0..length).map(|_| self.random.below(256) as u8).collect();
                bytes.iter().map(|&b| if b == b'\n' { b'\r' } else { b }).collect()
            }
        };
        self.emit(line);
    }

    /// A line far past 512 bytes that would be good, or hold good ones, if it were cut.
    fn long_line(&mut self) -> Vec<u8> {
        let length = match self.random.below(40) {
            0 => self.random.pick(&[65_535, 65_536, 65_537, 70_000, 131_073]),
            1..=4 => self.random.pick(&[4_095, 4_096, 4_097, 5_000, 8_193]),
            _ => self.random.pick(&[513, 514, 515, 600, 1_023, 1_024, 1_025, 1_026, 1_536, 2_049]),
        };
        let part = self.random.pick(&["FLUSH ", "DO 0 1 ", "ASK 0 1 1 1 ", "0", " ", "ADD DELETE FROM t ", "FLUSH\r"]);
        let start = self.random.pick(&["", "", "ASK 0 ", "DO 0 ", "ADD ", "FLUSH ", "ASK "]);
        let mut line = start.as_bytes().to_vec();
        while line.len() < length {
            line.extend(part.as_bytes());
        }
        line.truncate(length);
        line
    }

    /// A good line with one change; some stay good.
    fn changed_desk_line(&mut self) {
        let mut line = match self.random.below(10) {
            0 => b"FLUSH".to_vec(),
            1 => [b"ADD ".to_vec(), self.recased_statement().join(" ").into_bytes()].concat(),
            2..=6 => {
                let (n, values) = self.key();
                format!("ASK {n}{}", self.written(&values)).into_bytes()
            }
            _ => format!("DO {}", self.some_update()).into_bytes(),
        };
        let spaces: Vec<usize> = (0..line.len()).filter(|&i| line[i] == b' ').collect();
        let space = if spaces.is_empty() { line.len() } else { self.random.pick(&spaces) };
        let at = self.random.below(line.len());
        let byte = match self.random.below(256) as u8 {
            b'\n' => b'\r',
            byte => byte,
        };
        match self.random.below(14) {
            0 => line.insert(0, b' '),
            1 => line.push(b' '),
            2 => line.insert(space, b' '),
            3 => line[space.min(at)] = b'\t',
            4 => line.push(b'\r'),
            5 => line[at] = line[at].to_ascii_lowercase(),
            6 => drop(line.remove(space.min(at))),
            7 => line.insert(at, byte),
            8 => line[at] = byte,
            9 => drop(line.remove(at)),
            10 | 11 => {
                // A number's zeros may fill the line.
                let whole = self.random.pick(&[511, 512, 512, 513, 514]);
                let minus = line.get(space + 1) == Some(&b'-');
                let place = (space + 1 + usize::from(minus)).min(line.len());
                let zeros = vec![b'0'; whole - line.len().min(whole)];
                line.splice(place..place, zeros);
            }
            12 => {
                let word = [self.random.pick(&OUTSIDE), self.random.pick(&EDGES)][self.random.below(2)];
                line.truncate(spaces.last().copied().unwrap_or(line.len()));
                line.extend(format!(" {word}").into_bytes());
            }
            _ => line.extend(" 1".repeat(self.random.pick(&[1, 2, 8, 100, 240, 300])).into_bytes()),
        }
        self.emit(line);
    }

    fn open(&mut self) {
        let slots = match self.profile {
            Profile::Repeats => self.random.between(1, 4),
            Profile::Slots => self.random.pick(&[0, 64, 64, 63]),
            Profile::Large => self.random.pick(&[1, 4, 64]),
            Profile::Patterns | Profile::Counts => self.random.pick(&[8, 16, 64]),
            _ => self.random.pick(&[1, 2, 3, 4, 5, 8, 16, 64]),
        };
        let slot_bytes = match self.profile {
            Profile::Repeats => self.random.pick(&[8, 12, 16, 20, 24, 32]),
            Profile::Large => self.random.pick(&[4_096, 4_096, 2_056, 1_032, 64]),
            Profile::Slots => self.random.pick(&[8, 12, 64, 4_096]),
            Profile::Patterns | Profile::Counts => self.random.pick(&[24, 64, 256, 1_024]),
            _ => self.random.pick(&[12, 16, 24, 40, 64, 100, 256]),
        };
        let cells = match self.profile {
            Profile::Full => self.random.between(10, 60),
            Profile::Large => self.random.pick(&[32_768, 8_192]),
            Profile::Openings => self.random.pick(&[0, 1, 7, 30, 100, 32_768]),
            _ => self.random.pick(&[100, 1_000, 4_096, 32_768]),
        };
        let bytes = slots * slot_bytes + self.random.pick(&[0, 0, 1, 100]);
        let bytes = bytes.min(262_144);
        self.emit_text(&format!("OPEN {cells} {bytes} {slots} {slot_bytes}"));
    }

    /// Openings at and past the limits.
    fn odd_open(&mut self) {
        let (cells, bytes, slots, each) = self.random.pick(&[
            (100, 15, 2, 8),
            (100, 16, 2, 8),
            (32_769, 100, 1, 8),
            (32_768, 262_144, 64, 4_096),
            (32_768, 262_143, 64, 4_096),
            (32_768, 262_145, 64, 4_096),
            (10, 262_144, 65, 8),
            (10, 262_144, 2, 4_097),
            (10, 262_144, 0, 4_097),
            (10, 100, 1, 7),
            (10, 100, 0, 7),
            (10, 100, 0, 0),
            (0, 0, 0, 8),
            (0, 0, 0, 4_096),
            (0, 0, 1, 8),
            (0, 7, 1, 8),
            (0, 8, 1, 8),
            (60, 300, 4, 64),
            (60, 262_144, 3, 20),
        ]);
        self.emit_text(&format!("OPEN {cells} {bytes} {slots} {each}"));
    }

    /// Wrong lengths for some lines, or lengths 0 after a refused opening.
    fn wrong_lengths(&mut self) {
        let (cells, bytes) = self.front.lent;
        let lent = self.random.pick(&[
            (cells.saturating_sub(1), bytes),
            (cells + 1, bytes),
            (cells, bytes.saturating_sub(1)),
            (cells, bytes + 1),
            (0, 0),
            (bytes, cells),
            (0, bytes),
            (cells, 0),
        ]);
        self.emit_text(&format!("LEND {} {}", lent.0.min(32_769), lent.1.min(262_145)));
        for _ in 0..self.random.between(1, 6) {
            self.call();
        }
        if self.random.chance(90) {
            self.emit_text(&format!("LEND {cells} {bytes}"));
        }
    }

    fn call(&mut self) {
        let (adds, flushes) = match self.profile {
            Profile::Misses => (70, 1),
            Profile::Patterns | Profile::Counts => (18, 1),
            Profile::Openings => (25, 2),
            Profile::Large => (2, 0),
            _ => (8, 1),
        };
        if self.random.chance(adds) {
            return self.add_something();
        }
        if self.profile == Profile::Counts && self.random.chance(4) {
            return self.count_pair();
        }
        if matches!(self.profile, Profile::Patterns | Profile::Mixed) && self.random.chance(4) {
            return match self.random.below(4) {
                0 => self.mark_pair(),
                1 => self.opposite_pair(),
                2 => self.null_pair(),
                _ => self.join_pair(),
            };
        }
        if self.random.chance(flushes) {
            return self.emit_text("FLUSH");
        }
        let places = self.front.store.catalogue.questions.len() < 16 && self.front.store.catalogue.updates.len() < 16;
        if places && self.random.chance(1) {
            return self.join_pair();
        }
        if self.random.chance(6) {
            return self.touch_pair();
        }
        if self.random.chance(6) {
            return self.outer_calls();
        }
        if places && self.random.chance(2) {
            return self.exact_pair();
        }
        if self.random.chance(7) {
            return self.exact_calls();
        }
        if self.random.chance(if matches!(self.profile, Profile::Full | Profile::Repeats) { 8 } else { 4 }) {
            return self.ring_calls();
        }
        let odd = if matches!(self.profile, Profile::Misses | Profile::Edges | Profile::Mixed) { 10 } else { 4 };
        if self.mode == Mode::Desk && self.random.chance(odd) {
            return if self.random.chance(50) { self.odd_desk_line() } else { self.changed_desk_line() };
        }
        if self.random.chance(if self.profile == Profile::Edges { 8 } else { 4 }) {
            return self.iced_calls();
        }
        if self.mode == Mode::Calls && self.random.chance(6) {
            return self.emit_text("SLOTS");
        }
        if self.mode == Mode::Calls && self.random.chance(2) {
            return self.spoil_null_test();
        }
        if self.mode == Mode::Calls && self.random.chance(2) {
            return self.spoil_some_outer();
        }
        if self.mode == Mode::Calls && self.random.chance(12) {
            return self.look_calls();
        }
        if self.mode == Mode::Calls && self.random.chance(4) {
            return match self.random.below(16) {
                0..=5 => {
                    let update = self.some_update();
                    self.emit_text(&format!("PROPOSE {update}"));
                }
                6..=8 => self.emit_text("COMMIT"),
                9 | 10 => self.emit_text("WITHDRAW"),
                11 => self.spoil_note(),
                12 => self.spoil_towards_full(),
                13 => {
                    if self.random.chance(70) {
                        self.propose();
                    }
                    self.look_with_wrong_lengths();
                }
                _ => {
                    let update = self.refused_update();
                    self.emit_text(&format!("PROPOSE {update}"));
                }
            };
        }
        match self.random.below(100) {
            0..=59 => self.ask(),
            60..=79 => self.insert(),
            _ => self.update(),
        }
    }

    fn set_up(&mut self) {
        let tables = match self.profile {
            Profile::Repeats | Profile::Large => self.random.pick(&[1, 2, 2]),
            Profile::Full => self.random.between(2, 5),
            _ => self.random.pick(&[1, 2, 2, 3, 3]),
        };
        for _ in 0..tables {
            self.add_taken(Generator::table_text);
        }
        // Most tables can be filled.
        for table in self.front.store.catalogue.tables.clone() {
            if self.random.chance(90) {
                let text = self.insert_into(&table.name, table.columns.len());
                self.add(&text);
            }
            let named = (table.name, table.columns);
            if table.ring && self.random.chance(if self.profile == Profile::Full { 85 } else { 60 }) {
                self.ring_statements(&named);
            }
            if self.random.chance(if self.profile == Profile::Edges { 85 } else { 45 }) {
                let question = self.iced_question(&named);
                self.add(&question);
                let update = self.iced_change(&named);
                self.add(&update);
            }
            if self.random.chance(75) {
                self.exact_statements(&named);
            }
        }
        for _ in 0..self.random.between(0, 2) {
            self.add_taken(Generator::insert_text);
        }
        for _ in 0..self.random.between(2, 8) {
            self.insert();
        }
        for _ in 0..self.random.between(1, 4) {
            self.add_taken(Generator::update_text);
        }
        for _ in 0..self.random.between(0, 3) {
            self.add_taken(Generator::delete_text);
        }
        for _ in 0..self.random.between(2, 6) {
            self.add_taken(Generator::select_text);
        }
        if self.random.chance(60) {
            self.join_pair();
        }
        for _ in 0..self.random.between(1, 3) {
            self.add_taken(Generator::outer_text);
        }
        self.outer_calls();
        self.exact_calls();
        if self.mode == Mode::Calls {
            self.look_calls();
        }
    }

    /// Two tables whose pairs are about as many as a record may hold (in `desk`: also about as many as its buffer takes),
    /// questions that leave some of them out, and updates by a row or two.
    fn square(&mut self) {
        let sizes = match self.mode {
            Mode::Desk => [(128, 128), (128, 128), (127, 129), (64, 256), (256, 256), (256, 256), (255, 257), (512, 128)],
            Mode::Calls => {
                let slot_bytes = self.random.pick(&[4_096, 1_032, 64]);
                self.emit_text(&format!("OPEN 32768 16384 4 {slot_bytes}"));
                [(256, 256), (256, 256), (255, 257), (257, 255), (512, 128), (128, 512), (129, 508), (512, 512)]
            }
        };
        let sizes = self.random.pick(&sizes);
        // A ring of that many rows is full, and the next row pushes one out.
        let [first_size, second_size] = [(sizes.0, 1), (sizes.1, 2)].map(|(rows, more): (usize, usize)| {
            if self.random.chance(40) {
                format!("RING {rows}")
            } else {
                format!("ROWS {}", (rows + more).min(512))
            }
        });
        let wide = if self.random.chance(30) { ", w" } else { "" };
        let more = if wide.is_empty() { "" } else { ", 7" };
        let first = self.front.store.catalogue.updates.len();
        let question = self.front.store.catalogue.questions.len();
        for text in [
            format!("TABLE p (a{wide}) {}", first_size),
            format!("TABLE q (b) {}", second_size),
            format!("INSERT INTO p VALUES (?{more})"),
            "INSERT INTO q VALUES (?)".to_string(),
            "DELETE FROM p WHERE a = ?".to_string(),
            "DELETE FROM q WHERE b = ?".to_string(),
            "UPDATE q SET b = ? WHERE b = ?".to_string(),
            "SELECT q.b FROM p, q WHERE p.a <> ? OR q.b >= ?".to_string(),
            "SELECT p.a FROM p, q".to_string(),
            "SELECT p.a, q.b, q.b, p.a, p.a, q.b, p.a, q.b FROM p, q WHERE p.a <> ? OR q.b >= ?".to_string(),
            "SELECT p.a, q.b FROM q, p WHERE p.a = q.b AND p.a < ?".to_string(),
            "SELECT p.a FROM q, p WHERE q.b = ?".to_string(),
        ] {
            self.emit_text(&format!("ADD {text}"));
        }
        for i in 0..sizes.0 {
            self.emit_text(&format!("DO {first} {i}"));
        }
        for i in 0..sizes.1 {
            self.emit_text(&format!("DO {} {i}", first + 1));
        }
        for _ in 0..16 {
            // The pairs to leave out: as many as there are too many, or about that.
            let pairs = self.front.store.height(0) * self.front.store.height(1);
            let over = [65_535, 16_382].iter().filter_map(|limit| pairs.checked_sub(*limit)).find(|&k| k < 512);
            let k = match over {
                Some(k) if self.random.chance(70) => self.random.pick(&[k, k, k.saturating_sub(1), k + 1]),
                _ => self.random.below(4),
            };
            let (n, values) = match self.random.below(14) {
                0..=3 => (question, format!(" 0 {k}")),
                4 | 5 => (question + 1, String::new()),
                6 | 7 => (question + 2, format!(" 0 {k}")),
                8 | 9 => (question + 3, format!(" {}", self.random.pick(&[3, 40, 600]))),
                10 => (question + 4, format!(" {}", self.random.below(4))),
                roll => {
                    let row = self.random.pick(&[0, 1, 100, 255, 256, 600]);
                    let done = match roll {
                        11 => format!("{} {row}", first + self.random.below(2)),
                        12 => format!("{} {row}", first + 2 + self.random.below(2)),
                        _ => format!("{} {row} {}", first + 4, self.random.pick(&[0, 1, 2, 255])),
                    };
                    self.done(&done);
                    continue;
                }
            };
            self.ask_closely(n, &values);
        }
        // Answers that the last rows of the tables are in.
        self.ask_closely(question + 3, " 600");
        self.ask_closely(question + 4, &format!(" {}", sizes.1 - 1));
        self.ask_closely(question + 4, " 3");
    }

    /// An ask, in `calls` with a buffer that the answer just fits or does not, and rows of it.
    fn ask_closely(&mut self, n: usize, values: &str) {
        if self.mode == Mode::Desk {
            return self.emit_text(&format!("ASK {n}{values}"));
        }
        let given: Vec<i32> = values.split_whitespace().map(|word| word.parse().unwrap()).collect();
        let buffer = match self.front.store.length_now(n, &given) {
            Some(exact) => self.random.pick(&[exact, exact, exact, exact + 1, exact - 1, BUFFER]),
            None => self.random.pick(&[0, 262_148, BUFFER]),
        };
        self.emit_text(&format!("ASK {n} {buffer}{values}"));
        self.show_rows();
    }

    /// Now and then another opening, or other lengths lent.
    fn openings_and_lengths(&mut self) {
        let percent = if self.profile == Profile::Openings { 4 } else { 0 };
        if self.random.chance(percent) {
            if self.random.chance(50) {
                self.propose();
            }
            self.odd_open();
            if self.random.chance(30) {
                self.emit_text("LEND 0 0");
            }
            self.commit_or_withdraw(60);
            if self.random.chance(50) {
                self.set_up();
            }
            for _ in 0..self.random.between(1, 8) {
                self.call();
            }
            if self.random.chance(40) {
                self.propose();
            }
            self.open();
            self.commit_or_withdraw(40);
            self.set_up();
        }
        if self.random.chance(percent) || self.random.below(400) == 0 {
            self.wrong_lengths();
        }
        // Other statements beside one another.
        let renewed = matches!(self.profile, Profile::Patterns | Profile::Counts | Profile::Misses);
        if renewed && self.random.below(80) == 0 {
            if self.random.chance(40) {
                self.propose();
            }
            self.open();
            self.commit_or_withdraw(40);
            self.set_up();
        }
    }

    /// Examples, in a store such as `desk` opens.
    fn examples(&mut self, lines: impl Iterator<Item = &'static str>) {
        if self.mode == Mode::Calls {
            self.emit_text("OPEN 4096 256 4 64");
        }
        for line in lines {
            match line.strip_prefix("ASK ") {
                Some(asked) if self.mode == Mode::Calls => {
                    let (n, values) = asked.split_once(' ').map_or((asked, String::new()), |(n, v)| (n, format!(" {v}")));
                    self.emit_text(&format!("ASK {n} {BUFFER}{values}"));
                }
                _ => self.emit_text(line),
            }
        }
    }

    fn script(mut self, mut length: usize) -> Generated {
        if self.keypad {
            self.examples(keypad_lines());
        }
        if self.rings {
            self.examples(ring_lines());
        }
        if self.nulls {
            self.examples(null_lines());
        }
        if self.outer {
            self.examples(outer_lines());
        }
        if self.exact {
            self.examples(exact_lines());
        }
        if self.look {
            look_lines().for_each(|line| self.emit_text(line));
        }
        if self.square {
            self.square();
            length /= 5;
        }
        if self.mode == Mode::Calls {
            self.open();
        }
        self.set_up();
        if self.profile == Profile::Large && !self.square {
            for _ in 0..self.random.pick(&[30, 200, 520, 520]) {
                self.insert();
            }
        }
        // Before the places for statements are taken: `desk` opens only once.
        if self.mode == Mode::Desk && matches!(self.profile, Profile::Patterns | Profile::Counts | Profile::Mixed) {
            for _ in 0..5 {
                match self.random.below(6) {
                    0 => self.count_pair(),
                    1 => self.mark_pair(),
                    2 => self.join_pair(),
                    3 => self.null_pair(),
                    _ => self.opposite_pair(),
                }
            }
        }
        let end = self.made.script.lines.len() + length;
        while self.made.script.lines.len() < end {
            let bytes: usize = self.made.script.lines.iter().map(|line| line.len() + 1).sum();
            if self.mode == Mode::Calls && bytes > CALLS_BYTES - 5_536 {
                break;
            }
            if self.mode == Mode::Calls {
                self.openings_and_lengths();
            }
            self.call();
        }
        let last_is_empty = self.made.script.lines.last().map_or(true, |line| line.is_empty());
        self.made.script.ended = last_is_empty || self.mode == Mode::Calls || self.random.chance(75);
        self.made
    }
}

/// Inputs for `desk` that no script gives.
pub fn awkward() -> Vec<Vec<u8>> {
    let line = |byte: u8, length: usize| vec![byte; length];
    let mut all: Vec<Vec<u8>> = ["", "\n", "\n\n\n", "FLUSH", "FLUSH\n", "\r\n", "FLUSH\r\n", " ", "A", "ADD", "ADD ", "ADD \n"]
        .iter()
        .map(|text| text.as_bytes().to_vec())
        .collect();
    for length in [1, 508, 509, 511, 512, 513, 1_024, 1_025, 65_535, 65_536, 65_537, 300_000] {
        for byte in [b'x', b' ', b'\r', 0, 255] {
            all.push(line(byte, length));
            all.push([line(byte, length), b"\nFLUSH\n".to_vec()].concat());
            all.push([b"FLUSH\n".to_vec(), line(byte, length), b"\n\nFLUSH".to_vec()].concat());
        }
        // All of a long line belongs to it.
        all.push([b"FLUSH ".repeat(length / 6 + 1), b"\nFLUSH\n".to_vec()].concat());
        all.push([b"ADD ".to_vec(), line(b' ', length), b"\nFLUSH".to_vec()].concat());
    }
    // Lines across the ends of any buffer.
    all.push(b"FLUSH\n".repeat(12_000));
    all.push(b"ASK 0 1 2 3 4 5 6 7 8 9\n".repeat(6_000));
    all.push(b"\n".repeat(66_000));
    all
}

/// The script of a seed, of about `length` lines.
pub fn script(mode: Mode, seed: u64, length: usize) -> Generated {
    let profile = PROFILES[(seed % PROFILES.len() as u64) as usize];
    let made = Generated {
        profile,
        script: Script { lines: vec![], ended: true },
        printed: vec![],
        grounds: [0; 4],
        evictions: 0,
        just_fits: 0,
        too_long: 0,
        drops: [0; 3],
        pairs: BTreeMap::new(),
        names: BTreeMap::new(),
        rings: BTreeMap::new(),
        nulls: BTreeMap::new(),
        outer: BTreeMap::new(),
        exact: BTreeMap::new(),
        looks: BTreeMap::new(),
    };
    let special = seed / 10 % 8 == 0;
    let generator = Generator {
        random: Random::new(seed),
        mode,
        profile,
        square: special && profile == Profile::Large,
        keypad: special && profile == Profile::Misses,
        rings: special && profile == Profile::Full,
        nulls: special && profile == Profile::Edges,
        outer: special && profile == Profile::Counts,
        exact: special && profile == Profile::Patterns,
        look: special && profile == Profile::Openings && mode == Mode::Calls,
        front: Front::new(mode),
        made,
        pending: Pending::default(),
    };
    generator.script(length)
}
