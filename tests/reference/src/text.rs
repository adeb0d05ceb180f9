//! Statement texts: tokens, grammar, and what the limits and names refuse
//! (numbers 3 to 9 and 15 of adding).

/// The six comparisons.
#[derive(Clone, Copy, PartialEq, Eq, Debug)]
pub enum Relation {
    Equal,
    Unequal,
    Less,
    LessOrEqual,
    Greater,
    GreaterOrEqual,
}

/// The two null tests (A.5), each the opposite of the other. They count as comparisons.
#[derive(Clone, Copy, PartialEq, Eq, Debug)]
pub enum NullTest {
    IsNull,
    IsNotNull,
}

/// A condition over operands of kind `O`: as written (`Written`) or with the names looked up (`Operand`). In a text a
/// null test is on a column. A row of ANDs or of ORs leans to the right: `a AND b AND c` is `a` and then `b AND c`.
#[derive(Clone, PartialEq, Debug)]
pub enum Condition<O> {
    Compare(O, Relation, O),
    Null(O, NullTest),
    Not(Box<Condition<O>>),
    /// In parentheses.
    Group(Box<Condition<O>>),
    And(Box<Condition<O>>, Box<Condition<O>>),
    Or(Box<Condition<O>>, Box<Condition<O>>),
}

impl<O> Condition<O> {
    /// Its comparisons, in the order of the text.
    pub fn comparisons(&self) -> Vec<&Condition<O>> {
        match self {
            Condition::Compare(..) | Condition::Null(..) => vec![self],
            Condition::Not(inner) | Condition::Group(inner) => inner.comparisons(),
            Condition::And(left, right) | Condition::Or(left, right) => [left.comparisons(), right.comparisons()].concat(),
        }
    }

    /// Of each of these: does it stand outside all OR, NOT and parentheses, alone or joined by AND (A.6)?
    pub fn outer(&self) -> Vec<bool> {
        match self {
            Condition::Compare(..) | Condition::Null(..) => vec![true],
            Condition::And(left, right) => [left.outer(), right.outer()].concat(),
            Condition::Or(..) | Condition::Not(_) | Condition::Group(_) => vec![false; self.comparisons().len()],
        }
    }
}

/// A column as written, `level` or `stage.level`. Names are kept everywhere as they were typed.
#[derive(Clone, PartialEq, Debug)]
pub struct Named {
    table: Option<String>,
    column: String,
}

/// An operand as written; a constant outside 32 bits is `None`.
#[derive(Clone, PartialEq, Debug)]
pub enum Written {
    Column(Named),
    Constant(Option<i32>),
    Mark(usize),
}

/// A column looked up: the number of its table, and its place there.
#[derive(Clone, Copy, PartialEq, Debug)]
pub struct Column {
    pub table: usize,
    pub place: usize,
}

/// An operand with its column looked up, or with the column's place alone (`Operand<usize>`). Marks count from 1.
#[derive(Clone, Copy, PartialEq, Debug)]
pub enum Operand<C = Column> {
    Column(C),
    Constant(i32),
    Mark(usize),
}

impl Operand {
    /// The table whose column it is.
    pub fn table(self) -> Option<usize> {
        match self {
            Operand::Column(column) => Some(column.table),
            Operand::Constant(_) | Operand::Mark(_) => None,
        }
    }

    pub fn placed(self, place: impl Fn(Column) -> usize) -> Operand<usize> {
        match self {
            Operand::Column(column) => Operand::Column(place(column)),
            Operand::Constant(constant) => Operand::Constant(constant),
            Operand::Mark(mark) => Operand::Mark(mark),
        }
    }
}

/// A whole sentence, with nothing looked up and no limit looked at.
#[derive(Clone, PartialEq, Debug)]
enum Sentence {
    /// `rows`: what stands behind ROWS or RING.
    Table { name: String, columns: Vec<String>, rows: Option<i32>, ring: bool },
    Select { columns: Vec<Named>, tables: Vec<String>, condition: Option<Condition<Written>> },
    Insert { table: String, values: Vec<Written> },
    Update { table: String, sets: Vec<(String, Written)>, condition: Option<Condition<Written>> },
    Delete { table: String, condition: Option<Condition<Written>> },
}

/// `rows` is the table's ROWS, or its RING, which counts as that.
#[derive(Clone, Debug)]
pub struct Table {
    pub name: String,
    pub columns: Vec<String>,
    pub rows: usize,
    pub ring: bool,
}

/// `tables` are one or two, in the order of the text.
#[derive(Clone, Debug)]
pub struct Question {
    pub tables: Vec<usize>,
    pub columns: Vec<Column>,
    pub condition: Option<Condition<Operand>>,
    pub marks: usize,
}

impl Question {
    /// Of each comparison, in the order of the text: does it stand outside all OR, NOT and parentheses?
    pub fn outer(&self) -> Vec<bool> {
        self.condition.as_ref().map_or(vec![], Condition::outer)
    }

    /// The comparisons marked so that name no column of the second table.
    pub fn outer_of_first(&self, outer: &[bool]) -> Vec<&Condition<Operand>> {
        let is_second = |operand: &Operand| self.tables.get(1).is_some_and(|second| operand.table() == Some(*second));
        let names_second = |comparison: &Condition<Operand>| match comparison {
            Condition::Compare(left, _, right) => is_second(left) || is_second(right),
            Condition::Null(operand, _) => is_second(operand),
            _ => unreachable!("a comparison"),
        };
        let all = self.condition.as_ref().map_or(vec![], Condition::comparisons);
        assert_eq!(all.len(), outer.len());
        let marked = all.into_iter().zip(outer).filter(|(_, marked)| **marked);
        marked.map(|(comparison, _)| comparison).filter(|comparison| !names_second(comparison)).collect()
    }
}

/// Set columns are places in the updated table.
#[derive(Clone, Debug)]
pub enum Change {
    Insert(Vec<Operand>),
    Set(Vec<(usize, Operand)>),
    Delete,
}

#[derive(Clone, Debug)]
pub struct Update {
    pub table: usize,
    pub change: Change,
    pub condition: Option<Condition<Operand>>,
    pub marks: usize,
}

/// What adding appends.
#[derive(Clone, Debug)]
pub enum Statement {
    Table(Table),
    Question(Question),
    Update(Update),
}

/// The tables and statements of a store, in the order they were added.
#[derive(Clone, Debug, Default)]
pub struct Catalogue {
    pub tables: Vec<Table>,
    pub questions: Vec<Question>,
    pub updates: Vec<Update>,
}

pub const TABLES: usize = 8;
pub const QUESTIONS: usize = 16;
pub const UPDATES: usize = 16;
pub const LIST: usize = 8;
pub const ROWS: i32 = 512;
pub const MARKS: usize = 8;
pub const COMPARISONS: usize = 8;
pub const DEPTH: usize = 8;
pub const NAME: usize = 12;
pub const TEXT: usize = 256;

// ---------------------------------------------------------------- tokens

#[derive(Clone, PartialEq, Debug)]
enum Token {
    Keyword(String),
    Name(String),
    Constant(Option<i32>),
    Sign(&'static str),
}

/// Keywords are words spelled just so; in other letters, and until a request makes a word one of these, it is a name.
pub const KEYWORDS: [&str; 17] = [
    "TABLE", "ROWS", "RING", "SELECT", "FROM", "WHERE", "INSERT", "INTO", "VALUES", "UPDATE", "SET", "DELETE", "AND", "OR",
    "NOT", "IS", "NULL",
];

/// Longest first, so that the first that fits is the longest that fits.
const SIGNS: [&str; 11] = ["<>", "<=", ">=", "<", ">", "=", "(", ")", ",", "?", "."];

fn is_word_byte(b: u8) -> bool {
    b.is_ascii_alphanumeric() || b == b'_'
}

/// A letter, small or capital, then letters, digits or underscores; no keyword. Of any length.
pub fn is_name(word: &[u8]) -> bool {
    word.first().is_some_and(u8::is_ascii_alphabetic)
        && word.iter().all(|&b| is_word_byte(b))
        && !KEYWORDS.iter().any(|keyword| keyword.as_bytes() == word)
}

/// Case makes no difference between names (A.2).
pub fn same_name(left: impl AsRef<[u8]>, right: impl AsRef<[u8]>) -> bool {
    left.as_ref().eq_ignore_ascii_case(right.as_ref())
}

/// A constant's number: an optional minus and digits. `None`: not of that form. `Some(None)`: outside 32 bits.
pub fn constant(bytes: &[u8]) -> Option<Option<i32>> {
    let (negative, digits) = match bytes.split_first() {
        Some((b'-', rest)) => (true, rest),
        _ => (false, bytes),
    };
    if digits.is_empty() || !digits.iter().all(u8::is_ascii_digit) {
        return None;
    }
    let first = digits.iter().position(|&d| d != b'0').unwrap_or(digits.len());
    let significant = &digits[first..];
    if significant.len() > 10 {
        return Some(None);
    }
    let size = significant.iter().fold(0i64, |n, &d| n * 10 + i64::from(d - b'0'));
    Some(i32::try_from(if negative { -size } else { size }).ok())
}

fn tokens(text: &[u8]) -> Option<Vec<Token>> {
    let mut found = Vec::new();
    let mut rest = text;
    while let Some(&first) = rest.first() {
        if first == b' ' {
            rest = &rest[1..];
            continue;
        }
        if first == b'-' || is_word_byte(first) {
            let start = usize::from(first == b'-');
            let end = start + rest[start..].iter().take_while(|&&b| is_word_byte(b)).count();
            let word = &rest[..end];
            rest = &rest[end..];
            found.push(word_token(word)?);
            continue;
        }
        let sign = SIGNS.iter().find(|s| rest.starts_with(s.as_bytes()))?;
        rest = &rest[sign.len()..];
        found.push(Token::Sign(sign));
    }
    Some(found)
}

fn word_token(word: &[u8]) -> Option<Token> {
    if let Some(number) = constant(word) {
        return Some(Token::Constant(number));
    }
    let text = std::str::from_utf8(word).ok()?.to_string();
    if KEYWORDS.contains(&text.as_str()) {
        return Some(Token::Keyword(text));
    }
    is_name(word).then_some(Token::Name(text))
}

// ---------------------------------------------------------------- grammar

struct Reader {
    tokens: Vec<Token>,
    at: usize,
    marks: usize,
    comparisons: usize,
    deepest: usize,
    /// Columns read where a dot may stand: without one, and with one.
    bare: usize,
    dotted: usize,
}

/// `None` everywhere in the reader: no sentence.
impl Reader {
    fn peek_keyword(&self, word: &str) -> bool {
        matches!(self.tokens.get(self.at), Some(Token::Keyword(w)) if w == word)
    }

    fn peek_sign(&self, sign: &str) -> bool {
        matches!(self.tokens.get(self.at), Some(Token::Sign(s)) if *s == sign)
    }

    fn keyword(&mut self, word: &str) -> Option<()> {
        let there = self.peek_keyword(word);
        self.at += usize::from(there);
        there.then_some(())
    }

    fn sign(&mut self, sign: &str) -> Option<()> {
        let there = self.peek_sign(sign);
        self.at += usize::from(there);
        there.then_some(())
    }

    fn name(&mut self) -> Option<String> {
        match self.tokens.get(self.at) {
            Some(Token::Name(name)) => {
                self.at += 1;
                Some(name.clone())
            }
            _ => None,
        }
    }

    /// One or more, parted by commas.
    fn list<T>(&mut self, mut one: impl FnMut(&mut Self) -> Option<T>) -> Option<Vec<T>> {
        let mut all = vec![one(self)?];
        while self.sign(",").is_some() {
            all.push(one(self)?);
        }
        Some(all)
    }

    /// A selected or tested column, with or without a dot; which of them is right depends on FROM.
    fn column(&mut self) -> Option<Named> {
        let first = self.name()?;
        if self.sign(".").is_some() {
            self.dotted += 1;
            Some(Named { table: Some(first), column: self.name()? })
        } else {
            self.bare += 1;
            Some(Named { table: None, column: first })
        }
    }

    /// A column, a constant or a question mark.
    fn operand(&mut self) -> Option<Written> {
        let operand = match self.tokens.get(self.at)? {
            Token::Name(_) => return Some(Written::Column(self.column()?)),
            Token::Constant(number) => Written::Constant(*number),
            Token::Sign("?") => {
                self.marks += 1;
                Written::Mark(self.marks)
            }
            _ => return None,
        };
        self.at += 1;
        Some(operand)
    }

    /// A constant or a question mark.
    fn value(&mut self) -> Option<Written> {
        match self.operand()? {
            Written::Column(_) => None,
            value => Some(value),
        }
    }

    fn relation(&mut self) -> Option<Relation> {
        let relation = match self.tokens.get(self.at)? {
            Token::Sign("=") => Relation::Equal,
            Token::Sign("<>") => Relation::Unequal,
            Token::Sign("<") => Relation::Less,
            Token::Sign("<=") => Relation::LessOrEqual,
            Token::Sign(">") => Relation::Greater,
            Token::Sign(">=") => Relation::GreaterOrEqual,
            _ => return None,
        };
        self.at += 1;
        Some(relation)
    }

    fn any_of(&mut self, depth: usize) -> Option<Condition<Written>> {
        let left = self.all_of(depth)?;
        if self.keyword("OR").is_some() {
            return Some(Condition::Or(Box::new(left), Box::new(self.any_of(depth)?)));
        }
        Some(left)
    }

    fn all_of(&mut self, depth: usize) -> Option<Condition<Written>> {
        let left = self.single(depth)?;
        if self.keyword("AND").is_some() {
            return Some(Condition::And(Box::new(left), Box::new(self.all_of(depth)?)));
        }
        Some(left)
    }

    /// `depth`: the parentheses and NOTs around this place.
    fn single(&mut self, depth: usize) -> Option<Condition<Written>> {
        if self.keyword("NOT").is_some() {
            return Some(Condition::Not(Box::new(self.single(depth + 1)?)));
        }
        if self.sign("(").is_some() {
            let inner = self.any_of(depth + 1)?;
            self.sign(")")?;
            return Some(Condition::Group(Box::new(inner)));
        }
        self.comparisons += 1;
        self.deepest = self.deepest.max(depth);
        let left = self.operand()?;
        if self.keyword("IS").is_some() {
            return self.null_test(left);
        }
        let relation = self.relation()?;
        let right = self.operand()?;
        Some(Condition::Compare(left, relation, right))
    }

    /// What follows IS. The NOT of IS NOT NULL is no NOT around a comparison.
    fn null_test(&mut self, left: Written) -> Option<Condition<Written>> {
        let test = if self.keyword("NOT").is_some() { NullTest::IsNotNull } else { NullTest::IsNull };
        self.keyword("NULL")?;
        match left {
            Written::Column(_) => Some(Condition::Null(left, test)),
            _ => None,
        }
    }

    fn optional_where(&mut self) -> Option<Option<Condition<Written>>> {
        if self.keyword("WHERE").is_none() {
            return Some(None);
        }
        Some(Some(self.any_of(0)?))
    }

    fn sentence(&mut self) -> Option<Sentence> {
        let sentence = if self.keyword("TABLE").is_some() {
            let name = self.name()?;
            self.sign("(")?;
            let columns = self.list(Reader::name)?;
            self.sign(")")?;
            let ring = self.keyword("RING").is_some();
            if !ring {
                self.keyword("ROWS")?;
            }
            let rows = match self.tokens.get(self.at)? {
                Token::Constant(number) => *number,
                _ => return None,
            };
            self.at += 1;
            Sentence::Table { name, columns, rows, ring }
        } else if self.keyword("SELECT").is_some() {
            let columns = self.list(Reader::column)?;
            self.keyword("FROM")?;
            let tables = self.list(Reader::name)?;
            Sentence::Select { columns, tables, condition: self.optional_where()? }
        } else if self.keyword("INSERT").is_some() {
            self.keyword("INTO")?;
            let table = self.name()?;
            self.keyword("VALUES")?;
            self.sign("(")?;
            let values = self.list(Reader::value)?;
            self.sign(")")?;
            Sentence::Insert { table, values }
        } else if self.keyword("UPDATE").is_some() {
            let table = self.name()?;
            self.keyword("SET")?;
            let sets = self.list(|reader| {
                let column = reader.name()?;
                reader.sign("=")?;
                Some((column, reader.value()?))
            })?;
            Sentence::Update { table, sets, condition: self.optional_where()? }
        } else {
            self.keyword("DELETE")?;
            self.keyword("FROM")?;
            let table = self.name()?;
            Sentence::Delete { table, condition: self.optional_where()? }
        };
        // With two tables every column has a dot, elsewhere none has.
        let of_this_form = match &sentence {
            Sentence::Select { tables, .. } if tables.len() == 2 => self.bare == 0,
            Sentence::Select { tables, .. } => tables.len() == 1 && self.dotted == 0,
            _ => self.dotted == 0,
        };
        (of_this_form && self.at == self.tokens.len()).then_some(sentence)
    }
}

// ---------------------------------------------------------------- limits, names

/// Refusal 5, of a whole sentence.
fn past_a_limit(reader: &Reader, sentence: &Sentence) -> bool {
    let token_past = reader.tokens.iter().any(|token| match token {
        Token::Name(name) => name.len() > NAME,
        Token::Constant(number) => number.is_none(),
        _ => false,
    });
    let list_past = match sentence {
        Sentence::Table { columns, rows, .. } => columns.len() > LIST || !rows.is_some_and(|n| 1 <= n && n <= ROWS),
        Sentence::Select { columns, .. } => columns.len() > LIST,
        Sentence::Insert { values, .. } => values.len() > LIST,
        Sentence::Update { sets, .. } => sets.len() > LIST,
        Sentence::Delete { .. } => false,
    };
    token_past || list_past || reader.marks > MARKS || reader.comparisons > COMPARISONS || reader.deepest > DEPTH
}

/// Is there a name that equals one before it?
pub fn has_repeat<N: AsRef<[u8]>>(names: &[N]) -> bool {
    (0..names.len()).any(|i| names[..i].iter().any(|before| same_name(before, &names[i])))
}

impl Catalogue {
    pub fn cells_used(&self) -> usize {
        self.tables.iter().map(|t| t.columns.len() * t.rows).sum()
    }

    /// The place of a question's column counted through its tables, the first table's columns before the second's.
    pub fn counted(&self, question: &Question, column: Column) -> usize {
        let first = question.tables[0];
        let before = if column.table == first { 0 } else { self.tables[first].columns.len() };
        before + column.place
    }

    fn table(&self, name: &str) -> Result<usize, u8> {
        self.tables.iter().position(|t| same_name(&t.name, name)).ok_or(6)
    }

    /// A column of one of these tables; a bare one is of the only table.
    fn column(&self, tables: &[usize], named: &Named) -> Result<Column, u8> {
        let is_named = |table: usize| named.table.as_ref().map_or(true, |name| same_name(&self.tables[table].name, name));
        let table = *tables.iter().find(|&&table| is_named(table)).ok_or(6)?;
        let place = self.tables[table].columns.iter().position(|c| same_name(c, &named.column)).ok_or(6)?;
        Ok(Column { table, place })
    }

    fn operand(&self, tables: &[usize], operand: &Written) -> Result<Operand, u8> {
        match operand {
            Written::Column(named) => Ok(Operand::Column(self.column(tables, named)?)),
            Written::Constant(number) => Ok(Operand::Constant(number.expect("limits were looked at"))),
            Written::Mark(mark) => Ok(Operand::Mark(*mark)),
        }
    }

    fn condition(&self, tables: &[usize], condition: &Condition<Written>) -> Result<Condition<Operand>, u8> {
        Ok(match condition {
            Condition::Compare(left, relation, right) => {
                Condition::Compare(self.operand(tables, left)?, *relation, self.operand(tables, right)?)
            }
            Condition::Null(operand, test) => Condition::Null(self.operand(tables, operand)?, *test),
            Condition::Not(inner) => Condition::Not(Box::new(self.condition(tables, inner)?)),
            Condition::Group(inner) => Condition::Group(Box::new(self.condition(tables, inner)?)),
            Condition::And(left, right) => {
                Condition::And(Box::new(self.condition(tables, left)?), Box::new(self.condition(tables, right)?))
            }
            Condition::Or(left, right) => {
                Condition::Or(Box::new(self.condition(tables, left)?), Box::new(self.condition(tables, right)?))
            }
        })
    }

    fn optional_where(
        &self,
        tables: &[usize],
        condition: &Option<Condition<Written>>,
    ) -> Result<Option<Condition<Operand>>, u8> {
        condition.as_ref().map(|c| self.condition(tables, c)).transpose()
    }

    /// What the text adds to a store of `cells` cells with these tables and statements, or the number that refuses
    /// it: 3, 4, 5, 6, 7, 8, 15, 9, looked for in that order.
    pub fn read(&self, cells: usize, text: &[u8]) -> Result<Statement, u8> {
        if text.len() > TEXT {
            return Err(3);
        }
        let tokens = tokens(text).ok_or(4)?;
        let mut reader = Reader { tokens, at: 0, marks: 0, comparisons: 0, deepest: 0, bare: 0, dotted: 0 };
        let sentence = reader.sentence().ok_or(4)?;
        if past_a_limit(&reader, &sentence) {
            return Err(5);
        }
        let marks = reader.marks;
        let statement = match &sentence {
            Sentence::Table { name, columns, rows, ring } => {
                if self.table(name).is_ok() || has_repeat(columns) {
                    return Err(7);
                }
                let rows = rows.expect("limits were looked at") as usize;
                Statement::Table(Table { name: name.clone(), columns: columns.clone(), rows, ring: *ring })
            }
            Sentence::Select { columns, tables, condition } => {
                let tables = tables.iter().map(|name| self.table(name)).collect::<Result<Vec<_>, u8>>()?;
                let columns = columns.iter().map(|c| self.column(&tables, c)).collect::<Result<Vec<_>, u8>>()?;
                let condition = self.optional_where(&tables, condition)?;
                if tables.len() == 2 && tables[0] == tables[1] {
                    return Err(15);
                }
                Statement::Question(Question { tables, columns, condition, marks })
            }
            Sentence::Insert { table, values } => {
                let table = self.table(table)?;
                if values.len() != self.tables[table].columns.len() {
                    return Err(8);
                }
                let values = values.iter().map(|v| self.operand(&[table], v)).collect::<Result<Vec<_>, u8>>()?;
                Statement::Update(Update { table, change: Change::Insert(values), condition: None, marks })
            }
            Sentence::Update { table, sets, condition } => {
                let table = self.table(table)?;
                let mut pairs = Vec::new();
                for (name, value) in sets {
                    let column = self.column(&[table], &Named { table: None, column: name.clone() })?;
                    pairs.push((column.place, self.operand(&[table], value)?));
                }
                let condition = self.optional_where(&[table], condition)?;
                if has_repeat(&sets.iter().map(|(name, _)| name).collect::<Vec<_>>()) {
                    return Err(7);
                }
                Statement::Update(Update { table, change: Change::Set(pairs), condition, marks })
            }
            Sentence::Delete { table, condition } => {
                let table = self.table(table)?;
                let condition = self.optional_where(&[table], condition)?;
                Statement::Update(Update { table, change: Change::Delete, condition, marks })
            }
        };
        let place = match &statement {
            Statement::Table(table) => {
                self.tables.len() < TABLES && table.columns.len() * table.rows <= cells - self.cells_used()
            }
            Statement::Question(_) => self.questions.len() < QUESTIONS,
            Statement::Update(_) => self.updates.len() < UPDATES,
        };
        if place {
            Ok(statement)
        } else {
            Err(9)
        }
    }

    /// Appends, and gives kind and number.
    pub fn append(&mut self, statement: Statement) -> (&'static str, usize) {
        match statement {
            Statement::Table(table) => {
                self.tables.push(table);
                ("table", self.tables.len() - 1)
            }
            Statement::Question(question) => {
                self.questions.push(question);
                ("query", self.questions.len() - 1)
            }
            Statement::Update(update) => {
                self.updates.push(update);
                ("update", self.updates.len() - 1)
            }
        }
    }
}
