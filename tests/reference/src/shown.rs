//! Statements and pattern lists, printed as the programs `texts` and `patterns` print them, so that their stored outputs
//! can be compared (`tests/stored`).

use crate::pattern::{patterns, pushed, question_term, Pattern, Place, Term};
use crate::text::{Catalogue, Change, Column, Condition, NullTest, Operand, Question, Relation, Statement};

fn refused(number: u8) -> String {
    format!("refused {number}")
}

/// The place that is printed for a column.
type Shown<'a> = &'a dyn Fn(Column) -> usize;

fn term(term: Term, place: Shown) -> String {
    match term {
        Term::Column(column) => format!("c{}", place(column)),
        Term::Constant(constant) => constant.to_string(),
        Term::OfQuestion(mark) | Term::OfUpdate(mark) => format!("?{mark}"),
    }
}

fn sign(relation: Relation) -> &'static str {
    match relation {
        Relation::Equal => "=",
        Relation::Unequal => "<>",
        Relation::Less => "<",
        Relation::LessOrEqual => "<=",
        Relation::Greater => ">",
        Relation::GreaterOrEqual => ">=",
    }
}

/// A condition without NOT, each connective behind its sides.
fn postfix(condition: &Condition<Term>, place: Shown) -> String {
    match condition {
        Condition::Compare(left, relation, right) => {
            format!(" {}{}{}", term(*left, place), sign(*relation), term(*right, place))
        }
        Condition::Null(operand, NullTest::IsNull) => format!(" {}-is-null", term(*operand, place)),
        Condition::Null(operand, NullTest::IsNotNull) => format!(" {}-is-not-null", term(*operand, place)),
        Condition::And(left, right) => format!("{}{} and", postfix(left, place), postfix(right, place)),
        Condition::Or(left, right) => format!("{}{} or", postfix(left, place), postfix(right, place)),
        Condition::Not(_) | Condition::Group(_) => unreachable!("NOT was pushed in"),
    }
}

/// The WHERE with NOT pushed to the comparisons by rule 4.
fn if_part(condition: &Option<Condition<Operand>>, place: Shown) -> String {
    match condition {
        None => String::new(),
        Some(condition) => format!(" if{}", postfix(&pushed(condition, false, &question_term), place)),
    }
}

/// The columns of a question over two tables are counted through both.
fn statement(catalogue: &Catalogue, statement: &Statement) -> String {
    match statement {
        Statement::Table(table) => {
            let rows = if table.ring { "ring" } else { "rows" };
            format!(" columns {} {rows} {}", table.columns.len(), table.rows)
        }
        Statement::Question(question) => {
            let place = |column| catalogue.counted(question, column);
            let tables: String = question.tables.iter().map(|t| format!(" {t}")).collect();
            let columns: String = question.columns.iter().map(|&c| format!(" {}", place(c))).collect();
            let condition = if_part(&question.condition, &place);
            format!(" on{tables} selects{columns} marks {}{condition}", question.marks)
        }
        Statement::Update(update) => {
            let place: Shown = &|column| column.place;
            let value = |value: &Operand| term(question_term(*value), place);
            let change = match &update.change {
                Change::Insert(values) => {
                    let values: String = values.iter().map(|v| format!(" {}", value(v))).collect();
                    format!("insert {} values{values}", update.table)
                }
                Change::Set(sets) => {
                    let sets: String = sets.iter().map(|(column, v)| format!(" c{column}={}", value(v))).collect();
                    format!("update {} sets{sets}", update.table)
                }
                Change::Delete => format!("delete {}", update.table),
            };
            format!(" {change} marks {}{}", update.marks, if_part(&update.condition, place))
        }
    }
}

/// A store without rows to which texts are added.
pub struct Texts {
    cells: usize,
    catalogue: Catalogue,
}

impl Texts {
    pub fn new(cells: usize) -> Texts {
        Texts { cells, catalogue: Catalogue::default() }
    }

    /// What the text adds, or its refusal. The line `!` opens anew and prints nothing.
    pub fn line(&mut self, line: &[u8]) -> Option<String> {
        if line == b"!" {
            self.catalogue = Catalogue::default();
            return None;
        }
        Some(match self.catalogue.read(self.cells, line) {
            Ok(read) => {
                let shown = statement(&self.catalogue, &read);
                let (kind, number) = self.catalogue.append(read);
                format!("{kind} {number}{shown}")
            }
            Err(number) => refused(number),
        })
    }
}

fn pattern(pattern: &Pattern) -> String {
    let places: Vec<String> = pattern
        .iter()
        .map(|place| match place {
            Place::Any => String::from("any"),
            Place::Constant(constant) => constant.to_string(),
            Place::Mark(mark) => format!("mark {mark}"),
        })
        .collect();
    format!("({})", places.join(", "))
}

/// Tables, and the question that the next updates are paired with. Questions and updates take no place.
#[derive(Default)]
pub struct Pairs {
    catalogue: Catalogue,
    question: Option<Question>,
}

impl Pairs {
    /// A comment prints itself, a table and a question nothing, an update its patterns beside the last question.
    pub fn line(&mut self, line: &[u8]) -> Option<String> {
        if line.first() == Some(&b'#') {
            return Some(String::from_utf8_lossy(line).into_owned());
        }
        match self.catalogue.read(32_768, line) {
            Err(number) => Some(refused(number)),
            Ok(Statement::Question(question)) => {
                self.question = Some(question);
                None
            }
            Ok(Statement::Update(update)) => {
                let found = self.question.as_ref().map(|question| patterns(question, &update));
                Some(match found {
                    None => String::from("no question"),
                    Some(list) if list.is_empty() => String::from("no pattern"),
                    Some(list) => list.iter().map(pattern).collect::<Vec<_>>().join("\n"),
                })
            }
            Ok(table) => {
                self.catalogue.append(table);
                None
            }
        }
    }
}
