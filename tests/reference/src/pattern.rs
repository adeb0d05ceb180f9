//! Patterns, rules 1 to 7 of document 01, straight from its text. A question over two tables is judged by the same
//! rules: the columns of the table that is not updated stay columns. So is a row that is pushed out of a ring. Rules 4 and
//! 6 know the null and its tests (A.5).

use crate::meaning::{compare, null_test, Truth, NULL};
use crate::text::{Change, Column, Condition, NullTest, Operand, Question, Relation, Update};

/// A place of a pattern. Marks are the update's and count from 1.
#[derive(Clone, Copy, PartialEq, Debug)]
pub enum Place {
    Any,
    Constant(i32),
    Mark(usize),
}

/// One place for each question mark of the question.
pub type Pattern = Vec<Place>;

/// An operand of a clause: marks of the question and of the update are told apart.
#[derive(Clone, Copy, PartialEq, Debug)]
pub enum Term {
    Column(Column),
    Constant(i32),
    OfQuestion(usize),
    OfUpdate(usize),
}

/// A comparison of a clause, the null tests among them.
#[derive(Clone, Copy, Debug)]
enum Comparison {
    Of(Term, Relation, Term),
    Null(Term, NullTest),
}

type Clause = Vec<Comparison>;

/// Why rule 6 lets a clause go: counted for the report of what was tried.
#[derive(Clone, Copy, PartialEq, Eq, Debug)]
pub enum Gone {
    /// Two different constants in a class, `<>` `<` `>` in one class, or false of two constants.
    Contradiction,
    /// For none of these, but for a null test that is false of its class's constant.
    NullTest,
    /// For none of these, but for another comparison with an operand whose class holds the null constant.
    NullConstant,
}

fn opposite(relation: Relation) -> Relation {
    match relation {
        Relation::Equal => Relation::Unequal,
        Relation::Unequal => Relation::Equal,
        Relation::Less => Relation::GreaterOrEqual,
        Relation::GreaterOrEqual => Relation::Less,
        Relation::Greater => Relation::LessOrEqual,
        Relation::LessOrEqual => Relation::Greater,
    }
}

fn opposite_test(test: NullTest) -> NullTest {
    match test {
        NullTest::IsNull => NullTest::IsNotNull,
        NullTest::IsNotNull => NullTest::IsNull,
    }
}

pub fn question_term(operand: Operand) -> Term {
    match operand {
        Operand::Column(c) => Term::Column(c),
        Operand::Constant(n) => Term::Constant(n),
        Operand::Mark(m) => Term::OfQuestion(m),
    }
}

fn update_term(operand: Operand) -> Term {
    match operand {
        Operand::Column(c) => Term::Column(c),
        Operand::Constant(n) => Term::Constant(n),
        Operand::Mark(m) => Term::OfUpdate(m),
    }
}

/// Rule 4: NOT pushed to the comparisons (so that no NOT and no parentheses are left), operands turned to terms.
pub fn pushed<T>(condition: &Condition<Operand>, negated: bool, term: &dyn Fn(Operand) -> T) -> Condition<T> {
    match condition {
        Condition::Compare(left, relation, right) => {
            let relation = if negated { opposite(*relation) } else { *relation };
            Condition::Compare(term(*left), relation, term(*right))
        }
        Condition::Null(operand, test) => {
            Condition::Null(term(*operand), if negated { opposite_test(*test) } else { *test })
        }
        Condition::Not(inner) => pushed(inner, !negated, term),
        Condition::Group(inner) => pushed(inner, negated, term),
        Condition::And(left, right) | Condition::Or(left, right) => {
            let sides = (Box::new(pushed(left, negated, term)), Box::new(pushed(right, negated, term)));
            if matches!(condition, Condition::And(..)) != negated {
                Condition::And(sides.0, sides.1)
            } else {
                Condition::Or(sides.0, sides.1)
            }
        }
    }
}

/// A question as a state holds it: NOT is pushed to the comparisons, which stay in the order of the text.
pub fn stored(question: &Question) -> Question {
    let condition = question.condition.as_ref().map(|condition| pushed(condition, false, &|operand| operand));
    Question { condition, ..question.clone() }
}

/// Rule 4: the clauses of a condition without NOT.
fn clauses_of(condition: &Condition<Term>) -> Vec<Clause> {
    match condition {
        Condition::Compare(left, relation, right) => vec![vec![Comparison::Of(*left, *relation, *right)]],
        Condition::Null(operand, test) => vec![vec![Comparison::Null(*operand, *test)]],
        Condition::Or(left, right) => [clauses_of(left), clauses_of(right)].concat(),
        Condition::And(left, right) => paired(&clauses_of(left), &clauses_of(right)),
        Condition::Not(_) | Condition::Group(_) => unreachable!("NOT was pushed in"),
    }
}

/// An absent WHERE is one clause without comparisons.
fn clauses(condition: &Option<Condition<Operand>>, term: &dyn Fn(Operand) -> Term) -> Vec<Clause> {
    match condition {
        None => vec![vec![]],
        Some(condition) => clauses_of(&pushed(condition, false, term)),
    }
}

fn paired(left: &[Clause], right: &[Clause]) -> Vec<Clause> {
    let mut all = Vec::new();
    for l in left {
        for r in right {
            all.push([l.clone(), r.clone()].concat());
        }
    }
    all
}

/// Rule 5's count.
fn count(condition: &Option<Condition<Operand>>) -> usize {
    fn of(condition: &Condition<Term>) -> usize {
        match condition {
            Condition::Compare(..) | Condition::Null(..) => 1,
            Condition::Or(left, right) => of(left) + of(right),
            Condition::And(left, right) => of(left) * of(right),
            Condition::Not(_) | Condition::Group(_) => unreachable!("NOT was pushed in"),
        }
    }
    condition.as_ref().map_or(1, |c| of(&pushed(c, false, &question_term)))
}

pub fn columns_tested(condition: &Condition<Operand>) -> Vec<Column> {
    let columns = |operands: &[Operand]| -> Vec<Column> {
        operands.iter().filter_map(|o| if let Operand::Column(c) = o { Some(*c) } else { None }).collect()
    };
    match condition {
        Condition::Compare(left, _, right) => columns(&[*left, *right]),
        Condition::Null(operand, _) => columns(&[*operand]),
        Condition::Not(inner) | Condition::Group(inner) => columns_tested(inner),
        Condition::And(left, right) | Condition::Or(left, right) => {
            [columns_tested(left), columns_tested(right)].concat()
        }
    }
}

/// The classes into which `=` joins the terms of a clause: a list of disjoint lists. A null test joins nothing.
fn classes(clause: &Clause, marks: usize) -> Vec<Vec<Term>> {
    let mut classes: Vec<Vec<Term>> = Vec::new();
    let every_mark = (1..=marks).map(Term::OfQuestion);
    let every_operand = clause.iter().flat_map(|comparison| match comparison {
        Comparison::Of(left, _, right) => vec![*left, *right],
        Comparison::Null(operand, _) => vec![*operand],
    });
    for term in every_operand.chain(every_mark) {
        if !classes.iter().any(|class| class.contains(&term)) {
            classes.push(vec![term]);
        }
    }
    for comparison in clause {
        if let Comparison::Of(left, Relation::Equal, right) = comparison {
            let l = class_of(&classes, *left);
            let r = class_of(&classes, *right);
            if l != r {
                let joined = [classes[l].clone(), classes[r].clone()].concat();
                classes[l] = joined;
                classes.remove(r);
            }
        }
    }
    classes
}

fn class_of(classes: &[Vec<Term>], term: Term) -> usize {
    classes.iter().position(|class| class.contains(&term)).expect("every term has a class")
}

fn constants(class: &[Term]) -> Vec<i32> {
    class.iter().filter_map(|t| if let Term::Constant(n) = t { Some(*n) } else { None }).collect()
}

/// Rule 6: does the clause go, and why?
fn goes(clause: &Clause, classes: &[Vec<Term>]) -> Option<Gone> {
    // A class lists each term once, so two constants in it are two different ones.
    if classes.iter().any(|class| constants(class).len() > 1) {
        return Some(Gone::Contradiction);
    }
    let constant_of = |term: Term| constants(&classes[class_of(classes, term)]).first().copied();
    let contradicts = |comparison: &Comparison| match *comparison {
        Comparison::Of(left, relation, right) => {
            let in_one_class = class_of(classes, left) == class_of(classes, right);
            let is_false = match (constant_of(left), constant_of(right)) {
                (Some(a), Some(b)) => compare(a, relation, b) == Truth::False,
                _ => false,
            };
            is_false || in_one_class && matches!(relation, Relation::Unequal | Relation::Less | Relation::Greater)
        }
        Comparison::Null(..) => false,
    };
    let fails_test = |comparison: &Comparison| match *comparison {
        Comparison::Null(operand, test) => constant_of(operand).is_some_and(|n| null_test(n, test) == Truth::False),
        Comparison::Of(..) => false,
    };
    let meets_null = |comparison: &Comparison| match *comparison {
        Comparison::Of(left, _, right) => [left, right].iter().any(|&side| constant_of(side) == Some(NULL)),
        Comparison::Null(..) => false,
    };
    if clause.iter().any(contradicts) {
        Some(Gone::Contradiction)
    } else if clause.iter().any(fails_test) {
        Some(Gone::NullTest)
    } else if clause.iter().any(meets_null) {
        Some(Gone::NullConstant)
    } else {
        None
    }
}

/// Rule 7.
fn pattern_of(classes: &[Vec<Term>], marks: usize) -> Pattern {
    let place = |mark: usize| {
        let class = &classes[class_of(classes, Term::OfQuestion(mark))];
        if let Some(constant) = constants(class).first() {
            return Place::Constant(*constant);
        }
        let lowest = class.iter().filter_map(|t| if let Term::OfUpdate(m) = t { Some(*m) } else { None }).min();
        lowest.map_or(Place::Any, Place::Mark)
    };
    (1..=marks).map(place).collect()
}

/// What rules 1 to 5 make of a question and an update.
enum Listed {
    Clauses(Vec<Clause>),
    /// One pattern, all any.
    AllAny,
}

/// Of a question and an update, without a row pushed out.
fn listed(question: &Question, update: &Update) -> Listed {
    // Rule 1.
    if !question.tables.contains(&update.table) {
        return Listed::Clauses(vec![]);
    }
    let updated = |place: usize| Column { table: update.table, place };
    // Rule 2.
    if let Change::Set(sets) = &update.change {
        let tested = question.condition.as_ref().map_or(vec![], columns_tested);
        if !sets.iter().any(|(c, _)| question.columns.contains(&updated(*c)) || tested.contains(&updated(*c))) {
            return Listed::Clauses(vec![]);
        }
    }
    // Rule 5, before any clause is worked out.
    let f_count = count(&question.condition);
    let g_count = count(&update.condition);
    let worked_out = match update.change {
        Change::Insert(_) => f_count,
        Change::Delete => g_count * f_count,
        Change::Set(_) => 2 * g_count * f_count,
    };
    if worked_out > 64 {
        return Listed::AllAny;
    }
    // Rules 3 and 4.
    let g = clauses(&update.condition, &update_term);
    let f = clauses(&question.condition, &question_term);
    let list = match &update.change {
        Change::Insert(values) => clauses(&question.condition, &|operand| match operand {
            Operand::Column(c) if c.table == update.table => update_term(values[c.place]),
            other => question_term(other),
        }),
        Change::Delete => paired(&g, &f),
        Change::Set(sets) => {
            let f_set = clauses(&question.condition, &|operand| match operand {
                Operand::Column(c) => match sets.iter().find(|(set, _)| updated(*set) == c) {
                    Some((_, value)) => update_term(*value),
                    None => Term::Column(c),
                },
                other => question_term(other),
            });
            [paired(&g, &f), paired(&g, &f_set)].concat()
        }
    };
    assert_eq!(list.len(), worked_out);
    Listed::Clauses(list)
}

/// Of a question and a row that an INSERT pushes out of a ring (A.4): F with the ring's columns replaced by the row's
/// values. Rule 5 bounds this list alone.
fn listed_of_pushed(question: &Question, table: usize, row: &[i32]) -> Listed {
    if !question.tables.contains(&table) {
        return Listed::Clauses(vec![]);
    }
    if count(&question.condition) > 64 {
        return Listed::AllAny;
    }
    Listed::Clauses(clauses(&question.condition, &|operand| match operand {
        Operand::Column(c) if c.table == table => Term::Constant(row[c.place]),
        other => question_term(other),
    }))
}

/// The patterns of a question and an update, without those of a row pushed out.
pub fn patterns(question: &Question, update: &Update) -> Vec<Pattern> {
    patterns_of(&listed(question, update), question.marks)
}

/// The patterns of a question and a row that an INSERT pushes out of a ring.
pub fn patterns_of_pushed(question: &Question, table: usize, row: &[i32]) -> Vec<Pattern> {
    patterns_of(&listed_of_pushed(question, table, row), question.marks)
}

/// Rules 6 and 7. Equal patterns keep the first.
fn patterns_of(listed: &Listed, marks: usize) -> Vec<Pattern> {
    let Listed::Clauses(list) = listed else {
        return vec![vec![Place::Any; marks]];
    };
    let mut found: Vec<Pattern> = Vec::new();
    for clause in list {
        let classes = classes(clause, marks);
        if goes(clause, &classes).is_none() {
            let pattern = pattern_of(&classes, marks);
            if !found.contains(&pattern) {
                found.push(pattern);
            }
        }
    }
    found
}

/// The clauses that rule 6 lets go, each with the reason and the pattern that it would have given: for the report of what
/// was tried.
pub fn gone(question: &Question, update: &Update, pushed: Option<&[i32]>) -> Vec<(Gone, Pattern)> {
    let of_pushed = pushed.map(|row| listed_of_pushed(question, update.table, row));
    let mut all = Vec::new();
    for listed in [Some(listed(question, update)), of_pushed].into_iter().flatten() {
        let Listed::Clauses(list) = listed else { continue };
        for clause in &list {
            let classes = classes(clause, question.marks);
            if let Some(why) = goes(clause, &classes) {
                all.push((why, pattern_of(&classes, question.marks)));
            }
        }
    }
    all
}

/// Does the pattern, filled with the update's values, agree with the key's values?
pub fn agrees(pattern: &Pattern, update_values: &[i32], key_values: &[i32]) -> bool {
    assert_eq!(pattern.len(), key_values.len());
    pattern.iter().zip(key_values).all(|(place, value)| match place {
        Place::Any => true,
        Place::Constant(constant) => constant == value,
        Place::Mark(mark) => update_values[mark - 1] == *value,
    })
}
