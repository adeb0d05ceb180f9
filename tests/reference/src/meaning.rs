//! Meaning: conditions on a row or a pair of rows in three values, records, and rows of a record.

use crate::text::{Column, Condition, NullTest, Operand, Relation};

/// The null of ISO/IEC 9075 (A.5). In cells, values, constants, records and keys it is this number.
pub const NULL: i32 = i32::MIN;

/// The three values of that standard.
#[derive(Clone, Copy, PartialEq, Eq, Debug)]
pub enum Truth {
    True,
    False,
    Unknown,
}

use Truth::{False, True, Unknown};

/// The rows a record may hold.
pub const RECORD_ROWS: usize = 65_535;

/// A row, or a pair of rows of two tables, each with its table's number.
pub type Rows<'a> = [(usize, &'a [i32])];

fn truth_of(holds: bool) -> Truth {
    if holds {
        True
    } else {
        False
    }
}

/// A comparison with the null is unknown.
pub fn compare(left: i32, relation: Relation, right: i32) -> Truth {
    if left == NULL || right == NULL {
        return Unknown;
    }
    truth_of(match relation {
        Relation::Equal => left == right,
        Relation::Unequal => left != right,
        Relation::Less => left < right,
        Relation::LessOrEqual => left <= right,
        Relation::Greater => left > right,
        Relation::GreaterOrEqual => left >= right,
    })
}

/// A null test is never unknown.
pub fn null_test(number: i32, test: NullTest) -> Truth {
    truth_of(match test {
        NullTest::IsNull => number == NULL,
        NullTest::IsNotNull => number != NULL,
    })
}

/// The standard's table of NOT.
pub fn not(truth: Truth) -> Truth {
    match truth {
        True => False,
        False => True,
        Unknown => Unknown,
    }
}

/// The standard's table of AND.
pub fn and(left: Truth, right: Truth) -> Truth {
    match (left, right) {
        (True, True) => True,
        (True, False) => False,
        (True, Unknown) => Unknown,
        (False, True) => False,
        (False, False) => False,
        (False, Unknown) => False,
        (Unknown, True) => Unknown,
        (Unknown, False) => False,
        (Unknown, Unknown) => Unknown,
    }
}

/// The standard's table of OR.
pub fn or(left: Truth, right: Truth) -> Truth {
    match (left, right) {
        (True, True) => True,
        (True, False) => True,
        (True, Unknown) => True,
        (False, True) => True,
        (False, False) => False,
        (False, Unknown) => Unknown,
        (Unknown, True) => True,
        (Unknown, False) => Unknown,
        (Unknown, Unknown) => Unknown,
    }
}

pub fn cell(column: Column, rows: &Rows) -> i32 {
    let (_, row) = rows.iter().find(|(table, _)| *table == column.table).expect("the column is of one of these tables");
    row[column.place]
}

/// An operand's number for these rows and these values of the question marks.
pub fn number(operand: Operand, rows: &Rows, values: &[i32]) -> i32 {
    match operand {
        Operand::Column(column) => cell(column, rows),
        Operand::Constant(constant) => constant,
        Operand::Mark(mark) => values[mark - 1],
    }
}

/// The condition as it was written, NOT included.
pub fn truth_as_written(condition: &Condition<Operand>, rows: &Rows, values: &[i32]) -> Truth {
    let of = |part: &Condition<Operand>| truth_as_written(part, rows, values);
    match condition {
        Condition::Compare(left, relation, right) => {
            compare(number(*left, rows, values), *relation, number(*right, rows, values))
        }
        Condition::Null(operand, test) => null_test(number(*operand, rows, values), *test),
        Condition::Not(inner) => not(of(inner)),
        Condition::Group(inner) => of(inner),
        Condition::And(left, right) => and(of(left), of(right)),
        Condition::Or(left, right) => or(of(left), of(right)),
    }
}

/// An absent WHERE always holds.
pub fn truth(condition: &Option<Condition<Operand>>, rows: &Rows, values: &[i32]) -> Truth {
    condition.as_ref().map_or(True, |condition| truth_as_written(condition, rows, values))
}

/// WHERE takes only rows whose condition is true.
pub fn holds(condition: &Option<Condition<Operand>>, rows: &Rows, values: &[i32]) -> bool {
    truth(condition, rows, values) == True
}

/// Is every one of these comparisons true of a first table's row (A.6)? They name no column of another table.
pub fn all_true(comparisons: &[&Condition<Operand>], first: usize, row: &[i32], values: &[i32]) -> bool {
    comparisons.iter().all(|comparison| truth_as_written(comparison, &[(first, row)], values) == True)
}

/// The record of these rows, each of `columns` values; refusal 16 for too many.
pub fn record(columns: usize, rows: &[Vec<i32>]) -> Result<Vec<u8>, u8> {
    if rows.len() > RECORD_ROWS {
        return Err(16);
    }
    let mut what_follows = vec![1, columns as u8];
    what_follows.extend((rows.len() as u16).to_be_bytes());
    for row in rows {
        assert_eq!(row.len(), columns);
        for value in row {
            what_follows.extend(value.to_be_bytes());
        }
    }
    let mut record = (what_follows.len() as u32).to_be_bytes().to_vec();
    record.extend(what_follows);
    Ok(record)
}

/// Columns and rows of the record at the beginning of these bytes, if they are a record.
pub fn record_shape(bytes: &[u8]) -> Option<(usize, usize)> {
    if bytes.len() < 8 {
        return None;
    }
    let length = u32::from_be_bytes([bytes[0], bytes[1], bytes[2], bytes[3]]) as usize;
    let columns = bytes[5] as usize;
    let rows = u16::from_be_bytes([bytes[6], bytes[7]]) as usize;
    let agrees = bytes[4] == 1
        && (1..=8).contains(&columns)
        && rows <= RECORD_ROWS
        && length == 4 + 4 * columns * rows
        && bytes.len() >= 4 + length;
    agrees.then_some((columns, rows))
}

/// Row `i` of a record, or refusal 14.
pub fn show_row(bytes: &[u8], i: u64) -> Result<&[u8], u8> {
    let (columns, rows) = record_shape(bytes).ok_or(14)?;
    if i >= rows as u64 {
        return Err(14);
    }
    let start = 8 + 4 * columns * i as usize;
    Ok(&bytes[start..start + 4 * columns])
}

pub fn values_of(bytes: &[u8]) -> Vec<i32> {
    bytes.chunks(4).map(|b| i32::from_be_bytes([b[0], b[1], b[2], b[3]])).collect()
}
