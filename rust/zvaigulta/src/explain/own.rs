//! 5 and 6 where a column is wrong by itself.

use super::{fault, Fault};
use crate::layout::{Column, Content};
use crate::outline::Record;
use crate::text::quoted;

/// 5: the malformed columns of a record.
pub fn malformed(named: &Record) -> Vec<Fault> {
    let wrong = named.judged_columns().iter().filter(|column| column.is_malformed(named.bytes));
    wrong.map(|column| fault(named.number, column.name, format!("malformed: {}", form(column.bytes(named.bytes))))).collect()
}

/// Why a column is no integer.
pub fn form(column: &[u8]) -> String {
    let spaces = column.iter().take_while(|byte| **byte == b' ').count();
    let text = column.get(spaces..).unwrap_or(&[]);
    let digits = text.strip_prefix(b"-").unwrap_or(text);
    let other = digits.iter().position(|byte| !byte.is_ascii_digit());
    match (text, other.and_then(|n| digits.get(n..))) {
        ([], _) => "all spaces, and a number is due".to_string(),
        ([b'-'], _) => "a minus without a number".to_string(),
        (_, None) => "a minus before zeros only".to_string(),
        (_, Some(rest)) if rest.iter().all(|byte| *byte == b' ') => "a space behind the number".to_string(),
        (_, Some([b'+', ..])) => "a plus sign; a number has none".to_string(),
        (_, Some([b' ', ..])) => "a space inside the number".to_string(),
        (_, Some([byte, ..])) => format!("{} is no digit", quoted(&[*byte])),
        (_, Some([])) => "no digit".to_string(),
    }
}

/// 6: the columns of a record outside their own range or list.
pub fn outside(named: &Record) -> Vec<Fault> {
    let own = |column: &Column| match (column.content, column.value(named.bytes)) {
        (Content::Integer(allowed), Some(n)) if !allowed.holds(n) => {
            Some(fault(named.number, column.name, format!("is {n}, must be {allowed}")))
        }
        _ => None,
    };
    named.judged_columns().iter().filter_map(own).collect()
}
