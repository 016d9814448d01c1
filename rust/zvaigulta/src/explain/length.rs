//! 1: why a length is refused, and the first record that breaks.

use super::counts::Records;
use super::{at_record, directory, first, form, shift, Explanation};
use crate::outline::Outline;
use crate::text::{number_of, quoted};
use crate::{FileKind, Form, Reason, Refusal, MOST_RECORDS, RECORD_BYTES};

/// The one of the four reasons that a length is refused for.
pub fn reason(length: usize, form: Form) -> String {
    let stride = form.record_bytes();
    match length {
        0 => "the file is empty".to_string(),
        n if n > MOST_RECORDS * stride => format!("the file has more than 200,000 records of {stride} bytes"),
        n if n % stride == 0 => "the length that was given is above the buffer".to_string(),
        n => ragged(n, form),
    }
}

/// That a length is not one of whole records.
pub fn ragged(length: usize, form: Form) -> String {
    format!("the length, {}, is not a multiple of {}", number_of(length as u64, "byte"), form.record_bytes())
}

/// What to do about a length that is refused for another reason than the last of these.
pub fn other(length: usize, form: Form) -> Option<String> {
    let words = match length {
        0 => "copy the file again from where it came",
        n if n > MOST_RECORDS * form.record_bytes() => "divide the sheet into two",
        n if n % form.record_bytes() == 0 => "give the length of the file in its buffer",
        n if n < RECORD_BYTES => "the file is shorter than one record: copy it again from where it came",
        _ => return None,
    };
    Some(words.to_string())
}

/// What is behind it, and the columns of the first record that breaks.
pub fn explain(bytes: &[u8], told: &mut Explanation) {
    let directory = || directory::noticed(bytes, None).filter(|_| bytes.len() > MOST_RECORDS * RECORD_BYTES);
    match form::of(bytes, None).or_else(directory).or_else(|| other(bytes.len(), Form::Plain)) {
        Some(words) => told.notes.push(words),
        None if directory::ragged(bytes, told) => {}
        None => odd(bytes, told),
    }
}

/// Whole records, and some bytes more.
pub fn odd(bytes: &[u8], told: &mut Explanation) {
    let records = bytes.len() / RECORD_BYTES;
    let (whole, rest) = bytes.split_at(records * RECORD_BYTES);
    match FileKind::of(whole).judge(whole, whole.len()) {
        Ok(_) => {
            let whole = if records == 1 { "record 1 is".to_string() } else { format!("records 1 to {records} are") };
            let behind = format!("{}, {}", number_of(rest.len() as u64, "byte"), quoted(rest));
            let look = format!("see whether that belongs to record {records} before you take it out");
            told.notes.push(format!("{whole} accepted, but not what stands behind: {behind}; {look}"));
        }
        Err(refusal) => broken(bytes, whole, refusal, told),
    }
}

/// Whole records that are refused themselves.
fn broken(bytes: &[u8], whole: &[u8], refusal: Refusal, told: &mut Explanation) {
    let (records, odd) = (whole.len() / RECORD_BYTES, bytes.len() % RECORD_BYTES);
    let Some(named) = refusal.record.and_then(|record| Outline::of(whole).nth(record.checked_sub(1)?)) else { return };
    let short = Records::of(whole).filter(|records| records.missing() > 0);
    match (refusal.reason, short) {
        (Reason::FileType, _) => first::explain(bytes, &named, told),
        (Reason::MissingRecord | Reason::Count, Some(short)) => {
            let only = format!("record {} has only {odd} of its {RECORD_BYTES} bytes", records + 1);
            let cut = || format!("{only}: the file is cut off, or bytes of that record are lost; {}", short.words());
            told.notes.extend(shift::notes(bytes, records + 1, Form::Plain).unwrap_or_else(|| vec![cut()]));
        }
        _ => {
            let mut inner = Explanation::default();
            at_record(whole, &named, refusal.reason, Form::Plain, &mut inner);
            told.faults.extend(inner.faults.into_iter().filter(|fault| fault.record == named.number));
            let first = format!("record {} is the first that breaks ({})", named.number, refusal.reason);
            let more = number_of(odd as u64, "byte");
            let plain = || {
                let stated = Records::before(bytes, named.number).map(|records| records.words_in_bytes(bytes.len(), Form::Plain));
                let breaks = format!("the file has {records} records of {RECORD_BYTES} bytes and {more} more; {first}");
                [breaks].into_iter().chain(stated).collect()
            };
            told.notes.extend(shift::notes(bytes, named.number, Form::Plain).unwrap_or_else(plain));
        }
    }
}
