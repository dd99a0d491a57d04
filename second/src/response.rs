//! Responses (CR 1): reasons 17, 6 and 9 to 12, in that order. "Require is not judged": reason 14 does not arise, its form is read.

use crate::classes::number_of_digits;
use crate::judge::{self, found, Found, Passed};
use crate::lines::Lines;
use crate::profile::{self, Column};
use crate::values;

pub fn judge(lines: Lines, code: &[u8]) -> Result<Passed, Found> {
    if !(100..=699).contains(&status(code)) {
        return Err(found(17, 0));
    }
    let column = column(&lines, code).ok_or(found(6, 0))?;
    let method = method(&lines).unwrap_or_default();
    let fields = judge::kept_fields(&lines, column);
    judge::repeats(&fields)?;
    judge::malformed(&fields, method)?;
    let body = judge::cut_body(&fields, &lines.rest)?;
    judge::missing(&fields, column, body.is_empty())?;
    Ok(Passed { start: lines.start, column, fields, body })
}

/// None is reason 6: "an absent or malformed first CSeq or an unknown method".
pub fn column(lines: &Lines, code: &[u8]) -> Option<Column> {
    profile::column_of_response(status(code), method(lines)?)
}

fn status(code: &[u8]) -> u64 {
    number_of_digits(code, 3).unwrap_or(0)
}

/// The method that the first CSeq names.
fn method(lines: &Lines) -> Option<&[u8]> {
    let first = lines.fields.iter().find(|field| profile::number_of_name(&field.name) == 6)?;
    values::method_of_cseq(&first.value.bytes)
}
