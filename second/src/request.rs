//! Requests: reasons 6 to 15.

use crate::address;
use crate::classes::{is_whole_token, same_in_any_case};
use crate::judge::{self, first_value, found, Found, Kept, Passed};
use crate::lines::Lines;
use crate::profile::{self, Column};
use crate::uri;
use crate::values;

pub fn judge(lines: Lines, method: &[u8], uri: &[u8]) -> Result<Passed, Found> {
    let column = profile::column_of_request(method).ok_or(found(6, 0))?;
    request_uri(uri)?;
    let fields = judge::kept_fields(&lines, column);
    judge::repeats(&fields)?;
    judge::malformed(&fields, method)?;
    let body = judge::cut_body(&fields, &lines.rest)?;
    let column = column_with_re(column, &fields);
    judge::missing(&fields, column, body.is_empty())?;
    hops(&fields)?;
    required_tags(&fields)?;
    called_number(uri, column)?;
    Ok(Passed { start: lines.start, column, fields, body })
}

/// Reason 7: "Request-URI scheme (all before the first colon) is a token but neither sip nor tel
/// in any case". Reason 8: "Request-URI otherwise malformed".
fn request_uri(text: &[u8]) -> Result<(), Found> {
    if let Some(colon) = text.iter().position(|&byte| byte == b':') {
        let scheme = &text[..colon];
        let known = same_in_any_case(scheme, b"sip") || same_in_any_case(scheme, b"tel");
        if is_whole_token(scheme) && !known {
            return Err(found(7, 0));
        }
    }
    match uri::whole(text) {
        Some(_) => Ok(()),
        None => Err(found(8, 0)),
    }
}

/// "An INVITE uses "re" exactly if its To has a tag."
fn column_with_re(column: Column, fields: &[Kept]) -> Column {
    let to_has_tag = first_value(fields, 4)
        .and_then(|value| address::address(&value.bytes))
        .is_some_and(|to| to.tag().is_some());
    if column == Column::Invite && to_has_tag {
        Column::Re
    } else {
        column
    }
}

/// Reason 13: "Max-Forwards is 0".
fn hops(fields: &[Kept]) -> Result<(), Found> {
    match first_value(fields, 2).and_then(|value| values::max_forwards(&value.bytes)) {
        Some(0) => Err(found(13, 0)),
        _ => Ok(()),
    }
}

/// Reason 14: "a required tag we lack"; detail "the place of the first lacking tag, from 1, over
/// all Require fields".
fn required_tags(fields: &[Kept]) -> Result<(), Found> {
    let mut place = 0;
    for field in fields.iter().filter(|field| field.number == 14) {
        for tag in values::require(&field.value.bytes).unwrap_or_default() {
            place += 1;
            if !values::is_tag_we_have(&tag) {
                return Err(found(14, place));
            }
        }
    }
    Ok(())
}

/// Reason 15: "Called number (initial INVITE only)", read out of the Request-URI.
fn called_number(text: &[u8], column: Column) -> Result<(), Found> {
    let good = uri::whole(text).is_some_and(|uri| uri::is_called_number(&uri));
    if column == Column::Invite && !good {
        return Err(found(15, 0));
    }
    Ok(())
}
