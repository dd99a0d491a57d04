//! Whether two messages are as CR 5 takes them, and what is seldom in them, for the counts. Each field is read alone, so that no answer is
//! looked at and more than 96 fields are read too.

use crate::counts::{Counts, Met};
use second::address::{self, Address};
use second::drafts::{Draft, Whole};
use second::identity::{self, Identity};
use second::lines::{self, MOST_BYTES, MOST_FIELDS};
use second::start::Start;
use second::uri::Scheme;
use second::values;

/// Two messages that CR 5 takes.
pub struct Callers<'a> {
    one: Vec<Read<'a>>,
    other: Vec<Read<'a>>,
    lengths: [usize; 2],
}

/// A well-shaped field and its canonical value.
struct Read<'a> {
    field: &'a Whole,
    value: Vec<u8>,
}

impl<'a> Callers<'a> {
    /// "two INVITEs .. both withheld, equal except for the values of P-Asserted-Identity and the part of From outside its tag parameter.
    /// Both messages keep to 8,192 bytes and well-shaped fields; these two values are well formed with the same tag." CR 6: "over all
    /// P-Asserted-Identity fields, with their number and places equal and the identities allowed here in both messages".
    pub fn of(one: &'a Draft, other: &'a Draft) -> Option<Callers<'a>> {
        let lengths = [one, other].map(|draft| draft.bytes().len());
        let kept = is_invite(&one.start) && lengths.iter().all(|&length| length <= MOST_BYTES);
        let around = one.start == other.start && one.body == other.body && one.fields.len() == other.fields.len();
        // The same message twice would show nothing.
        if !kept || !around || one.fields == other.fields {
            return None;
        }
        let callers = Callers { one: read(one)?, other: read(other)?, lengths };
        let alike = callers.one.iter().zip(&callers.other).all(|(one, other)| differ_in_the_caller_alone(one, other));
        let alike = alike && (callers.have_the_same(15) || are_allowed(&callers.one) && are_allowed(&callers.other));
        let withheld = callers.one.iter().any(|read| read.field.number() == 16 && values::asks_to_withhold(&read.value));
        (alike && withheld).then_some(callers)
    }

    /// Whether the fields of this number are the same in both, none too.
    fn have_the_same(&self, number: u64) -> bool {
        self.one.iter().zip(&self.other).all(|(one, other)| one.field.number() != number || one.field == other.field)
    }

    /// The first field of this number in both.
    fn first(&self, number: u64) -> Option<[&Read<'a>; 2]> {
        let place = self.one.iter().position(|read| read.field.number() == number)?;
        Some([&self.one[place], &self.other[place]])
    }

    /// Counts what they have that is seldom, whatever the answer to both is.
    pub fn count(&self, met: &mut Counts, numbers: [u64; 5], room: usize) {
        let [reason, _, detail, _, length] = numbers;
        met.met(Met::CallersSecondFrom, reason == 9 && detail == 3);
        met.met(Met::CallersNotAllowed, reason == 10 && detail == 15 && self.have_the_same(15) && !self.have_the_same(3));
        met.met(Met::CallersSecondPrivacy, reason == 9 && detail == 16);
        met.met(Met::CallersOneFieldMore, reason == 5 && self.one.len() == MOST_FIELDS + 1);
        met.met(Met::CallersMostFields, reason == 0 && self.one.len() == MOST_FIELDS);
        met.met(Met::CallersExact, reason == 0 && length == room as u64);
        met.met(Met::CallersOneByteShort, reason == 16 && detail == room as u64 + 1);
        met.met(Met::CallersNoRoom, reason == 16 && room == 0);
        if reason == 0 {
            self.messages(met);
            self.froms(met);
            self.identities(met);
        }
    }

    fn messages(&self, met: &mut Counts) {
        let [one, other] = self.lengths;
        let later = self.first(4).is_some_and(|[to, _]| tag(&to.value).is_some());
        met.met(Met::CallersInitial, !later);
        met.met(Met::CallersLater, later);
        met.met(Met::CallersOneLength, one == other);
        met.met(Met::CallersFarLonger, one.abs_diff(other) > 2000);
        met.met(Met::CallersFull, one.max(other) == MOST_BYTES);
        met.met(Met::CallersBothFull, one.min(other) == MOST_BYTES);
    }

    fn froms(&self, met: &mut Counts) {
        let Some(froms) = self.first(3) else { return };
        let [Some(one), Some(other)] = froms.map(|from| address::address(&from.value)) else { return };
        let tag = one.tag().map_or(0, |tag| tag.len());
        let inside = |from: &Address| from.uri.text.windows(4).any(|part| part.eq_ignore_ascii_case(b"tag="));
        let [name, other_name] = froms.map(|from| tag_name(&from.value));
        let [last, other_last] = froms.map(|from| from.value.ends_with(one.tag().unwrap_or(b";")));
        met.met(Met::CallersTagOf1, tag == 1);
        met.met(Met::CallersTagOf64, tag == 64);
        met.met(Met::CallersTagElsewhere, last != other_last);
        met.met(Met::CallersTagSpelled, name != other_name);
        met.met(Met::CallersTagInUri, inside(&one) && !inside(&other));
        met.met(Met::CallersTagInQuotes, holds(&froms[0].value, b";tag=no") && !holds(&froms[1].value, b";tag=no"));
        met.met(Met::CallersBare, one.uri_start == 0 && other.uri_start > 0);
        met.met(Met::CallersSchemes, one.uri.scheme != other.uri.scheme);
        met.met(Met::CallersFold, is_folded(froms[0]) && !is_folded(froms[1]));
        met.met(Met::CallersLong, froms[0].value.len() > 2000 && froms[1].value.len() < 100);
    }

    fn identities(&self, met: &mut Counts) {
        met.met(Met::CallersNoIdentity, self.first(15).is_none());
        let Some(pair) = self.first(15) else { return };
        let [one, other] = [&self.one, &self.other].map(|reads| asserted(reads).unwrap_or_default());
        let fields = self.one.iter().filter(|read| read.field.number() == 15).count();
        let schemes = |all: &[Identity]| all.iter().map(|identity| identity.scheme).collect::<Vec<Scheme>>();
        let [schemes, other_schemes] = [schemes(&one), schemes(&other)];
        let turned = schemes.len() == 2 && other_schemes.len() == 2 && schemes != other_schemes;
        met.met(Met::CallersIdentitySchemes, schemes.len() == 1 && other_schemes.len() == 1 && schemes != other_schemes);
        met.met(Met::CallersIdentityMore, schemes.len() != other_schemes.len());
        met.met(Met::CallersIdentityOrder, fields == 1 && turned);
        met.met(Met::CallersTwoFields, fields == 2 && schemes == other_schemes);
        met.met(Met::CallersTwoFieldsOrder, fields == 2 && turned);
        met.met(Met::CallersIdentityFold, is_folded(pair[0]) && !is_folded(pair[1]));
        met.met(Met::CallersIdentityLong, pair[0].value.len() > 2000 && pair[1].value.len() < 100);
        let same_from = self.have_the_same(3);
        met.met(Met::CallersIdentityAlone, same_from && numbers(pair[0]) != numbers(pair[1]));
        met.met(Met::CallersFromAlone, !same_from && self.have_the_same(15));
    }
}

/// The identities of all P-Asserted-Identity fields, where each field is well formed by itself.
fn asserted(reads: &[Read]) -> Option<Vec<Identity>> {
    let fields = reads.iter().filter(|read| read.field.number() == 15);
    fields.map(|read| identity::identities(&read.value)).collect::<Option<Vec<Vec<Identity>>>>().map(|all| all.concat())
}

fn are_allowed(reads: &[Read]) -> bool {
    asserted(reads).is_some_and(|all| identity::are_allowed(&all))
}

/// The digits of each identity of a field.
fn numbers(read: &Read) -> Vec<Vec<u8>> {
    let all = identity::identities(&read.value).unwrap_or_default();
    all.iter().map(|identity| read.value[identity.start..identity.start + identity.length].to_vec()).collect()
}

fn is_invite(start: &Start) -> bool {
    let invite = matches!(start, Start::Request { method, .. } if method == b"INVITE");
    invite && Start::read(&start.written()).as_ref() == Some(start)
}

/// Every field, where each is well shaped.
fn read(draft: &Draft) -> Option<Vec<Read<'_>>> {
    draft.fields.iter().map(read_alone).collect()
}

/// The field read as the only one of a message.
fn read_alone(field: &Whole) -> Option<Read<'_>> {
    let alone = [b"A b SIP/2.0\r\n", &field.name[..], &field.rest, b"\r\n"].concat();
    let lines = lines::read(&alone).ok()?;
    match &lines.fields[..] {
        [only] if only.name == field.name && lines.rest.is_empty() => Some(Read { field, value: only.value.bytes.clone() }),
        _ => None,
    }
}

/// The same field, or one of the two with another value behind the same name, blanks and colon; From's is good and keeps its tag. What the
/// identities may be is asked of all of them together.
fn differ_in_the_caller_alone(one: &Read, other: &Read) -> bool {
    let before_colon = |read: &Read| read.field.rest.split(|&byte| byte == b':').next().map(|blanks| blanks.to_vec());
    let same_front = one.field.name == other.field.name && before_colon(one) == before_colon(other);
    one.field == other.field
        || match one.field.number() {
            3 => same_front && tag(&one.value).is_some() && tag(&one.value) == tag(&other.value),
            15 => same_front,
            _ => false,
        }
}

fn tag(value: &[u8]) -> Option<&[u8]> {
    address::address(value)?.tag()
}

/// The name of the tag as it is written.
fn tag_name(value: &[u8]) -> Option<&[u8]> {
    let start = tag(value)?.as_ptr() as usize - value.as_ptr() as usize;
    let name = value[..start].trim_ascii_end().strip_suffix(b"=")?.trim_ascii_end();
    name.get(name.len() - 3..)
}

fn holds(value: &[u8], text: &[u8]) -> bool {
    value.windows(text.len()).any(|part| part == text)
}

fn is_folded(read: &Read) -> bool {
    read.field.rest.trim_ascii().contains(&b'\n')
}
