//! What the P-Asserted-Identity fields of a message hold (CR 6), for the counts. They are parted here, so that the counts do not depend on the
//! rule that is compared; whether one alone has the old form is asked of the second implementation.

use second::address::{self, Address};
use second::uri::{self, Scheme};
use second::{lines, profile};

/// The members of each P-Asserted-Identity field in message order: what stands between its commas.
pub struct Asserted {
    fields: Vec<Vec<Member>>,
}

struct Member {
    empty: bool,
    /// None where it does not have the old form.
    scheme: Option<Scheme>,
}

impl Asserted {
    /// None where the message is not read or has no such field.
    pub fn of(message: &[u8]) -> Option<Asserted> {
        let fields = lines::read(message).ok()?.fields.into_iter();
        let values = fields.filter(|field| profile::number_of_name(&field.name) == 15).map(|field| field.value.bytes);
        let fields: Vec<Vec<Member>> = values.map(|value| parted(&value).into_iter().map(member).collect()).collect();
        (!fields.is_empty()).then_some(Asserted { fields })
    }

    /// The schemes of all, in message order, where each has the old form.
    fn schemes(&self) -> Option<Vec<Scheme>> {
        self.fields.iter().flatten().map(|member| member.scheme).collect()
    }

    /// Whether there are one of each scheme and no other.
    pub fn are_two(&self) -> bool {
        self.schemes().is_some_and(|all| all.len() == 2 && all[0] != all[1])
    }

    /// Whether each has the old form, but there are too many or two of one scheme.
    pub fn are_too_many(&self) -> bool {
        self.schemes().is_some_and(|all| all.len() > 2 || all.len() == 2 && all[0] == all[1])
    }

    pub fn are_more_than_two(&self) -> bool {
        self.fields.iter().map(Vec::len).sum::<usize>() > 2
    }

    pub fn has_empty_member(&self) -> bool {
        self.fields.iter().flatten().any(|member| member.empty)
    }

    pub fn in_one_field(&self) -> bool {
        self.fields.len() == 1
    }

    pub fn has_sip(&self) -> bool {
        self.schemes().is_some_and(|all| all.contains(&Scheme::Sip))
    }

    pub fn starts_with_tel(&self) -> bool {
        self.schemes().is_some_and(|all| all.first() == Some(&Scheme::Tel))
    }
}

fn member(text: &[u8]) -> Member {
    let text = text.trim_ascii();
    let old_form = |read: &Address| read.parameters == 0 && uri::is_full_number(read.uri.dialled());
    Member { empty: text.is_empty(), scheme: address::address(text).filter(old_form).map(|read| read.uri.scheme) }
}

/// The text between the commas that stand in no quoted string.
fn parted(value: &[u8]) -> Vec<&[u8]> {
    let mut members = Vec::new();
    let (mut start, mut quoted, mut escaped) = (0, false, false);
    for (place, &byte) in value.iter().enumerate() {
        if byte == b',' && !quoted {
            members.push(&value[start..place]);
            start = place + 1;
        }
        quoted ^= byte == b'"' && !escaped;
        escaped = quoted && byte == b'\\' && !escaped;
    }
    members.push(&value[start..]);
    members
}
