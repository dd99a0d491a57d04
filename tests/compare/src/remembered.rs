//! What the table says of a message (CR 8), for the counts, and to hold each answer to the request itself. Tables and pairs are read here, so that
//! neither leans on the rule that is compared.

use crate::counts::{Counts, Met};
use crate::differences::{escaped, same};
use crate::messages::is_token;
use crate::outgoing::{identity_lines, is_masked, is_masked_with};
use crate::privacy::Asked;
use crate::screening::{Answer, Lent, Said, MOST_ROOM};
use second::calls::{Pair, PLACE, PLACES};
use second::start::Start;
use second::{address, lines, profile, Table};
use std::collections::BTreeSet;
use std::fmt::{self, Display, Formatter};

/// A place begins with the length of its Call-ID, and here with that of its tag.
const TAG: usize = 129;

/// The places of a table that are not all zeros, for a difference.
pub struct Shown<'a>(pub &'a Table);

impl Display for Shown<'_> {
    fn fmt(&self, to: &mut Formatter) -> fmt::Result {
        for (number, place) in self.0.chunks(PLACE).enumerate().filter(|(_, place)| place.iter().any(|&byte| byte != 0)) {
            let zeros = place.iter().rev().take_while(|&&byte| byte == 0).count();
            write!(to, "\n  place {number}: {} and {zeros} zeros", escaped(&place[..PLACE - zeros]))?;
        }
        Ok(())
    }
}

/// The pair of each place, None where it is free.
pub struct Remembered {
    places: Vec<Option<Pair>>,
}

impl Remembered {
    pub fn of(table: &Table) -> Remembered {
        Remembered { places: table.chunks(PLACE).map(pair_at).collect() }
    }

    /// "In any other table equal pairs count once".
    pub fn pairs(&self) -> BTreeSet<&Pair> {
        self.places.iter().flatten().collect()
    }

    pub fn holds(&self, pair: &Pair) -> bool {
        self.copies(pair) > 0
    }

    /// How many places hold the pair.
    pub fn copies(&self, pair: &Pair) -> usize {
        self.places.iter().flatten().filter(|one| *one == pair).count()
    }

    /// Whether a pair is held by several places.
    pub fn has_copies(&self) -> bool {
        self.places.iter().flatten().count() > self.pairs().len()
    }

    pub fn is_full(&self) -> bool {
        self.pairs().len() == PLACES
    }

    /// Whether a pair is held that differs from this one in the case of letters alone, or begins with its texts.
    pub fn has_near(&self, pair: &Pair) -> bool {
        self.holds_any(|one| is_in_other_case(one, pair) || begins_with(one, pair))
    }

    fn holds_any(&self, with: impl Fn(&Pair) -> bool) -> bool {
        self.places.iter().flatten().any(with)
    }
}

fn is_in_other_case(one: &Pair, pair: &Pair) -> bool {
    one != pair && one.call_id.eq_ignore_ascii_case(&pair.call_id) && one.tag.eq_ignore_ascii_case(&pair.tag)
}

fn begins_with(one: &Pair, pair: &Pair) -> bool {
    one != pair && one.call_id.starts_with(&pair.call_id) && one.tag.starts_with(&pair.tag)
}

/// Whether both texts have the lengths and the bytes of a Call-ID and of a tag.
pub fn is_well_formed(call_id: &[u8], tag: &[u8]) -> bool {
    let lengths = (1..=128).contains(&call_id.len()) && (1..=64).contains(&tag.len());
    lengths && call_id.iter().all(u8::is_ascii_graphic) && tag.iter().all(|&byte| is_token(byte))
}

/// The pair of a place; a length over its bound leaves no text.
fn pair_at(place: &[u8]) -> Option<Pair> {
    let (call_id, tag) = place.split_at(TAG);
    let [call_id, tag] = [call_id, tag].map(|part| part.get(1..=usize::from(part[0])).unwrap_or_default());
    is_well_formed(call_id, tag).then(|| Pair::new(call_id, tag))
}

/// How many places are free, but not for a length of 0.
pub fn ill_formed(table: &Table) -> usize {
    table.chunks(PLACE).filter(|place| place[0] != 0 && pair_at(place).is_none()).count()
}

/// Whether a free place of the table looks like the pair: its texts stand there, but a length or a byte is wrong.
pub fn looks_held(table: &Table, pair: &Pair) -> bool {
    let looks = |place: &[u8]| place[1..TAG].starts_with(&pair.call_id) && place[TAG + 1..].starts_with(&pair.tag);
    !pair.tag.is_empty() && table.chunks(PLACE).any(|place| pair_at(place).is_none() && looks(place))
}

/// A message that is read, as far as CR 8 looks at it.
struct Asking {
    /// The Call-ID and the From tag, where both stand there.
    pair: Option<Pair>,
    /// None for a response.
    method: Option<Vec<u8>>,
    /// An INVITE whose Privacy withholds.
    withheld: bool,
    to_bye: bool,
}

impl Asking {
    fn of(message: &[u8]) -> Option<Asking> {
        let lines = lines::read(message).ok()?;
        let first = |number: u64| lines.fields.iter().find(|field| profile::number_of_name(&field.name) == number).map(|field| &field.value.bytes[..]);
        let tag = first(3).and_then(address::address).and_then(|from| from.tag().map(<[u8]>::to_vec));
        let pair = first(5).zip(tag).map(|(call_id, tag)| Pair::new(call_id, &tag));
        let to_bye = first(6).is_some_and(|sequence| sequence.ends_with(b"BYE"));
        let method = match lines.start {
            Start::Request { ref method, .. } => Some(method.clone()),
            Start::Status { .. } => None,
        };
        let withheld = method.as_deref() == Some(b"INVITE") && Asked::of(message).is_some_and(|asked| asked.asks());
        Some(Asking { pair, method, withheld, to_bye })
    }
}

/// The pair of a message that is read and has one, request or response.
pub fn pair_of(message: &[u8]) -> Option<Pair> {
    Asking::of(message)?.pair
}

/// A screened message that is read and has a pair, with all that CR 8 speaks of.
pub struct Screened<'a> {
    message: &'a [u8],
    lent: Lent,
    table: &'a Table,
    answer: &'a Answer,
    before: Remembered,
    after: Remembered,
    asking: Asking,
    pair: Pair,
}

impl<'a> Screened<'a> {
    /// None where the message is not read or has no pair; then it must leave the table as it is.
    pub fn of(message: &'a [u8], lent: Lent, table: &'a Table, answer: &'a Answer) -> Option<Screened<'a>> {
        let [before, after] = [table, &answer.after].map(Remembered::of);
        let asking = Asking::of(message);
        match asking.and_then(|asking| Some((asking.pair.clone()?, asking))) {
            Some((pair, asking)) => Some(Screened { message, lent, table, answer, before, after, asking, pair }),
            None => {
                same("screen, a message without a pair leaves the table", &(answer.after == *table), &true, message, Shown(table));
                None
            }
        }
    }

    fn reason(&self) -> u64 {
        self.answer.numbers[0]
    }

    fn is_accepted(&self) -> bool {
        self.reason() == 0
    }

    fn is_request(&self) -> bool {
        self.asking.method.is_some()
    }

    fn is(&self, method: &[u8]) -> bool {
        self.asking.method.as_deref() == Some(method)
    }

    fn is_held(&self) -> bool {
        self.before.holds(&self.pair)
    }

    fn is_untrusted(&self) -> bool {
        self.is_request() && self.lent.side == 1
    }

    /// Whether it is an "accepted request to side 1".
    fn is_passed_on(&self) -> bool {
        self.is_accepted() && self.is_untrusted()
    }

    /// Whether a new pair meets 32 held ones.
    fn meets_32(&self) -> bool {
        self.is_untrusted() && self.asking.withheld && !self.is_held() && self.before.is_full()
    }

    /// Whether it goes out masked although its Privacy does not withhold.
    pub fn is_hidden_by_the_table(&self) -> bool {
        self.is_passed_on() && self.is_held() && !self.asking.withheld
    }

    /// Holds the answer to CR 8, sentence by sentence. Said of each step from none held on, "the pairs held always equal those the history leaves
    /// open".
    pub fn hold_to_the_page(&self) {
        let hold = |what: &str, really: bool, wanted: bool| same(what, &really, &wanted, self.message, Said(&self.lent, self.table));
        let out = self.answer.outgoing();
        let hidden = self.is_passed_on() && (self.asking.withheld || self.is_held());
        hold("screen: From goes out masked", is_masked(out), hidden);
        hold("screen: a masked From has another tag", hidden && !is_masked_with(out, &self.pair.tag), false);
        hold("screen: P-Asserted-Identity goes out of a masked request", hidden && identity_lines(out) > 0, false);
        let mut pairs = self.before.pairs();
        if self.is_passed_on() && self.asking.withheld {
            pairs.insert(&self.pair);
        }
        if self.is_passed_on() && self.is(b"BYE") {
            pairs.remove(&self.pair);
        }
        hold("screen: the pairs held afterwards are as CR 8 says", self.after.pairs() == pairs, true);
        hold("screen: a refused request changes nothing", !self.is_accepted() && self.answer.after != *self.table, false);
        hold("screen: 18 with numbers other than its own", self.reason() == 18 && self.answer.numbers != [18, 503, 0, 0, 0], false);
        hold("screen: 18 where no new pair meets 32", self.reason() == 18 && !self.meets_32(), false);
        hold("screen: not 18 where a new pair meets 32", [0, 16].contains(&self.reason()) && self.meets_32(), false);
    }

    pub fn count(&self, met: &mut Counts) {
        if self.is_hidden_by_the_table() {
            self.masked(met);
        }
        if self.is_passed_on() && !self.is_held() {
            self.not_held(met);
        }
        if self.is_passed_on() && self.asking.withheld {
            self.opened(met);
        }
        if self.is_passed_on() && self.is(b"BYE") && self.is_held() {
            self.closed(met);
        }
        if !self.is_accepted() && self.is_untrusted() {
            self.refused(met);
        }
        self.elsewhere(met);
    }

    /// By which request, and what is seldom in it.
    fn masked(&self, met: &mut Counts) {
        let later = second::reading_slice(self.message, 4, 1).windows(4).any(|part| part.eq_ignore_ascii_case(b"tag="));
        met.met(Met::HiddenInvite, self.is(b"INVITE") && !later);
        met.met(Met::HiddenLater, self.is(b"INVITE") && later);
        met.met(Met::HiddenAck, self.is(b"ACK"));
        met.met(Met::HiddenBye, self.is(b"BYE"));
        met.met(Met::HiddenCancel, self.is(b"CANCEL"));
        met.met(Met::HiddenOptions, self.is(b"OPTIONS"));
        met.met(Met::HiddenIdentity, self.is(b"INVITE") && second::count(self.message, 15) > 0);
        met.met(Met::HiddenFold, second::reading_slice(self.message, 3, 1).contains(&b'\n'));
        met.met(Met::HiddenLongest, self.pair.call_id.len() == 128 && self.pair.tag.len() == 64);
        met.met(Met::HiddenShortest, self.pair.call_id.len() == 1 && self.pair.tag.len() == 1);
        met.met(Met::HiddenByCopies, self.before.copies(&self.pair) > 1);
        met.met(Met::HiddenByLast, self.before.places[PLACES - 1].as_ref() == Some(&self.pair) && self.before.copies(&self.pair) == 1);
        let exact = self.answer.numbers[4] == self.lent.room as u64;
        met.met(Met::HiddenShorter, exact && self.shown_length() > self.lent.room);
    }

    /// The length of the message if the table did not hide its caller.
    fn shown_length(&self) -> usize {
        second::screen(self.message, self.lent.side, &mut second::none_held(), &mut [0; MOST_ROOM]).numbers()[4] as usize
    }

    /// A pair that is not held, although one is that nearly is it.
    fn not_held(&self, met: &mut Counts) {
        let Pair { call_id, tag } = &self.pair;
        let joined = |one: &Pair| [&one.call_id[..], &one.tag].concat() == [&call_id[..], tag].concat();
        met.met(Met::NearTag, self.before.holds_any(|one| one.call_id == *call_id));
        met.met(Met::NearCallId, self.before.holds_any(|one| one.tag == *tag));
        met.met(Met::NearCase, self.before.holds_any(|one| is_in_other_case(one, &self.pair)));
        met.met(Met::NearLonger, self.before.holds_any(|one| begins_with(one, &self.pair)));
        met.met(Met::NearBorder, self.before.holds_any(joined));
        met.met(Met::LooksHeld, looks_held(self.table, &self.pair));
        met.met(Met::ByeUnknown, self.is(b"BYE"));
        met.met(Met::ShownMeets32, self.is(b"INVITE") && !self.asking.withheld && self.before.is_full());
    }

    /// A withheld INVITE: where its pair was entered, or that it was held.
    fn opened(&self, met: &mut Counts) {
        met.met(Met::HeldAlready, self.is_held());
        met.met(Met::HeldAlreadyIn32, self.is_held() && self.before.is_full());
        let Some(number) = (0..PLACES).find(|&number| place(self.table, number) != place(&self.answer.after, number)) else { return };
        let old = place(self.table, number);
        let empty = old[0] == 0;
        let free = !empty && self.before.places[number].is_none();
        met.met(Met::EnteredEmpty, empty);
        met.met(Met::EnteredOverJunk, empty && old.iter().any(|&byte| byte != 0));
        met.met(Met::EnteredFree, free);
        met.met(Met::EnteredOverLong, free && (old[0] > 128 || old[TAG] > 64));
        met.met(Met::EnteredOverCopy, !empty && !free);
        met.met(Met::EnteredLast, number == PLACES - 1);
        met.met(Met::EnteredAs32nd, self.after.is_full());
        met.met(Met::EnteredLater, empty && (0..number).any(|earlier| self.before.places[earlier].is_none()));
    }

    /// A BYE whose pair was held.
    fn closed(&self, met: &mut Counts) {
        let copies = self.before.copies(&self.pair);
        met.met(Met::RemovedOne, copies == 1);
        met.met(Met::RemovedCopies, copies > 1);
        met.met(Met::RemovedOf32, self.before.is_full());
        met.met(Met::RemovedLast, self.before.places[PLACES - 1].as_ref() == Some(&self.pair));
    }

    fn refused(&self, met: &mut Counts) {
        let [reason, _, need, ..] = self.answer.numbers;
        let new = self.asking.withheld && !self.is_held();
        met.met(Met::Meets32, reason == 18);
        met.met(Met::Meets32NoRoom, reason == 18 && self.lent.room < 100);
        met.met(Met::BeforeMeets32, (6..=15).contains(&reason) && self.meets_32());
        met.met(Met::RefusedBye, (6..=15).contains(&reason) && self.is(b"BYE") && self.is_held());
        met.met(Met::RefusedOpening, (6..=15).contains(&reason) && new);
        met.met(Met::NoRoomBye, reason == 16 && self.is(b"BYE") && self.is_held());
        met.met(Met::NoRoomOpening, reason == 16 && new);
        let longer = || need > self.lent.room as u64 && (1..=self.lent.room).contains(&self.shown_length());
        met.met(Met::NoRoomMasked, reason == 16 && self.is_held() && !self.asking.withheld && longer());
    }

    /// Responses, and requests to side 0, with a pair that is held.
    fn elsewhere(&self, met: &mut Counts) {
        let trusted = self.is_accepted() && self.is_request() && self.lent.side == 0;
        met.met(Met::TrustedHeld, trusted && self.is_held());
        met.met(Met::TrustedBye, trusted && self.is_held() && self.is(b"BYE"));
        met.met(Met::TrustedOpening, trusted && self.asking.withheld && !self.is_held());
        let response = self.is_accepted() && !self.is_request() && self.lent.side == 1 && self.is_held();
        met.met(Met::ResponseHeld, response);
        met.met(Met::ResponseToBye, response && self.asking.to_bye);
    }
}

fn place(table: &Table, number: usize) -> &[u8] {
    &table[PLACE * number..PLACE * (number + 1)]
}
