//! The library and the second implementation, side by side; the box for the old exchange is compared in `isup`.

use crate::callers::Callers;
use crate::counts::{Call, Counts, Kind, Met};
use crate::differences::{escaped, same, within};
use crate::guarded::{Against, Guarded};
use crate::identities::Asserted;
use crate::isup::Isup;
use crate::outgoing::{identity_lines, is_masked};
use crate::privacy::Asked;
use crate::remembered::{ill_formed, pair_of, Remembered, Screened};
use crate::replay::Replay;
use crate::screening::{Answer, Lent, Screening, ROOM};
use crate::watch::NOW;
use crate::{causes, histories, library, messages};
use second::calls::{Pair, PLACES};
use second::drafts::{Dice, Draft};
use second::recorded::{Case, Step};
use second::start::Start;
use second::{none_held, Table};

const MOST_MESSAGE: usize = 70_000;
const MOST_TRUNK: usize = 64;
const FIELDS: [u64; 24] = [0, 1, 2, 3, 4, 5, 6, 7, 8, 9, 10, 11, 12, 13, 14, 15, 16, 17, 18, 19, 20, 255, 256 + 3, u64::MAX];
const TRUNK: &[u8] = b"+33999999999";
/// A history comes after so many messages on average.
const OF_A_HISTORY: usize = 64;
/// At and beside multiples of 16.
const LENGTHS: [usize; 13] = [1, 15, 16, 17, 31, 32, 33, 47, 48, 49, 63, 64, 65];

/// The memory lent to the library, and the counts.
pub struct Bench {
    message: Guarded,
    trunk: Guarded,
    screening: Screening,
    replay: Replay,
    isup: Isup,
    pub counts: Counts,
}

impl Bench {
    pub fn new() -> Bench {
        let [message, trunk] = [MOST_MESSAGE, MOST_TRUNK].map(Guarded::new);
        Bench { message, trunk, screening: Screening::new(), replay: Replay::new(), isup: Isup::new(), counts: Counts::new() }
    }

    /// All that is not drawn.
    pub fn fixed(&mut self) {
        same("screen", &library::with_null_pointers(), &second::screen(&[], 1, &mut none_held(), &mut []).numbers(), &[], "null pointers");
        causes::fixed(&mut self.counts);
        self.recorded();
        self.reviewed_callings();
        for plain in [Draft::least(0), Draft::least(6)] {
            self.odd_bytes(&plain);
        }
        self.odd_phrases();
        self.replay.fixed(&mut self.counts);
        self.isup.fixed(&mut self.counts);
    }

    /// The recorded cases, each against the end and the start of the pages.
    fn recorded(&mut self) {
        let steps = second::recorded::steps();
        for (against, step) in [Against::End, Against::Start].into_iter().flat_map(|against| steps.iter().map(move |step| (against, step))) {
            self.counts.call(Call::Recorded);
            match step {
                Step::Fresh(case) => {
                    self.screening.start(&none_held(), against);
                    self.recorded_case(case, against);
                    self.read_recorded(&case.message, against);
                }
                Step::Next(case) => self.recorded_case(case, against),
                Step::Table(bytes) => {
                    let mut table = none_held();
                    table[..bytes.len()].copy_from_slice(bytes);
                    self.screening.start(&table, against);
                }
                Step::End { call_id, tag } => {
                    self.screening.end(&mut self.counts, &Pair::new(call_id, tag), against);
                }
            }
        }
    }

    fn recorded_case(&mut self, case: &Case, against: Against) {
        let lent = Lent { side: u64::from(case.side), room: usize::from(case.room), filling: 0xA5, against };
        self.screening.next(&mut self.counts, &case.message, lent);
    }

    fn read_recorded(&mut self, message: &[u8], against: Against) {
        self.calling_with(message, TRUNK, against);
        for (field, place) in [(6, 1), (15, 1), (15, 2)] {
            self.count(message, against, field);
            self.reading(message, against, field, place);
        }
    }

    /// The messages of second/reviewed/identities-calling.txt, each with its own trunk number. That the second implementation gives what their
    /// writer says is a test of its own (second/tests/calling.rs).
    fn reviewed_callings(&mut self) {
        for case in second::recorded::calling::cases() {
            for against in [Against::End, Against::Start] {
                self.counts.call(Call::ReviewedCalling);
                self.calling_with(&case.message, &case.trunk, against);
            }
        }
    }

    /// Values at and beside multiples of 16 bytes, each odd byte at each place, in the last field: through all functions.
    fn odd_bytes(&mut self, plain: &Draft) {
        for carrier in &messages::CARRIERS {
            for (length, place, odd) in odd_places() {
                let message = messages::carrying(plain, carrier, length, place, odd, place % messages::BLANKS.len()).bytes();
                self.odd(&message, place, carrier.0);
            }
        }
    }

    /// The same in the phrase of a response.
    fn odd_phrases(&mut self) {
        let plain = Draft::least(6);
        for (length, place, odd) in odd_places() {
            self.odd(&messages::phrased(&plain, length, place, odd).bytes(), place, 1);
        }
    }

    fn odd(&mut self, message: &[u8], place: usize, field: u64) {
        self.counts.call(Call::OddByte);
        let lent = Lent { side: place as u64 % 2, room: ROOM, filling: 0x5A, against: Against::End };
        self.screening.alone(&mut self.counts, message, lent, &none_held());
        self.reading(message, Against::End, field, 1);
        self.calling_with(message, TRUNK, Against::End);
    }

    /// One drawn message through all functions.
    pub fn one(&mut self, dice: &mut Dice) {
        let draft = messages::draft(dice);
        let (kind, message) = self.drawn(dice, &draft);
        let table = messages::before(dice, &message);
        let lent = lent(dice, &message, &table);
        let answer = self.screening.alone(&mut self.counts, &message, lent, &table);
        self.counts.reason(kind, answer.numbers[0], &message);
        self.count_answer(&message, lent, &table, &answer);
        self.readings(dice, &message, lent.against);
        self.calling(dice, &message, lent.against);
        self.replay.one(&mut self.counts, dice, &message, lent, &table);
        self.isup.one(&mut self.counts, dice, &message, lent.against);
        causes::one(&mut self.counts, dice);
        if dice.one_in(12) {
            self.two_callers(dice);
        }
        if dice.one_in(OF_A_HISTORY) {
            let messages = histories::one(&mut self.counts, &mut self.screening, dice);
            if dice.one_in(2) {
                self.replay.history(&mut self.counts, dice, &messages, lent.against);
            }
        }
    }

    /// Counts what the answer to a drawn message shows, and holds it to CR 8 itself.
    fn count_answer(&mut self, message: &[u8], lent: Lent, table: &Table, answer: &Answer) {
        let mut by_the_table = false;
        if let Some(screened) = Screened::of(message, lent, table, answer) {
            screened.hold_to_the_page();
            screened.count(&mut self.counts);
            by_the_table = screened.is_hidden_by_the_table();
        }
        self.before(message, table);
        match answer.numbers {
            [0, ..] => self.accepted(message, lent, answer, by_the_table),
            [9, _, 16, ..] => self.counts.met(Met::DoubledPrivacy, true),
            [10, _, 16, ..] => self.counts.met(Met::MalformedPrivacy, Asked::of(message).is_some_and(|asked| asked.mentions())),
            _ => {}
        }
        self.asserted(message, lent, answer, by_the_table);
    }

    /// Counts what the table before a single message is.
    fn before(&mut self, message: &[u8], table: &Table) {
        let none = *table == none_held();
        self.counts.met(Met::BeforeNone, none);
        if none {
            return;
        }
        let held = Remembered::of(table);
        self.counts.met(Met::BeforeOwn, pair_of(message).is_some_and(|pair| held.holds(&pair)));
        self.counts.met(Met::BeforeFull, held.is_full());
        self.counts.met(Met::BeforeCopies, held.has_copies());
        self.counts.met(Met::BeforeIllFormed, ill_formed(table) > 0);
        self.counts.met(Met::BeforeAny, ill_formed(table) > PLACES / 2);
    }

    /// The bytes of the draft, damaged or not; some are first compared by demand 3.
    fn drawn(&mut self, dice: &mut Dice, draft: &Draft) -> (Kind, Vec<u8>) {
        let mut message = draft.bytes();
        if dice.one_in(3) {
            messages::damage(dice, &mut message);
        } else if dice.one_in(40) {
            messages::cut_in_a_name(dice, &mut message);
            self.counts.met(Met::EndsInName, true);
        } else if dice.one_in(50) {
            return (Kind::Noise, messages::noise(dice));
        } else if dice.one_in(2) {
            self.demand_3(dice, draft, &message);
        }
        if dice.one_in(3000) {
            message.resize(8193 + dice.below(60_000), b'x');
        }
        (Kind::of(draft), message)
    }

    /// Counts what an accepted message has that is seldom.
    fn accepted(&mut self, message: &[u8], lent: Lent, answer: &Answer, by_the_table: bool) {
        let start = second::lines::read(message).map(|lines| lines.start);
        let response = matches!(start, Ok(Start::Status { .. }));
        let phrase = if let Ok(Start::Status { phrase, .. }) = start { phrase.len() } else { 0 };
        self.counts.met(Met::LongPhrase, phrase > 2000);
        let Some(asked) = Asked::of(message) else { return };
        let invite = message.starts_with(b"INVITE ");
        if invite && lent.side == 1 && !by_the_table {
            self.untrusted(message, answer, &asked);
        }
        let folded = folded_length(message, 3) > 0;
        self.counts.met(Met::UnmaskedResponse, lent.side == 1 && response && folded && asked.asks());
        self.counts.met(Met::AskedElsewhere, lent.side == 1 && !response && !invite && asked.asks());
        self.counts.met(Met::AskedOnSide0, lent.side == 0 && invite && asked.asks());
    }

    /// Counts what an INVITE with Privacy that was accepted on side 1 has: what masked it, or why it was shown. The buffer says which.
    fn untrusted(&mut self, message: &[u8], answer: &Answer, asked: &Asked) {
        let masked = is_masked(answer.outgoing());
        let ways = asked.ways();
        self.counts.met(Met::MaskedFold, masked && folded_length(message, 3) > 0);
        self.counts.met(Met::MaskedByHeader, masked && ways == [true, false, false]);
        self.counts.met(Met::MaskedByUser, masked && ways == [false, true, false]);
        self.counts.met(Met::MaskedById, masked && ways == [false, false, true]);
        self.counts.met(Met::MaskedBySeveral, masked && ways.iter().filter(|&&way| way).count() > 1);
        self.counts.met(Met::MaskedBesideNone, masked && asked.holds(b"none"));
        self.counts.met(Met::MaskedByFolded, masked && asked.folded);
        self.counts.met(Met::MaskedByLong, masked && asked.length > 2000);
        self.counts.met(Met::ShownNone, !masked && asked.holds(b"none"));
        self.counts.met(Met::ShownLonger, !masked && asked.has_longer_or_shorter());
        self.counts.met(Met::ShownOther, !masked && asked.has_one_byte_other());
    }

    /// Counts what the identities of a message are.
    fn asserted(&mut self, message: &[u8], lent: Lent, answer: &Answer, by_the_table: bool) {
        let Some(asserted) = Asserted::of(message) else { return };
        let [reason, _, detail, ..] = answer.numbers;
        let invite = message.starts_with(b"INVITE ");
        if invite && reason == 0 && asserted.are_two() {
            let hidden = by_the_table || lent.side == 1 && Asked::of(message).is_some_and(|asked| asked.asks());
            self.two_identities(message, lent, answer, hidden);
            self.counts.met(Met::TwoInOneField, asserted.in_one_field());
            self.counts.met(Met::TwoInTwoFields, !asserted.in_one_field());
        }
        let (one_field, third, too_many) = (asserted.in_one_field(), asserted.are_more_than_two(), asserted.are_too_many());
        let for_them = reason == 10 && detail == 15;
        self.counts.met(Met::ThirdInOneField, for_them && too_many && third && one_field);
        self.counts.met(Met::ThirdOverFields, for_them && too_many && third && !one_field);
        self.counts.met(Met::SchemeInOneField, for_them && too_many && !third && one_field);
        self.counts.met(Met::SchemeOverFields, for_them && too_many && !third && !one_field);
        self.counts.met(Met::EmptyMember, for_them && asserted.has_empty_member());
        self.counts.met(Met::OtherBeforeIdentities, invite && reason == 10 && detail != 15 && too_many);
        self.counts.met(Met::AgainBeforeIdentities, invite && reason == 9 && too_many);
        self.counts.met(Met::IgnoredIdentities, reason == 0 && too_many);
    }

    /// Holds what goes out of two identities to the request itself (CR 6): "When withheld on side 1, all of them go", else all are there.
    fn two_identities(&mut self, message: &[u8], lent: Lent, answer: &Answer, hidden: bool) {
        let wanted = if hidden { 0 } else { second::count(message, 15) };
        same("screen, P-Asserted-Identity fields that go out", &identity_lines(answer.outgoing()), &wanted, message, format_args!("{lent:?}"));
        self.counts.met(Met::TwoHidden, hidden);
        self.counts.met(Met::TwoShown, lent.side == 1 && !hidden);
    }

    /// Harmless fields and other names: the same numbers, the same buffer and the same table.
    fn demand_3(&mut self, dice: &mut Dice, draft: &Draft, message: &[u8]) {
        let Some(changed) = messages::harmless(dice, draft, message) else { return };
        self.counts.call(if Kind::of(draft) == Kind::Request { Call::ChangedRequest } else { Call::ChangedResponse });
        let table = messages::before(dice, message);
        let lent = lent(dice, message, &table);
        let what = "screen, names and extra fields changed";
        let answer = self.screening.same_answer(&mut self.counts, what, [message, &changed], lent, &table);
        self.counts.met(Met::ChangedTable, answer.after != table);
        self.isup.changed(&mut self.counts, dice, message, &changed, lent.against);
    }

    /// Two withheld callers (CR 5): the same numbers, the same buffer and the same table. Where nobody hides them, the buffers mostly differ.
    fn two_callers(&mut self, dice: &mut Dice) {
        let pair = messages::two_callers(dice);
        let Some(callers) = Callers::of(&pair[0], &pair[1]) else { return };
        let [one, other] = [pair[0].bytes(), pair[1].bytes()];
        let table = messages::before(dice, &one);
        let lent = Lent::drawn(dice, 1, &one, &table);
        let what = "screen, another caller who is withheld";
        let Answer { numbers, after, .. } = self.screening.same_answer(&mut self.counts, what, [&one, &other], lent, &table);
        self.counts.call(Call::TwoCallers);
        self.counts.reason_alone(Kind::Callers, numbers[0]);
        callers.count(&mut self.counts, numbers, lent.room);
        self.counts.met(Met::CallersEntered, after != table);
        self.counts.met(Met::CallersHeld, numbers[0] == 0 && after == table);
        if numbers[0] == 0 {
            let lent = Lent { room: ROOM, ..lent };
            let differ = self.both_accepted_and_differ(&one, &other, Lent { side: 0, ..lent });
            self.counts.met(Met::CallersOnSide0, differ);
            let [one, other] = pair.map(|draft| messages::shown(draft).bytes());
            let differ = self.both_accepted_and_differ(&one, &other, lent);
            self.counts.met(Met::CallersShown, differ);
        }
    }

    fn both_accepted_and_differ(&mut self, message: &[u8], changed: &[u8], lent: Lent) -> bool {
        let [one, other] = [message, changed].map(|message| self.screening.alone(&mut self.counts, message, lent, &none_held()));
        one.numbers[0] == 0 && other.numbers[0] == 0 && one.out != other.out
    }

    fn readings(&mut self, dice: &mut Dice, message: &[u8], against: Against) {
        // All numbers for some messages; for the others a few.
        let fields: Vec<u64> = if dice.one_in(16) { FIELDS.to_vec() } else { vec![*dice.pick(&FIELDS), 1 + dice.below(18) as u64] };
        for field in fields {
            let count = self.count(message, against, field);
            let places = [0, 1, 2, count as u64, count as u64 + 1, u64::MAX, 1 << 32];
            let few = if dice.one_in(8) { &places[..] } else { &places[1..2] };
            for &place in few {
                self.reading(message, against, field, place);
            }
        }
    }

    fn count(&mut self, message: &[u8], against: Against, field: u64) -> usize {
        let guarded = self.message.copy(message, against);
        NOW.set("count", guarded);
        self.counts.call(Call::Count);
        let count = library::count(guarded, field);
        same("count", &count, &second::count(message, field), message, &format!("field {field}"));
        count
    }

    /// One reading, which is a part of the message.
    fn reading(&mut self, message: &[u8], against: Against, field: u64, place: u64) {
        let guarded = self.message.copy(message, against);
        NOW.set("reading", guarded);
        self.counts.call(Call::Reading);
        let part = library::reading(guarded, field, place);
        within("reading", part, message, message);
        same("reading (start, length)", &part, &second::reading(message, field, place), message, &format!("field {field}, place {place}"));
    }

    fn calling(&mut self, dice: &mut Dice, message: &[u8], against: Against) {
        let trunks: [&[u8]; 14] = [
            TRUNK, b"+1234567", b"+123456789012345", b"+123456", b"+1234567890123456", b"+0234567", b"", b"+", b"33999999999", b"+12345x7",
            b"+1234567 ", b"++1234567", b"+12345678901234567890123456789012345678901234567890", b"+33999999998",
        ];
        let trunk = if dice.one_in(3) { *dice.pick(&trunks) } else { trunks[0] };
        self.calling_with(message, trunk, against);
    }

    /// The calling number, which is a part of the message or of the trunk number.
    fn calling_with(&mut self, message: &[u8], trunk: &[u8], against: Against) {
        let guarded = self.message.copy(message, against);
        let lent = self.trunk.copy(trunk, against);
        NOW.set("calling_number", guarded);
        self.counts.call(Call::CallingNumber);
        let part = library::calling_number(guarded, lent);
        within("calling_number", (part.1, part.2), if part.0 == 1 { trunk } else { message }, message);
        let wanted = second::calling_number(message, trunk);
        let wanted = (u64::from(wanted.from_trunk), wanted.start, wanted.length);
        same("calling_number (from trunk, start, length)", &part, &wanted, message, &format!("trunk {}", escaped(trunk)));
        if part.0 == 0 && part.2 > 0 {
            self.called_by(message, part.1);
        }
        let identity = if part.0 == 0 && part.2 > 0 { folded_length(message, 15) } else { 0 };
        self.counts.met(Met::FoldedIdentity, identity > 0);
        self.counts.met(Met::FoldedOver256, identity > 256);
        self.counts.met(Met::FoldedOver2000, identity > 2000);
        self.counts.met(Met::TrunkOfResponse, part.0 == 1 && message.starts_with(b"SIP/2.0 ") && second::count(message, 15) > 0);
    }

    /// Counts which identity gave the calling number, and holds it to CR 6: it "comes from the sip one .. in either order".
    fn called_by(&mut self, message: &[u8], start: usize) {
        let Some(asserted) = Asserted::of(message) else { return };
        let scheme = if asserted.has_sip() { "sip:" } else { "tel:" };
        let before = String::from_utf8_lossy(&message[start - 4..start]).to_ascii_lowercase();
        same("calling_number, the scheme before it", &before.as_str(), &scheme, message, "");
        let behind = asserted.are_two() && asserted.starts_with_tel();
        self.counts.met(Met::SipBehindTel, behind && asserted.in_one_field());
        self.counts.met(Met::SipInSecondField, behind && !asserted.in_one_field());
        self.counts.met(Met::SipBehindTelFolded, behind && asserted.in_one_field() && folded_length(message, 15) > 256);
        self.counts.met(Met::TelAlone, !asserted.has_sip());
    }
}

/// Every length with every place in it and every odd byte there.
fn odd_places() -> impl Iterator<Item = (usize, usize, u8)> {
    LENGTHS.into_iter().flat_map(|length| (0..length).flat_map(move |place| messages::ODD_BYTES.map(|odd| (length, place, odd))))
}

/// A side, mostly 0 or 1, and a room.
fn lent(dice: &mut Dice, message: &[u8], table: &Table) -> Lent {
    let side = if dice.one_in(100) { *dice.pick(&[2, 3, 255, 256, 257, 1 << 32, (1 << 32) + 1, u64::MAX]) } else { dice.below(2) as u64 };
    Lent::drawn(dice, side, message, table)
}

/// The length of the first value of this number where a line break stands in it, else 0.
fn folded_length(message: &[u8], field: u64) -> usize {
    let (start, length) = second::reading(message, field, 1);
    if message[start..start + length].contains(&b'\n') { length } else { 0 }
}
