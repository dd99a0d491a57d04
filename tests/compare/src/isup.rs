//! The box for the old exchange (CR 7): its library and the second implementation, side by side.

use crate::counts::{Call, Counts, Kind, Met};
use crate::differences::{escaped, same, same_bytes};
use crate::guarded::{Against, Guarded};
use crate::isup_library::{self, NUMBER, PARAMETER};
use crate::messages::{self, parameters};
use crate::privacy::Asked;
use crate::watch::NOW;
use second::drafts::{Dice, Draft};
use second::isup;
use second::recorded::isup::Case;

const MOST_MESSAGE: usize = 70_000;
const MOST_BYTES: usize = 9_000;
const MOST_CODE: usize = 300;
/// A trunk number that is good, to ask for the calling number of any message.
const TRUNK: &[u8] = b"+33999999999";
const FRONTS: [u8; 4] = [0x03, 0x04, 0x83, 0x84];

/// The memory lent to the library.
pub struct Isup {
    message: Guarded,
    code: Guarded,
    bytes: Guarded,
    parameter: Guarded,
    number: Guarded,
}

/// One call forward: what goes in beside the message, and what stands where the parameter goes.
#[derive(Clone, Debug)]
pub struct Lent {
    code: Vec<u8>,
    home: u64,
    filling: Vec<u8>,
    against: Against,
}

impl Lent {
    /// With the code that this number may start with.
    fn drawn(dice: &mut Dice, number: &[u8], against: Against) -> Lent {
        let code = parameters::code(dice, number);
        Lent { code, home: parameters::home(dice), filling: drawn_bytes(dice, PARAMETER), against }
    }

    /// Not drawn: the flag is 1, or against the start of the pages its highest bit alone.
    fn plain(code: &[u8], home: bool, against: Against) -> Lent {
        let flag = if against == Against::End { 1 } else { 1 << 63 };
        Lent { code: code.to_vec(), home: if home { flag } else { 0 }, filling: vec![0xA5; PARAMETER], against }
    }
}

impl Isup {
    pub fn new() -> Isup {
        let [message, code, bytes, parameter, number] = [MOST_MESSAGE, MOST_CODE, MOST_BYTES, PARAMETER, NUMBER].map(Guarded::new);
        Isup { message, code, bytes, parameter, number }
    }

    /// All that is not drawn.
    pub fn fixed(&mut self, met: &mut Counts) {
        NOW.set("the calls of the box with null pointers", b"");
        isup_library::with_null_pointers();
        self.recorded(met);
        for case in second::recorded::cases() {
            let code: &[u8] = if case.side == 0 { b"33" } else { b"331" };
            self.parameter(met, &case.message, &Lent::plain(code, case.room % 2 == 0, Against::End));
        }
        // Every front, with an address of an even number of digits and one that could be odd too.
        for front in 0..=u16::MAX {
            for address in [[0x33, 0x81, 0x67, 0x45, 0x23], [0x33, 0x81, 0x67, 0x45, 0x03]] {
                self.caller(met, &[&front.to_be_bytes()[..], &address].concat(), b"33", &[0x5A; NUMBER], Against::End);
            }
        }
        self.every_byte(met);
    }

    /// The recorded cases, each against the end and the start of the pages.
    fn recorded(&mut self, met: &mut Counts) {
        for case in second::recorded::isup::cases() {
            for against in [Against::End, Against::Start] {
                met.call(Call::IsupRecorded);
                match &case {
                    Case::Forward { home, code, message } => self.parameter(met, message, &Lent::plain(code, *home, against)).0[0],
                    Case::Backward { code, bytes } => self.caller(met, bytes, code, &[0xA5; NUMBER], against).0[0],
                    // Causes are compared with those of the first library.
                    Case::Cause(_) => 0,
                };
            }
        }
    }

    /// Every byte at every place of the address, for every number of bytes.
    fn every_byte(&mut self, met: &mut Counts) {
        for (first, length) in FRONTS.into_iter().flat_map(|first| (1..=9).map(move |length| (first, length))) {
            for (place, byte) in (0..length).flat_map(|place| (0..=255).map(move |byte| (place, byte))) {
                let mut bytes = [vec![first, 0x17], vec![0x11; length]].concat();
                bytes[1 + length] = if first >= 128 { 0x01 } else { 0x11 };
                bytes[2 + place] = byte;
                self.caller(met, &bytes, b"590", &[0; NUMBER], Against::End);
            }
        }
    }

    /// One drawn message forward, and drawn bytes backward; now and then an initial INVITE more.
    pub fn one(&mut self, met: &mut Counts, dice: &mut Dice, message: &[u8], against: Against) {
        self.forward(met, dice, message, against);
        self.backward(met, dice, against);
        if dice.one_in(4) {
            self.initial(met, dice, against);
        }
    }

    /// An initial INVITE; now and then the same with harmless fields and other names, and with a tag in its To.
    fn initial(&mut self, met: &mut Counts, dice: &mut Dice, against: Against) {
        let draft = parameters::initial(dice);
        let message = draft.bytes();
        self.forward(met, dice, &message, against);
        if dice.one_in(4) {
            if let Some(changed) = messages::harmless(dice, &draft, &message) {
                self.changed(met, dice, &message, &changed, against);
            }
        } else if dice.one_in(4) {
            let later = parameters::later(dice, &draft).bytes();
            self.forward(met, dice, &later, against);
        }
    }

    /// A message with a drawn code and flag; what it gives is taken back.
    fn forward(&mut self, met: &mut Counts, dice: &mut Dice, message: &[u8], against: Against) {
        let number = second::calling_slice(message, TRUNK);
        let lent = Lent::drawn(dice, number, against);
        let (numbers, bytes) = self.parameter(met, message, &lent);
        met.reason_alone(Kind::Parameter, numbers[0]);
        count_refused(met, message, &lent, numbers[0]);
        if numbers[0] != 0 {
            return;
        }
        let withheld = Asked::of(message).is_some_and(|asked| asked.asks());
        count_made(met, number, &lent, &bytes);
        let folded = |field: u64| second::reading_slice(message, field, 1).contains(&b'\n');
        met.met(Met::MadeFoldedIdentity, folded(15));
        met.met(Met::MadeFoldedTo, folded(4));
        met.met(Met::MadeOfTwo, second::count(message, 15) == 2);
        let filling = drawn_bytes(dice, NUMBER);
        let back = self.caller(met, &bytes, &lent.code, &filling, against);
        let wanted = ([0, u64::from(withheld), number.len() as u64], number.to_vec());
        same("isup_caller, there and back (refusal, id, length; number)", &back, &wanted, message, &format!("{lent:?}"));
    }

    /// Drawn bytes; what is taken is what is made of its number with one of the two flags.
    fn backward(&mut self, met: &mut Counts, dice: &mut Dice, against: Against) {
        let code = parameters::code(dice, b"");
        let bytes = parameters::bytes(dice, &code);
        let filling = drawn_bytes(dice, NUMBER);
        let ([refusal, id, _], number) = self.caller(met, &bytes, &code, &filling, against);
        met.reason_alone(Kind::Bytes, refusal);
        count_taken(met, &bytes, &code, refusal, id);
        if refusal != 0 {
            return;
        }
        let identity = [b"<sip:", &number[..], b"@h>"].concat();
        let draft = Draft::least(0).with(15, &identity).with(16, if id == 1 { b"id" } else { b"none" });
        let both = [true, false].map(|home| self.parameter(met, &draft.bytes(), &Lent::plain(&code, home, against)).1);
        let said = format!("code {}, at home and abroad {both:x?}", escaped(&code));
        same("isup_parameter, back and there, by one of the flags", &both.contains(&bytes), &true, &bytes, &said);
    }

    /// Harmless fields and other names (demand 3): the same numbers and the same parameter.
    pub fn changed(&mut self, met: &mut Counts, dice: &mut Dice, message: &[u8], changed: &[u8], against: Against) {
        let lent = Lent::drawn(dice, second::calling_slice(message, TRUNK), against);
        let before = self.parameter(met, message, &lent);
        let after = self.parameter(met, changed, &lent);
        met.call(Call::IsupChanged);
        met.met(Met::MadeOfChanged, before.0[0] == 0);
        let from = format!("{lent:?}, changed from:\n{}", escaped(message));
        same("isup_parameter, names and extra fields changed", &after, &before, changed, &from);
    }

    /// The library's numbers and bytes, held with the whole array to those of the second implementation.
    fn parameter(&mut self, met: &mut Counts, message: &[u8], lent: &Lent) -> ([u64; 5], Vec<u8>) {
        met.call(Call::IsupParameter);
        let guarded = self.message.copy(message, lent.against);
        let code = self.code.copy(&lent.code, lent.against);
        let out = self.parameter.copy(&lent.filling, lent.against);
        NOW.set("isup_parameter", guarded);
        let numbers = isup_library::parameter(guarded, code, lent.home, out);
        let mut after = lent.filling.clone();
        let wanted = match isup::parameter(message, &lent.code, lent.home != 0) {
            Err(refusal) => [refusal.reason, refusal.reply, refusal.detail, refusal.missing, 0],
            Ok(bytes) => {
                after[..bytes.len()].copy_from_slice(&bytes);
                [0, 0, 0, 0, bytes.len() as u64]
            }
        };
        let said = format!("{lent:?}");
        same("isup_parameter (reason, reply, detail, missing, length)", &numbers, &wanted, message, &said);
        same_bytes("isup_parameter, the array", out, &after, message, &said);
        same_bytes("isup_parameter, the message lent to it", guarded, message, message, &said);
        same_bytes("isup_parameter, the code lent to it", code, &lent.code, message, &said);
        (numbers, after[..numbers[4] as usize].to_vec())
    }

    /// The same backward: refusal, id and length, and the number.
    fn caller(&mut self, met: &mut Counts, bytes: &[u8], code: &[u8], filling: &[u8], against: Against) -> ([u64; 3], Vec<u8>) {
        met.call(Call::IsupCaller);
        let guarded = self.bytes.copy(bytes, against);
        let lent = self.code.copy(code, against);
        let out = self.number.copy(filling, against);
        NOW.set("isup_caller", guarded);
        let numbers = isup_library::caller(guarded, lent, out);
        let mut after = filling.to_vec();
        let wanted = match isup::caller(bytes, code) {
            Err(refusal) => [refusal, 0, 0],
            Ok(caller) => {
                after[..caller.number.len()].copy_from_slice(&caller.number);
                [0, u64::from(caller.id), caller.number.len() as u64]
            }
        };
        let said = format!("code {}, before {}, {against:?}, {bytes:x?}", escaped(code), escaped(filling));
        same("isup_caller (refusal, id, length)", &numbers, &wanted, bytes, &said);
        same_bytes("isup_caller, the array", out, &after, bytes, &said);
        same_bytes("isup_caller, the bytes lent to it", guarded, bytes, bytes, &said);
        same_bytes("isup_caller, the code lent to it", lent, code, bytes, &said);
        (numbers, after[..numbers[2] as usize].to_vec())
    }
}

fn drawn_bytes(dice: &mut Dice, length: usize) -> Vec<u8> {
    (0..length).map(|_| dice.number() as u8).collect()
}

fn is_good_code(code: &[u8]) -> bool {
    matches!(code, [b'1'..=b'9', more @ ..] if more.len() < 3 && more.iter().all(u8::is_ascii_digit))
}

/// Counts two faults at once.
fn count_refused(met: &mut Counts, message: &[u8], lent: &Lent, reason: u64) {
    let bad_code = !is_good_code(&lent.code);
    met.met(Met::ScreenBefore41, bad_code && (2..=17).contains(&reason));
    met.met(Met::NoInviteBefore41, bad_code && reason == 42);
    met.met(Met::LaterInvite, reason == 42 && message.starts_with(b"INVITE "));
    met.met(Met::ResponseTo42, reason == 42 && message.starts_with(b"SIP/2.0 "));
}

/// Counts what kind of parameter it is.
fn count_made(met: &mut Counts, number: &[u8], lent: &Lent, bytes: &[u8]) {
    let [national, odd, restricted] = [bytes[0] % 128 == 3, bytes[0] >= 128, bytes[1] & 12 == 4];
    let home = lent.home != 0;
    let ours = number[1..].starts_with(&lent.code);
    met.met(Met::MadeNationalOdd, national && odd);
    met.met(Met::MadeNationalEven, national && !odd);
    met.met(Met::MadeInternationalOdd, !national && odd);
    met.met(Met::MadeInternationalEven, !national && !odd);
    met.met(Met::MadeAllowed, !restricted);
    met.met(Met::MadeRestricted, restricted);
    met.met(Met::MadeAbroad, ours && !home);
    met.met(Met::MadeOfAnother, !ours && home);
    met.met(Met::MadeOfNearlyOurs, !ours && home && lent.code.len() > 1 && number[1] == lent.code[0]);
    met.met(Met::MadeByAnyFlag, national && lent.home > 1);
    met.met(Met::MadeByHighFlag, national && lent.home as u32 == 0);
    met.met(Met::MadeWithZero, national && bytes[2] % 16 == 0);
    met.met(Met::MadeShortest, bytes.len() == 4);
    met.met(Met::MadeLongest, bytes.len() == PARAMETER);
}

/// Counts what kind of bytes they are.
fn count_taken(met: &mut Counts, bytes: &[u8], code: &[u8], refusal: u64, id: u64) {
    let international = bytes.len() > 2 && bytes[0] % 128 == 4;
    let digits = 2 * bytes.len().saturating_sub(2);
    met.met(Met::TakenNational, refusal == 0 && !international);
    met.met(Met::TakenInternational, refusal == 0 && international);
    met.met(Met::TakenWithId, refusal == 0 && id == 1);
    met.met(Met::TakenWithoutId, refusal == 0 && id == 0);
    met.met(Met::CutAtTwo, refusal == 43 && bytes.len() == 2);
    met.met(Met::Unused41, refusal == 41 && isup::caller(bytes, b"1").is_ok() && international);
    met.met(Met::LeadingZero, refusal == 47 && international && digits >= 8 && bytes[2] % 16 == 0);
    met.met(Met::CodeTooMuch, refusal == 47 && !international && digits < 16 && digits + code.len() > 15);
    met.met(Met::CodeTooLittle, refusal == 47 && !international && digits + code.len() < 7);
    met.met(Met::LongOver9, refusal == 46 && bytes.len() > 20);
    met.met(Met::LongNumber, refusal == 47 && bytes.len() > 20);
}
