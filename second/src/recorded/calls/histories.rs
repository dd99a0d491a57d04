//! Histories that start with none held: whole calls, pairs that are nearly those held, refused requests in between, every spelling of Call-ID and
//! From, what never enters a pair, 32 calls and more, and explicit ends.

use super::{end, first, of_call, then, then_in, then_trusted, withheld, ACK, BYE, INITIAL, LATER};
use crate::drafts::{Draft, REQUESTS, RESPONSES};
use crate::recorded::sizes::filled;
use crate::recorded::{length_out, Step, MOST, ROOM};
use crate::{none_held, screen};

const CALL_ID: &str = "9x@a";
const TAG: &str = "a1";

pub fn steps() -> Vec<Step> {
    [whole_calls(), near_pairs(), refused(), tight_rooms(), spelled(), never_entered(), entered_once(), full(), longest(), ended(), ill_formed_ends()].concat()
}

fn open() -> Step {
    first(&withheld(CALL_ID, TAG))
}

fn bye() -> Draft {
    of_call(BYE, CALL_ID, TAG)
}

/// Withheld callers of every kind of INVITE, all with the same pair.
fn openings() -> [Draft; 6] {
    let pair = |draft: Draft| draft.with(5, CALL_ID.as_bytes()).with(3, b"\"A\" <sip:+331876543@a>;x;Tag=a1");
    [
        withheld(CALL_ID, TAG), pair(Draft::full(INITIAL)).with(16, b"User"), pair(Draft::full(LATER)).with(16, b"none;HEADER"), pair(Draft::least(LATER)).with(16, b"header"),
        withheld(CALL_ID, TAG).with(15, b"<sip:+331876543@a>, tel:+332222222"), withheld(CALL_ID, TAG).and("p-asserted-identity", b"tel:+332222222"),
    ]
}

/// After each opening every request but BYE to both sides and every response, with the least and with all fields; then BYE to side 0, to side
/// 1, and once more, and an ACK that nothing hides any longer.
fn whole_calls() -> Vec<Step> {
    let mut all = Vec::new();
    for opening in openings() {
        all.push(first(&opening));
        for column in REQUESTS.chain(RESPONSES).filter(|&column| column != BYE) {
            for draft in [Draft::least(column), Draft::full(column), Draft::full(column).with(16, b"id")] {
                all.extend([then(&draft), then_trusted(&draft)]);
            }
        }
        all.extend([then_trusted(&bye()), then(&bye()), then(&bye()), then(&of_call(ACK, CALL_ID, TAG))]);
    }
    all
}

/// Pairs that are nearly the one held: another case, a byte more or less at each border, a border moved, the texts changed over.
fn near_pairs() -> Vec<Step> {
    let pairs = [
        (CALL_ID, "A1"), ("9X@a", TAG), ("9x@A", TAG), ("9x@", TAG), ("x@a", TAG), ("9x@aa", TAG), ("9x@a.", TAG), ("9x@aa", "1"), ("9x@", "aa1"), (CALL_ID, "a"), (CALL_ID, "1"), (CALL_ID, "a11"),
        (CALL_ID, "a1."), (CALL_ID, "b1"), (CALL_ID, "b2"), (TAG, "9x"), ("a", "a1"),
    ];
    let mut all = Vec::new();
    for (call_id, tag) in pairs {
        let near = |column: usize| then(&of_call(column, call_id, tag));
        all.extend([open(), near(ACK), near(BYE), end(call_id, tag), then(&withheld(call_id, tag)), near(ACK), near(BYE), then(&bye())]);
    }
    all
}

/// The message with a fault for each reason from 2 to 14.
fn faults(plain: &Draft) -> Vec<Vec<u8>> {
    let whole = plain.bytes();
    let mut other = plain.clone();
    other.set_method(b"INFO");
    let mut all = vec![vec![b'x'; MOST], [b" ", &whole[..]].concat(), whole[..whole.len() - 2].to_vec(), filled(plain, "X", b"", 97).bytes()];
    let drafts = [
        other, plain.to(b"http://h"), plain.to(b"*"), plain.and("i", CALL_ID.as_bytes()), plain.and("f", b"<sip:h>;tag=a1"), plain.with(5, b"9x @a"),
        plain.with(3, b"<sip:h;tag=a1>"), plain.with(8, b"1"), plain.without(5), plain.without(3), plain.without(1), plain.with(2, b"0"), plain.with(14, b"timer, x"),
    ];
    all.extend(drafts.iter().map(Draft::bytes));
    all
}

/// A BYE refused with each reason leaves the pair, and a refused INVITE enters none.
fn refused() -> Vec<Step> {
    let (new, known) = (withheld("new@a", TAG), withheld(CALL_ID, TAG));
    let mut all = vec![open(), Step::next(2, bye().bytes()), Step::next(255, new.bytes())];
    all.extend(faults(&bye()).into_iter().map(|message| Step::next(1, message)));
    all.extend([then_in(0, &bye()), then(&of_call(ACK, CALL_ID, TAG)), then(&bye()), then(&bye())]);
    all.push(open());
    for invite in [&new, &known] {
        all.extend(faults(invite).into_iter().map(|message| Step::next(1, message)));
        all.extend([then(&invite.to(b"sip:+331234@g")), then_in(0, invite), then_in(100, invite)]);
    }
    all.extend([then(&of_call(ACK, "new@a", TAG)), end("new@a", TAG), then(&bye())]);
    all
}

/// The bytes that go out to side 1 while the pair is held.
fn length_when_held(draft: &Draft) -> u16 {
    let (mut table, mut buffer) = (none_held(), [0; ROOM as usize]);
    screen(&withheld(CALL_ID, TAG).bytes(), 1, &mut table, &mut buffer);
    screen(&draft.bytes(), 1, &mut table, &mut buffer).numbers()[4] as u16
}

/// The room of the masked message and of the other, exact and one byte short, for each request with a pair that is held.
fn tight_rooms() -> Vec<Step> {
    let mut all = Vec::new();
    for from in ["sip:h;tag=a1", "\"A caller with a name that is longer than the one that hides it\" <sip:h>;tag=a1"] {
        for column in REQUESTS {
            let draft = Draft::full(column).with(3, from.as_bytes());
            for room in [length_when_held(&draft), length_out(&draft.bytes(), 1)] {
                all.extend([open(), then_in(room - 1, &draft), then_in(room, &draft), then_in(room, &draft)]);
            }
        }
    }
    all
}

/// Spellings of the Call-ID and of From that have this pair: blanks, folds, and the tag at odd places.
const CALL_IDS: [&str; 6] = ["9x@a", "\t 9x@a \t", "\r\n 9x@a", "9x@a\r\n\t", "\r\n \r\n\t9x@a\r\n \r\n ", "9x@a "];
const FROMS: [&str; 16] = [
    "sip:h;tag=a1", "tel:112;TAG=a1", "<sip:h>;tag=a1;x=y", "<sip:h>;x;y=\"tag=no\";Tag=a1", "<sip:h>\t;\ttag\t=\ta1\t", "\r\n <sip:h>\r\n ;\r\n tag\r\n =\r\n a1\r\n ", "<sip:h;tag=in>;tag=a1",
    "sip:a;tag=in@h;tag=a1", "\"tag=no;tag=no\" <sip:h>;tag=a1", "\"\\\"\\\\;tag=no <sip:x>\"<sip:h>;tag=a1", "tag <sip:tag;tag=tag>;taG=a1;tags=b", "<sip:h>;xtag=b;tag=a1;tagx=c",
    "A\r\n B <tel:+1;tag=in>;tag=a1", "\"A\r\n\t\r\n B\"\r\n <sip:h>;tag=a1", "<sip:h>;tag-=b;tag=a1;-tag=c", " \t sip:%41@h:65535 ; tAG = a1 ; q \t ",
];

/// The pair is the same in every spelling: opened with one and ended with another.
fn spelled() -> Vec<Step> {
    let with = |draft: Draft, call_id: &str, from: &str| draft.with(5, call_id.as_bytes()).with(3, from.as_bytes());
    let mut all = Vec::new();
    for (place, from) in FROMS.iter().enumerate() {
        let call_id = CALL_IDS[place % CALL_IDS.len()];
        let (opening, closing) = (with(withheld(CALL_ID, TAG), call_id, from), with(bye(), call_id, from));
        all.extend([first(&opening), then(&bye()), open(), then(&opening), then(&closing), then(&bye())]);
    }
    for [call_id, from] in [["i", "f"], ["I", "F"], ["CALL-ID", "from "], ["call-id\t ", "fRoM"]] {
        let [opening, closing] = [withheld(CALL_ID, TAG), bye()].map(|draft| named(&draft, call_id, from));
        all.extend([first(&opening), then(&bye()), open(), then(&closing), then(&bye())]);
    }
    all
}

/// The same with other names of Call-ID and From.
fn named(draft: &Draft, call_id: &str, from: &str) -> Draft {
    let mut draft = draft.clone();
    for field in draft.fields.iter_mut() {
        match field.number() {
            3 => field.name = from.into(),
            5 => field.name = call_id.into(),
            _ => {}
        }
    }
    draft
}

/// What enters no pair: an INVITE that is not withheld, one to side 0, another request or a response with Privacy.
fn never_entered() -> Vec<Step> {
    let mut steps: Vec<Step> = vec![then_trusted(&withheld(CALL_ID, TAG)), then(&of_call(INITIAL, CALL_ID, TAG)), then(&withheld(CALL_ID, TAG).with(16, b"identity;none"))];
    steps.extend((ACK..RESPONSES.end).map(|column| then(&of_call(column, CALL_ID, TAG).with(16, b"id"))));
    let none_held = Step::Table(Vec::new());
    steps.into_iter().flat_map(|step| [none_held.clone(), step, then(&of_call(ACK, CALL_ID, TAG)), end(CALL_ID, TAG), then(&bye())]).collect()
}

/// One BYE or one end is enough, however often the INVITE came.
fn entered_once() -> Vec<Step> {
    let again = then(&withheld(CALL_ID, TAG));
    let later = then(&of_call(LATER, CALL_ID, TAG).with(16, b"user"));
    let thrice = [open(), again.clone(), later, again];
    let by_bye = [then(&bye()), then(&of_call(ACK, CALL_ID, TAG)), end(CALL_ID, TAG)];
    let by_end = [end(CALL_ID, TAG), then(&bye()), end(CALL_ID, TAG)];
    [&thrice[..], &by_bye, &thrice, &by_end].concat()
}

fn numbered(number: usize) -> (String, String) {
    (format!("{number}@full"), format!("t{}", number % 5))
}

/// So many calls from none held.
fn many_calls(many: usize) -> Vec<Step> {
    let calls = (0..many).map(|number| {
        let (call_id, tag) = numbered(number);
        withheld(&call_id, &tag)
    });
    calls.enumerate().map(|(place, call)| if place == 0 { first(&call) } else { then(&call) }).collect()
}

/// What meets 32 calls: new pairs are refused with 18 whatever the room, after 15 and all before it; those held and those not withheld are not.
fn meeting_32() -> Vec<Step> {
    let (new, held) = (withheld("new@a", TAG), withheld("7@full", "t2"));
    let rooms = [0, 1, 300].map(|room| [then_in(room, &new), then_in(room, &held)]);
    let mut all = vec![then(&new), then_trusted(&new), then(&new.with(16, b"none")), then(&new.with(4, b"<sip:h>;tag=b2"))];
    all.extend([then(&held), then(&held.with(16, b"none")), then(&of_call(BYE, "new@a", TAG))]);
    all.extend(rooms.concat());
    all.extend(faults(&new).into_iter().map(|message| Step::next(1, message)));
    all.extend([then(&new.to(b"sip:+331234@g")), Step::next(3, new.bytes()), then(&withheld("7@full", "t3")), then(&withheld("7@FULL", "t2")), end("new@a", TAG)]);
    all
}

/// 31, 32 and 33 calls; a place becomes free by a BYE and by an end, and is taken again; then all of them end.
fn full() -> Vec<Step> {
    let new = withheld("new@a", TAG);
    let mut all = many_calls(33);
    all.extend(meeting_32());
    let again = |number: usize| {
        let (call_id, tag) = numbered(number);
        then(&withheld(&call_id, &tag))
    };
    all.extend([then(&of_call(BYE, "7@full", "t2")), then(&new), again(7), end("0@full", "t0"), end("31@full", "t1")]);
    all.extend([again(7), then(&new), again(31), again(0)]);
    for (place, (call_id, tag)) in (0..32).map(numbered).enumerate() {
        let bye = then(&of_call(BYE, &call_id, &tag));
        all.push(if place % 3 == 0 { end(&call_id, &tag) } else { bye });
    }
    all.extend([end("new@a", TAG), then(&new)]);
    all.extend(many_calls(31));
    all.extend([then(&new), then(&withheld("newer@a", TAG))]);
    all
}

/// The shortest and the longest texts, and those one byte longer, which no message has and no end names.
fn longest() -> Vec<Step> {
    let (call_id, tag) = ("c".repeat(128), "t".repeat(64));
    let mut all = Vec::new();
    let every_mark = ("!\"#$%&'()*+,-./:;<=>?@[\\]^_`{|}~", "-.!%*_+`'~");
    for (call_id, tag) in [("c", "t"), (&call_id, "t"), ("c", &tag), (&call_id, &tag), (&call_id[..127], &tag[..63]), every_mark] {
        let [invite, ack, bye] = [withheld(call_id, tag), of_call(ACK, call_id, tag), of_call(BYE, call_id, tag)];
        all.extend([first(&invite), then(&ack), end(call_id, tag), then(&invite), then(&bye), end(call_id, tag)]);
    }
    let (longer_call_id, longer_tag) = ("c".repeat(129), "t".repeat(65));
    all.extend([first(&withheld(&call_id, &tag)), end(&longer_call_id, &tag), end(&call_id, &longer_tag), end(&call_id[1..], &tag), end(&call_id, &tag[1..])]);
    all.extend([then(&withheld(&longer_call_id, &tag)), then(&withheld(&call_id, &longer_tag)), then(&of_call(BYE, &longer_call_id, &tag)), then(&of_call(BYE, &call_id, &tag))]);
    all.extend((0..33).map(|number| then(&withheld(&format!("{number:0>128}"), &format!("{number:x>64}")))));
    all.extend((0..33).rev().map(|number| then(&of_call(BYE, &format!("{number:0>128}"), &format!("{number:x>64}")))));
    all
}

/// Ends of the first, the middle and the last of three calls; unknown pairs; an end comes once.
fn ended() -> Vec<Step> {
    let mut all = Vec::new();
    for place in 0..3 {
        all.extend(many_calls(3));
        let (call_id, tag) = numbered(place);
        all.extend([end(&call_id, "t9"), end("9@full", &tag), end(&call_id, &tag), end(&call_id, &tag), then(&of_call(BYE, &call_id, &tag))]);
        all.extend([then(&withheld("new@a", TAG)), then(&withheld(&call_id, &tag))]);
    }
    all
}

/// Texts that are no pair, with none held and with one.
fn ill_formed_ends() -> Vec<Step> {
    let mut all = Vec::new();
    for opening in [Step::Table(Vec::new()), open()] {
        all.push(opening);
        let with_tag = ["", "9x @a", " 9x@a", "9x@a\r\n", "9x@a\0"].map(|call_id| end(call_id, TAG));
        let with_call_id = ["", "a 1", "a1 ", "\"a1\"", "a1\0"].map(|tag| end(CALL_ID, tag));
        all.extend([&with_tag[..], &with_call_id, &[end("", ""), end("9x@aa1", "")]].concat());
        all.extend([Step::end(CALL_ID.as_bytes(), b"\xe9"), Step::end(b"9x@a\x7f", b"a1"), Step::end(&[0; 128], &[0; 64]), Step::end(&[b'x'; 3000], &[b'y'; 3000]), end(CALL_ID, TAG)]);
    }
    all
}
