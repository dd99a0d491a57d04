//! The digits cannot show (CR 5): withheld INVITEs in pairs that are equal but for the values of From, with one tag, and of the identity.
//! Display names, URIs, other parameters, blanks and folds in every form, the shortest and the longest tag, sizes at their edges, and every
//! refusal that such two can have. Since CR 6 the identities may differ in number, order and scheme too, with their fields at equal places.

use super::sizes::filled;
use super::{length_out, Case, ROOM};
use crate::drafts::{Draft, Whole};

/// From with the tag q7.
const FROMS: [&str; 20] = [
    "<sip:+331876543@a>;tag=q7", "<sip:+331111111@a>;tag=q7", "sip:+331876543@a;tag=q7", "sip:h ; TAG = q7", "tel:112;x;tag=q7", "<TEL:+331876543;phone-context=x>;tag=q7;y=z",
    "\"Alice\" <sip:a@h>;tag=q7", "Alice B\t<sip:a@h>;tag=q7", "\"Doe, J\" <sip:a@h>;tag=q7", "\"\\\"\\\\;tag=no <sip:x>\"<sip:h>;tag=q7", "<sip:a@h:5060;tag=in;user=phone>;tag=q7",
    "sip:a;tag=in@h;tag=q7", "<sip:h>;x=\"tag=no;tag=no\";tAg=q7", "<sip:h>;xtag=1;tag=q7;tagx=2;ta", "<sip:h>\t;\ttag\t=\tq7\t;\ta\t=\t\"\"", "\r\n <sip:h>\r\n ;\r\n\ttag\r\n =\r\n q7\r\n ",
    "\"A\r\n\t\r\n B\"\r\n <sip:h>;tag=q7;z", " \t sip:%41&=+$,;?/-_.!~*'()@h:65535;Tag=q7 \t ", "-.!%*_+`'~ <SIP:1.2.3.4;;=%41[]/:&+$>;tag=q7;!", "tag <sip:tag;tag=tag>;taG=q7",
];

const IDENTITIES: [&str; 14] = [
    "<sip:+331876543@a>", "<sip:+331111111@a>", "sip:+331876543@a:5060", "tel:+331876543", "TEL:+123456789012345", "<tel:+1234567>", "\"Alice\" <sip:+331876543@a>", "Alice B\t<tel:+331876543>",
    "\"Doe, J <tel:+1>;tag=no\" <sip:+331876543@a;user=phone;tag=in>", "\"\\\"\\\\\"<sip:+331876543@a>", "\r\n <sip:+331876543@1.2.3.4>\r\n ", "\"A\r\n\t\r\n B\"\r\n <tel:+331876543>",
    " \tsIp:+999999999999999@- \t", "-.!%*_+`'~<sip:+331876543@h:00001;>",
];

/// Identities that CR 6 allows, in one field and in two.
const ONE_FIELD: [&str; 6] = [
    "<sip:+331876543@a>", "tel:+332222222 ,\t<sip:+331876543@a>", "\"Doe, J\" <sip:+331111111@a>,<tel:+331111111>", "TEL:+123456789012345", "sip:+1234567@h:5060\r\n ,\r\n tel:+1234567",
    "\"A,\r\n B\" <tel:+332222222>, A B <SIP:+331876543@a;user=phone>",
];
const TWO_FIELDS: [[&str; 2]; 5] = [
    ["<sip:+331876543@a>", "<tel:+331876543>"], ["tel:+332222222", "<sip:+331876543@a>"], ["\"Doe, J\" <SIP:+331111111@a;user=phone>", "\r\n TEL:+123456789012345\r\n "],
    ["A B\t<tel:+1234567>", "sip:+1234567@h:5060"], ["\"A,\r\n B\" <sip:+331876543@a>", "\"\\\"\"<tel:+332222222>"],
];

/// Identities that it does not allow: a pair must have the same in both.
const NOT_ALLOWED: [[&str; 2]; 4] = [["tel:+1234567", "tel:+1234568"], ["<sip:+331876543@a>", ""], ["<sip:+331876543@a>,", "tel:+1234567"], ["sip:+1234567@h,tel:+1234567", "sip:+1234567@h"]];

/// Another From with that tag.
const LONG: &str = "\"Alice, or \\\"A\\\"\"\r\n <sip:a@h;tag=in>;x=\"tag=no\"\r\n ;TAG = q7";

pub fn cases() -> Vec<Case> {
    let mut all: Vec<Case> = [accepted(), longest()].concat().into_iter().flat_map(tight).collect();
    all.extend(refused().into_iter().flatten().map(|message| Case::new(1, message)));
    // Where nobody is hidden, such two differ.
    let shown = accepted().into_iter().step_by(6).flatten();
    all.extend(shown.map(|message| Case::new(0, message)));
    all.extend(asserting().into_iter().flat_map(tight));
    all.extend(not_allowed().into_iter().flatten().chain(one_allowed()).map(|message| Case::new(1, message)));
    let shown = asserting().into_iter().step_by(3).flatten();
    all.extend(shown.map(|message| Case::new(0, message)));
    all
}

/// Two that are no pair (CR 6): the same tel identity is added to both, so that the first has a sip and a tel one, the other two tel ones.
fn one_allowed() -> [Vec<u8>; 2] {
    let [initial, ..] = invites();
    let callers = [(FROMS[0], IDENTITIES[0]), (LONG, IDENTITIES[11])];
    callers.map(|(from, identity)| {
        let draft = initial.with(3, from.as_bytes()).with(15, identity.as_bytes());
        draft.and("p-asserted-identity", b"tel:+1234567").bytes()
    })
}

/// All pairs: both messages of each have the same answer on side 1.
pub fn pairs() -> Vec<[Vec<u8>; 2]> {
    [accepted(), longest(), asserting(), refused(), not_allowed()].concat()
}

/// Both messages with the room of the program, with as many bytes as go out, and with one less.
fn tight(pair: [Vec<u8>; 2]) -> Vec<Case> {
    let need = length_out(&pair[0], 1);
    let rooms = [ROOM, need, need - 1];
    rooms.into_iter().flat_map(|room| pair.clone().map(|message| Case { side: 1, room, message })).collect()
}

/// An initial INVITE and two later ones, with an identity and without.
fn invites() -> [Draft; 3] {
    [Draft::least(0).with(16, b"id"), Draft::full(1).with(16, b"none;User"), Draft::least(1).with(16, b"HEADER")]
}

fn called_by(draft: &Draft, from: &str, identity: &str) -> Vec<u8> {
    draft.with(3, from.as_bytes()).with(15, identity.as_bytes()).bytes()
}

/// Each value beside the next in its list, alone and both together, and the tag at its shortest and longest.
fn accepted() -> Vec<[Vec<u8>; 2]> {
    let [initial, later, without] = invites();
    let mut all = Vec::new();
    for two in FROMS.windows(2) {
        all.push([two[0], two[1]].map(|from| called_by(&initial, from, IDENTITIES[0])));
        all.push([two[0], two[1]].map(|from| without.with(3, from.as_bytes()).bytes()));
    }
    for two in IDENTITIES.windows(2) {
        all.push([two[0], two[1]].map(|identity| called_by(&initial, FROMS[0], identity)));
    }
    for (from, identity) in FROMS.chunks(2).zip(IDENTITIES.chunks(2)) {
        all.push([0, 1].map(|place| called_by(&later, from[place], identity[place])));
    }
    for tag in ["1".to_string(), "-.!%*_+`'~".to_string(), "t".repeat(64)] {
        let tagged = |from: &str| initial.with(3, from.replace("q7", &tag).as_bytes()).bytes();
        all.push([tagged(FROMS[3]), tagged(FROMS[9])]);
    }
    all
}

/// The draft with this From and two P-Asserted-Identity fields, the first at the front.
fn called_by_two(draft: &Draft, from: &str, [first, second]: [&str; 2]) -> Vec<u8> {
    let mut draft = draft.with(3, from.as_bytes()).with(15, second.as_bytes());
    draft.fields.insert(0, Whole::new(b"P-asserted-identity", first.as_bytes()));
    draft.bytes()
}

/// Other identities in the same fields: one against two, one scheme against the other, both orders.
fn asserting() -> Vec<[Vec<u8>; 2]> {
    let [initial, later, _] = invites();
    let froms = [FROMS[0], LONG];
    let mut all = Vec::new();
    for two in ONE_FIELD.windows(2) {
        all.push([0, 1].map(|place| called_by(&initial, froms[place], two[place])));
    }
    for two in TWO_FIELDS.windows(2) {
        all.push([0, 1].map(|place| called_by_two(&initial, froms[place], two[place])));
    }
    all.push([1, 3].map(|place| called_by(&later, FROMS[place], ONE_FIELD[place])));
    all.push([1, 2].map(|place| called_by_two(&later, FROMS[place], TWO_FIELDS[place])));
    all
}

/// The same identities in both, whatever they are.
fn not_allowed() -> Vec<[Vec<u8>; 2]> {
    let [initial, later, _] = invites();
    let pair = |draft: &Draft, two: [&str; 2]| [FROMS[0], LONG].map(|from| called_by_two(draft, from, two));
    NOT_ALLOWED.iter().flat_map(|two| [pair(&initial, *two), pair(&later, *two)]).collect()
}

/// As long as a message may be, by a display name, by a tail, by folds or by parameters, beside a short one and beside each other.
fn longest() -> Vec<[Vec<u8>; 2]> {
    let initial = &invites()[0];
    let fill = |front: &str, piece: &str, back: &str| {
        let short = initial.with(3, format!("{front}{back}").as_bytes()).bytes().len();
        let padding = "a".repeat((8192 - short) % piece.len());
        initial.with(3, format!("{front}{}{padding}{back}", piece.repeat((8192 - short) / piece.len())).as_bytes()).bytes()
    };
    let short = initial.with(3, FROMS[0].as_bytes()).bytes();
    let long = [fill("\"", "\\\"", "\" <sip:h>;tag=q7"), fill("<sip:h;", "%41", ">;tag=q7"), fill("x", "\r\n ", "<sip:h>;tag=q7"), fill("<sip:h>;tag=q7;", "a;", "b")];
    let [one, two, three, four] = long;
    vec![[short, one.clone()], [one, two], [three, four]]
}

/// With a fault for each reason that two such messages can have but 16.
fn refused() -> Vec<[Vec<u8>; 2]> {
    let [initial, later, without] = invites();
    let with = |fault: &dyn Fn(&Draft) -> Draft, draft: &Draft| {
        let callers = [(FROMS[0], IDENTITIES[0]), (LONG, IDENTITIES[11])];
        callers.map(|(from, identity)| fault(&draft.with(3, from.as_bytes()).with(15, identity.as_bytes())).bytes())
    };
    let faults: [&dyn Fn(&Draft) -> Draft; 16] = [
        &|draft| filled(draft, "k", b"", 97),
        &|draft| draft.to(b"http://h"),
        &|draft| draft.to(b"sip:"),
        &|draft| draft.and("f", b"sip:h;tag=q7"),
        &|draft| draft.with(15, b"<sip:+331876543@a>,").and("p-asserted-identity", b"tel:+1234567"),
        &|draft| draft.and("privacy", b"none"),
        &|draft| draft.with(2, b"256"),
        &|draft| draft.with(4, b"<sip:h"),
        &|draft| draft.with(5, b"a b"),
        &|draft| draft.with(8, b"1"),
        &|draft| draft.without(1),
        &|draft| draft.without(5).without(7),
        &|draft| draft.without(3),
        &|draft| draft.with(2, b"000"),
        &|draft| draft.and("Require", b"timer, x"),
        &|draft| draft.to(b"sip:+331234@g"),
    ];
    let mut all: Vec<[Vec<u8>; 2]> = faults.iter().map(|fault| with(fault, &initial)).collect();
    all.extend([3, 7, 9, 13].map(|place| with(faults[place], &later)));
    all.push([FROMS[0], LONG].map(|from| without.with(3, from.as_bytes()).to(b"tel:").bytes()));
    all
}
