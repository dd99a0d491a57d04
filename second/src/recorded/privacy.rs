//! The other ways to hide (CR 2): each of the three tokens in small letters, in capitals and in both mixtures, first, in the middle and last
//! in a list, what only looks like them, malformed and doubled values, every form of From and of an identity, tight rooms, and where Privacy
//! is ignored.

use super::{both_sides, length_out, untrusted, Case};
use crate::drafts::{Draft, Whole, REQUESTS, RESPONSES};

const WAYS: [&str; 3] = ["header", "user", "id"];

pub fn cases() -> Vec<Case> {
    let mut all = both_sides(kinds());
    let groups = [
        lists(), several(), long_lists(), near_words(), near_ways(), malformed(), doubled(), other_callers(), identities(), orders(), names(), near_names(), not_in_the_field(),
        ignored_in_requests(), ignored_in_responses(),
    ];
    all.extend(groups.into_iter().flat_map(untrusted));
    all.extend(rooms());
    all
}

/// An initial INVITE, and a later one without an identity.
fn invites() -> [Draft; 2] {
    [Draft::least(0), Draft::least(1)]
}

fn asking(draft: &Draft, value: &str) -> Vec<u8> {
    draft.with(16, value.as_bytes()).bytes()
}

/// Every kind of INVITE, withheld and nearly so: initial and later, with the least and with all fields, with and without an identity.
fn kinds() -> Vec<Vec<u8>> {
    let mut out = Vec::new();
    for value in WAYS.iter().flat_map(|way| [way.to_string(), format!("{way}s")]) {
        for draft in [Draft::full(0), Draft::full(1), Draft::full(1).without(15), Draft::least(1).with(15, b"<sip:+331876543@a>"), Draft::least(1)] {
            out.push(asking(&draft, &value));
        }
    }
    out
}

/// In small letters, in capitals, and in both mixtures of them.
fn letter_cases(way: &str) -> [String; 4] {
    let mixed = |small: usize| -> String {
        let letters = way.chars().enumerate();
        letters.map(|(place, letter)| if place % 2 == small { letter } else { letter.to_ascii_uppercase() }).collect()
    };
    [way.to_string(), way.to_ascii_uppercase(), mixed(0), mixed(1)]
}

/// Lists that hold a way to hide, which W stands for: alone, beside `none`, with blanks and folds, twice.
const LISTS: [&str; 17] = [
    "W", "none;W", "W;none", "none ; W", "W\t;\tnone", "W \t ;  \t none", "none;\r\n W", "W\r\n ;none", "none\r\n\t;\r\n  W", "W\r\n \r\n\t\r\n ; none", "\r\n W", "W\r\n \t",
    "\t W \t", "W;W", "session ;W; critical", "W;identity", "username;W",
];

fn lists() -> Vec<Vec<u8>> {
    let mut out = Vec::new();
    for way in WAYS.into_iter().flat_map(letter_cases) {
        out.extend(LISTS.map(|list| asking(&Draft::least(0), &list.replace('W', &way))));
    }
    out
}

/// Two and three of them in every order, with `none` at every place.
fn several() -> Vec<Vec<u8>> {
    let mut out = Vec::new();
    for order in [[0, 1, 2], [0, 2, 1], [1, 0, 2], [1, 2, 0], [2, 0, 1], [2, 1, 0]] {
        let ways = order.map(|place| WAYS[place]);
        out.push(asking(&Draft::least(0), &ways[..2].join(";")));
        out.push(asking(&Draft::least(0), &ways.join(" ;\r\n ")));
        out.extend(with_none(&ways));
    }
    out
}

fn with_none(ways: &[&str]) -> Vec<Vec<u8>> {
    let at = |place: usize| [&ways[..place], &["none"], &ways[place..]].concat().join(";");
    (0..=ways.len()).map(|place| asking(&Draft::least(1), &at(place))).collect()
}

/// One of them, or `users`, first, in the middle and last among many others; also as many as a message can hold.
fn long_lists() -> Vec<Vec<u8>> {
    let mut out = Vec::new();
    for way in WAYS.into_iter().chain(["users"]) {
        for (many, mark) in [(2, ";"), (15, " ; "), (16, "\r\n ;\r\n\t"), (300, ";")] {
            out.extend([0, many / 2, many].map(|place| asking(&Draft::least(0), &among_others(way, place, many, mark))));
        }
        out.extend([0, 1700, 3900].map(|place| asking(&Draft::least(1), &among_others(way, place, 3900, ";"))));
    }
    out
}

/// The token with so many others around it, of different lengths where they are few.
fn among_others(token: &str, place: usize, many: usize, mark: &str) -> String {
    let others = if many > 1000 { ["x"; 4] } else { ["none", "session", "i", "heade"] };
    let mut list: Vec<&str> = (0..many).map(|other| others[other % others.len()]).collect();
    list.insert(place, token);
    list.join(mark)
}

/// Well formed, and none of the three.
fn near_words() -> Vec<Vec<u8>> {
    let words = [
        "none", "session", "critical", "history", "none;session", "username", "identity", "user-id", "userid", "headers", "head", "header.", "use", "users", "i", "idd", "d",
        "none;identity", "us;er", "head;er", "i;d", "u;s;e;r", "di", "resu", "x-header", "_id", "id'", "user%3bid", "header-user", "user.header.id", "iduser", "idheader", "none-id", "noneuser",
        "USERNAME", "Headers", "IDENTITY",
    ];
    words.map(|word| asking(&Draft::least(0), word)).to_vec()
}

/// One byte of a way to hide left out, put in, or made another at each place. Capitals less 32 are no letters; some of those are no tokens.
fn near_ways() -> Vec<Vec<u8>> {
    let mut out = Vec::new();
    for way in WAYS {
        for place in 0..way.len() {
            let (front, back) = (&way[..place], &way[place + 1..]);
            let capital = way.as_bytes()[place].to_ascii_uppercase();
            out.push(format!("{front}{back}"));
            out.push(format!("{front}x{}", &way[place..]));
            out.push(format!("{front}_{back}"));
            out.push(format!("{front}{}{back}", char::from(capital - 32)));
            out.push(format!("{front}{}{back}", char::from(capital + 1)));
        }
        out.extend(["s", "-", "0"].map(|more| format!("{way}{more};none")));
    }
    out.iter().map(|value| asking(&Draft::least(0), value)).collect()
}

/// Malformed, although one of the three stands in it.
fn malformed() -> Vec<Vec<u8>> {
    let values = [
        "", ";", "W;", ";W", "W;;id", "W; ;id", "W,id", "W id", "W\tnone", "W\r\n none", "\"W\"", "W=1", "W;x=y", "W;\r\n ", "\r\n ;W", "none,W", "none W", "W/x", "<W>", "W\u{e9};W",
    ];
    let mut out = Vec::new();
    for way in WAYS {
        out.extend(values.map(|value| asking(&Draft::least(0), &value.replace('W', way))));
    }
    out.extend(values.map(|value| asking(&Draft::least(1), &value.replace('W', "User"))));
    out
}

/// Two Privacy fields, whatever they hold.
fn doubled() -> Vec<Vec<u8>> {
    let mut out = Vec::new();
    for way in WAYS {
        for (first, second) in [(way, "none"), ("none", way), (way, way), (way, ";"), ("user", way)] {
            out.extend(invites().map(|invite| invite.with(16, first.as_bytes()).and("PRIVACY", second.as_bytes()).bytes()));
        }
    }
    out
}

/// From in every form: display names, quoted ones, other parameters, the tag's name in any case, a tel identity.
fn other_callers() -> Vec<Vec<u8>> {
    let longest = format!("<sip:+331876543@a;user=phone>;tag={}", "t".repeat(64));
    let callers = [
        "sip:+331876543@a;tag=1", "Alice <sip:a@h>;tag=2", "A B\t<sip:a@h>;tag=3;x", "\"Alice; tag=no\" <sip:a@h;tag=no>;x=\"tag=no\";TAG=4;y=z", "\"\\\"\\\\\"<sip:h>\t;\ttAg\t=\t5",
        "<tel:+331876543>;tag=6", "tel:+331876543;a=b;Tag=7", "\"A\r\n B\"\r\n <sip:h>\r\n ;\r\n taG\r\n =\r\n !%*_+`'~-.\r\n ;q", "<sip:h>;xtag=1;tag=8;tagx=2", &longest,
    ];
    let mut out = Vec::new();
    for way in WAYS {
        for from in callers {
            out.extend(invites().map(|invite| asking(&invite.with(3, from.as_bytes()), way)));
        }
    }
    out
}

/// The identity in every form.
fn identities() -> Vec<Vec<u8>> {
    let forms = ["sip:+331876543@a", "<tel:+331876543>", "tel:+331876543", "\"A <x>\" <sip:+331876543@a;x=y>", "\r\n A\r\n B \r\n\t<sip:+331876543@a:5060>\r\n "];
    let mut out = Vec::new();
    for way in WAYS {
        out.extend(forms.map(|form| asking(&Draft::least(0).with(15, form.as_bytes()), way)));
    }
    out
}

/// Privacy, From and the identity at other places of the message.
fn orders() -> Vec<Vec<u8>> {
    let mut out = Vec::new();
    for way in WAYS {
        let full = Draft::full(0).with(16, way.as_bytes());
        for turn in [1, 3, 4, 9, 15] {
            let mut turned = full.clone();
            turned.fields.rotate_left(turn);
            out.push(turned.bytes());
        }
        let mut backwards = full.clone();
        backwards.fields.reverse();
        out.push(backwards.bytes());
    }
    out
}

/// Privacy, From and the identity under other spellings of their names.
fn names() -> Vec<Vec<u8>> {
    WAYS.into_iter().flat_map(|way| ["privacy", "PRIVACY", "pRiVaCy\t "].into_iter().flat_map(move |privacy| renamed(privacy, way))).collect()
}

fn renamed(privacy: &str, value: &str) -> [Vec<u8>; 3] {
    let others = [("f", "p-asserted-identity"), ("F", "P-ASSERTED-IDENTITY"), ("fROM ", "P-aSSERTED-iDENTITY\t")];
    others.map(|(from, identity)| named(privacy, from, identity, value))
}

fn named(privacy: &str, from: &str, identity: &str, value: &str) -> Vec<u8> {
    let mut draft = Draft::least(0).with(16, value.as_bytes());
    for field in draft.fields.iter_mut() {
        match field.number() {
            3 => field.name = from.into(),
            15 => field.name = identity.into(),
            16 => *field = Whole { name: privacy.into(), rest: [b":", value.as_bytes(), b"\r\n"].concat() },
            _ => {}
        }
    }
    draft.bytes()
}

/// Names that are nearly Privacy, alone and beside it.
fn near_names() -> Vec<Vec<u8>> {
    let mut out = Vec::new();
    for way in WAYS {
        for name in ["Privacys", "Privac", "rivacy", "Privacy-Id", "X-Privacy", "Privacy_", "p"] {
            out.push(Draft::least(0).and(name, way.as_bytes()).bytes());
        }
        out.push(asking(&Draft::least(0).and("Privacys", way.as_bytes()), "none"));
        out.push(asking(&Draft::least(0).and("Privac", b"none"), way));
    }
    out
}

/// What looks like a Privacy field in a body, in a continued line and in another value.
fn not_in_the_field() -> Vec<Vec<u8>> {
    let mut out = Vec::new();
    for way in WAYS {
        let line = format!("Privacy: {way}\r\n");
        out.push(Draft::least(0).and("c", b"x").carrying(line.as_bytes()).bytes());
        out.push(Draft::least(0).and("Subject", format!("x\r\n Privacy: {way}").as_bytes()).bytes());
        out.push(asking(&Draft::least(0).and("k", way.as_bytes()), "none"));
    }
    out
}

/// Values that withhold, or would be refused, in an INVITE.
fn ignored_values(way: &str) -> [String; 4] {
    [way.to_string(), format!("none ; {}", way.to_ascii_uppercase()), format!("{way};"), format!("{way}\r\nPrivacy: \"{way}\"")]
}

fn ignored_in_requests() -> Vec<Vec<u8>> {
    let mut out = Vec::new();
    for column in REQUESTS.skip(2) {
        for value in WAYS.into_iter().flat_map(ignored_values) {
            out.push(asking(&Draft::full(column), &value));
        }
    }
    out
}

fn ignored_in_responses() -> Vec<Vec<u8>> {
    let mut out = Vec::new();
    for column in RESPONSES {
        for value in WAYS.into_iter().flat_map(ignored_values) {
            out.push(asking(&Draft::full(column).with(3, b"\"A\" <sip:a@h>;x;Tag=1"), &value));
        }
    }
    out
}

/// Both sides with the room of either side's output, exact and one byte short: the masked one's and the other's.
fn rooms() -> Vec<Case> {
    let values = WAYS.into_iter().chain(["users"]);
    values.flat_map(|value| invites().map(|invite| asking(&invite, value))).flat_map(tight).collect()
}

fn tight(message: Vec<u8>) -> Vec<Case> {
    let needs = [0, 1].map(|side| length_out(&message, side));
    let rooms = needs.into_iter().flat_map(|need| [need, need - 1]);
    rooms.flat_map(|room| [0, 1].map(|side| Case { side, room, message: message.clone() })).collect()
}
