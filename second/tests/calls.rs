//! "Hidden for the whole call" (CR 8), sentence by sentence. Tables are written and read here byte by byte, as docs/DECISIONS.md has them: 32
//! places of 194 bytes, each the length of the Call-ID, 128 bytes for it, the length of the tag, 64 bytes for it.
mod common;
use common::*;
use second::end_call;
use second::recorded::callers::pairs;
use second::recorded::cases;
use std::collections::{BTreeMap, BTreeSet};

const METHODS: [&str; 5] = ["INVITE", "ACK", "BYE", "CANCEL", "OPTIONS"];
const CALL_ID: &str = "9x@relay.example";
const ACCEPTED: u64 = 0;

/// A request with this Call-ID and From tag whose caller is shown.
fn request(method: &str, call_id: &str, tag: &str) -> Vec<u8> {
    build(method, URI, &fields(method, call_id, tag), b"")
}

fn fields(method: &str, call_id: &str, tag: &str) -> Fields {
    let mut fields = base(method);
    set(&mut fields, "Call-ID", call_id.as_bytes());
    set(&mut fields, "From", format!("<sip:a@relay.example>;tag={tag}").as_bytes());
    fields
}

/// The same with one more field.
fn request_and(method: &str, call_id: &str, tag: &str, name: &str, value: &str) -> Vec<u8> {
    let mut fields = fields(method, call_id, tag);
    add(&mut fields, name, value.as_bytes());
    build(method, URI, &fields, b"")
}

fn withheld(call_id: &str, tag: &str) -> Vec<u8> {
    request_and("INVITE", call_id, tag, "Privacy", "id")
}

type Texts = (String, String);

fn texts(call_id: &str, tag: &str) -> Texts {
    (call_id.to_string(), tag.to_string())
}

/// A place with these length bytes and texts and zeros.
fn raw(call_id_length: u8, call_id: &str, tag_length: u8, tag: &str) -> [u8; 194] {
    let mut place = [0; 194];
    place[0] = call_id_length;
    place[1..1 + call_id.len()].copy_from_slice(call_id.as_bytes());
    place[129] = tag_length;
    place[130..130 + tag.len()].copy_from_slice(tag.as_bytes());
    place
}

fn place(call_id: &str, tag: &str) -> [u8; 194] {
    raw(call_id.len() as u8, call_id, tag.len() as u8, tag)
}

/// The table of these places; the others are zeros.
fn table_of(places: &[[u8; 194]]) -> Table {
    let mut table = none_held();
    table[..194 * places.len()].copy_from_slice(&places.concat());
    table
}

/// 32 places with different pairs; the pair of place 7 is (`7@full`, `t7`).
fn full() -> Vec<[u8; 194]> {
    (0..32).map(|number| place(&format!("{number}@full"), &format!("t{number}"))).collect()
}

fn full_but(others: &[(usize, [u8; 194])]) -> Table {
    let mut places = full();
    for (number, other) in others {
        places[*number] = *other;
    }
    table_of(&places)
}

/// The pair of each place, None where it is free.
fn places_of(table: &Table) -> Vec<Option<Texts>> {
    let is_token = |byte: &u8| byte.is_ascii_alphanumeric() || b"-.!%*_+`'~".contains(byte);
    let text = |bytes: &[u8]| String::from_utf8(bytes.to_vec()).expect("ASCII");
    let pair = |place: &[u8]| {
        let (call_id, tag) = (usize::from(place[0]), usize::from(place[129]));
        let lengths = (1..=128).contains(&call_id) && (1..=64).contains(&tag);
        let good = lengths && place[1..1 + call_id].iter().all(u8::is_ascii_graphic) && place[130..130 + tag].iter().all(is_token);
        good.then(|| (text(&place[1..1 + call_id]), text(&place[130..130 + tag])))
    };
    table.chunks(194).map(pair).collect()
}

fn held(table: &Table) -> BTreeSet<Texts> {
    places_of(table).into_iter().flatten().collect()
}

fn is_masked(out: &[u8]) -> bool {
    let out = String::from_utf8_lossy(out);
    let (masked, identities) = (out.contains("\r\nFrom: \"Anonymous\" <sip:anonymous@anonymous.invalid>;tag="), out.contains("\r\nP-Asserted-Identity: "));
    assert!(!(masked && identities) && masked != out.contains("\r\nFrom: <sip:a@relay.example>;tag="), "{out}");
    masked
}

/// Whether the request is accepted to side 1 with this table before, and goes out masked.
fn masked_in(table: &Table, message: &[u8]) -> bool {
    let (numbers, out) = run_with(&mut table.clone(), message, 1, 9216);
    assert_eq!(numbers[0], ACCEPTED, "{}", String::from_utf8_lossy(message));
    is_masked(&out)
}

/// The reason of a message to side 1; the table is kept.
fn reason(table: &mut Table, message: &[u8]) -> u64 {
    run_with(table, message, 1, 9216).0[0]
}

/// The table after a message to side 1 that is accepted.
fn after(table: &Table, message: &[u8]) -> Table {
    let mut table = *table;
    assert_eq!(reason(&mut table, message), ACCEPTED, "{}", String::from_utf8_lossy(message));
    table
}

/// "A withheld caller's BYE carries no Privacy field, so From goes out bare."
#[test]
fn the_bye_of_a_withheld_caller_goes_out_masked() {
    let bye = "BYE sip:+33123456789@gw.example SIP/2.0
Via: SIP/2.0/UDP relay.example;branch=z9hG4bK7
Max-Forwards: 69
From: {from};tag=a1
To: <sip:b@gw.example>
Call-ID: 9x@relay.example
CSeq: 1 BYE

";
    let [bare, masked] = ["<sip:a@relay.example>", "\"Anonymous\" <sip:anonymous@anonymous.invalid>"].map(|from| crlf(&bye.replace("{from}", from)));
    let mut table = none_held();
    assert!(run_with(&mut table, &request("BYE", CALL_ID, "a1"), 1, 9216).1 == bare);
    assert_eq!(run_with(&mut table, &call(), 1, 9216).0[0], ACCEPTED);
    assert!(run_with(&mut table, &request("BYE", CALL_ID, "a1"), 1, 9216).1 == masked);
    assert!(run_with(&mut table, &request("BYE", CALL_ID, "a1"), 1, 9216).1 == bare);
}

/// "Remember up to 32 calls by Call-ID and From tag"
#[test]
fn the_table_byte_by_byte() {
    let mut table = none_held();
    let mut wanted = vec![0; 6208];
    for number in 0..32 {
        let (call_id, tag) = (format!("{number}@{}", "c".repeat(4 * number)), format!("t{}", "x".repeat(2 * number)));
        assert_eq!(reason(&mut table, &withheld(&call_id, &tag)), ACCEPTED);
        wanted[194 * number..194 * (number + 1)].copy_from_slice(&place(&call_id, &tag));
        assert!(table[..] == wanted, "call {number}");
    }
    assert_eq!(held(&table).len(), 32);
    assert_eq!(reason(&mut table, &withheld("one more", "t")), 10);
    assert_eq!(reason(&mut table, &withheld("one-more", "t")), 18);
}

#[test]
fn the_longest_texts() {
    let (call_id, tag) = ("c".repeat(128), "t".repeat(64));
    let table = after(&none_held(), &withheld(&call_id, &tag));
    assert!(table == table_of(&[place(&call_id, &tag)]));
    assert!(masked_in(&table, &request("ACK", &call_id, &tag)));
    assert!(!masked_in(&table, &request("ACK", &call_id[1..], &tag)) && !masked_in(&table, &request("ACK", &call_id, &tag[1..])));
    assert!(after(&table, &request("BYE", &call_id, &tag)) == none_held());
    // One byte longer is malformed, as before.
    assert_eq!([("c".repeat(129), tag.clone()), (call_id, "t".repeat(65))].map(|(call_id, tag)| reason(&mut none_held(), &withheld(&call_id, &tag))), [10, 10]);
}

/// "an accepted, withheld INVITE to side 1 enters its pair once"
#[test]
fn an_accepted_withheld_invite_to_side_1_enters_its_pair() {
    let wanted = table_of(&[place("c", "t")]);
    for way in ["id", "user", "header", "ID", "none;User", "x ; HEADER"] {
        assert!(after(&none_held(), &request_and("INVITE", "c", "t", "Privacy", way)) == wanted, "{way}");
        let mut later = fields("INVITE", "c", "t");
        set(&mut later, "To", b"<sip:b@gw.example>;tag=7");
        set(&mut later, "Privacy", way.as_bytes());
        assert!(after(&none_held(), &build("INVITE", "sip:h", &later, b"")) == wanted, "{way}");
    }
}

#[test]
fn nothing_else_enters_a_pair() {
    for privacy in ["none", "identity", "session;critical", "users"] {
        assert!(after(&none_held(), &request_and("INVITE", "c", "t", "Privacy", privacy)) == none_held(), "{privacy}");
    }
    for method in METHODS {
        assert!(after(&none_held(), &request(method, "c", "t")) == none_held(), "{method}");
    }
    for method in ["ACK", "BYE", "CANCEL", "OPTIONS"] {
        assert!(after(&none_held(), &request_and(method, "c", "t", "Privacy", "id")) == none_held(), "{method}");
    }
    let mut table = none_held();
    assert_eq!(run_with(&mut table, &withheld("c", "t"), 0, 9216).0[0], ACCEPTED);
    assert_eq!(run_with(&mut table, &withheld("c", "t"), 1, 100).0[0], 16);
    assert!(table == none_held());
}

#[test]
fn a_pair_is_entered_once() {
    let once = after(&none_held(), &withheld("c", "t"));
    assert!(after(&once, &withheld("c", "t")) == once);
    for table in [table_of(&[raw(0, "x", 1, "t"), place("c", "t")]), table_of(&[place("c", "t"), place("d", "t"), place("c", "t")])] {
        assert!(after(&table, &withheld("c", "t")) == table, "wherever it stands and however often");
    }
}

#[test]
fn the_pair_is_the_canonical_call_id_and_the_value_of_the_tag() {
    let froms = [
        "sip:h;tag=t", "<sip:h>;TAG=t", "<sip:h;tag=in>;x;tag=t;y", "\"tag=no;tag=no\" <sip:h>;tag=t", "sip:a;tag=in@h;tag=t", "\t<tel:112>\t;\ttag\t=\tt\t",
        "<sip:h>;x=\";tag=no\"\r\n ;\r\n Tag\r\n =\r\n t\r\n ;z",
    ];
    for from in froms {
        for call_id in ["c", "\t c \t", "\r\n c", "c\r\n \r\n\t"] {
            let with = |method: &str| {
                let mut all = fields(method, call_id, "");
                set(&mut all, "From", from.as_bytes());
                all
            };
            let mut invite = with("INVITE");
            add(&mut invite, "Privacy", b"id");
            let table = after(&none_held(), &build("INVITE", URI, &invite, b""));
            assert!(table == table_of(&[place("c", "t")]), "{from:?} {call_id:?}");
            assert!(after(&table, &build("BYE", URI, &with("BYE"), b"")) == none_held(), "{from:?} {call_id:?}");
        }
    }
    // The tag of To is not part of it, and a request from the other end has another From tag.
    let table = table_of(&[place("c", "t")]);
    let mut other_end = fields("BYE", "c", "b2");
    set(&mut other_end, "To", b"<sip:a@h>;tag=t");
    assert!(!masked_in(&table, &build("BYE", URI, &other_end, b"")) && after(&table, &build("BYE", URI, &other_end, b"")) == table);
}

/// "an accepted BYE to side 1 with the pair, after it is masked, or an explicit end removes it"
#[test]
fn an_accepted_bye_to_side_1_is_masked_and_removes_the_pair() {
    let table = table_of(&[place("a", "t"), place("c", "t"), place("b", "t")]);
    let mut later = table;
    let (numbers, out) = run_with(&mut later, &request("BYE", "c", "t"), 1, 9216);
    assert!(numbers[0] == ACCEPTED && is_masked(&out));
    assert!(later == table_of(&[place("a", "t"), [0; 194], place("b", "t")]));
}

#[test]
fn no_other_bye_removes_it() {
    let table = table_of(&[place("c", "t")]);
    for (call_id, tag) in NEAR {
        assert!(after(&table, &request("BYE", call_id, tag)) == table, "{call_id} {tag}");
    }
    let mut later = table;
    assert!(!is_masked(&run_with(&mut later, &request("BYE", "c", "t"), 0, 9216).1));
    for (message, side, room, reason) in [
        (request_and("BYE", "c", "t", "Require", "x"), 1, 9216, 14),
        (request("BYE", "c", "t"), 1, 10, 16),
        (request_and("BYE", "c", "t", "From", "sip:h;tag=t"), 1, 9216, 9),
        (request("BYE", "c", "t"), 2, 9216, 1),
        (build_from("SIP/2.0 200 OK", &fields("BYE", "c", "t"), b""), 1, 9216, ACCEPTED),
    ] {
        assert_eq!(run_with(&mut later, &message, side, room).0[0], reason);
    }
    assert!(later == table);
}

#[test]
fn removing_writes_zeros_over_every_copy_and_no_other_byte() {
    let mut junk = place("c", "t");
    junk[2..129].fill(0xEE);
    junk[131..].fill(0xEE);
    let places = [junk, place("d", "t"), place("c", "t"), raw(0, "c", 1, "t"), junk, raw(129, "c", 1, "t"), place("C", "t")];
    let mut wanted = places;
    for number in [0, 2, 4] {
        wanted[number] = [0; 194];
    }
    assert!(after(&table_of(&places), &request("BYE", "c", "t")) == table_of(&wanted));
    let mut table = table_of(&places);
    assert_eq!(end_call(&mut table, b"c", b"t"), 0);
    assert!(table == table_of(&wanted));
}

/// Pairs that are not (`c`, `t`).
const NEAR: [(&str, &str); 9] = [("C", "t"), ("c", "T"), ("cc", "t"), ("c", "tt"), ("t", "c"), ("ct", "t"), ("c", "c"), ("t", "t"), ("c.", "t")];

/// "Any accepted request to side 1 with a remembered pair (compared byte by byte) has From masked and P-Asserted-Identity dropped"
#[test]
fn any_accepted_request_with_a_remembered_pair_is_masked() {
    let table = table_of(&[place("x", "t"), place("c", "t")]);
    for method in METHODS {
        assert!(masked_in(&table, &request(method, "c", "t")), "{method}");
        assert!(!masked_in(&none_held(), &request(method, "c", "t")), "{method}");
        for (call_id, tag) in NEAR {
            assert!(!masked_in(&table, &request(method, call_id, tag)), "{method} {call_id} {tag}");
        }
        let (numbers, out) = run_with(&mut table.clone(), &request(method, "c", "t"), 0, 9216);
        assert!(numbers[0] == ACCEPTED && !is_masked(&out), "side 0: {method}");
        if method != "BYE" {
            assert!(after(&table, &request(method, "c", "t")) == table, "{method}");
        }
    }
}

#[test]
fn all_identities_go_whatever_privacy_says() {
    let table = table_of(&[place("c", "t")]);
    for privacy in ["none", "session", "id"] {
        for tag in ["", ";tag=7"] {
            let mut invite = fields("INVITE", "c", "t");
            set(&mut invite, "To", format!("<sip:b@gw.example>{tag}").as_bytes());
            add(&mut invite, "P-Asserted-Identity", b"tel:+33187654321");
            add(&mut invite, "Privacy", privacy.as_bytes());
            let message = build("INVITE", URI, &invite, b"");
            assert!(masked_in(&table, &message), "{privacy} {tag}");
            assert_eq!(masked_in(&none_held(), &message), privacy == "id");
        }
    }
}

/// Which pairs are remembered is asked of the table before: an INVITE that is not withheld is not hidden by itself, and the masked length counts at 16.
#[test]
fn at_16_the_length_is_that_of_the_masked_message() {
    let table = table_of(&[place("c", "t")]);
    for method in METHODS {
        let message = request(method, "c", "t");
        let [shown, masked] = [none_held(), table].map(|table| run_with(&mut table.clone(), &message, 1, 9216).0[4]);
        assert_ne!(shown, masked);
        for (table, need) in [(none_held(), shown), (table, masked)] {
            let reply = if method == "ACK" { 0 } else { 500 };
            assert_eq!(run_with(&mut table.clone(), &message, 1, need as usize - 1).0, [16, reply, need, 0, 0], "{method}");
            assert_eq!(run_with(&mut table.clone(), &message, 1, need as usize).0, [0, 0, 0, 0, need], "{method}");
        }
    }
}

#[test]
fn responses_are_never_masked_and_change_no_table() {
    let table = table_of(&[place("c", "t")]);
    for method in ["INVITE", "BYE", "CANCEL", "OPTIONS"] {
        let mut fields = response_base(method);
        set(&mut fields, "Call-ID", b"c");
        set(&mut fields, "From", b"<sip:a@relay.example>;tag=t");
        add(&mut fields, "Privacy", b"id");
        for code in ["100", "200", "486"] {
            let message = build_from(&format!("SIP/2.0 {code} x"), &fields, b"");
            for table in [table, none_held(), full_but(&[])] {
                assert!(!masked_in(&table, &message) && after(&table, &message) == table, "{method} {code}");
            }
        }
    }
}

/// One step of a drawn history, held to what the page says of it: an end, or a request with its reason. `open` is what the history leaves open.
fn drawn_step(dice: &mut Dice, table: &mut Table, open: &mut BTreeSet<Texts>) -> u64 {
    let pair = texts(&format!("{}@h", dice.below(30)), dice.pick::<&str>(&["t", "T"]));
    let (call_id, tag) = (&pair.0[..], &pair.1[..]);
    let known = open.contains(&pair);
    if dice.one_in(20) {
        assert_eq!(end_call(table, call_id.as_bytes(), tag.as_bytes()), if known { 0 } else { 19 });
        open.remove(&pair);
        return 0;
    }
    let method = if dice.one_in(2) { "INVITE" } else { *dice.pick(&METHODS) };
    let hides = method == "INVITE" && !dice.one_in(6);
    let message = if hides { withheld(call_id, tag) } else { request(method, call_id, tag) };
    let side = u64::from(!dice.one_in(6));
    let room = if dice.one_in(12) { 20 } else { 9216 };
    let (numbers, out) = run_with(table, &message, side, room);
    let meets_32 = side == 1 && hides && !known && open.len() == 32;
    assert_eq!(numbers[0], if meets_32 { 18 } else if room == 20 { 16 } else { ACCEPTED });
    if numbers[0] == ACCEPTED {
        assert_eq!(is_masked(&out), side == 1 && (hides || known));
    }
    if numbers[0] == ACCEPTED && side == 1 && hides {
        open.insert(pair);
    } else if numbers[0] == ACCEPTED && side == 1 && method == "BYE" {
        open.remove(&pair);
    }
    numbers[0]
}

/// "Starting from none held and changed only by these calls, the pairs held always equal those the history leaves open."
#[test]
fn the_pairs_held_are_those_that_the_history_leaves_open() {
    let mut seen = BTreeMap::new();
    for seed in 0..8 {
        let (mut dice, mut table, mut open) = (Dice::new(seed), none_held(), BTreeSet::new());
        for _ in 0..800 {
            *seen.entry(drawn_step(&mut dice, &mut table, &mut open)).or_insert(0) += 1;
            assert!(held(&table) == open);
            assert_eq!(places_of(&table).iter().flatten().count(), open.len(), "each stands there once");
        }
    }
    assert!([0, 16, 18].iter().all(|reason| seen[reason] > 100), "{seen:?}");
}

/// "In any other table equal pairs count once and a place without a well-formed pair is free."
#[test]
fn equal_pairs_count_once() {
    for (first, second) in [(0, 1), (0, 31), (30, 31), (9, 20)] {
        let table = full_but(&[(second, full()[first])]);
        assert_eq!(held(&table).len(), 31);
        let wanted = full_but(&[(second, place("c", "t"))]);
        assert!(after(&table, &withheld("c", "t")) == wanted, "the copy of an earlier place is overwritten");
        assert_eq!(reason(&mut wanted.clone(), &withheld("d", "t")), 18);
    }
    let all_alike = table_of(&[place("c", "t"); 32]);
    let mut wanted = [place("c", "t"); 32];
    wanted[1] = place("d", "t");
    assert!(after(&all_alike, &withheld("d", "t")) == table_of(&wanted));
    assert!(after(&all_alike, &request("BYE", "c", "t")) == none_held());
}

/// Places without a well-formed pair that do not start with 0.
fn free_otherwise() -> Vec<[u8; 194]> {
    let (mut long, mut no_token) = (place("c", "t"), place("c", "t"));
    long[..130].fill(b'x');
    long[129] = 1;
    no_token[130] = b'@';
    let lengths = [raw(129, "c", 1, "t"), raw(255, "c", 1, "t"), raw(1, "c", 0, "t"), raw(1, "c", 65, "t"), raw(1, "c", 255, "t"), raw(2, "c", 1, "t"), raw(1, "c", 2, "t")];
    let mut all = [&lengths[..], &[no_token]].concat();
    for length in [129, 130, 200, 255] {
        long[0] = length;
        all.push(long);
    }
    for byte in [1, 9, 13, 32, 127, 128, 255] {
        let mut bad = place("c", "t");
        bad[1] = byte;
        all.push(bad);
    }
    all
}

#[test]
fn a_place_without_a_well_formed_pair_is_free() {
    for free in free_otherwise() {
        let table = table_of(&[place("a", "t"), free]);
        assert!(!masked_in(&table, &request("ACK", "c", "t")), "{free:?}");
        assert_eq!(end_call(&mut table.clone(), b"c", b"t"), 19);
        assert!(after(&full_but(&[(17, free)]), &withheld("new", "t")) == full_but(&[(17, place("new", "t"))]), "{free:?}");
        // A place that starts with 0 goes before it.
        assert!(after(&full_but(&[(17, free), (18, [0; 194])]), &withheld("new", "t")) == full_but(&[(17, free), (18, place("new", "t"))]), "{free:?}");
    }
}

#[test]
fn a_new_pair_is_entered_over_all_bytes_of_the_first_place_that_starts_with_0() {
    let mut junk = [0xEE; 194];
    junk[0] = 0;
    let copy = full()[0];
    for spare in free_otherwise().into_iter().step_by(5).chain([copy]) {
        let table = full_but(&[(3, spare), (8, junk), (31, [0; 194])]);
        let first = after(&table, &withheld("new", "t"));
        assert!(first == full_but(&[(3, spare), (8, place("new", "t")), (31, [0; 194])]));
        let second = after(&first, &withheld("newer", "t"));
        assert!(second == full_but(&[(3, spare), (8, place("new", "t")), (31, place("newer", "t"))]));
        let third = after(&second, &withheld("newest", "t"));
        assert!(third == full_but(&[(3, place("newest", "t")), (8, place("new", "t")), (31, place("newer", "t"))]));
        assert_eq!(reason(&mut third.clone(), &withheld("c", "t")), 18);
    }
}

#[test]
fn of_a_copy_and_a_free_place_the_first_is_taken() {
    let copy = full()[0];
    for free in free_otherwise() {
        for (one, other) in [(free, copy), (copy, free)] {
            let table = full_but(&[(5, one), (6, other)]);
            assert!(after(&table, &withheld("new", "t")) == full_but(&[(5, place("new", "t")), (6, other)]));
        }
    }
}

/// A table of mostly different pairs, with some copies and some free places, and some bytes changed.
fn drawn_table(dice: &mut Dice) -> Table {
    let mut table = none_held();
    for (number, part) in table.chunks_mut(194).enumerate() {
        let number = if dice.one_in(30) { dice.below(32) } else { number };
        part.copy_from_slice(&place(&format!("{number}@h"), dice.pick::<&str>(&["t", "T"])));
        if dice.one_in(60) {
            let byte = dice.below(194);
            part[byte] = dice.number() as u8;
        }
        if dice.one_in(60) {
            part[0] = 0;
        }
    }
    table
}

#[test]
fn any_table_is_read_so() {
    let (mut dice, mut full) = (Dice::new(88), 0);
    for _ in 0..1500 {
        let table = drawn_table(&mut dice);
        let (call_id, tag) = (format!("{}@h", dice.below(40)), *dice.pick(&["t", "T"]));
        let pair = texts(&call_id, tag);
        let before = held(&table);
        let mut later = table;
        let answer = reason(&mut later, &withheld(&call_id, tag));
        let meets_32 = before.len() == 32 && !before.contains(&pair);
        full += u32::from(meets_32);
        assert_eq!(answer, if meets_32 { 18 } else { ACCEPTED });
        assert_eq!(masked_in(&table, &request("OPTIONS", &call_id, tag)), before.contains(&pair));
        let mut wanted = before.clone();
        if answer == ACCEPTED {
            wanted.insert(pair.clone());
        }
        assert!(held(&later) == wanted);
        let changed = table.chunks(194).zip(later.chunks(194)).filter(|(one, other)| one != other).count();
        assert_eq!(changed, usize::from(wanted.len() > before.len()), "one place is written, or none");
        wanted.remove(&pair);
        assert!(held(&after(&later, &request("BYE", &call_id, tag))) == wanted);
    }
    assert!(full >= 10, "{full}");
}

/// "A refused request changes nothing." Held for every recorded message: `run_with` looks at the table and at the buffer.
#[test]
fn a_refused_request_changes_nothing() {
    let tables = [none_held(), full_but(&[]), [0xA5; 6208], table_of(&[place("9x@a", "a1"), place(CALL_ID, "a1")])];
    let mut reasons = BTreeSet::new();
    for (number, case) in cases().iter().enumerate().step_by(3) {
        let mut table = tables[number % tables.len()];
        reasons.insert(run_with(&mut table, &case.message, u64::from(case.side), usize::from(case.room)).0[0]);
    }
    assert_eq!(reasons, (0..=18).collect());
}

/// "Demands 2 and 3 and CR 5 read with the same table before; the table after is part of the answer." Demand 3 is held in demand3.rs.
#[test]
fn two_withheld_callers_leave_the_same_table() {
    let junk: Table = std::array::from_fn(|place| (place * 7 % 251) as u8);
    let opened = pairs().iter().fold(none_held(), |mut table, [one, _]| {
        reason(&mut table, one);
        table
    });
    let one_copy = full_but(&[(9, full()[2])]);
    let mut seen = BTreeSet::new();
    for [one, other] in pairs() {
        for table in [none_held(), opened, full_but(&[]), one_copy, junk] {
            let need = run_with(&mut table.clone(), &one, 1, 9216).0[4] as usize;
            for room in [9216, need, need.saturating_sub(1)] {
                let (mut first, mut second) = (table, table);
                let answer = run_with(&mut first, &one, 1, room);
                assert_eq!(answer, run_with(&mut second, &other, 1, room), "{}\n{}", String::from_utf8_lossy(&one), String::from_utf8_lossy(&other));
                assert!(first == second);
                seen.insert(answer.0[0]);
            }
        }
    }
    assert!([0, 9, 10, 15, 16, 18].iter().all(|reason| seen.contains(reason)), "{seen:?}");
}

/// "Refusals: 18, reply 503, exactly when a new pair meets 32 held ones; after 15, before 16."
#[test]
fn a_new_pair_meets_32() {
    let mut table = full_but(&[]);
    for room in [9216, 300, 1, 0] {
        assert_eq!(run_with(&mut table, &withheld("new", "t"), 1, room), ([18, 503, 0, 0, 0], Vec::new()));
    }
    let mut later = fields("INVITE", "new", "t");
    set(&mut later, "To", b"<sip:b@gw.example>;tag=7");
    set(&mut later, "Privacy", b"user");
    assert_eq!(run_with(&mut table, &build("INVITE", "sip:h", &later, b""), 1, 0).0, [18, 503, 0, 0, 0]);
    // Neither a pair that is held, nor a caller who is not withheld, nor side 0, nor another method.
    for number in 0..32 {
        assert_eq!(reason(&mut table, &withheld(&format!("{number}@full"), &format!("t{number}"))), ACCEPTED);
    }
    assert_eq!(reason(&mut table, &withheld("0@full", "t1")), 18);
    for method in METHODS {
        assert_eq!(reason(&mut table, &request(method, "new", "t")), ACCEPTED, "{method}");
    }
    assert_eq!(run_with(&mut table, &withheld("new", "t"), 0, 9216).0[0], ACCEPTED);
    assert!(table == full_but(&[]));
}

#[test]
fn after_15_and_before_16() {
    let table = full_but(&[]);
    let numbers = |uri: &str, name: &str, value: &str| {
        let mut all = fields("INVITE", "new", "t");
        set(&mut all, "Privacy", b"id");
        set(&mut all, name, value.as_bytes());
        run_with(&mut table.clone(), &build("INVITE", uri, &all, b""), 1, 0).0
    };
    assert_eq!(numbers("sip:1@h", "Subject", ""), [15, 484, 0, 0, 0]);
    assert_eq!(numbers(URI, "Require", "x"), [14, 420, 1, 0, 0]);
    assert_eq!(numbers(URI, "Max-Forwards", "0"), [13, 483, 0, 0, 0]);
    assert_eq!(numbers(URI, "Content-Length", "1"), [11, 400, 0, 0, 0]);
    assert_eq!(numbers(URI, "Privacy", "id;"), [10, 400, 16, 0, 0]);
    assert_eq!(numbers(URI, "Subject", ""), [18, 503, 0, 0, 0]);
    // With one fewer held the room is what is short.
    let one_free = full_but(&[(4, [0; 194])]);
    assert_eq!(run_with(&mut one_free.clone(), &withheld("new", "t"), 1, 0).0[0], 16);
}

/// "or an explicit end removes it"; "Ending an unknown pair: 19."
#[test]
fn an_explicit_end() {
    let mut table = full_but(&[]);
    for number in [0, 15, 31] {
        let (call_id, tag) = (format!("{number}@full"), format!("t{number}"));
        assert_eq!(end_call(&mut table, call_id.as_bytes(), tag.as_bytes()), 0);
        assert_eq!(end_call(&mut table, call_id.as_bytes(), tag.as_bytes()), 19);
        assert!(!held(&table).contains(&(call_id, tag)));
    }
    assert!(table == full_but(&[(0, [0; 194]), (15, [0; 194]), (31, [0; 194])]));
}

#[test]
fn ending_an_unknown_pair() {
    let table = table_of(&[place("c", "t"), raw(0, "", 0, ""), raw(2, "c ", 1, "t"), raw(1, "c", 2, "t ")]);
    let mut same = table;
    for (call_id, tag) in NEAR {
        assert_eq!(end_call(&mut same, call_id.as_bytes(), tag.as_bytes()), 19, "{call_id} {tag}");
    }
    // Texts that are no well-formed pair are not held.
    for (call_id, tag) in [("", ""), ("c", ""), ("", "t"), ("c ", "t"), ("c", "t "), ("\0", "\0"), (&"c".repeat(129), "t"), ("c", &"t".repeat(65)), (&"c".repeat(70_000), &"t".repeat(70_000))] {
        assert_eq!(end_call(&mut same, call_id.as_bytes(), tag.as_bytes()), 19, "{call_id} {tag}");
    }
    assert_eq!(end_call(&mut none_held(), b"c", b"t"), 19);
    assert!(same == table);
}
