//! The recorded cases of the box for the old exchange (CR 7) reach what they are for, and are written and answered as their format says.
//! That the stored files are these is held in `recorded.rs`.
use second::drafts::call;
use second::isup;
use second::recorded::isup::{cases, file, lines, Case, MOST};
use std::collections::BTreeSet;

fn forward(home: bool, code: &str, message: &[u8]) -> Case {
    Case::Forward { home, code: code.into(), message: message.to_vec() }
}

fn backward(code: &str, bytes: &[u8]) -> Case {
    Case::Backward { code: code.into(), bytes: bytes.to_vec() }
}

#[test]
fn one_line_for_each_kind() {
    let bye = b"BYE sip:h SIP/2.0\r\nv:x\r\nMax-Forwards:9\r\nf:<sip:h>;tag=1\r\nt:sip:h\r\ni:x\r\nCSeq:1 BYE\r\n\r\n";
    let national = [0x83, 0x17, 0x81, 0x67, 0x45, 0x23, 0x01];
    for (case, line) in [
        (forward(true, "33", &call()), "0 0 0 0 7 131 23 129 103 69 35 1\n"),
        (forward(false, "33", &call()), "0 0 0 0 8 132 23 51 129 103 69 35 1\n"),
        (forward(true, "0", &call()), "41 0 0 0 0\n"),
        (forward(true, "0", bye), "42 0 0 0 0\n"),
        (forward(true, "0", b"INVITE sip:12@h SIP/2.0\r\n\r\n"), "12 400 1 9 0\n"),
        (backward("33", &national), "0 1 12 +33187654321\n"),
        (backward("1", &[0x04, 0x13, 0x21, 0x43, 0x65, 0x87]), "0 0 9 +12345678\n"),
        (backward("33", b""), "43 0 0\n"),
        (backward("", &national), "41 0 0\n"),
        (Case::Cause(17), "486 0\n"),
        (Case::Cause(128), "0 21\n"),
    ] {
        assert_eq!(case.line(), line, "{case:?}");
    }
}

#[test]
fn each_is_written_as_its_format_says() {
    assert_eq!(forward(true, "33", b"xyz").encoded(), b"\x00\x01\x0233\x00\x03xyz");
    assert_eq!(forward(false, "", &[b'x'; 258]).encoded(), [&b"\x00\x00\x00\x01\x02"[..], &[b'x'; 258]].concat());
    assert_eq!(backward("590", b"\x04\x13").encoded(), b"\x01\x00\x03590\x00\x02\x04\x13");
    assert_eq!(Case::Cause(258).encoded(), b"\x02\x00\x00\x00\x08\x00\x00\x00\x00\x00\x00\x01\x02");
}

#[test]
fn all_are_read_again() {
    let (file, all) = (file(), cases());
    let mut rest = &file[..];
    for case in &all {
        let (again, next) = Case::read(rest).expect("a case");
        assert_eq!(&again, case);
        rest = next;
    }
    assert!(rest.is_empty());
    assert_eq!(lines(&file), Ok(all.iter().map(Case::line).collect()));
    // What is cut short or no case is said by its place.
    assert_eq!(lines(&file[..file.len() - 1]), Err(file.len() - 13));
    let unknown = [&b"\x03\0\0\0\0"[..], b"\0\x02\0\0\0", b"\x01\x01\0\0\0", b"\x02\0\x011\0\x08\0\0\0\0\0\0\0\0"];
    let short = [&b"\x02\0\0\0\x07\0\0\0\0\0\0\0"[..], b"\0", b"\0\0\x02x", b"\0\0\0\0"];
    for bad in unknown.into_iter().chain(short) {
        assert_eq!(lines(bad), Err(0), "{bad:?}");
    }
}

#[test]
fn sizes_keep_to_what_the_program_takes() {
    let all = cases();
    assert!((6000..=65_536).contains(&all.len()), "{}", all.len());
    assert!(file().len() < 1_500_000);
    let codes: BTreeSet<usize> = all.iter().map(|case| code(case).len()).collect();
    assert!([0, 1, 2, 3, 4, 11, 255].iter().all(|length| codes.contains(length)), "{codes:?}");
    let forward = |case: &Case| if let Case::Forward { message, .. } = case { Some(message.len()) } else { None };
    let backward = |case: &Case| if let Case::Backward { bytes, .. } = case { Some(bytes.len()) } else { None };
    let messages: BTreeSet<usize> = all.iter().filter_map(forward).collect();
    let parameters: BTreeSet<usize> = all.iter().filter_map(backward).collect();
    assert!([0, 8191, 8192, 8193, MOST].iter().all(|length| messages.contains(length)));
    assert!((0..=13).chain([100, 1000, 8999, MOST]).all(|length| parameters.contains(&length)));
}

fn code(case: &Case) -> &[u8] {
    match case {
        Case::Forward { code, .. } | Case::Backward { code, .. } => code,
        Case::Cause(_) => b"",
    }
}

/// The reason of each forward case.
fn reasons() -> Vec<u64> {
    let reason = |case: Case| match case {
        Case::Forward { home, code, message } => Some(isup::parameter(&message, &code, home).map_or_else(|refusal| refusal.reason, |_| 0)),
        _ => None,
    };
    cases().into_iter().filter_map(reason).collect()
}

#[test]
fn every_refusal_forward_is_there() {
    let reasons = reasons();
    let met: BTreeSet<u64> = reasons.iter().copied().collect();
    assert_eq!(met, BTreeSet::from([0, 2, 3, 4, 5, 6, 7, 8, 9, 10, 11, 12, 13, 14, 15, 17, 41, 42]));
    let often = [(0, 500), (2, 5), (5, 4), (6, 15), (9, 100), (10, 150), (12, 150), (13, 20), (14, 20), (15, 4), (17, 5), (41, 100), (42, 150)];
    for (reason, least) in often {
        assert!(reasons.iter().filter(|&&one| one == reason).count() >= least, "{reason}");
    }
}

#[test]
fn every_parameter_is_there() {
    let mut kinds = BTreeSet::new();
    for case in cases() {
        if let Case::Forward { home, code, message } = case {
            let Ok(bytes) = isup::parameter(&message, &code, home) else { continue };
            kinds.insert((bytes[0], bytes[1], bytes.len()));
        }
    }
    // 4 to 14 national digits, 7 to 15 international ones.
    let wanted = |nature: u8, digits: usize| (nature + 128 * (digits % 2) as u8, 2 + digits.div_ceil(2));
    let all = (4..=14).map(|digits| wanted(3, digits)).chain((7..=15).map(|digits| wanted(4, digits)));
    for (first, length) in all {
        for second in [0x13, 0x17] {
            assert!(kinds.contains(&(first, second, length)), "{first:02x} {second:02x} {length}");
        }
    }
}

#[test]
fn every_answer_backward_is_there() {
    let answer = |case: Case| match case {
        Case::Backward { code, bytes } => Some(match isup::caller(&bytes, &code) {
            Ok(caller) => (0, caller.id, caller.number.len()),
            Err(refusal) => (refusal, false, 0),
        }),
        _ => None,
    };
    let answers: Vec<(u64, bool, usize)> = cases().into_iter().filter_map(answer).collect();
    for refusal in [41, 43, 44, 45, 46, 47] {
        assert!(answers.iter().filter(|answer| answer.0 == refusal).count() >= 60, "{refusal}");
    }
    for length in 8..=16 {
        assert!([true, false].iter().all(|&id| answers.contains(&(0, id, length))), "{length}");
    }
}

#[test]
fn the_file_is_the_same_each_time() {
    assert_eq!(file(), file());
}
