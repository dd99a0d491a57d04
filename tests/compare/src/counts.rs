//! What was called and what was met, for the report.

use second::drafts::Draft;
use second::profile::{Column, COLUMNS};
use second::start::Start;
use second::{judge, lines};
use std::ops::RangeInclusive;
use std::process::exit;

/// What a message was drawn as; two callers (CR 5) are counted once. Then what a parameter was to be made of, and bytes to be read as one
/// (CR 7); the messages of histories, and explicit ends (CR 8).
#[derive(Clone, Copy, Debug, PartialEq)]
pub enum Kind {
    Request,
    Response,
    Noise,
    Callers,
    Parameter,
    Bytes,
    Step,
    End,
}

impl Kind {
    pub fn of(draft: &Draft) -> Kind {
        match draft.start {
            Start::Request { .. } => Kind::Request,
            Start::Status { .. } => Kind::Response,
        }
    }
}

/// One more than the highest reason or refusal, and those that are printed.
const REASONS: usize = 48;
const PRINTED: [RangeInclusive<usize>; 2] = [0..=19, 41..=47];
const KINDS: usize = 8;

/// The reasons that each kind must meet. At 3 and before it there is no kind yet; it is that of what was drawn.
const OF_REQUESTS: [usize; 18] = [0, 1, 2, 3, 4, 5, 6, 7, 8, 9, 10, 11, 12, 13, 14, 15, 16, 18];
const OF_RESPONSES: [usize; 13] = [0, 1, 2, 3, 4, 5, 6, 9, 10, 11, 12, 16, 17];
const OF_CALLERS: [usize; 13] = [0, 5, 7, 8, 9, 10, 11, 12, 13, 14, 15, 16, 18];
const OF_PARAMETERS: [usize; 18] = [0, 2, 3, 4, 5, 6, 7, 8, 9, 10, 11, 12, 13, 14, 15, 17, 41, 42];
const OF_BYTES: [usize; 7] = [0, 41, 43, 44, 45, 46, 47];
const OF_STEPS: [usize; 19] = [0, 1, 2, 3, 4, 5, 6, 7, 8, 9, 10, 11, 12, 13, 14, 15, 16, 17, 18];
const OF_ENDS: [usize; 2] = [0, 19];

macro_rules! counted {
    ($name:ident, $names:ident: $($variant:ident = $text:literal),+ $(,)?) => {
        #[derive(Clone, Copy, Debug)]
        pub enum $name { $($variant),+ }
        const $names: &[&str] = &[$($text),+];
    };
}

counted!(Call, CALLS:
    Screen = "screen",
    EndCall = "end_call",
    Count = "count",
    Reading = "reading",
    CallingNumber = "calling_number",
    TakeRecord = "take_record",
    Replay = "replay",
    Report = "report",
    StatusOfCause = "status_of_cause",
    CauseOfStatus = "cause_of_status",
    IsupParameter = "isup_parameter",
    IsupCaller = "isup_caller",
    IsupStatus = "isup_status",
    ChangedRequest = "screen, names and extra fields of a request changed",
    ChangedResponse = "screen, names and extra fields of a response changed",
    TwoCallers = "screen, two withheld callers",
    History = "histories",
    ChangedHistory = "histories, names and extra fields changed",
    Step = "steps of histories: screen, end_call",
    Recorded = "screen, end_call: recorded cases",
    ReviewedCalling = "calling_number, worked cases of a reader",
    OddByte = "screen, an odd byte at every place",
    IsupRecorded = "isup_parameter, isup_caller: recorded cases",
    IsupChanged = "isup_parameter, names and extra fields changed",
);

counted!(Met, METS:
    MaskedFold = "withheld on side 1, From folded",
    UnmaskedResponse = "response whose Privacy would withhold, From folded, accepted on side 1",
    MaskedByHeader = "withheld on side 1 by header alone",
    MaskedByUser = "withheld on side 1 by user alone",
    MaskedById = "withheld on side 1 by id alone",
    MaskedBySeveral = "withheld on side 1 by two or three of them",
    MaskedBesideNone = "withheld on side 1, none beside it",
    MaskedByFolded = "withheld on side 1, Privacy folded",
    MaskedByLong = "withheld on side 1, Privacy of over 2,000 bytes",
    AskedOnSide0 = "would be withheld, but accepted on side 0",
    AskedElsewhere = "Privacy of ACK, BYE, CANCEL or OPTIONS would withhold, accepted on side 1",
    ShownNone = "shown on side 1, Privacy none",
    ShownLonger = "shown on side 1, a token longer or shorter than one of the three",
    ShownOther = "shown on side 1, a token with one byte other than in one of the three",
    MalformedPrivacy = "refused for Privacy, although one of the three stands in it",
    DoubledPrivacy = "refused for a second Privacy",
    TwoInOneField = "accepted INVITE with two identities in one field",
    TwoInTwoFields = "accepted INVITE with two identities in two fields",
    TwoHidden = "accepted INVITE with two identities, withheld on side 1",
    TwoShown = "accepted INVITE with two identities, shown on side 1",
    ThirdInOneField = "refused for a third identity, in one field",
    ThirdOverFields = "refused for a third identity, over several fields",
    SchemeInOneField = "refused for two identities of one scheme, in one field",
    SchemeOverFields = "refused for two identities of one scheme, in two fields",
    EmptyMember = "refused for an empty member among the identities",
    OtherBeforeIdentities = "refused for another malformed field before such identities",
    AgainBeforeIdentities = "refused for another field that came again, beside such identities",
    IgnoredIdentities = "such identities where they are ignored, accepted",
    SipBehindTel = "number of a sip identity behind a tel one in its field",
    SipInSecondField = "number of a sip identity in the second field",
    SipBehindTelFolded = "number of a sip identity behind a tel one in a folded field of over 256 bytes",
    TelAlone = "number of a tel identity alone",
    FoldedIdentity = "number of a folded identity",
    FoldedOver256 = "the same, over 256 bytes",
    FoldedOver2000 = "the same, over 2,000 bytes",
    TrunkOfResponse = "trunk number of a response that has an identity",
    EndsInName = "ends in a name or behind it",
    LongPhrase = "accepted response with a phrase of over 2,000 bytes",
    CallersInitial = "two callers: accepted, To without a tag",
    CallersLater = "two callers: accepted, To with a tag",
    CallersOneLength = "two callers: accepted, messages of one length",
    CallersFarLonger = "two callers: accepted, one message over 2,000 bytes longer",
    CallersFull = "two callers: accepted, a message of 8,192 bytes",
    CallersBothFull = "two callers: accepted, both of 8,192 bytes",
    CallersMostFields = "two callers: accepted, 96 fields",
    CallersTagOf1 = "two callers: accepted, a tag of 1 byte",
    CallersTagOf64 = "two callers: accepted, a tag of 64 bytes",
    CallersTagElsewhere = "two callers: accepted, the tag last in one From alone",
    CallersTagSpelled = "two callers: accepted, the tag's name in another letter case",
    CallersTagInUri = "two callers: accepted, tag= in the URI of the first From alone",
    CallersTagInQuotes = "two callers: accepted, tag= in quotes in the first From alone",
    CallersBare = "two callers: accepted, From without brackets and with them",
    CallersSchemes = "two callers: accepted, From of a sip and of a tel URI",
    CallersFold = "two callers: accepted, the first From alone folded",
    CallersLong = "two callers: accepted, a From of over 2,000 bytes and one of under 100",
    CallersFromAlone = "two callers: accepted, another From alone",
    CallersIdentityAlone = "two callers: accepted, another number in the identity alone",
    CallersIdentitySchemes = "two callers: accepted, a sip and a tel identity",
    CallersIdentityMore = "two callers: accepted, one identity and two",
    CallersIdentityOrder = "two callers: accepted, a sip identity before a tel one in one field and behind it",
    CallersTwoFields = "two callers: accepted, two identities in two fields",
    CallersTwoFieldsOrder = "two callers: accepted, two identities in two fields in the other order",
    CallersIdentityFold = "two callers: accepted, the first identity alone folded",
    CallersIdentityLong = "two callers: accepted, an identity of over 2,000 bytes and one of under 100",
    CallersNoIdentity = "two callers: accepted, no identity",
    CallersExact = "two callers: accepted, no byte of room to spare",
    CallersOneByteShort = "two callers: refused, one byte of room short",
    CallersNoRoom = "two callers: refused, no room",
    CallersOneFieldMore = "two callers: refused, 97 fields",
    CallersSecondFrom = "two callers: refused for a second From",
    CallersNotAllowed = "two callers: refused for the same identities, another From",
    CallersSecondPrivacy = "two callers: refused for a second Privacy",
    CallersOnSide0 = "two callers: accepted on side 0, where they differ",
    CallersShown = "two callers: accepted with a Privacy that hides nobody, where they differ",
    CallersEntered = "two callers: accepted, their pair entered",
    CallersHeld = "two callers: accepted, their pair held before",
    TakenRelay = "take_record: of a relay caller, accepted",
    TakenRelayRefused = "take_record: of a relay caller, refused",
    TakenNear = "take_record: not of one, although X-Relay-Mod stands in it",
    TakenUnread = "take_record: not read, although X-Relay-Mode stands in it",
    TakenFull = "take_record: its count is 4,294,967,295 and stays",
    TakenOver = "take_record: 1,000,000 or more were read before",
    TakenEnded = "take_record: the text had ended before",
    TakenEntered = "take_record: a pair is entered",
    TakenRemoved = "take_record: a pair is removed",
    TakenMeets32 = "take_record: refused with 18",
    TakenNoMore = "take_record: not counted, and the table that it would change stays",
    EndedWith0 = "text of records that ended with 0",
    EndedWith31 = "text of records that ended with 31",
    EndedWith32 = "text of records that ended with 32",
    EndedWith33 = "text of records that ended with 33",
    Read = "records read from texts of fewer than a million",
    ReadRelay = "the same, in the line relay",
    ReadOther = "the same, in the line other",
    ReadUnread = "the same, in the line unread",
    ReadMeets32 = "the same, refused with 18",
    CauseListed = "drawn cause with a row of its own",
    CauseOfClass = "drawn cause with the row of its class end",
    CauseOver = "drawn cause of 128 to 399, refused",
    CauseCut = "drawn cause over 32 bits whose low 32 bits are a cause, refused",
    RowStood = "status_of_cause: another cause stood where the row goes",
    RefusalStood = "status_of_cause: 21 stood where 0 goes",
    BeforeNone = "single message, none held before",
    BeforeOwn = "single message, its own pair held before",
    BeforeFull = "single message, 32 pairs held before",
    BeforeCopies = "single message, a pair in several places before",
    BeforeIllFormed = "single message, an ill-formed place before",
    BeforeAny = "single message, more than half of the places ill-formed before: any bytes",
    ChangedTable = "single message with names and extra fields changed, the table changes",
    ChangedHistoryTable = "step of a history with names and extra fields changed, the table changes",
    HistoryFromNone = "history from none held",
    HistoryFromFull = "history from 32 pairs",
    HistoryFromCopies = "history from a table with a pair in several places",
    HistoryFromIllFormed = "history from a table with an ill-formed place",
    HistoryFromAny = "history from a table with more than half of its places ill-formed: any bytes",
    HistoryFills = "history from none held that meets 18",
    HiddenInvite = "masked by the table alone: INVITE",
    HiddenLater = "masked by the table alone: INVITE whose To has a tag",
    HiddenAck = "masked by the table alone: ACK",
    HiddenBye = "masked by the table alone: BYE",
    HiddenCancel = "masked by the table alone: CANCEL",
    HiddenOptions = "masked by the table alone: OPTIONS",
    HiddenIdentity = "masked by the table alone, an identity dropped",
    HiddenFold = "masked by the table alone, From folded",
    HiddenLongest = "masked by the table alone, a pair of 128 and 64 bytes",
    HiddenShortest = "masked by the table alone, a pair of one byte each",
    HiddenByCopies = "masked by the table alone, the pair in several places",
    HiddenByLast = "masked by the table alone, the pair in the last place",
    HiddenShorter = "masked by the table alone, too long for the room if it were not",
    NearTag = "shown or entered, the same Call-ID held with another tag",
    NearCallId = "shown or entered, the same tag held with another Call-ID",
    NearCase = "shown or entered, the pair held in another letter case",
    NearLonger = "shown or entered, a pair held that begins with its texts",
    NearBorder = "shown or entered, a pair held whose texts joined are the same",
    LooksHeld = "shown or entered, an ill-formed place has its texts",
    EnteredEmpty = "pair entered at an empty place",
    EnteredOverJunk = "pair entered at an empty place with other bytes behind the 0",
    EnteredLater = "pair entered at an empty place behind one that is free in another way",
    EnteredFree = "pair entered at a place that is free in another way",
    EnteredOverLong = "pair entered at a place with a length over its bound",
    EnteredOverCopy = "pair entered over the copy of another",
    EnteredLast = "pair entered at the last place",
    EnteredAs32nd = "pair entered as the 32nd",
    HeldAlready = "withheld INVITE accepted whose pair is held",
    HeldAlreadyIn32 = "withheld INVITE accepted whose pair is one of 32",
    ShownMeets32 = "INVITE accepted that meets 32, not withheld",
    Meets32 = "refused with 18",
    Meets32NoRoom = "refused with 18, less than 100 bytes of room",
    BeforeMeets32 = "refused with 6 to 15, although a new pair meets 32",
    RemovedOne = "pair removed by a BYE",
    RemovedCopies = "pair removed by a BYE from several places",
    RemovedLast = "pair removed by a BYE from the last place",
    RemovedOf32 = "pair removed by a BYE, one of 32",
    ByeUnknown = "BYE accepted whose pair is not held",
    RefusedBye = "BYE refused with 6 to 15, its pair held",
    RefusedOpening = "withheld INVITE refused with 6 to 15, its pair not held",
    NoRoomBye = "BYE refused with 16, its pair held",
    NoRoomOpening = "withheld INVITE refused with 16, its pair not held",
    NoRoomMasked = "refused with 16, room enough if the table did not mask it",
    TrustedHeld = "accepted on side 0, its pair held",
    TrustedBye = "BYE accepted on side 0, its pair held",
    TrustedOpening = "withheld INVITE accepted on side 0, its pair not held",
    ResponseHeld = "response accepted on side 1, its pair held",
    ResponseToBye = "response to a BYE accepted on side 1, its pair held",
    EndedOne = "explicit end of a pair",
    EndedCopies = "explicit end of a pair in several places",
    EndedUnknown = "explicit end of a pair that is not held",
    EndedNear = "explicit end of a pair that is not held, one near to it is",
    EndedEmpty = "explicit end with an empty text",
    EndedLong = "explicit end with a text of one byte too many",
    EndedOver255 = "explicit end with a text of over 255 bytes",
    EndedOtherByte = "explicit end with a byte that no pair has",
    EndedLooksHeld = "explicit end of texts that stand in an ill-formed place",
    MadeNationalOdd = "parameter: national, an odd number of digits",
    MadeNationalEven = "parameter: national, an even number of digits",
    MadeInternationalOdd = "parameter: international, an odd number of digits",
    MadeInternationalEven = "parameter: international, an even number of digits",
    MadeAllowed = "parameter: presentation allowed",
    MadeRestricted = "parameter: presentation restricted",
    MadeAbroad = "parameter: of our code, not at home",
    MadeOfAnother = "parameter: at home, of another code",
    MadeOfNearlyOurs = "parameter: at home, of a code that is ours in part",
    MadeByAnyFlag = "parameter: national, by a flag over 1",
    MadeByHighFlag = "parameter: national, by a flag whose low 32 bits are 0",
    MadeWithZero = "parameter: national, a 0 behind the code",
    MadeShortest = "parameter: of 4 bytes",
    MadeLongest = "parameter: of 10 bytes",
    MadeFoldedIdentity = "parameter: of a folded identity",
    MadeFoldedTo = "parameter: of an INVITE whose To is folded",
    MadeOfTwo = "parameter: of two identity fields",
    MadeOfChanged = "parameter: the same with names and extra fields changed",
    ScreenBefore41 = "parameter: refused by the screen, the country code bad too",
    NoInviteBefore41 = "parameter: refused with 42, the country code bad too",
    LaterInvite = "parameter: refused with 42, an INVITE whose To has a tag",
    ResponseTo42 = "parameter: refused with 42, a response",
    TakenNational = "caller: taken, national",
    TakenInternational = "caller: taken, international",
    TakenWithId = "caller: taken, with id",
    TakenWithoutId = "caller: taken, without id",
    CutAtTwo = "caller: cut short, of two bytes",
    Unused41 = "caller: refused for a country code that is not used",
    LeadingZero = "caller: refused with 47, international with a 0 in front",
    CodeTooMuch = "caller: refused with 47, too long with the country code alone",
    CodeTooLittle = "caller: refused with 47, too short even with the country code",
    LongOver9 = "caller: refused with 46, over 20 bytes",
    LongNumber = "caller: refused with 47, over 20 bytes",
);

pub struct Counts {
    reasons: [[u64; REASONS]; KINDS],
    accepted: [u64; COLUMNS.len()],
    calls: Vec<u64>,
    mets: Vec<u64>,
}

impl Counts {
    pub fn new() -> Counts {
        Counts { reasons: [[0; REASONS]; KINDS], accepted: [0; COLUMNS.len()], calls: vec![0; CALLS.len()], mets: vec![0; METS.len()] }
    }

    pub fn call(&mut self, call: Call) {
        self.calls[call as usize] += 1;
    }

    pub fn met(&mut self, met: Met, really: bool) {
        self.met_often(met, u64::from(really));
    }

    pub fn met_often(&mut self, met: Met, times: u64) {
        self.mets[met as usize] += times;
    }

    /// A drawn message and its reason.
    pub fn reason(&mut self, kind: Kind, reason: u64, message: &[u8]) {
        self.reasons[kind as usize][reason as usize] += 1;
        if reason == 0 {
            let column = lines::read(message).ok().and_then(|lines| judge::column(&lines));
            let place = COLUMNS.iter().position(|&one| Some(one) == column);
            self.accepted[place.expect("an accepted message has a column")] += 1;
        }
    }

    /// The reason of two callers, of a parameter, or the refusal of bytes.
    pub fn reason_alone(&mut self, kind: Kind, reason: u64) {
        self.reasons[kind as usize][reason as usize] += 1;
    }

    /// Prints all; from 100,000 messages on, what was never met fails.
    pub fn report(&self, seed: u64, count: u64) {
        println!("no difference: seed {seed}, {count} messages");
        for (name, calls) in CALLS.iter().zip(&self.calls) {
            println!("{calls:>12}  {name}");
        }
        println!("      reason    requests   responses       noise two callers  parameters       bytes   histories        ends");
        for reason in PRINTED.into_iter().flatten() {
            let numbers: String = self.reasons.iter().map(|kind| format!("{:>12}", kind[reason])).collect();
            println!("{reason:>12}{numbers}");
        }
        for (column, messages) in COLUMNS.iter().zip(&self.accepted).filter(|(&column, _)| column != Column::Re) {
            println!("{messages:>12}  accepted in column {column:?}");
        }
        for (name, messages) in METS.iter().zip(&self.mets) {
            println!("{messages:>12}  {name}");
        }
        let never = self.never();
        if count >= 100_000 && !never.is_empty() {
            println!("never reached: {never:?}");
            exit(1);
        }
    }

    fn never(&self) -> Vec<String> {
        let missed = |kind: Kind, due: &[usize]| -> Vec<String> {
            due.iter().filter(|&&reason| self.reasons[kind as usize][reason] == 0).map(|reason| format!("reason {reason} of a {kind:?}")).collect()
        };
        let mut never = [missed(Kind::Request, &OF_REQUESTS), missed(Kind::Response, &OF_RESPONSES), missed(Kind::Callers, &OF_CALLERS)].concat();
        never.extend([missed(Kind::Parameter, &OF_PARAMETERS), missed(Kind::Bytes, &OF_BYTES), missed(Kind::Step, &OF_STEPS), missed(Kind::End, &OF_ENDS)].concat());
        // Both columns of INVITE are counted as the first.
        let columns = COLUMNS.iter().zip(&self.accepted).filter(|(&column, &messages)| column != Column::Re && messages == 0);
        never.extend(columns.map(|(column, _)| format!("column {column:?}")));
        never.extend(METS.iter().zip(&self.mets).filter(|(_, &messages)| messages == 0).map(|(name, _)| name.to_string()));
        never
    }
}
