// Request R-11: what is told of a network over an access. Offsets are counted by hand: with its
// length a card has 16 octets, a start or reject 12, an accept 13, a timer 6, a power cycle 4, an
// import of one network 7.

use super::*;
use crate::explain::Question;

// Events of access 0, kind and body; the starts are on AWAY but for one on 002-03.
const CARD: &str = "01 00 00 F1 10 01 00 F1 10 F0 FF 00 00 07";
const START: &str = "02 00 00 00 00 F2 20 00 00 2A";
const BY_HAND: &str = "02 00 00 01 00 F2 20 00 00 2A";
const OTHER: &str = "02 00 00 00 00 F2 30 00 00 2A";
const BAN: &str = "03 00 00 00 08 07 7E 00 44 0B";
const NO_N1: &str = "03 00 00 00 08 07 7E 00 44 1B";
const SURE_NO_N1: &str = "03 00 00 01 08 07 7E 00 44 1B";
const ACCEPT: &str = "03 00 00 01 08 07 7E 00 42 01 01";
const OUT: &str = "04 00 04 00";
const POWER: &str = "05 00";
const IMPORT: &str = "0A 00 00 F2 20";
// Of access 1, the reject protected.
const WIFI_START: &str = "02 00 01 00 00 F2 20 00 00 2A";
const WIFI_NO_N1: &str = "03 00 01 01 08 07 7E 00 44 1B";

const NEVER: &str = "no, never set";
/// What is said of a mark is what was said before.
const SAME: &str = "=";

/// An event, what the first line says of it, both counters and what is said of both marks.
type Row<'a> = (&'a str, &'a str, [u8; 2], &'a str, &'a str);

/// Each record behind its length.
fn log(events: &[&str]) -> Vec<u8> {
    let framed = |event: &&str| {
        let octets = octets(event);
        [&(octets.len() as u16).to_le_bytes(), &octets[..]].concat()
    };
    events.iter().flat_map(framed).collect()
}

/// What is printed for these arguments; the program fails exactly if the last line is a refusal.
fn told(log: &[u8], words: &str) -> String {
    let words: Vec<String> = words.split(' ').map(String::from).collect();
    let mut output = crate::Output::new(vec![]);
    let asked = crate::question(&words).unwrap();
    let result = crate::explain(log, &mut output, &asked, crate::fresh(crate::LIMITS));
    output.flush().unwrap();
    let text = String::from_utf8(output.sink).unwrap();
    let last = text.lines().last().unwrap_or("");
    match result {
        Ok(()) => assert!(last.is_empty() || last.starts_with("N1 not allowed: "), "{last}"),
        Err(refusal) => assert_eq!(refusal.to_string(), last),
    }
    text
}

fn block(head: &str, [ban, n1]: [u8; 2], marks: [&str; 2]) -> String {
    format!(
        "{head}\nban counter {ban} of 3, N1 counter {n1} of 3\n\
         forbidden: {}\nN1 not allowed: {}\n",
        marks[0], marks[1]
    )
}

/// A log and what is told of AWAY over an access, where it ends after each event and with `each`.
fn story(access: usize, rows: &[Row]) {
    let (name, words) = (["mobile", "Wi-Fi"][access], format!("002-02 {access}"));
    let (mut events, mut blocks, mut marks) = (vec![], vec![], [NEVER; 2]);
    for &(event, head, counters, forbidden, barred) in rows {
        events.push(event);
        for (mark, said) in marks.iter_mut().zip([forbidden, barred]) {
            *mark = if said == SAME { *mark } else { said };
        }
        let head = format!("002-02 over {name} after event {} at {head}", events.len());
        blocks.push(block(&head, counters, marks));
        assert_eq!(told(&log(&events), &words), *blocks.last().unwrap());
    }
    assert_eq!(told(&log(&events), &(words + " each")), blocks.join("\n"));
}

/// Document 01's listing, in full.
#[test]
fn listing_explained() {
    let text = "\
002-02 over mobile after event 1 at 0, card, answer 0
ban counter 0 of 3, N1 counter 0 of 3
forbidden: no, never set
N1 not allowed: no, never set

002-02 over mobile after event 2 at 16, start, answer 0
ban counter 0 of 3, N1 counter 0 of 3
forbidden: no, never set
N1 not allowed: no, never set

002-02 over mobile after event 3 at 28, unprotected reject, cause 11, answer 0
ban counter 1 of 3, N1 counter 0 of 3
forbidden: yes, set by event 3 at 28, unprotected reject, cause 11
N1 not allowed: no, never set

002-02 over mobile after event 4 at 40, start, answer 8
ban counter 1 of 3, N1 counter 0 of 3
forbidden: yes, set by event 3 at 28, unprotected reject, cause 11
N1 not allowed: no, never set

002-02 over mobile after event 5 at 52, T3247 out, answer 0
ban counter 1 of 3, N1 counter 0 of 3
forbidden: no, lifted by event 5 at 52, T3247 out: the counter, 1, was above 0 and below its limit
N1 not allowed: no, never set

002-02 over mobile after event 6 at 58, start, answer 0
ban counter 1 of 3, N1 counter 0 of 3
forbidden: no, lifted by event 5 at 52, T3247 out: the counter, 1, was above 0 and below its limit
N1 not allowed: no, never set
";
    assert_eq!(told(&LISTING, "00F220 0 each"), text);
    assert_eq!(told(&LISTING, "00F220 0"), text.split("\n\n").last().unwrap());
    let quiet = "002-02 over Wi-Fi after event 6 at 58, start, answer 0";
    assert_eq!(told(&LISTING, "00F220 1"), block(quiet, [0, 0], [NEVER; 2]));
}

/// The third unprotected 11: T3247 does not lift the ban, nor does a power cycle. Each reject that
/// is taken moves what set it; what is refused moves nothing.
#[test]
fn a_ban_kept_at_the_limit() {
    let first = "yes, set by event 3 at 28, unprotected reject, cause 11";
    let second = "yes, set by event 5 at 52, unprotected reject, cause 11";
    let third = "yes, set by event 7 at 76, unprotected reject, cause 11";
    let limit = "the counter, 3, is at its limit";
    let by_timer = format!("{third}; kept by event 8 at 88, T3247 out: {limit}");
    let by_power = format!("{third}; kept by event 11 at 118, power cycle: {limit}");
    story(
        0,
        &[
            (CARD, "0, card, answer 0", [0, 0], NEVER, NEVER),
            (START, "16, start, answer 0", [0, 0], SAME, SAME),
            (BAN, "28, unprotected reject, cause 11, answer 0", [1, 0], first, SAME),
            (BY_HAND, "40, start, answer 0", [1, 0], SAME, SAME),
            (BAN, "52, unprotected reject, cause 11, answer 0", [2, 0], second, SAME),
            (BY_HAND, "64, start, answer 0", [2, 0], SAME, SAME),
            (BAN, "76, unprotected reject, cause 11, answer 0", [3, 0], third, SAME),
            (OUT, "88, T3247 out, answer 0", [3, 0], &by_timer, SAME),
            (BAN, "94, unprotected reject, cause 11, answer 6", [3, 0], SAME, SAME),
            (START, "106, start, answer 8", [3, 0], SAME, SAME),
            (POWER, "118, power cycle, answer 0", [3, 0], &by_power, SAME),
            (OUT, "122, T3247 out, answer 11", [3, 0], SAME, SAME),
        ],
    );
}

/// An import's ban has counter 0, so that it is kept; also as the first event, before any card. An
/// import of what is banned already moves what set it.
#[test]
fn a_ban_of_the_card() {
    let zero = "the counter is 0, the card's own list put it there";
    let by_power =
        format!("yes, set by event 1 at 0, import; kept by event 2 at 7, power cycle: {zero}");
    let by_timer =
        format!("yes, set by event 4 at 27, import; kept by event 7 at 58, T3247 out: {zero}");
    let anew = "no, lifted by event 3 at 11, card: a new record";
    let accepted = "no, lifted by event 10 at 83, accept: the network accepted";
    story(
        0,
        &[
            (IMPORT, "0, import, answer 0", [0, 0], "yes, set by event 1 at 0, import", NEVER),
            (POWER, "7, power cycle, answer 0", [0, 0], &by_power, SAME),
            (CARD, "11, card, answer 0", [0, 0], anew, SAME),
            (IMPORT, "27, import, answer 0", [0, 0], "yes, set by event 4 at 27, import", SAME),
            (OTHER, "34, start, answer 0", [0, 0], SAME, SAME),
            (BAN, "46, unprotected reject, cause 11, answer 0", [0, 0], SAME, SAME),
            (OUT, "58, T3247 out, answer 0", [0, 0], &by_timer, SAME),
            (IMPORT, "64, import, answer 0", [0, 0], "yes, set by event 8 at 64, import", SAME),
            (BY_HAND, "71, start, answer 0", [0, 0], SAME, SAME),
            (ACCEPT, "83, accept, answer 0", [0, 0], accepted, SAME),
            (POWER, "96, power cycle, answer 0", [0, 0], SAME, SAME),
        ],
    );
}

/// With a counter above 0 an import's ban is lifted as any other.
#[test]
fn an_import_of_a_counted_network() {
    let ban = "yes, set by event 3 at 28, unprotected reject, cause 11";
    let below = "the counter, 1, was above 0 and below its limit";
    let by_timer = format!("no, lifted by event 5 at 47, T3247 out: {below}");
    let by_power = format!("no, lifted by event 7 at 60, power cycle: {below}");
    story(
        0,
        &[
            (CARD, "0, card, answer 0", [0, 0], NEVER, NEVER),
            (START, "16, start, answer 0", [0, 0], SAME, SAME),
            (BAN, "28, unprotected reject, cause 11, answer 0", [1, 0], ban, SAME),
            (IMPORT, "40, import, answer 0", [1, 0], "yes, set by event 4 at 40, import", SAME),
            (OUT, "47, T3247 out, answer 0", [1, 0], &by_timer, SAME),
            (IMPORT, "53, import, answer 0", [1, 0], "yes, set by event 6 at 53, import", SAME),
            (POWER, "60, power cycle, answer 0", [1, 0], &by_power, SAME),
        ],
    );
}

/// A power cycle clears every N1 mark, T3247 those below the limit.
#[test]
fn n1_marks() {
    let first = "yes, set by event 3 at 28, unprotected reject, cause 27";
    let cleared = "no, lifted by event 5 at 52, power cycle: it clears every N1 mark";
    let second = "yes, set by event 7 at 68, unprotected reject, cause 27";
    let lifted = "no, lifted by event 8 at 80, T3247 out: \
                  the counter, 2, was above 0 and below its limit";
    let third = "yes, set by event 10 at 98, protected reject, cause 27";
    let kept =
        format!("{third}; kept by event 13 at 134, T3247 out: the counter, 3, is at its limit");
    let again = "no, lifted by event 15 at 146, power cycle: it clears every N1 mark";
    story(
        0,
        &[
            (CARD, "0, card, answer 0", [0, 0], NEVER, NEVER),
            (START, "16, start, answer 0", [0, 0], SAME, SAME),
            (NO_N1, "28, unprotected reject, cause 27, answer 0", [0, 1], SAME, first),
            (BY_HAND, "40, start, answer 8", [0, 1], SAME, SAME),
            (POWER, "52, power cycle, answer 0", [0, 1], SAME, cleared),
            (START, "56, start, answer 0", [0, 1], SAME, SAME),
            (NO_N1, "68, unprotected reject, cause 27, answer 0", [0, 2], SAME, second),
            (OUT, "80, T3247 out, answer 0", [0, 2], SAME, lifted),
            (START, "86, start, answer 0", [0, 2], SAME, SAME),
            (SURE_NO_N1, "98, protected reject, cause 27, answer 0", [0, 3], SAME, third),
            (OTHER, "110, start, answer 0", [0, 3], SAME, SAME),
            (BAN, "122, unprotected reject, cause 11, answer 0", [0, 3], SAME, SAME),
            (OUT, "134, T3247 out, answer 0", [0, 3], SAME, &kept),
            (OUT, "140, T3247 out, answer 11", [0, 3], SAME, SAME),
            (POWER, "146, power cycle, answer 0", [0, 3], SAME, again),
        ],
    );
}

/// With a card all is forgotten, but what lifted a mark is told on.
#[test]
fn cards_explained() {
    let ban = "yes, set by event 3 at 28, unprotected reject, cause 11";
    let barred = "yes, set by event 6 at 68, unprotected reject, cause 27";
    // Kind 11, of edition 2, has an octet more.
    let edition = "0B 00 02 00 F1 10 01 00 F1 10 F0 FF 00 00 07";
    let first = "no, lifted by event 4 at 40, card: a new record";
    let second = "no, lifted by event 7 at 80, card: a new record";
    story(
        0,
        &[
            (CARD, "0, card, answer 0", [0, 0], NEVER, NEVER),
            (START, "16, start, answer 0", [0, 0], SAME, SAME),
            (BAN, "28, unprotected reject, cause 11, answer 0", [1, 0], ban, SAME),
            (CARD, "40, card, answer 0", [0, 0], first, SAME),
            (START, "56, start, answer 0", [0, 0], SAME, SAME),
            (NO_N1, "68, unprotected reject, cause 27, answer 0", [0, 1], SAME, barred),
            (edition, "80, card, answer 0", [0, 0], SAME, second),
            (POWER, "97, power cycle, answer 0", [0, 0], SAME, SAME),
        ],
    );
}

/// A protected 27 over access 1 takes the counter of access 0 to the limit too, but sets no mark
/// there: what set the one that stands stays, and T3247 keeps it.
#[test]
fn a_protected_27_explained() {
    let (told, timer) = ("52, protected reject, cause 27, answer 0", "64, T3247 out, answer 0");
    let mobile = "yes, set by event 3 at 28, unprotected reject, cause 27";
    let wifi = "yes, set by event 5 at 52, protected reject, cause 27";
    let limit = "the counter, 3, is at its limit";
    let kept = |set| format!("{set}; kept by event 6 at 64, T3247 out: {limit}");
    story(
        0,
        &[
            (CARD, "0, card, answer 0", [0, 0], NEVER, NEVER),
            (START, "16, start, answer 0", [0, 0], SAME, SAME),
            (NO_N1, "28, unprotected reject, cause 27, answer 0", [0, 1], SAME, mobile),
            (WIFI_START, "40, start, answer 0", [0, 1], SAME, SAME),
            (WIFI_NO_N1, told, [0, 3], SAME, SAME),
            (OUT, timer, [0, 3], SAME, &kept(mobile)),
        ],
    );
    story(
        1,
        &[
            (CARD, "0, card, answer 0", [0, 0], NEVER, NEVER),
            (START, "16, start, answer 0", [0, 0], SAME, SAME),
            (NO_N1, "28, unprotected reject, cause 27, answer 0", [0, 0], SAME, SAME),
            (WIFI_START, "40, start, answer 0", [0, 0], SAME, SAME),
            (WIFI_NO_N1, told, [0, 3], SAME, wifi),
            (OUT, timer, [0, 3], SAME, &kept(wifi)),
        ],
    );
}

/// Without an entry on access 0 it is skipped there.
#[test]
fn a_protected_27_of_one_access() {
    story(
        0,
        &[
            (CARD, "0, card, answer 0", [0, 0], NEVER, NEVER),
            (WIFI_START, "16, start, answer 0", [0, 0], SAME, SAME),
            (WIFI_NO_N1, "28, protected reject, cause 27, answer 0", [0, 0], SAME, SAME),
        ],
    );
}

/// The log of the truck up to T3247 out, event 34 at 400: sixteen networks, 002-02 to 002-17, each
/// with a ban that it lifts.
fn sixteen_lifted() -> Vec<u8> {
    // The MNC 02 is the octet 20.
    let octet = |mnc: u8| mnc % 10 << 4 | mnc / 10;
    let start = |mnc| format!("02 00 00 00 00 F2 {:02X} 00 00 2A", octet(mnc));
    let asked = (2..=17).map(|mnc| log(&[&start(mnc), BAN]));
    [log(&[CARD]), asked.collect::<Vec<_>>().concat(), log(&[OUT])].concat()
}

/// For the seventeenth network the first is forgotten. An import gives no place up. The first comes
/// back with counter 1, in the place of the second. What was lifted stays so.
#[test]
fn a_seventeenth_network_explained() {
    let lifted = "no, lifted by event 34 at 400, T3247 out: \
                  the counter, 1, was above 0 and below its limit";
    let mut events = sixteen_lifted();
    let mut then = |more: &[&str], point: &str, told_of: &[(&str, u8, &str)]| {
        events.extend(log(more));
        for &(name, ban, forbidden) in told_of {
            let head = format!("{name} over mobile after event {point}");
            let expected = block(&head, [ban, 0], [forbidden, NEVER]);
            assert_eq!(told(&events, &format!("{name} 0")), expected);
        }
    };
    let all = ["002-02", "002-03", "002-17"].map(|name| (name, 1, lifted));
    then(&[], "34 at 400, T3247 out, answer 0", &all);
    let set = "yes, set by event 36 at 418, unprotected reject, cause 11";
    then(
        &["02 00 00 00 00 F2 81 00 00 2A", BAN],
        "36 at 418, unprotected reject, cause 11, answer 0",
        &[("002-02", 0, lifted), ("002-03", 1, lifted), ("002-18", 1, set)],
    );
    let refused = [("002-03", 1, lifted), ("002-18", 1, set), ("002-19", 0, NEVER)];
    then(&["0A 00 00 F2 91"], "37 at 430, import, answer 4", &refused);
    let again = "yes, set by event 39 at 449, unprotected reject, cause 11";
    then(
        &[START, BAN],
        "39 at 449, unprotected reject, cause 11, answer 0",
        &[("002-02", 1, again), ("002-03", 0, lifted), ("002-04", 1, lifted)],
    );
}

/// The listing cut to so many octets: the events before the cut, then where it is.
#[test]
fn a_bad_log_explained() {
    let each = told(&LISTING, "002-02 0 each");
    let blocks: Vec<String> =
        each.trim_end().split("\n\n").map(|block| format!("{block}\n")).collect();
    let starts = [0, 16, 28, 40, 52, 58, 70];
    for cut in 1..=70 {
        let whole = starts.iter().filter(|start| **start <= cut).count() - 1;
        let line = match starts.contains(&cut) {
            true => String::new(),
            false => format!("22: bad log at {}\n", starts[whole]),
        };
        let log = &LISTING[..cut];
        assert_eq!(told(log, "002-02 0 each"), blocks[..whole].join("\n") + &line);
        let last = blocks[..whole].last().map_or("", String::as_str);
        assert_eq!(told(log, "002-02 0"), format!("{last}{line}"));
    }
    for log in [&[2][..], &[0, 0], &[1, 0, 5, 0], &[2, 0, 5]] {
        assert_eq!(told(log, "002-02 1"), "22: bad log at 0\n");
        assert_eq!(told(log, "002-02 1 each"), "22: bad log at 0\n");
    }
}

/// A log without events is no fault.
#[test]
fn no_event() {
    assert_eq!(told(&[], "002-02 0 each"), "");
    let mobile = block("002-02 over mobile, no event", [0, 0], [NEVER; 2]);
    assert_eq!(told(&[], "002-02 0"), mobile);
    for name in ["310-260", "123-459", "999-99"] {
        let wifi = block(&format!("{name} over Wi-Fi, no event"), [0, 0], [NEVER; 2]);
        assert_eq!(told(&[], &format!("{name} 1")), wifi);
    }
}

/// 4,096 events, and what may come behind them: the first fault is told. What is no network or
/// access is refused where the log has no fault.
#[test]
fn a_long_log_explained() {
    let events = log(&vec![POWER; 4096]);
    let head = "002-02 over mobile after event 4096 at 16380, power cycle, answer 0";
    let last = block(head, [0, 0], [NEVER; 2]);
    let (more, bad) = ("21: more than 4096 events\n", "22: bad log at 16384\n");
    for (tail, line) in [
        (&[][..], ""),
        (&[2, 0, 5, 0], more),
        (&[2, 0, 5, 0, 1, 0], more),
        (&[2, 0, 5], bad),
        (&[2], bad),
        (&[1, 0], bad),
        (&[0, 0, 5, 0], bad),
    ] {
        let log = [&events, tail].concat();
        assert_eq!(told(&log, "002-02 0"), format!("{last}{line}"));
        let each = told(&log, "002-02 0 each");
        assert_eq!(each.split("\n\n").count(), 4096);
        assert!(each.ends_with(&format!("\n\n{last}{line}")));
        let alone = if line.is_empty() { "1: no network or access\n" } else { line };
        for words in ["00FA20 0", "002-02 2", "FFFFFF 9 each", "002-02 2 each"] {
            assert_eq!(told(&log, words), alone);
        }
    }
}

/// How each event is called, and its answer in a new record.
const NAMES: &[(&str, &str)] = &[
    (CARD, "card, answer 0"),
    ("01 00 00 A1 10 01 00 F1 10 F0 FF 00 00 07", "card, answer 1"),
    ("01 00 00 F1 10 01 00 F1 10 F0 FF 00 00", "unknown, answer 1"),
    ("0B 00 04 00 F1 10 01 00 F1 10 F0 FF 00 00 07", "card, answer 1"),
    ("0B 00 01 00 F1 10 01 00 F1 10 F0 FF 00 00", "unknown, answer 1"),
    (START, "start, answer 5"),
    ("02 00 00 00 00 F2 20 00 00", "unknown, answer 1"),
    ("02 00 00 00 00 F2 20 00 00 2A 00", "unknown, answer 1"),
    (ACCEPT, "accept, answer 6"),
    ("03 00 00 00 08 07 00 00 42", "accept, answer 6"),
    (BAN, "unprotected reject, cause 11, answer 6"),
    (SURE_NO_N1, "protected reject, cause 27, answer 6"),
    ("03 00 00 02 08 07 7E 00 44 FF", "protected reject, cause 255, answer 1"),
    ("03 00 02 00 08 07 7D 01 44 00 9F", "unprotected reject, cause 0, answer 1"),
    ("03 00 00 00 08 07 7E 00 44", "message, answer 6"),
    ("03 00 00 00 08 07 7E 00 41 0B", "message, answer 6"),
    ("03 00 00 00 08 07 44 0B", "message, answer 6"),
    ("03 00 00 00 08 07", "message, answer 6"),
    ("03 00 00 00 08", "unknown, answer 1"),
    ("08 00 00 00 08 07 84 03 7E 00 44 16", "unprotected reject, cause 22, answer 6"),
    ("08 00 00 01 08 07 84 03 7E 00 42", "accept, answer 6"),
    ("08 00 00 00 08 07 84 03", "message, answer 6"),
    ("08 00 00 00 08 07 84", "unknown, answer 1"),
    ("04 00 01 00", "T3510 out, answer 11"),
    ("04 00 02 01", "T3511 out, answer 11"),
    ("04 00 03 00", "T3502 out, answer 11"),
    (OUT, "T3247 out, answer 11"),
    ("04 00 04 01", "T3247 out, answer 1"),
    ("04 00 05 00", "T3512 out, answer 11"),
    ("04 00 06 01", "T3346 out, answer 11"),
    ("04 00 00 00", "timer, answer 1"),
    ("04 00 07 00", "timer, answer 1"),
    ("04 00 04", "unknown, answer 1"),
    ("04 00 04 00 00", "unknown, answer 1"),
    (POWER, "power cycle, answer 0"),
    ("05 00 00", "unknown, answer 1"),
    ("06 00 00 03", "key set, answer 6"),
    ("06 00 00", "unknown, answer 1"),
    ("07 00 00 02 00 F2 20 00 00 2A 00 00 00 00", "update, answer 6"),
    ("07 00 00 02 00 F2 20 00 00 2A 00 00 00", "unknown, answer 1"),
    ("07 00 00 02 00 F2 20 00 00 2A 00 00 00 00 00", "unknown, answer 1"),
    (IMPORT, "import, answer 0"),
    ("0A 00", "import, answer 0"),
    ("0A 00 00", "import, answer 1"),
    ("09 00", "unknown, answer 1"),
    ("05 01", "unknown, answer 1"),
    ("00 00", "unknown, answer 1"),
];

#[test]
fn names_of_events() {
    for &(event, name) in NAMES {
        let text = told(&log(&[event]), "002-03 1");
        let head = format!("002-03 over Wi-Fi after event 1 at 0, {name}");
        assert_eq!(text.lines().next(), Some(&head[..]), "{event}");
    }
    // A SUCI of 64 octets, and one more.
    for (suci, name) in [(64, "card, answer 0"), (65, "unknown, answer 1")] {
        let event = format!("01 00 00 F1 10{}", " 01".repeat(suci));
        assert!(told(&log(&[&event]), "002-03 1").contains(&format!(" at 0, {name}\n")));
    }
}

/// The arguments of `--explain`, and the octets of a network.
#[test]
fn questions() {
    let asked = |text: &str| {
        let words: Vec<String> = text.split(' ').map(String::from).collect();
        crate::asked(&words)
    };
    for (words, network, access, each) in [
        ("002-02 0", AWAY, 0, false),
        ("002-02 1 each", AWAY, 1, true),
        ("00f220 0", AWAY, 0, false),
        ("00F220 9 each", AWAY, 9, true),
        ("310-260 1", [0x13, 0x00, 0x62], 1, false),
        ("123-456 1", [0x21, 0x63, 0x54], 1, false),
        ("aBcDeF 2", [0xAB, 0xCD, 0xEF], 2, false),
    ] {
        let question = crate::Asked::Explain(Question { network, access, each });
        assert_eq!(asked(&format!("--explain {words}")), Ok(question));
    }
    let forms = ["", " 002-02", " 002-02 ", " 002-02 x", " 002-02 00", " 002-02 10", " 002-02 +1"];
    let codes =
        ["002-2", "02-02", "0022-02", "002-0202", "002-0A", "-02", "002-", "+02-02", "002-0-"];
    let octets = ["", "00F22", "00F2200", "00G220", "+0F220", "00202", "0x0220"];
    let behind =
        [" 002-02 0 all", " 002-02 0 Each", " 002-02 0 each each", " 0 002-02", " 002-02 0 "];
    for words in forms.into_iter().chain(behind) {
        assert!(asked(&format!("--explain{words}")).is_err(), "{words}");
    }
    for network in codes.into_iter().chain(octets) {
        assert!(asked(&format!("--explain {network} 0")).is_err(), "{network}");
    }
}
