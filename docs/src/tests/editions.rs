// Request R-7: three editions of the identity order.

use super::*;
use crate::identity;

/// The other 5G-GUTI, of AWAY; GUTI is of HOME, and here the 4G-GUTI has the same ten octets.
const LATER_GUTI: Guti = [0x00, 0xF2, 0x20, 0x11, 0x22, 0x83, 0x0A, 0x0B, 0x0C, 0x0D];
const ATTACH: &[u8] = &[0x07, 0x41];
/// All facts, and a native 4G-GUTI.
const ALL: S1 =
    S1 { registered: true, n26: true, context: true, valid: true, native: true, guti: GUTI };

/// The S1 facts by the bits of a number, bit 4 for a native 4G-GUTI.
fn facts(bits: u8) -> S1 {
    let fact = |place: u8| bits >> place & 1 == 1;
    let [registered, n26, context, valid, native] = [0, 1, 2, 3, 4].map(fact);
    S1 { registered, n26, context, valid, native, guti: GUTI }
}

/// Access `a` in state 4 on AWAY with nothing but a card of this edition.
fn started(edition: u8, a: u8) -> Record {
    let mut record = limited(3);
    assert_eq!(record.card(edition, HOME, &SUCI).answer, 0);
    assert_eq!(start(&mut record, a, AWAY), 0);
    record
}

/// The octets of the notes: without a key set, and with ngKSI 3 at both levels and before 71.
#[test]
fn mapped_requests() {
    let mut record = started(2, 0);
    record.access[0].guti = Some(LATER_GUTI);
    let bare = octets(
        "7E 00 41 71 00 0B F2 00 F1 10 80 01 C5 D1 C2 B3 A4 2E 02 F0 F0 \
         77 00 0B F2 00 F2 20 11 22 83 0A 0B 0C 0D 2B 01 00 70 00 02 07 41",
    );
    assert_eq!(written_with(&record, 0, ALL, ATTACH), bare);
    assert_eq!(record.key(0, 3).answer, 0);
    record.access[0].last = Some(area(AWAY));
    let head = "7E 00 41 31 00 0B F2 00 F1 10 80 01 C5 D1 C2 B3 A4";
    let added = "77 00 0B F2 00 F2 20 11 22 83 0A 0B 0C 0D 2B 01 00 70 00 02 07 41";
    let nested = octets(&format!(
        "{head} 2E 02 F0 F0 {added} 71 00 35 \
         {head} 10 01 00 2E 02 F0 F0 52 00 F2 20 00 00 2A {added}"
    ));
    assert_eq!(written_with(&record, 0, ALL, ATTACH), nested);
    record.access[0].guti = None;
    let alone = octets(&format!(
        "{head} 2E 02 F0 F0 2B 01 00 71 00 22 \
         {head} 10 01 00 2E 02 F0 F0 52 00 F2 20 00 00 2A 2B 01 00"
    ));
    assert_eq!(written_with(&record, 0, ALL, &[]), alone);
}

/// What the mapped case makes of a request without it: the identity, and what comes last in it.
fn with_mapped(plain: &[u8], identity: usize, added: &[u8]) -> Vec<u8> {
    let head = [&plain[..5], &[11], &identity::sent(&identity::mapped(&GUTI))[..]].concat();
    [&head[..], &plain[6 + identity..], added].concat()
}

/// Every set of facts, in each edition, type and shape, over each access, with and without a GUTI:
/// mapped in an initial registration of editions 2 and 3 alone, and else as if nothing was lent.
#[test]
fn mapped_or_not() {
    let mut seen = [0; 2];
    for case in 0..3 * 3 * 2 * 2 * 2 * 32 {
        let (edition, regtype) = (1 + case / 32 % 3, 1 + case / 96 % 3);
        let (a, keyed, held) = (case / 288 % 2, case / 576 % 2 == 1, case / 1152 == 1);
        let mut record = started(edition as u8, a as u8);
        let this = &mut record.access[a];
        this.regtype = regtype as u8;
        this.ksi = if keyed { 3 } else { 7 };
        this.guti = held.then_some(LATER_GUTI);
        let s1 = facts((case % 32) as u8);
        let four = s1.registered && s1.n26 && s1.context && s1.valid;
        let mapped = regtype == 1 && four && (edition == 2 || edition == 3 && s1.native);
        let plain = written(&record, a as u8);
        let got = written_with(&record, a as u8, s1, ATTACH);
        seen[mapped as usize] += 1;
        if !mapped {
            assert_eq!(got, plain, "{case}");
            continue;
        }
        let additional = if held { &identity::sent(&LATER_GUTI)[..] } else { &[] };
        let lead = if held { &[0x77, 0x00, 0x0B][..] } else { &[] };
        let added = [lead, additional, &[0x2B, 0x01, 0x00, 0x70, 0x00, 0x02], ATTACH].concat();
        let identity = plain[5] as usize;
        let clear = with_mapped(&plain[..6 + identity + 4], identity, &added);
        if !keyed {
            assert_eq!(got, clear, "{case}");
            continue;
        }
        let whole = with_mapped(&plain[6 + identity + 4 + 3..], identity, &added);
        assert_eq!(got, contained(&clear, &whole), "{case}");
    }
    assert_eq!(seen, [2304 - 24, 24]);
}

/// One fact missing is enough, in both editions; a 4G-GUTI that is not native, in the third.
#[test]
fn each_fact_counts() {
    for edition in [2, 3] {
        let record = started(edition, 0);
        let mapped = |s1| written_with(&record, 0, s1, &[])[6] == 0xF2;
        assert!(mapped(ALL));
        assert!(!mapped(S1 { registered: false, ..ALL }));
        assert!(!mapped(S1 { n26: false, ..ALL }));
        assert!(!mapped(S1 { context: false, ..ALL }));
        assert!(!mapped(S1 { valid: false, ..ALL }));
        assert_eq!(mapped(S1 { native: false, ..ALL }), edition == 2);
    }
    assert_eq!(written_with(&started(1, 0), 0, ALL, &[])[6], 0x01);
}

/// TS 23.003 by its bit fields: region, set and pointer as a decoder takes them off what is sent,
/// for every octet that is cut anew. In the end the ten octets are the same.
#[test]
fn the_mapping() {
    for low in 0..=255 {
        for code in 0..=255 {
            let guti = [0x21, 0x43, 0x65, 0x9C, low, code, 1, 2, 3, 4];
            let sent = identity::sent(&identity::mapped(&guti));
            let set = sent[5] as u16 * 4 + sent[6] as u16 / 64;
            assert_eq!((sent[0], sent[4]), (0xF2, 0x9C));
            assert_eq!(set, low as u16 * 4 + code as u16 / 64);
            assert_eq!(sent[6] % 64, code % 64);
            assert_eq!(sent[1..], guti);
        }
    }
    let [.., region, high, low, _, _, _, _] = identity::mapped(&GUTI);
    assert_eq!((region, high as u16 * 4 + low as u16 / 64, low % 64), (128, 7, 5));
}

/// 77 has document 01's GUTI, whichever it is, and never a SUCI; the identity is the mapped one.
#[test]
fn the_best_guti_is_added() {
    let far: Network = [0x00, 0xF9, 0x90];
    let guti = |[x, y, z]: Network, last| [x, y, z, 1, 2, 3, 4, 5, 6, last];
    for (this, other, sent) in [
        (Some(AWAY), Some(AWAY), 7),
        (Some(EQUIVALENT), Some(AWAY), 8),
        (Some(far), Some(EQUIVALENT), 8),
        (Some(EQUIVALENT), Some(far), 7),
        (Some(far), Some(far), 7),
        (Some(far), None, 7),
        (None, Some(far), 8),
        (None, None, 0),
    ] {
        for (a, edition) in [(0, 2), (1, 2), (0, 3), (1, 3)] {
            let mut record = pending(a, AWAY);
            record.edition = edition;
            record.access[a].guti = this.map(|network| guti(network, 7));
            record.access[1 - a].guti = other.map(|network| guti(network, 8));
            let octets = written_with(&record, a as u8, ALL, ATTACH);
            let read = request::read(&octets).unwrap();
            assert_eq!(octets[read.identity], [&[0xF2], &GUTI[..]].concat());
            let best =
                [this.map(|network| guti(network, 7)), other.map(|network| guti(network, 8))];
            let best = best.into_iter().flatten().find(|guti| guti[9] == sent);
            let added = read.additional.map(|part| octets[part].to_vec());
            assert_eq!(added, best.map(|guti| [&[0xF2], &guti[..]].concat()));
        }
    }
}

/// Above 65,000 octets it is answer 1, in every edition, used or not, and before 6 and 12.
#[test]
fn attach_messages() {
    let attach = vec![0x5A; 65_001];
    for edition in 1..=3 {
        let record = started(edition, 0);
        for s1 in [S1::default(), ALL] {
            let write = |a, attach: &[u8], length| {
                request::write(&record, a, s1, attach, &mut vec![0xEE; length])
            };
            for length in [0, 200, 131_072] {
                assert_eq!(write(0, &attach, length), Err(1));
                assert_eq!(write(1, &attach, length), Err(1));
                assert_eq!(write(2, &attach[..1], length), Err(1));
                assert_eq!(write(1, &attach[..65_000], length), Err(6));
            }
            let mapped = edition > 1 && s1 == ALL;
            assert_eq!(write(0, &attach[..65_000], 200), if mapped { Err(12) } else { Ok(19) });
            assert_eq!(write(0, &[], 200), Ok(if mapped { 24 } else { 19 }));
        }
    }
}

/// All at its longest: a clear part of 65,047 octets, 71 and its length, and a request of 65,069.
#[test]
fn the_longest_request_of_all() {
    let mut record = started(3, 1);
    record.capability = List::of(&[5; 13]);
    record.security = List::of(&[6; 8]);
    record.access[0].guti = Some(LATER_GUTI);
    record.access[1].last = Some(area(AWAY));
    let attach: Vec<u8> = (0..65_000).map(|place| (place % 251) as u8).collect();
    assert_eq!(written_with(&record, 1, ALL, &attach).len(), 65_047);
    assert_eq!(record.key(1, 6).answer, 0);
    let longest = written_with(&record, 1, ALL, &attach);
    assert_eq!((longest.len(), request::LONGEST_FROM_S1), (130_119, 130_119));
    assert_eq!(longest[65_047..65_050], [0x71, 0xFE, 0x2D]);
    let read = request::read(&longest).unwrap();
    assert_eq!((read.identity, read.area), (65_056..65_067, Some(65_093..65_099)));
    assert_eq!((read.additional, read.status), (Some(65_102..65_113), Some(65_115..65_116)));
    assert_eq!(read.attach, Some(65_119..130_119));
    assert_eq!(longest[65_119..], attach);
}

/// The elements of a request with 2E at 19 to 21, and the parts of 77, 2B and 70 that it has.
const ADDED: &[(&str, [Option<Range<usize>>; 3])] = &[
    ("", [None, None, None]),
    (
        "77 00 0B F2 1 2 3 4 5 6 7 8 9 A 2B 01 00 70 00 02 07 41",
        [Some(24..35), Some(37..38), Some(41..43)],
    ),
    (
        "2B 01 00 77 00 0B F2 1 2 3 4 5 6 7 8 9 A 70 00 02 07 41",
        [Some(27..38), Some(23..24), Some(41..43)],
    ),
    (
        "70 00 02 07 41 2B 01 00 77 00 0B F2 1 2 3 4 5 6 7 8 9 A",
        [Some(32..43), Some(28..29), Some(24..26)],
    ),
    ("70 00 02 07 41 9F 16 01 00 2B 01 00", [None, Some(32..33), Some(24..26)]),
    ("77 00 0D F2 1 2 3 4 5 6 7 8 9 A B C", [Some(24..35), None, None]),
    ("77 00 0A F2 1 2 3 4 5 6 7 8 9", [None, None, None]),
    ("77 00 0B F6 1 2 3 4 5 6 7 8 9 A", [None, None, None]),
    ("77 00 0B 01 1 2 3 4 5 6 7 8 9 A", [None, None, None]),
    ("77 00 00", [None, None, None]),
    ("77 00 00 77 00 0B F2 1 2 3 4 5 6 7 8 9 A", [None, None, None]),
    ("77 00 0B F6 1 2 3 4 5 6 7 8 9 A 77 00 0B F2 1 2 3 4 5 6 7 8 9 A", [None, None, None]),
    ("77 00 0B F2 1 2 3 4 5 6 7 8 9 A 77 00 00", [Some(24..35), None, None]),
    ("2B 02 00 01", [None, Some(23..24), None]),
    ("2B 01 FF", [None, Some(23..24), None]),
    ("2B 00", [None, None, None]),
    ("2B 00 2B 01 00", [None, None, None]),
    ("2B 01 01 2B 01 00", [None, Some(23..24), None]),
    ("70 00 00", [None, None, None]),
    ("70 00 00 70 00 01 07", [None, None, None]),
    ("70 00 01 07 70 00 02 07 41", [None, None, Some(24..25)]),
    ("70 00 03 77 00 0B", [None, None, Some(24..27)]),
];

/// In any request and any order, the first of each; none of them is a reason to refuse. Those of a
/// request in a container count, and the outer one's do not show.
#[test]
fn added_elements_read_back() {
    let front = |fourth: &str| format!("7E 00 41 {fourth} 00 0B F2 00 F1 10 80 01 C5 D1 C2 B3 A4");
    let parts = |octets: &[u8]| {
        let read = request::read(octets).unwrap();
        [read.additional, read.status, read.attach]
    };
    for (elements, expected) in ADDED {
        for fourth in ["71", "72", "73", "31", "02", "63"] {
            let head = front(fourth);
            let plain = octets(&format!("{head} 2E 02 F0 F0 {elements}"));
            assert_eq!(parts(&plain), *expected, "{elements}");
            let before = octets(&format!("{head} {elements} 2E 02 F0 F0"));
            let earlier =
                expected.clone().map(|part| part.map(|part| part.start - 4..part.end - 4));
            assert_eq!(parts(&before), earlier, "{elements}");
            let clear = octets(&format!("{head} 2E 02 F0 F0"));
            let [inside, outside] = [contained(&clear, &plain), contained(&plain, &clear)];
            let inner =
                expected.clone().map(|part| part.map(|part| part.start + 24..part.end + 24));
            assert_eq!(parts(&inside), inner, "{elements}");
            assert_eq!(parts(&outside), [None, None, None], "{elements}");
        }
    }
    for elements in ["77 00 0B F2", "77 00", "2B 01", "2B", "70 00 02 07"] {
        let cut = octets(&format!("{} 2E 02 F0 F0 {elements}", front("71")));
        assert_eq!(request::read(&cut), Err(Fault { number: 17, at: 21 }), "{elements}");
    }
}

/// What is written reads back to what was lent, in both shapes.
#[test]
fn mapped_requests_read_back() {
    for (ksi, attach) in [(7, 1), (7, 300), (0, 1), (3, 2), (6, 300)] {
        let mut record = started(2, 1);
        record.access[0].guti = Some(LATER_GUTI);
        record.access[1].ksi = ksi;
        let attach: Vec<u8> = (0..attach).map(|place| place as u8).collect();
        let octets = written_with(&record, 1, ALL, &attach);
        let read = request::read(&octets).unwrap();
        let part = |part: Option<Range<usize>>| octets[part.unwrap()].to_vec();
        assert_eq!((read.regtype, read.ksi), (1, ksi));
        assert_eq!(octets[read.identity], identity::sent(&GUTI));
        assert_eq!(part(read.additional), identity::sent(&LATER_GUTI));
        assert_eq!((part(read.status), part(read.attach)), (vec![0x00], attach));
        assert_eq!(read.capability.is_some(), ksi < 7);
        assert_eq!((read.uplink, read.sessions), (None, None));
    }
}

/// A record of kind 11 with this edition and a SUCI of so many octets.
fn carded(edition: u8, suci: usize) -> Vec<u8> {
    [&[11, 0, edition], &HOME[..], &[1], &vec![7; suci - 1][..]].concat()
}

/// Kind 11 of the log: an edition of 1 to 3, then the body of kind 1, 13 to 68 octets in all.
#[test]
fn editions_in_logs() {
    for edition in [0, 1, 2, 3, 4, 0x80, 0xFF] {
        for suci in [1, 8, 9, 10, 63, 64, 65, 66] {
            let mut record = limited(3);
            assert_eq!(start(&mut record, 0, AWAY), 0);
            let before = text(&record);
            let body = carded(edition, suci);
            let taken = (1..=3).contains(&edition) && (13..=68).contains(&(body.len() - 2));
            let reply = apply(&mut record, &body);
            assert_eq!(reply.answer, !taken as u8, "{edition} {suci}");
            if taken {
                assert_eq!((record.edition, record.home, states(&record)), (edition, HOME, (1, 1)));
                assert_eq!(record.suci[..], body[6..]);
                assert_eq!(reply.timers[T3510], Change::Stopped);
            } else {
                assert_eq!((reply, text(&record)), (Reply::of(1), before));
            }
        }
    }
    let mut record = limited(3);
    for bad in ["0B 00", "0B 00 02", "0B 00 02 00 F1 10", "0B 01 02 00 F1 10 01 1 2 3 4 5 6 7 8"] {
        assert_eq!(apply(&mut record, &octets(bad)), Reply::of(1), "{bad}");
    }
    let mut other = carded(2, 9);
    other[6] = 2;
    assert_eq!(apply(&mut record, &other), Reply::of(1));
    let mut nowhere = carded(2, 9);
    nowhere[3] = 0xA0;
    assert_eq!(apply(&mut record, &nowhere), Reply::of(1));
}

/// The edition is the card's: a new record has 1, kind 1 means 1, and a card change that is refused
/// leaves it.
#[test]
fn the_edition_is_kept() {
    let mut record = Record::new(Limits { card: 3, ban: 3, n1: 3 }, &[0], &[0xF0, 0xF0]);
    assert_eq!(record.edition, 1);
    record.power();
    assert_eq!(record.edition, 1);
    for edition in [3, 2, 1, 2] {
        assert_eq!(apply(&mut record, &carded(edition, 9)).answer, 0);
        assert_eq!(record.edition, edition);
        assert_eq!(record.power().answer, 0);
        for refused in [carded(4, 9), carded(0, 9), carded(3, 8), vec![1, 0]] {
            assert_eq!(apply(&mut record, &refused).answer, 1);
        }
        assert_eq!(record.edition, edition);
    }
    let kind_1 = [&[1, 0], &HOME[..], &SUCI].concat();
    assert_eq!(apply(&mut record, &kind_1).answer, 0);
    assert_eq!(record.edition, 1);
}

/// No event but a card change touches the edition, and each of the three comes.
#[test]
fn editions_at_random() {
    let mut draws = Draws(7);
    let mut record = limited(2);
    let mut seen = [0; 3];
    for _ in 0..100_000 {
        let before = record;
        let reply = draws.event(&mut record);
        if record.edition != before.edition {
            assert_eq!((reply.answer, states(&record)), (0, (1, 1)));
            seen[record.edition as usize - 1] += 1;
        }
    }
    assert!(seen.iter().all(|&times| times > 10), "{seen:?}");
}

/// The edition in the line of `--full`, behind the security capability.
#[test]
fn full_line_of_an_edition() {
    let mut line = String::new();
    crate::full::record(&mut line, &started(3, 0));
    assert!(
        line.contains(" cap 00 sec f0f0 edition 3 T3247 0 T3512 0 length 3240 due 0 "),
        "{line}"
    );
}

/// The lines of `--request --s1`.
#[test]
fn request_lines_from_s1() {
    let mut record = started(2, 0);
    record.access[1].guti = Some(LATER_GUTI);
    let mut text = String::new();
    let lent = crate::Lent { s1: S1 { native: false, ..ALL }, attach: ATTACH.to_vec() };
    crate::requests(&mut text, &record, &lent);
    let lines = "request 0 7e004171000bf200f1108001c5d1c2b3a42e02f0f077000bf200f2201122830a0b0c0d\
                 2b01007000020741\n\
                 read 0 type 1 ksi 7 identity f200f1108001c5d1c2b3a4 cap - sec f0f0 area - \
                 uplink - sessions - additional f200f2201122830a0b0c0d status 00 attach 0741\n";
    assert_eq!(text, lines);
}

/// The arguments of `--request`.
#[test]
fn facts_asked_for() {
    let asked = |text: &str| {
        let words: Vec<String> = text.split(' ').map(String::from).collect();
        crate::asked(&words)
    };
    let lent = |native, attach: &[u8]| {
        let lent = crate::Lent { s1: S1 { native, ..ALL }, attach: attach.to_vec() };
        Ok(crate::Asked::Log(crate::Mode::Request(lent)))
    };
    let nothing = crate::Asked::Log(crate::Mode::Request(crate::Lent::default()));
    assert_eq!(asked("--request"), Ok(nothing));
    let guti = "--request --s1 00F1108001c5d1c2b3a4";
    assert_eq!(asked(guti), lent(false, &[]));
    assert_eq!(asked(&format!("{guti} native")), lent(true, &[]));
    assert_eq!(asked(&format!("{guti} attach 0741")), lent(false, ATTACH));
    assert_eq!(asked(&format!("{guti} native attach 0741")), lent(true, ATTACH));
    for words in ["", "native", "--s1", "--s1 00", "--s1 00F1108001C5D1C2B3A", "--s2 00"] {
        assert!(asked(&format!("--request {words}")).is_err(), "{words}");
    }
    for words in
        ["A4", " attach", " attach 074", " attach 0G", " attach 07 native", " native native"]
    {
        assert!(asked(&format!("{guti}{words}")).is_err(), "{words}");
    }
    assert!(asked(&format!("{guti} attach {}", "07".repeat(65_000))).is_ok());
    assert!(asked(&format!("{guti} attach {}", "07".repeat(65_001))).is_err());
}
