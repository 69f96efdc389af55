// A second reading of messages, written from documents 01 and 02 alone, by each of the three readers that
// the program `reading` runs: that of accepts and rejects, that of requests, and the reject reader for C.
//   reading DIR                     stored messages, to DIR/reading.stdin, and what `reading` has to print, to DIR/reading.stdout
//   reading random SEED MESSAGES    so many messages by chance, to standard output
//   reading compare SEED MESSAGES   holds what `reading` printed of those, on standard input, to the second reading; counts the
//                                   readings, and fails where one of them never occurs
use std::collections::BTreeMap;
use std::fmt;
use std::fs;
use std::io::{self, Write};
use std::ops::Range;
use std::process::ExitCode;

// The refusals of R-1, and that of R-3.
const CUT: u16 = 13;
const FIRST: u16 = 14;
const SECOND: u16 = 15;
const TYPE: u16 = 16;
const PAST: u16 = 17;
const STRANGE: u16 = 18;
const DEEP: u16 = 19;

// the outer request and the one in its container.
const LEVELS: usize = 2;

// The least fault is the one to tell: the lowest offset, at a tie the lower number.
#[derive(PartialEq, Eq, PartialOrd, Ord)]
struct Fault {
    at: usize,
    number: u16,
}

struct Element {
    id: u8,
    contents: Range<usize>,
}

// How many octets are fixed, by the octets that are there. The elements begin behind them.
fn fixed(msg: &[u8]) -> usize {
    let octet = |at| msg.get(at).map_or(0, |&o: &u8| usize::from(o));
    match msg.get(2) {
        Some(0x41) => 6 + 256 * octet(4) + octet(5),
        Some(0x42) => 4 + octet(3).max(1),
        Some(0x44) => 4,
        _ => 3,
    }
}

// Where the contents of the element at a place lie, if the message has them all.
fn contents(msg: &[u8], at: usize) -> Option<Range<usize>> {
    let octet = |i| msg.get(at + i).map(|&o| usize::from(o));
    let (lead, len) = match msg[at] {
        0x80..=0xFF => (0, 1),
        0x70..=0x7F => (3, 256 * octet(1)? + octet(2)?),
        0x52 if msg[2] == 0x41 => (1, 6),
        _ => (2, octet(1)?),
    };
    let end = at + lead + len;
    (end <= msg.len()).then_some(at + lead..end)
}

// "Optional elements", from a place to the end or to the first that lies past it.
fn elements(msg: &[u8], mut at: usize, faults: &mut Vec<Fault>) -> Vec<Element> {
    let mut all = Vec::new();
    while let Some(&id) = msg.get(at) {
        if id < 0x10 {
            let number = STRANGE;
            faults.push(Fault { at, number });
        }
        let Some(contents) = contents(msg, at) else {
            faults.push(Fault { at, number: PAST });
            break;
        };
        at = contents.end;
        all.push(Element { id, contents });
    }
    all
}

// The elements of a message of one of these types, and all its faults.
fn listed(msg: &[u8], types: &[u8]) -> (Vec<Element>, Vec<Fault>) {
    let mut faults = Vec::new();
    let fixed = fixed(msg);
    if msg.len() < fixed {
        let at = msg.len();
        faults.push(Fault { at, number: CUT });
    }
    if msg.starts_with(&[0x7E, 0x00, 0x42, 0x00]) {
        faults.push(Fault { at: 3, number: CUT });
    }
    for (at, octets, number) in [
        (0, &[0x7E][..], FIRST),
        (1, &[0x00], SECOND),
        (2, types, TYPE),
    ] {
        if msg.get(at).is_some_and(|octet| !octets.contains(octet)) {
            faults.push(Fault { at, number });
        }
    }
    let all = elements(msg, fixed, &mut faults);
    (all, faults)
}

// The elements; or of all faults the one to tell.
fn read(msg: &[u8], types: &[u8]) -> Result<Vec<Element>, Fault> {
    let (all, faults) = listed(msg, types);
    faults.into_iter().min().map_or(Ok(all), Err)
}

// The first of a repeat counts; one too short is absent.
fn held(all: &[Element], id: u8, shortest: usize) -> Option<Range<usize>> {
    let first = all.iter().find(|e| e.id == id)?;
    Some(first.contents.clone()).filter(|c| c.len() >= shortest)
}

// "Timer octet": None is deactivated, as absent for T3502.
fn seconds(octet: u8) -> Option<u32> {
    let unit = match octet >> 5 {
        0 => 2,
        1 => 60,
        2 => 360,
        7 => return None,
        _ => 60,
    };
    Some(u32::from(octet & 0x1F) * unit)
}

// GPRS timer 3: deactivated is a time given, of 0 s, since no T3512 runs then.
fn period(octet: u8) -> u32 {
    const UNITS: [u32; 8] = [600, 3600, 36000, 2, 30, 60, 320 * 3600, 0];
    u32::from(octet & 0x1F) * UNITS[usize::from(octet >> 5)]
}

// What is there as "1 x", what is absent as zeros.
fn given<T: Default + fmt::Display>(x: Option<T>) -> String {
    format!("{} {}", x.is_some() as u8, x.unwrap_or_default())
}

fn accept(msg: &[u8], all: &[Element]) -> String {
    let guti = held(all, 0x77, 11).filter(|c| msg[c.start] == 0xF2);
    let triplets = held(all, 0x4A, 3).unwrap_or(0..0);
    let t3502 = held(all, 0x16, 1).and_then(|c| seconds(msg[c.start]));
    let t3512 = held(all, 0x5E, 1).map(|c| period(msg[c.start]));
    let count = (triplets.len() / 3).min(15);
    format!(
        "accept {} guti {} equivalents {count} {} wait {} pace {}",
        msg[4],
        given(guti.map(|c| c.start + 1)),
        triplets.start,
        given(t3502),
        given(t3512)
    )
}

// T3346: zero and deactivated ask for no time, as one that is absent.
fn reject(msg: &[u8], all: &[Element]) -> String {
    let t3346 = held(all, 0x5F, 1).and_then(|c| seconds(msg[c.start]));
    format!("reject {} T3346 {}", msg[3], t3346.unwrap_or(0))
}

fn event(msg: &[u8]) -> Result<String, Fault> {
    let all = read(msg, &[0x42, 0x44])?;
    Ok(match msg[2] {
        0x42 => accept(msg, &all),
        _ => reject(msg, &all),
    })
}

// One of the requests in one another: where it lies in the outermost message, and its elements by their places there.
struct Level {
    place: Range<usize>,
    all: Vec<Element>,
}

// the requests in one another, the outer one first. Of all faults of those that are opened the one to tell; where there is
// none, a level too many, which is not opened, at its 71.
fn levels(msg: &[u8]) -> Result<Vec<Level>, Fault> {
    let mut faults = Vec::new();
    let mut levels = Vec::new();
    let mut next = Some(0..msg.len());
    for _ in 0..LEVELS {
        let Some(place) = next.take() else {
            break;
        };
        let start = place.start;
        let (mut all, own) = listed(&msg[place.clone()], &[0x41]);
        for Element { contents: c, .. } in &mut all {
            *c = start + c.start..start + c.end;
        }
        faults.extend(own.into_iter().map(|Fault { at, number }| {
            let at = start + at;
            Fault { at, number }
        }));
        next = held(&all, 0x71, 1);
        levels.push(Level { place, all });
    }
    let deep = next.map(|third| Fault {
        at: third.start - 3,
        number: DEEP,
    });
    faults.into_iter().min().or(deep).map_or(Ok(levels), Err)
}

// "Request", its reading back, with types 2 and 3 of R-5: whether one of them keeps the layout.
fn keeps(msg: &[u8], all: &[Element]) -> bool {
    let named = match &msg[6..fixed(msg)] {
        [0xF2, guti @ ..] => guti.len() == 10,
        suci @ [0x01, ..] => (9..=64).contains(&suci.len()),
        _ => false,
    };
    let capability = held(all, 0x10, 1);
    let security = held(all, 0x2E, 2);
    msg[3] >> 4 <= 7
        && (1..=3).contains(&(msg[3] & 15))
        && named
        && capability.is_none_or(|c| c.len() <= 13)
        && security.is_some_and(|c| c.len() <= 8)
}

// 3 where a level breaks the layout, else what the inner one says, with 40 and 50 of R-5, and 77, 2B and 70 of R-7.
fn request(msg: &[u8]) -> Result<String, Fault> {
    let levels = levels(msg)?;
    let fits = |level: &Level| keeps(&msg[level.place.clone()], &level.all);
    if !levels.iter().all(fits) {
        return Ok("3".to_string());
    }
    let Level { place, all } = &levels[levels.len() - 1];
    let own = &msg[place.clone()];
    let front = |id, count| held(all, id, count).map(|c| c.start..c.start + count);
    let guti = front(0x77, 11).filter(|c| msg[c.start] == 0xF2);
    let mut text = format!("request {} {}", own[3] & 15, own[3] >> 4);
    for (name, part) in [
        ("identity", Some(place.start + 6..place.start + fixed(own))),
        ("capability", held(all, 0x10, 1)),
        ("security", held(all, 0x2E, 2)),
        ("last", held(all, 0x52, 6)),
        ("uplink", front(0x40, 2)),
        ("sessions", front(0x50, 2)),
        ("additional", guti),
        ("status", front(0x2B, 1)),
        ("attach", held(all, 0x70, 1)),
    ] {
        if let Some(part) = part {
            text += &format!(" {name} {} {}", part.start, part.len());
        }
    }
    Ok(text)
}

// The reject reader for C: the cause, or 256 plus the refusal's number.
fn cause(msg: &[u8]) -> u16 {
    match read(msg, &[0x44]) {
        Ok(_) => u16::from(msg[3]),
        Err(fault) => 256 + fault.number,
    }
}

fn line(msg: &[u8]) -> String {
    let told = |said: Result<String, Fault>| {
        said.unwrap_or_else(|fault| format!("{} at {}", fault.number, fault.at))
    };
    format!(
        "{} | {} | {}",
        told(event(msg)),
        told(request(msg)),
        cause(msg)
    )
}

// A message: its octets, and how many zeros follow them.
struct Message(Vec<u8>, u16);

impl Message {
    fn whole(&self) -> Vec<u8> {
        [self.0.clone(), vec![0; usize::from(self.1)]].concat()
    }
}

fn hex(text: &str) -> Vec<u8> {
    text.split_whitespace()
        .map(|octet| u8::from_str_radix(octet, 16).unwrap())
        .collect()
}

const GUTI: &str = "77 00 0B F2 00 F1 10 80 01 C5 D1 C2 B3 A4";
const EQUIVALENTS: &str = "4A 06 00 F2 20 00 F3 30";
const WHOLE: &str = "7E 00 42 01 01 77 00 0B F2 00 F1 10 80 01 C5 D1 C2 B3 A4 4A 06 00 F2 20 00 F3 30 5E 01 2A 16 01 3F 75 00 00";
const ASKING: &str = "7E 00 41 71 00 09 01 00 F1 10 F0 FF 00 00 07";
const CLEAR: &str = "7E 00 41 31 00 0B F2 00 F1 10 80 01 C5 D1 C2 B3 A4 2E 02 F0 F0";
const UPDATE: &str = "7E 00 41 32 00 0B F2 00 F1 10 80 01 C5 D1 C2 B3 A4 10 01 00 2E 02 F0 F0 52 00 F2 20 00 00 2A 40 02 20 00 50 02 20 00";

// what R-7 adds, in its order
const ADDED: [&str; 3] = [
    "77 00 0B F2 00 F2 20 11 22 83 0A 0B 0C 0D",
    "2B 01 00",
    "70 00 02 07 41",
];

fn plain(all: &mut Vec<Message>, text: &str) {
    all.push(Message(hex(text), 0));
}

// an accept, a reject or a request with these elements
fn accepted(all: &mut Vec<Message>, text: &str, zeros: u16) {
    all.push(Message([hex("7E 00 42 01 01"), hex(text)].concat(), zeros));
}

fn rejected(all: &mut Vec<Message>, text: &str, zeros: u16) {
    all.push(Message([hex("7E 00 44 0B"), hex(text)].concat(), zeros));
}

fn asked(all: &mut Vec<Message>, text: &str, zeros: u16) {
    all.push(Message([hex(ASKING), hex(text)].concat(), zeros));
}

// a container with these octets in it, and a request with that behind its 2E
fn container(inner: &[u8]) -> Vec<u8> {
    let [high, low] = (inner.len() as u16).to_be_bytes();
    [&[0x71, high, low], inner].concat()
}

fn around(inner: &[u8]) -> Vec<u8> {
    [hex(CLEAR), container(inner)].concat()
}

// facts (9) and (10), the accept with an empty 75, and other whole messages as they are sent
fn sent(all: &mut Vec<Message>) {
    rejected(all, "9F 16 01 3F", 0);
    accepted(all, &format!("9F {GUTI} 9F 16 01 3F"), 0);
    for timer in ["3F", "5F", "E5", "00"] {
        accepted(all, &format!("16 01 {timer}"), 0);
        accepted(all, &format!("5E 01 {timer}"), 0);
    }
    plain(all, WHOLE);
    asked(all, "2E 02 F0 F0", 0);
    plain(all, "7E 00 41 31 00 0B F2 00 F1 10 80 01 C5 D1 C2 B3 A4 10 01 00 2E 02 F0 F0 52 00 F2 20 00 00 2A");
    plain(all, UPDATE);
    plain(all, "7E 00 41 31 00 0B F2 00 F1 10 80 01 C5 D1 C2 B3 A4 2E 02 F0 F0 71 00 1F 7E 00 41 31 00 0B F2 00 F1 10 80 01 C5 D1 C2 B3 A4 10 01 00 2E 02 F0 F0 52 00 F2 20 00 00 2A");
    all.push(Message(around(&hex(UPDATE)), 0));
    let added = ADDED.join(" ");
    plain(all, &format!("{} {added}", CLEAR.replace("31", "71")));
    let clear = hex(&format!("{CLEAR} {added}"));
    let whole = container(&hex(&format!("{UPDATE} {added}")));
    all.push(Message([clear, whole].concat(), 0));
    accepted(all, &format!("16 01 3F {GUTI}"), 0);
    plain(all, "7E 00 44 16 5F 01 2F 16 01 3F");
    plain(all, "7E 00 44 0B 5F 05");
}

// Each refusal at its boundary, and what each reader has to say, by R-1's sentences: octet by octet, then an accept's result,
// the elements, T3346 by R-6's, and a request's identity and layout.
const BOUNDARIES: &str = "\
= 13 at 0 | 13 at 0 | 269
7D = 14 at 0 | 14 at 0 | 270
7D 01 = 14 at 0 | 14 at 0 | 270
7D 01 99 = 14 at 0 | 14 at 0 | 270
7E = 13 at 1 | 13 at 1 | 269
7E 01 = 15 at 1 | 15 at 1 | 271
7E 01 99 = 15 at 1 | 15 at 1 | 271
7E 00 = 13 at 2 | 13 at 2 | 269
7E 00 99 = 16 at 2 | 16 at 2 | 272
7E 00 99 05 = 16 at 2 | 16 at 2 | 272
7E 00 41 = 16 at 2 | 13 at 3 | 272
7E 00 42 = 13 at 3 | 16 at 2 | 272
7E 00 42 00 = 13 at 3 | 16 at 2 | 272
7E 00 42 00 01 02 = 13 at 3 | 16 at 2 | 272
7E 00 42 00 05 = 13 at 3 | 16 at 2 | 272
7E 00 42 01 = 13 at 4 | 16 at 2 | 272
7E 00 42 02 01 = 13 at 5 | 16 at 2 | 272
7E 00 42 01 01 = accept 1 guti 0 0 equivalents 0 0 wait 0 0 pace 0 0 | 16 at 2 | 272
7E 00 42 01 01 05 = 17 at 5 | 16 at 2 | 272
7E 00 42 01 01 05 00 = 18 at 5 | 16 at 2 | 272
7E 00 44 = 13 at 3 | 16 at 2 | 269
7E 00 44 0B = reject 11 T3346 0 | 16 at 2 | 11
7E 00 44 0B 05 = 17 at 4 | 16 at 2 | 273
7E 00 44 0B 05 01 = 17 at 4 | 16 at 2 | 273
7E 00 44 0B 05 00 = 18 at 4 | 16 at 2 | 274
7E 00 44 0B 05 00 5F 05 = 18 at 4 | 16 at 2 | 274
7E 00 44 0B 5F 05 = 17 at 4 | 16 at 2 | 273
7E 00 44 0B 9F 05 00 = 18 at 5 | 16 at 2 | 274
7E 00 44 0B 9F 77 00 = 17 at 5 | 16 at 2 | 273
7E 00 44 16 5F = 17 at 4 | 16 at 2 | 273
7E 00 44 16 5F 00 = reject 22 T3346 0 | 16 at 2 | 22
7E 00 44 16 5F 01 = 17 at 4 | 16 at 2 | 273
7E 00 44 16 5F 01 21 = reject 22 T3346 60 | 16 at 2 | 22
7E 00 44 16 5F 01 20 = reject 22 T3346 0 | 16 at 2 | 22
7E 00 44 16 5F 01 E1 = reject 22 T3346 0 | 16 at 2 | 22
7E 00 44 16 5F 02 21 = 17 at 4 | 16 at 2 | 273
7E 00 44 16 5F 02 21 3F = reject 22 T3346 60 | 16 at 2 | 22
7E 00 44 16 5F 00 5F 01 21 = reject 22 T3346 0 | 16 at 2 | 22
7E 00 44 16 5F 01 E1 5F 01 21 = reject 22 T3346 0 | 16 at 2 | 22
7E 00 44 16 5F 01 21 5F = 17 at 7 | 16 at 2 | 273
7E 00 44 16 5F 01 21 05 00 = 18 at 7 | 16 at 2 | 274
7E 00 44 16 9F 5F 01 5F = reject 22 T3346 11160 | 16 at 2 | 22
7E 00 44 0B 5F 01 21 = reject 11 T3346 60 | 16 at 2 | 11
7E 00 42 01 01 5F 01 21 = accept 1 guti 0 0 equivalents 0 0 wait 0 0 pace 0 0 | 16 at 2 | 272
7E 00 41 81 = 16 at 2 | 13 at 4 | 272
7E 00 41 71 00 = 16 at 2 | 13 at 5 | 272
7E 00 41 71 00 09 = 16 at 2 | 13 at 6 | 272
7E 00 41 71 00 09 01 00 F1 10 F0 FF 00 00 = 16 at 2 | 13 at 14 | 272
7E 00 41 71 00 09 01 00 F1 10 F0 FF 00 00 07 = 16 at 2 | 3 | 272
7E 00 41 71 00 00 = 16 at 2 | 3 | 272
7E 00 41 71 00 00 2E 02 F0 F0 = 16 at 2 | 3 | 272
7E 00 41 81 00 09 01 00 F1 10 F0 FF 00 00 07 2E 02 F0 F0 = 16 at 2 | 3 | 272
7E 00 41 81 00 09 01 00 F1 10 F0 FF 00 00 07 2E 02 F0 = 16 at 2 | 17 at 15 | 272
7E 00 41 71 00 09 01 00 F1 10 F0 FF 00 00 07 0F 00 2E = 16 at 2 | 18 at 15 | 272
7E 00 41 71 00 09 01 00 F1 10 F0 FF 00 00 07 2E 02 F0 F0 52 00 F2 20 00 00 = 16 at 2 | 17 at 19 | 272
";

// The same of requests in one another, by R-3's: what the request reader has to say, to the others each is a request. H is a
// head and GUTI of 17 octets with ngKSI 3, G the same with ngKSI 7, S its 2E: in "H S 71" the container is at 21, what is in it
// begins at 24, and "H S" in there ends at 45. First the container and its octets one by one; the elements in it and behind it;
// a third level; empty and further containers; the layout of each level; what is read.
const CONTAINERS: &str = "\
H S 71 = 17 at 21
H S 71 00 = 17 at 21
H S 71 00 01 = 17 at 21
H S 71 00 16 H S = 17 at 21
H S 71 00 03 7D 00 = 17 at 21
H S 71 FF FF H S = 17 at 21
H S 71 00 01 7D = 14 at 24
H S 71 00 01 7E = 13 at 25
H S 71 00 02 7E 01 = 15 at 25
H S 71 00 02 7E 00 = 13 at 26
H S 71 00 03 7E 00 40 = 16 at 26
H S 71 00 03 7E 00 41 = 13 at 27
H S 71 00 04 7E 00 44 0B = 16 at 26
H S 71 00 05 7E 00 42 01 01 = 16 at 26
H S 71 00 04 7E 00 42 00 = 16 at 26
H S 71 00 08 7E 00 44 0B 71 00 01 05 = 16 at 26
H S 71 00 06 7E 00 41 31 00 01 F2 = 13 at 30
H S 71 00 16 H S 16 00 = 17 at 45
H S 71 00 17 H S 16 01 00 = 17 at 45
H S 71 00 18 H S 71 00 01 16 00 = 17 at 45
H S 71 00 16 H S 05 00 = 17 at 45
H S 71 00 17 H S 05 00 = 18 at 45
H S 71 00 17 H S 05 00 16 = 18 at 45
H S 71 00 14 H S = 17 at 41
H S 71 00 15 H S 16 = 17 at 45
H S 71 00 15 H S 05 = 17 at 45
H S 71 00 15 H S 05 00 = 18 at 45
H S 71 00 02 7E 00 16 = 13 at 26
H S 71 00 02 7E 00 05 00 = 13 at 26
H S 71 00 01 7D 05 = 14 at 24
H 05 00 71 00 01 7D S = 18 at 17
H S 71 00 2D H S 71 00 15 H S = 19 at 45
H S 71 00 19 H S 71 00 01 05 = 19 at 45
H S 71 00 1B H S 71 00 03 7E 00 44 = 19 at 45
H S 71 00 1A H S 9F 71 00 01 05 = 19 at 46
H S 71 00 19 H S 71 00 01 05 05 = 17 at 49
H S 71 00 19 H S 71 00 01 05 05 00 = 18 at 49
H S 71 00 19 H S 71 00 01 05 16 = 17 at 49
H S 71 00 1A H S 71 00 01 05 16 00 = 17 at 49
H S 71 00 1B H S 71 00 01 05 05 00 = 18 at 49
H 71 00 19 H S 71 00 01 05 = 19 at 41
H S 71 00 15 H 71 00 01 05 = 19 at 41
H 71 00 15 H 71 00 01 05 = 19 at 37
H S 71 00 00 = request 1 3 identity 6 11 security 19 2
H S 71 00 00 71 00 15 G S = request 1 3 identity 6 11 security 19 2
H S 71 00 00 71 00 01 7D = request 1 3 identity 6 11 security 19 2
H 71 00 00 71 00 15 H S = 3
H S 71 00 15 H S 71 00 01 7D = request 1 3 identity 30 11 security 43 2
H S 71 00 18 H S 71 00 00 = request 1 3 identity 30 11 security 43 2
H S 71 00 1C H S 71 00 00 71 00 01 05 = request 1 3 identity 30 11 security 43 2
H S 71 00 1C H S 71 00 01 05 71 00 00 = 19 at 45
H S 71 00 11 H = 3
H 71 00 15 H S = 3
H 71 00 15 H S S = request 1 3 identity 26 11 security 39 2
H 2E 09 00 00 00 00 00 00 00 00 00 71 00 15 H S = 3
H 2E 08 00 00 00 00 00 00 00 00 71 00 15 H S = request 1 3 identity 36 11 security 49 2
H S 71 00 1C H 2E 09 00 00 00 00 00 00 00 00 00 = 3
H S 71 00 0A 7E 00 41 31 00 00 S = 3
7E 00 41 31 00 00 S 71 00 15 H S = 3
G S 71 00 15 H S = request 1 3 identity 30 11 security 43 2
H S 71 00 15 G S = request 1 7 identity 30 11 security 43 2
G S 71 00 19 G S 71 00 01 05 = 19 at 45
H 10 01 00 S 71 00 15 H S = request 1 3 identity 33 11 security 46 2
H S 71 00 18 H 10 01 00 S = request 1 3 identity 30 11 capability 43 1 security 46 2
H S 2B 01 00 71 00 15 H S = request 1 3 identity 33 11 security 46 2
H S 71 00 18 H S 2B 01 00 = request 1 3 identity 30 11 security 43 2 status 47 1
H S 70 00 01 07 71 00 1A H S 70 00 02 07 41 = request 1 3 identity 34 11 security 47 2 attach 52 2
H S 71 00 15 H S 70 00 01 07 = request 1 3 identity 30 11 security 43 2
H S 71 00 19 H S 70 00 01 = 17 at 21
H S 71 00 18 H S 70 00 01 = 17 at 45
H S 71 00 17 H S 2B 01 = 17 at 45
H S 2B 01 = 17 at 21
H S 77 00 0B F2 = 17 at 21
";

// What R-7 adds to a request, behind its 2E or before it: here it is behind "H S", at 21. The parts in any order and number, too
// short and with more octets, an F2 and another lead, the first of a repeat; none is a reason to refuse.
const ADDITIONS: &str = "\
77 00 0B F2 01 02 03 04 05 06 07 08 09 0A = additional 24 11
77 00 0C F2 01 02 03 04 05 06 07 08 09 0A 0B = additional 24 11
77 00 0A F2 01 02 03 04 05 06 07 08 09 =
77 00 0B F6 01 02 03 04 05 06 07 08 09 0A =
77 00 0B 01 01 02 03 04 05 06 07 08 09 0A =
77 00 0B 02 01 02 03 04 05 06 07 08 09 0A =
77 00 01 F2 =
77 00 00 =
77 00 00 77 00 0B F2 01 02 03 04 05 06 07 08 09 0A =
77 00 0B F6 01 02 03 04 05 06 07 08 09 0A 77 00 0B F2 01 02 03 04 05 06 07 08 09 0A =
77 00 0B F2 01 02 03 04 05 06 07 08 09 0A 77 00 0B F2 00 00 00 00 00 00 00 00 00 00 = additional 24 11
77 00 0B F2 01 02 03 04 05 06 07 08 09 0A 77 00 00 = additional 24 11
2B 01 00 = status 23 1
2B 01 03 = status 23 1
2B 03 01 00 00 = status 23 1
2B 00 =
2B 00 2B 01 00 =
2B 01 00 2B 00 = status 23 1
70 00 01 07 = attach 24 1
70 00 02 07 41 = attach 24 2
70 00 03 05 00 71 = attach 24 3
70 00 00 =
70 00 00 70 00 01 07 =
70 00 01 07 70 00 00 = attach 24 1
9F 2B 01 00 75 00 00 70 00 01 07 = status 24 1 attach 31 1
70 00 02 07 41 2B 01 00 77 00 0B F2 01 02 03 04 05 06 07 08 09 0A = additional 32 11 status 28 1 attach 24 2
2B 01 00 77 00 0B F2 01 02 03 04 05 06 07 08 09 0A 70 00 02 07 41 = additional 27 11 status 23 1 attach 41 2
";

fn refused(all: &mut Vec<Message>) {
    for row in BOUNDARIES.lines() {
        let (text, said) = row.split_once("= ").unwrap();
        assert_eq!(line(&hex(text)), said, "{text}");
        plain(all, text);
    }
    let (head, security) = CLEAR.split_at(CLEAR.len() - 11);
    for row in CONTAINERS.lines() {
        let (text, said) = row.split_once("= ").unwrap();
        let text = text.replace('G', &head.replace("31", "71"));
        let text = text.replace('H', head).replace('S', security);
        let said = format!("16 at 2 | {said} | 272");
        assert_eq!(line(&hex(&text)), said, "{row}");
        plain(all, &text);
    }
}

// these behind a request's 2E and before it, in a container and beside one; and in an accept and a reject
fn additions(all: &mut Vec<Message>) {
    let (head, security) = CLEAR.split_at(CLEAR.len() - 11);
    for row in ADDITIONS.lines() {
        let (text, said) = row.split_once('=').unwrap();
        let (first, update) = (format!("{CLEAR} {text}"), format!("{UPDATE} {text}"));
        let said = format!("16 at 2 | request 1 3 identity 6 11 security 19 2{said} | 272");
        assert_eq!(line(&hex(&first)), said, "{row}");
        plain(all, &first);
        plain(all, &format!("{head} {text} {security}"));
        all.push(Message(around(&hex(&update)), 0));
        let beside = container(&hex(UPDATE));
        all.push(Message([hex(&first), beside].concat(), 0));
        accepted(all, text, 0);
        rejected(all, text, 0);
    }
}

// what opens a message, octet by octet, and the result of an accept
fn opened(all: &mut Vec<Message>) {
    for text in ["7E 01 44", "7E 00 40", "7E 00 43", "7E 00 45"] {
        plain(all, text);
    }
    for text in ["01 02", "02 01 00", "FF 01"] {
        plain(all, &format!("7E 00 42 {text}"));
    }
    all.push(Message(hex("7E 00 42 FF 09"), 253));
    all.push(Message(hex("7E 00 42 FF 09"), 254));
    all.push(Message(hex("7E 00 42 FE 09"), 254));
    for cause in ["00", "03", "FF"] {
        plain(all, &format!("7E 00 44 {cause}"));
    }
}

// messages cut at every octet
fn cut(all: &mut Vec<Message>) {
    let suci = format!("{ASKING} 2E 02 F0 F0");
    let busy = "7E 00 44 16 9F 5F 02 2F 00 75 00 01 05";
    for text in [WHOLE, UPDATE, &suci, "7E 00 44 0B 9F 5F 01 2F", busy] {
        let whole = hex(text);
        for n in 0..whole.len() {
            all.push(Message(whole[..n].to_vec(), 0));
        }
    }
    let whole = around(&hex(UPDATE));
    for n in hex(CLEAR).len()..whole.len() {
        all.push(Message(whole[..n].to_vec(), 0));
    }
}

// lengths at their bounds: up to the message's end, one octet too few, one too many (a lone 00)
fn bounds(all: &mut Vec<Message>) {
    for (head, len) in [
        ("20 00", 0),
        ("20 01", 1),
        ("20 FF", 255),
        ("4A FF", 255),
        ("75 00 00", 0),
        ("75 00 FF", 255),
        ("75 01 00", 256),
        ("75 FF FF", 65535),
    ] {
        for zeros in [len - 1, len, len + 1] {
            if let Ok(zeros) = u16::try_from(zeros) {
                rejected(all, head, zeros);
                accepted(all, head, zeros);
                asked(all, &format!("2E 02 F0 F0 {head}"), zeros);
            }
        }
    }
    for text in ["20", "75", "75 00", "16", "4A", "77 00", "5E", "5E 01"] {
        accepted(all, text, 0);
    }
    rejected(all, "75 FF FE 00", 65535);
    accepted(all, "75 FF FF 01 02", 65533);
}

// the contents of each element that an accept knows, at their bounds
fn known(all: &mut Vec<Message>) {
    for (len, zeros) in [
        ("00 00", 0),
        ("00 0A", 9),
        ("00 0B", 10),
        ("00 0C", 11),
        ("00 FF", 254),
        ("01 00", 255),
        ("FF FF", 65534),
    ] {
        for lead in ["F2", "F1", "02", "00"] {
            if len != "00 00" {
                accepted(all, &format!("77 {len} {lead}"), zeros);
            }
        }
    }
    accepted(all, "77 00 00", 0);
    for len in [0, 1, 2, 3, 44, 45, 46, 48, 255] {
        accepted(all, &format!("4A {len:02X}"), len);
    }
    let timers = "16 00, 16 02 3F 00, 16 02 E5 3F, 5E 00, 5E 01 2A, 5E 02 21 00, 5E 02 E5 21, 5E 03 00 21 21, 5F 01 2F";
    for text in timers.split(',') {
        accepted(all, text, 0);
    }
}

// T3346 with cause 22 and with another: its contents at their bounds, the first of a repeat, among other elements and as the
// contents of one; and in an accept, where it is unknown
fn asks_time(all: &mut Vec<Message>) {
    let elements = "5F 00, 5F 01 01, 5F 01 00, 5F 01 E0, 5F 02 3F 00, 5F 02 00 3F, 5F 02 E5 3F, 5F 03 21 21 E5, \
        5F 01 21 5F 01 3F, 5F 01 21 5F 01 00, 5F 01 21 5F 01 E5, 5F 01 21 5F 00, 5F 01 3F 5F 01, 5F 00 5F 01 3F, 5F 01 00 5F 01 3F, \
        5F 01 E5 5F 01 3F, 5F 02 E5 3F 5F 01 3F, 9F 5F 01 3F, 20 00 75 00 01 05 5F 01 3F, 5F 01 3F 9F 20 01 05, 5F 01 5F 01 3F, \
        75 00 03 5F 01 3F, 75 00 03 5F 01 3F 5F 01 21, 20 02 5F 01 3F, 5E 01 21 5F 01 3F, 16 01 5F 5F 01 16, 5F 01 16 16 01 5F, \
        5F 01 3F 05, 5F 01 3F 0F 00, 0F 00 5F 01 3F";
    for text in elements.split(',') {
        plain(all, &format!("7E 00 44 16 {text}"));
        rejected(all, text, 0);
        accepted(all, text, 0);
    }
    for len in [1, 254, 255] {
        for head in ["5F FF", "5F FF 21", "5F FF E5"] {
            all.push(Message(hex(&format!("7E 00 44 16 {head}")), len));
        }
    }
    all.push(Message(hex("7E 00 44 16 5F 01 2F 75 FF FC"), 65532));
}

// identities at their bounds, and some past the end
fn identities(all: &mut Vec<Message>) {
    for lead in ["F2", "01", "F1", "02", "00"] {
        for len in [1, 8, 9, 10, 11, 12, 63, 64, 65, 255, 256, 300] {
            let head = format!("7E 00 41 71 {:02X} {:02X} {lead}", len / 256, len % 256);
            let body = [hex(&head), vec![0x2E; len - 1]].concat();
            all.push(Message([body, hex("2E 02 F0 F0")].concat(), 0));
        }
    }
    for (len, zeros) in [
        ("00 40", 62),
        ("00 40", 63),
        ("FF FF", 65533),
        ("FF FF", 65534),
    ] {
        all.push(Message(hex(&format!("7E 00 41 71 {len} 01")), zeros));
    }
}

// the contents of each element that a request knows, at their bounds
fn asking(all: &mut Vec<Message>) {
    for (id, lengths) in [
        ("10", &[0, 1, 12, 13, 14, 255][..]),
        ("2E", &[0, 1, 2, 7, 8, 9, 255]),
        ("40", &[0, 1, 2, 3, 255]),
        ("50", &[0, 1, 2, 3, 32, 255]),
        ("2B", &[0, 1, 2, 255]),
        ("70 00", &[0, 1, 2, 255]),
        ("77 00", &[0, 10, 11, 12, 255]),
    ] {
        for &len in lengths {
            let text = format!("{id} {len:02X}");
            asked(all, &format!("2E 02 F0 F0 {text}"), len);
            let filled = format!("{text}{}", " 2E".repeat(usize::from(len)));
            asked(all, &format!("{filled} 2E 02 F0 F0"), 0);
            asked(all, &text, len);
        }
    }
    for zeros in 4..9 {
        asked(all, "2E 02 F0 F0 52", zeros);
        rejected(all, "52", zeros);
        accepted(all, "52", zeros);
    }
    asked(all, "52 2E 02 F0 F0 00", 0);
    asked(all, "52 2E 02 F0 F0 00 00 2E 02 F0 F0", 0);
}

// the first of a repeat counts, even where it reads as absent
fn repeats(all: &mut Vec<Message>) {
    let other = "77 00 0B F2 00 F2 20 01 02 03 04 05 06 07";
    for text in [
        format!("{GUTI} {other}"),
        format!("77 00 00 {other}"),
        format!("77 00 0A F2 00 F1 10 80 01 C5 D1 C2 B3 {other}"),
        format!("77 00 0B F1 00 F1 10 80 01 C5 D1 C2 B3 A4 {other}"),
        format!("4A 02 00 F2 {EQUIVALENTS}"),
        format!("{EQUIVALENTS} 4A 00"),
    ] {
        accepted(all, &text, 0);
    }
    let timers = "16 01 E5 16 01 3F, 16 00 16 01 3F, 16 01 21 16 01 3F, 5E 01 E5 5E 01 21, 5E 00 5E 01 21, 5E 01 00 5E 01 21, \
        5E 01 21 5E 01 E5, 5E 01 21 5E 00, 16 01 5E 5E 01 16, 5E 01 16 16 01 5E, 20 03 5E 01 21, 5E 01 5E 01 21";
    for text in timers.split(',') {
        accepted(all, text, 0);
    }
    rejected(all, "52 00 F2 20 00 00 2A", 0);
    rejected(all, "52 03 F2 20 00", 0);
    rejected(all, "5E 01 21", 0);
}

// the same of a request, within and outside its layout
fn asked_twice(all: &mut Vec<Message>) {
    let security = "2E 02 F0 F0";
    let others = "10 00 10 01 55, 10 01 55 10 00, 40 00 40 02 20 00, 40 01 20 40 02 20 00, 40 02 20 00 40 00, 50 00 50 02 20 00, \
        50 02 20 00 50 04 00 20 00 00, 52 00 F2 20 00 00 2A 52 00 F1 10 00 00 2B, \
        2E 00, 2E 01 F0, 2E 03 01 02 03, 2E 08 01 02 03 04 05 06 07 08, 2E 09 01 02 03 04 05 06 07 08 09";
    for text in others.split(',') {
        asked(all, &format!("{security} {text}"), 0);
        asked(all, &format!("{text} {security}"), 0);
    }
    asked(all, &format!("{security} 10 0E"), 14);
    asked(all, &format!("{security} 10 01 00 10 0E"), 14);
}

// a container at every place among the elements of a request, empty, with a request in it and with too many
fn placed(all: &mut Vec<Message>) {
    let elements = [
        "2E 02 F0 F0",
        "10 01 00",
        "52 00 F2 20 00 00 2A",
        "40 02 21 00",
        "50 02 20 00",
        ADDED[0],
        ADDED[1],
        ADDED[2],
    ];
    for place in 0..=elements.len() {
        let with = |inner: &[u8]| {
            let (before, behind) = elements.split_at(place);
            let before = hex(&before.join(" "));
            let behind = hex(&behind.join(" "));
            [hex(ASKING), before, container(inner), behind].concat()
        };
        for inner in [hex(""), hex(UPDATE), around(&hex(UPDATE))] {
            all.push(Message(with(&inner), 0));
            all.push(Message(around(&with(&inner)), 0));
        }
    }
}

// two containers, in a request and in one inside a container
fn contained_twice(all: &mut Vec<Message>) {
    let containers = [hex(""), hex("7D"), hex(UPDATE), around(&hex(UPDATE))].map(|c| container(&c));
    for first in &containers {
        for second in &containers {
            let msg = [&hex(CLEAR), &first[..], second].concat();
            all.push(Message(around(&msg), 0));
            all.push(Message(msg, 0));
        }
    }
}

// The request in a container cut at every octet; two to four requests in one another, these elements behind one of the
// containers or all there is, and one of the containers longer or shorter than what is in it.
fn nested(all: &mut Vec<Message>) {
    let update = hex(UPDATE);
    for n in 0..update.len() {
        all.push(Message(around(&update[..n]), 0));
    }
    for levels in 2..=4 {
        let whole = (1..levels).fold(update.clone(), |inner, _| around(&inner));
        for at in 1..levels {
            for tail in ["9F", "05", "05 00", "16", "71 00 01 05"] {
                let inside = (1..at).fold(update.clone(), |inner, _| around(&inner));
                let msg = [around(&inside), hex(tail)].concat();
                let msg = (at + 1..levels).fold(msg, |inner, _| around(&inner));
                all.push(Message(msg, 0));
            }
            for len in [-2, -1, 1, 2] {
                let mut msg = whole.clone();
                let place = 24 * at - 1;
                msg[place] = msg[place].wrapping_add_signed(len);
                all.push(Message(msg, 0));
            }
        }
        all.push(Message(whole, 0));
    }
}

// requests of one level within the layout and outside it, in a container and with one
fn layouts(all: &mut Vec<Message>) {
    let mut each = Vec::new();
    let (suci, security) = ("00 09 01 00 F1 10 F0 FF 00 00 07", "2E 02 F0 F0");
    for fourth in "00 01 02 03 04 08 11 32 63 71 72 74 81 83 F1 FF".split(' ') {
        each.push(format!("{fourth} {suci} {security}"));
    }
    for (lead, len) in [
        ("F2", 10),
        ("F2", 11),
        ("F2", 12),
        ("01", 8),
        ("01", 9),
        ("01", 64),
        ("01", 65),
        ("02", 11),
    ] {
        let identity = format!("{lead}{}", " 2E".repeat(len - 1));
        each.push(format!("71 00 {len:02X} {identity} {security}"));
    }
    let elements = "10 00, 10 0D, 10 0E, 2E 00, 2E 01, 2E 02, 2E 08, 2E 09, 40 01, 40 02, 40 03, 50 01, 50 02, 50 03, 2B 00, 2B 02";
    for element in elements.split(", ") {
        let contents = " 07".repeat(hex(element)[1].into());
        each.push(format!("32 {suci} {element}{contents} {security}"));
    }
    for text in each {
        let msg = hex(&format!("7E 00 41 {text}"));
        all.push(Message(around(&msg), 0));
        all.push(Message([msg, container(&hex(UPDATE))].concat(), 0));
    }
}

// containers as long as they can be, in them zeros, an identity, one more element, an attach message or a third level; and one
// octet more or less
fn long(all: &mut Vec<Message>) {
    for (inner, len) in [
        ("".to_string(), 65535),
        ("7E 00 41 31 FF F9 01".to_string(), 65528),
        (format!("{CLEAR} 75 FF E7"), 65511),
        (format!("{CLEAR} 70 FF E7"), 65511),
        (format!("{CLEAR} 71 FF E7"), 65511),
    ] {
        for zeros in [len - 1, len, len + 1] {
            if let Ok(zeros) = u16::try_from(zeros) {
                all.push(Message(hex(&format!("{CLEAR} 71 FF FF {inner}")), zeros));
            }
        }
    }
}

// an attach message of 65,000 octets at both levels
fn longest(all: &mut Vec<Message>) {
    let len: u16 = 65_000;
    let head = format!("{} {} 70 FD E8", ADDED[0], ADDED[1]);
    let clear = hex(&format!("{CLEAR} {head}"));
    let whole = hex(&format!("{UPDATE} {head}"));
    let [high, low] = (whole.len() as u16 + len).to_be_bytes();
    let clear = [clear, vec![0x5A; len.into()], vec![0x71, high, low]].concat();
    all.push(Message([clear, whole].concat(), len));
}

// every order of these: each text at every place of each order of those before it
fn orders_of<'a>(texts: &[&'a str]) -> Vec<Vec<&'a str>> {
    let mut all = vec![Vec::new()];
    for text in texts {
        for order in std::mem::take(&mut all) {
            for place in 0..=order.len() {
                all.push([&order[..place], &[*text], &order[place..]].concat());
            }
        }
    }
    all
}

// order is free
fn orders(all: &mut Vec<Message>) {
    let accepts = [GUTI, EQUIVALENTS, "16 01 5F", "5E 01 2A"];
    for order in [orders_of(&accepts[..3]), orders_of(&accepts)].concat() {
        accepted(all, &order.join(" "), 0);
    }
    let asks = [
        "2E 02 F0 F0",
        "10 01 00",
        "52 00 F2 20 00 00 2A",
        "40 02 21 00",
        "50 02 20 00",
    ];
    let added = [&asks[..1], &ADDED].concat();
    for order in [orders_of(&asks), orders_of(&added)].concat() {
        asked(all, &order.join(" "), 0);
    }
}

// every identifier, every cause and timer octet, and every octet 4 of a request
fn octets(all: &mut Vec<Message>) {
    for octet in 0..=255 {
        rejected(all, &format!("{octet:02X}"), 0);
        rejected(all, &format!("{octet:02X} 00 00"), 0);
        plain(all, &format!("7E 00 44 {octet:02X} 5F 01 21"));
        plain(all, &format!("7E 00 44 16 5F 01 {octet:02X}"));
        accepted(all, &format!("{octet:02X} 01 01 16 01 3F"), 0);
        accepted(all, &format!("16 01 {octet:02X}"), 0);
        accepted(all, &format!("5E 01 {octet:02X}"), 0);
        asked(all, &format!("2E 02 F0 F0 {octet:02X}"), 0);
        asked(all, &format!("{octet:02X} 01 01 2E 02 F0 F0"), 0);
        let mut msg = hex(UPDATE);
        msg[3] = octet;
        all.push(Message(msg, 0));
    }
}

// requests written by hand: elements in other orders and twice; 40 and 50 in an update, in one of type 1, too short or left out;
// messages cut or with an element at fault; types 4 and 0, a GUTI of nine octets
const BY_HAND: &str = "\
7E 00 41 31 00 0B F2 00 F1 10 80 01 C5 D1 C2 B3 A4 52 00 F2 20 00 00 2A 9F 2E 02 F0 F0 10 01 00
7E 00 41 71 00 09 01 00 F1 10 F0 FF 00 00 07 10 00 2E 02 F0 F0 10 01 55 2E 03 01 02 03
7E 00 41 32 00 09 01 00 F1 10 F0 FF 00 00 07 50 02 20 00 10 01 00 40 02 21 00 2E 02 F0 F0
7E 00 41 33 00 09 01 00 F1 10 F0 FF 00 00 07 2E 02 F0 F0 40 01 20 40 02 20 00
7E 00 41 32 00 09 01 00 F1 10 F0 FF 00 00 07 2E 02 F0 F0 50 04 20 00 00 00 40 00
7E 00 41 31 00 09 01 00 F1 10 F0 FF 00 00 07 40 02 20 00 50 02 20 00 2E 02 F0 F0
7E 00 41 72 00 09 01 00 F1 10 F0 FF 00 00 07 2E 02 F0 F0
7E 00 41 71 00 09 01 00
7E 00 41 71 00 00 05 00
7E 00 41 71 00 00 2E 02 F0
7E 00 41 74 00 09 01 00 F1 10 F0 FF 00 00 07 2E 02 F0 F0
7E 00 41 70 00 09 01 00 F1 10 F0 FF 00 00 07 2E 02 F0 F0
7E 00 41 71 00 09 F2 00 F1 10 F0 FF 00 00 07 2E 02 F0 F0";

fn by_hand(all: &mut Vec<Message>) {
    for text in BY_HAND.lines() {
        plain(all, text);
    }
}

// What comes by chance, the same for the same seed: identifiers, known ones often, and octets of their contents.
struct Chance(u64);

const ACCEPTS: [u8; 19] = [
    0x77, 0x77, 0x77, 0x4A, 0x4A, 0x4A, 0x16, 0x16, 0x16, 0x5E, 0x5E, 0x5E, 0x75, 0x9F, 0xF2, 0x20,
    0x52, 0x0F, 0x5F,
];
const REJECTS: [u8; 14] = [
    0x5F, 0x5F, 0x5F, 0x5F, 0x5F, 0x5F, 0x16, 0x5E, 0x77, 0x75, 0x9F, 0x20, 0x52, 0x0F,
];
const ASKS: [u8; 20] = [
    0x10, 0x10, 0x10, 0x2E, 0x52, 0x52, 0x52, 0x40, 0x40, 0x50, 0x50, 0x77, 0x77, 0x2B, 0x2B, 0x70,
    0x70, 0x75, 0x9F, 0x20,
];
const CONTENTS: [u8; 8] = [0xF2, 0xF2, 0xF2, 0xF2, 0x3F, 0xE5, 0x16, 0x00];

impl Chance {
    fn below(&mut self, n: usize) -> usize {
        self.0 = self
            .0
            .wrapping_mul(6364136223846793005)
            .wrapping_add(1442695040888963407);
        (self.0 >> 33) as usize % n
    }

    fn of<T: Copy>(&mut self, all: &[T]) -> T {
        all[self.below(all.len())]
    }

    fn octet(&mut self) -> u8 {
        self.below(256) as u8
    }

    fn content(&mut self) -> u8 {
        match self.below(4) {
            0 => self.octet(),
            _ => self.of(&CONTENTS),
        }
    }

    // one for a message of this type
    fn element(&mut self, kind: u8) -> Vec<u8> {
        let request = kind == 0x41;
        let id = match (self.below(8), kind) {
            (0, _) => self.octet(),
            (_, 0x41) => self.of(&ASKS),
            (_, 0x42) => self.of(&ACCEPTS),
            _ => self.of(&REJECTS),
        };
        let len = match id {
            0x52 if request => 6,
            0x77 => 8 + self.below(6),
            0x4A => self.below(60),
            0x10 | 0x2E => self.below(16),
            0x70..=0x7F => self.of(&[0, 1, 5, 255, 256, 600]),
            _ => self.below(14),
        };
        let mut element = vec![id];
        match id {
            0x80..=0xFF => return element,
            0x70..=0x7F => element.extend((len as u16).to_be_bytes()),
            0x52 if request => {}
            _ => element.push(len as u8),
        }
        element.extend((0..len).map(|_| self.content()));
        element
    }

    fn accept(&mut self) -> Vec<u8> {
        let len = self.of(&[1, 1, 1, 1, 1, 2, 7, 0]);
        let mut msg = vec![0x7E, 0x00, 0x42, len];
        msg.extend((0..len).map(|_| self.octet()));
        for _ in 0..self.below(6) {
            msg.extend(self.element(0x42));
        }
        msg
    }

    fn reject(&mut self) -> Vec<u8> {
        let mut msg = vec![0x7E, 0x00, 0x44, self.octet()];
        for _ in 0..self.below(4) {
            msg.extend(self.element(0x44));
        }
        msg
    }

    // mostly within the layout, its 2E anywhere among the elements, and often a container with at most so many in one another
    fn request(&mut self, inside: usize) -> Vec<u8> {
        let fourth = (16 * self.below(8) + 1 + self.below(3)) as u8;
        let suci = 9 + self.below(56) as u8;
        let (lead, len) = match self.below(16) {
            0 => (0x01, self.of(&[0, 1, 8, 65, 200])),
            1 => (0xF2, self.of(&[1, 10, 12])),
            2 => (self.octet(), suci),
            3..=8 => (0xF2, 11),
            _ => (0x01, suci),
        };
        let mut msg = vec![0x7E, 0x00, 0x41, fourth, 0x00, len];
        msg.extend((0..len).map(|i| if i == 0 { lead } else { self.octet() }));
        let mut elements: Vec<Vec<u8>> = (0..self.below(6)).map(|_| self.element(0x41)).collect();
        if self.below(16) > 0 {
            let len = 2 + self.below(7);
            let place = self.below(elements.len() + 1);
            elements.insert(place, [vec![0x2E, len as u8], vec![0xF0; len]].concat());
        }
        if self.below(4) < inside {
            let place = self.below(elements.len() + 1);
            elements.insert(place, self.container(inside));
        }
        msg.extend(elements.concat());
        msg
    }

    // what is in it is a request, changed or not, or something else; few have another length or are empty
    fn container(&mut self, inside: usize) -> Vec<u8> {
        let inner = match self.below(16) {
            0 => self.noise(),
            1 => self.accept(),
            2 => Vec::new(),
            3..=6 => {
                let msg = self.request(inside - 1);
                self.changed(msg)
            }
            _ => self.request(inside - 1),
        };
        let mut all = container(&inner);
        if self.below(16) == 0 {
            all[2] = all[2].wrapping_add_signed(self.of(&[-1, 1]));
        }
        all
    }

    fn noise(&mut self) -> Vec<u8> {
        let heads = ["", "7E", "7E 00", "7E 00 41", "7E 00 42 01 01", "7E 00 44"];
        let mut msg = hex(self.of(&heads));
        msg.extend((0..self.below(24)).map(|_| self.octet()));
        msg
    }

    // as it is, or with one thing changed
    fn changed(&mut self, mut msg: Vec<u8>) -> Vec<u8> {
        let place = self.below(msg.len());
        match self.below(14) {
            0 | 1 => msg.truncate(place),
            2 => msg.truncate(msg.len() - 1),
            3 => msg[place] = self.octet(),
            4 => msg[self.below(4)] = self.octet(),
            5 => msg.insert(place, self.octet()),
            6 => drop(msg.remove(place)),
            7 => msg.push(self.octet()),
            _ => {}
        }
        msg
    }

    fn message(&mut self) -> Message {
        let msg = match self.below(8) {
            0 => return Message(self.noise(), 0),
            1 | 2 => self.accept(),
            3 | 4 => self.reject(),
            _ => self.request(3),
        };
        Message(self.changed(msg), 0)
    }
}

// so many messages of a seed
fn random(seed: u64, messages: usize) -> Vec<Message> {
    let mut chance = Chance(seed);
    (0..messages).map(|_| chance.message()).collect()
}

fn by_chance(all: &mut Vec<Message>) {
    all.extend(random(1, 100));
}

// Messages as the program `reading` takes them.
fn input(all: &[Message]) -> Vec<u8> {
    let mut input = Vec::new();
    for Message(octets, zeros) in all {
        let len = u16::try_from(octets.len()).expect("a short message");
        input.extend(len.to_le_bytes());
        input.extend(zeros.to_le_bytes());
        input.extend(octets);
    }
    input
}

fn store(dir: &str) {
    let mut all = Vec::new();
    for part in [
        sent,
        refused,
        additions,
        opened,
        cut,
        bounds,
        known,
        asks_time,
        identities,
        asking,
        repeats,
        asked_twice,
        placed,
        contained_twice,
        nested,
        layouts,
        long,
        longest,
        orders,
        octets,
        by_hand,
        by_chance,
    ] {
        part(&mut all);
    }
    let output: String = all.iter().map(|m| line(&m.whole()) + "\n").collect();
    fs::write(format!("{dir}/reading.stdin"), input(&all)).expect("to write the messages");
    fs::write(format!("{dir}/reading.stdout"), output).expect("to write their readings");
}

// The readings that there are, by reader, and of the requests' those of a request in a container, and those with what R-7 adds.
// "T3346" is a reject with a time to wait.
const READINGS: [(&str, &[&str]); 5] = [
    (
        "accepts and rejects",
        &[
            "accept", "reject", "T3346", "13", "14", "15", "16", "17", "18",
        ],
    ),
    (
        "requests",
        &["request", "3", "13", "14", "15", "16", "17", "18", "19"],
    ),
    (
        "rejects for C",
        &["cause", "269", "270", "271", "272", "273", "274"],
    ),
    (
        "requests in containers",
        &["request", "3", "13", "14", "15", "16", "17", "18"],
    ),
    ("requests with", &["additional", "status", "attach"]),
];

// Whether what is said of a request is of the one in its container: at an octet in there, at its end where that one is cut, or 3.
fn inner(msg: &[u8], said: &str) -> bool {
    let Some(inside) = held(&listed(msg, &[0x41]).0, 0x71, 1) else {
        return false;
    };
    let words: Vec<&str> = said.split(' ').collect();
    let at = match words[..] {
        ["request", _, _, _, identity, ..] => identity,
        [_, "at", at] => at,
        _ => return true,
    };
    inside.contains(&at.parse().expect("an offset")) || words[0] == "13"
}

// Prints how often each of them occurs; false where one never does.
fn tally(all: &[Message], lines: &[String]) -> bool {
    let mut counts = BTreeMap::new();
    for (msg, line) in all.iter().zip(lines) {
        for (reader, said) in line.split(" | ").enumerate() {
            let word = match said.parse::<u16>() {
                Ok(cause) if reader == 2 && cause < 256 => "cause",
                _ if said.starts_with("reject") && !said.ends_with(" T3346 0") => "T3346",
                _ => said.split(' ').next().unwrap_or(""),
            };
            *counts.entry((reader, word)).or_insert(0) += 1;
            if reader == 1 && inner(&msg.whole(), said) {
                *counts.entry((3, word)).or_insert(0) += 1;
            }
            for part in READINGS[4].1.iter().filter(|part| said.contains(*part)) {
                *counts.entry((4, part)).or_insert(0) += 1;
            }
        }
    }
    let mut whole = true;
    for (reader, (name, words)) in READINGS.iter().enumerate() {
        let count = |word| counts.get(&(reader, word)).copied().unwrap_or(0);
        let said: Vec<String> = words.iter().map(|w| format!("{w}: {}", count(w))).collect();
        println!("reading: {name}: {}", said.join(", "));
        whole &= words.iter().all(|w| count(w) > 0);
    }
    whole
}

// Holds what `reading` printed of the messages of a seed to the second reading, and shows the first that differs.
fn compare(all: &[Message], printed: &str) -> bool {
    let lines: Vec<String> = all.iter().map(|m| line(&m.whole())).collect();
    let mut theirs = printed.lines();
    for (number, line) in lines.iter().enumerate() {
        let said = theirs.next().unwrap_or("nothing");
        if said != line {
            let octets = &all[number].0;
            eprintln!("reading: message {} differs: {octets:02X?}", number + 1);
            eprintln!("  the program:        {said}\n  the second reading: {line}");
            return false;
        }
    }
    if theirs.next().is_some() {
        eprintln!("reading: more lines than messages");
        return false;
    }
    let whole = tally(all, &lines);
    if !whole {
        eprintln!("reading: one of these never occurred");
    }
    whole
}

fn main() -> ExitCode {
    let args: Vec<String> = std::env::args().skip(1).collect();
    if let [dir] = &args[..] {
        store(dir);
        return ExitCode::SUCCESS;
    }
    let [mode, seed, messages] = &args[..] else {
        panic!("DIR, or random or compare with a seed and how many messages");
    };
    let all = random(
        seed.parse().expect("a seed"),
        messages.parse().expect("how many messages"),
    );
    if mode == "random" {
        io::stdout().write_all(&input(&all)).expect("to write");
        return ExitCode::SUCCESS;
    }
    let printed = io::read_to_string(io::stdin()).expect("what `reading` printed");
    ExitCode::from(!compare(&all, &printed) as u8)
}
