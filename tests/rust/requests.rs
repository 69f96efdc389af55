// Registration requests split element by element, for people to read.
//
//   requests EVENTS <REPLAY    those of a replay
//   requests hex OCTETS        one message, in hex digits that may be split by spaces
//
// REPLAY is what `regrun-rust --request` prints, whatever it was lent; EVENTS has a line of text for
// each event, as `scenario to-text` writes it. A request is shown when it is new: after a start or
// an update, and after an event that changes it, as a key set does. Elements have the names of
// TS 24.501, and the request in a container stands indented below it. What 77 and 70 hold has rows
// of its own.
//
//   2 start 0 002-02 area 00002A
//     7E 00 41                              registration request over access 0, 19 octets
//     71                                    no key set, initial registration
//     00 09                                 identity of 9 octets
//     01 00 F1 10 F0 FF 00 00 07            SUCI
//     2E 02 F0 F0                           UE security capability
//
// Of a message that is refused, the octet at fault stands in brackets, which are empty where a
// request is cut. The last line has the refusal's number, the offset from 0 of that octet in the
// outermost message, and the fault in words; 3 names no octet.
//
//     7E 00 [44] 0B                         not read
//     refused: 16 at 2, type not one this call reads

#[allow(dead_code)]
#[path = "../../docs/src/identity.rs"]
mod identity;
#[allow(dead_code)]
#[path = "../../docs/src/message.rs"]
mod message;
#[allow(dead_code)]
#[path = "../../docs/src/record.rs"]
mod record;
#[allow(dead_code)]
#[path = "../../docs/src/request.rs"]
mod request;

use message::{element, Fault, Within, CUT, FIRST, KIND, PAST, SECOND, STRANGE};
use record::{DEEP, UNFIT};
use std::io::{self, Read, Write};
use std::ops::Range;
use std::process::ExitCode;

type Parsed<T> = Result<T, String>;

/// The elements that are looked at: identifier, fewest octets of contents, name.
const ELEMENTS: [(u8, usize, &str); 9] = [
    (0x10, 1, "5GMM capability"),
    (0x2B, 1, "UE status"),
    (0x2E, 2, "UE security capability"),
    (0x40, 2, "uplink data status"),
    (0x50, 2, "PDU session status"),
    (0x52, 6, "last visited registered TAI"),
    (ATTACH, 1, "EPS NAS message container"),
    (CONTAINER, 1, "NAS message container"),
    (ADDITIONAL, 11, "additional GUTI"),
];
const ATTACH: u8 = 0x70;
const CONTAINER: u8 = 0x71;
const ADDITIONAL: u8 = 0x77;

/// By their numbers in octet 4, from 1.
const TYPES: [&str; 3] =
    ["initial registration", "mobility registration updating", "periodic registration updating"];

const REFUSALS: [(u8, &str); 8] = [
    (UNFIT, "breaks the layout"),
    (CUT, "fewer than the fixed octets"),
    (FIRST, "octet 1 not 7E"),
    (SECOND, "octet 2 not 00"),
    (KIND, "type not one this call reads"),
    (PAST, "an element past the end"),
    (STRANGE, "an unknown element that must be understood"),
    (DEEP, "a third level"),
];

/// How many requests in one another are read.
const LEVELS: usize = 2;

/// Octets in a row, and the column of the words beside them.
const ROW: usize = 11;
const COLUMN: usize = 40;

fn octets(digits: &str) -> Parsed<Vec<u8>> {
    let bad = || format!("`{digits}` is not a row of hex octets");
    if digits.len() % 2 != 0 || !digits.bytes().all(|digit| digit.is_ascii_hexdigit()) {
        return Err(bad());
    }
    let pair = |at| u8::from_str_radix(&digits[at..at + 2], 16).map_err(|_| bad());
    (0..digits.len()).step_by(2).map(pair).collect()
}

/// Number, offset and words; 3 is of no octet.
fn refusal(fault: Fault) -> String {
    let Fault { number, at } = fault;
    let place = if number == UNFIT { String::new() } else { format!(" at {at}") };
    let known = REFUSALS.iter().find(|known| known.0 == number);
    format!("refused: {number}{place}, {}", known.map_or("another fault", |known| known.1))
}

/// ngKSI and the registration type.
fn fourth_name(octet: u8) -> String {
    let keys = match octet >> 4 {
        7 => "no key set".into(),
        set @ 0..7 => format!("key set {set}"),
        high => format!("{high} is no ngKSI"),
    };
    let kind = octet & 15;
    let name = TYPES.get(usize::from(kind).wrapping_sub(1));
    format!("{keys}, {}", name.map_or(format!("type {kind}"), |name| name.to_string()))
}

fn identity_name(identity: &[u8]) -> &'static str {
    match identity {
        [0xF2, ..] => "5G-GUTI",
        [0x01, ..] => "SUCI",
        _ => "neither a 5G-GUTI nor a SUCI",
    }
}

/// Session i is bit i, the first octet the lowest.
fn sessions(low: u8, high: u8) -> String {
    let bits = u16::from_le_bytes([low, high]);
    let set = (0..16).filter(|i| bits >> i & 1 == 1).map(|i| i.to_string());
    match &set.collect::<Vec<_>>()[..] {
        [] => "no session".into(),
        [one] => format!("session {one}"),
        more => format!("sessions {}", more.join(" ")),
    }
}

/// The name of an element, the first with its identifier in a request or a later one.
fn element_name(identifier: u8, contents: &[u8], first: bool) -> String {
    let Some((_, fewest, name)) = ELEMENTS.iter().find(|known| known.0 == identifier) else {
        return "another element, not looked at".into();
    };
    match (identifier, contents) {
        _ if !first => format!("{name} again, not looked at"),
        _ if contents.len() < *fewest => format!("{name}, too short: as if absent"),
        (ADDITIONAL, [lead, ..]) if *lead != 0xF2 => {
            format!("{name}, not opening with F2: as if absent")
        }
        (0x2B, [status, ..]) if status & 1 == 0 => format!("{name}, not in EMM-REGISTERED"),
        (0x2B, _) => format!("{name}, in EMM-REGISTERED"),
        (0x40 | 0x50, [low, high, ..]) => format!("{name}, {}", sessions(*low, *high)),
        _ => name.to_string(),
    }
}

/// What an element holds that is split from its identifier and length, if it is one of those.
fn contents_name(identifier: u8, contents: &[u8]) -> Option<&'static str> {
    match (identifier, contents) {
        (ADDITIONAL, [0xF2, guti @ ..]) if guti.len() >= 10 => Some("5G-GUTI"),
        (ATTACH, [_, ..]) => Some("attach message"),
        _ => None,
    }
}

/// A message and the lines that are written of it; levels are from 1, the outermost request.
struct Split<'a> {
    octets: &'a [u8],
    fault: Option<Fault>,
    text: String,
}

impl Split<'_> {
    /// The octets of a part, the one at fault in brackets.
    fn words(&self, part: Range<usize>) -> Vec<String> {
        let told = self.fault.filter(|fault| ![CUT, UNFIT].contains(&fault.number));
        let marked = told.map(|fault| fault.at);
        let word = |at: usize| match self.octets[at] {
            octet if Some(at) == marked => format!("[{octet:02X}]"),
            octet => format!("{octet:02X}"),
        };
        part.map(word).collect()
    }

    fn rows(&mut self, level: usize, words: &[String], name: &str) {
        for (place, row) in words.chunks(ROW).enumerate() {
            let (begin, row) = (2 * level, row.join(" "));
            let line = format!("{:begin$}{row:1$}", "", COLUMN - begin);
            let name = if place == 0 { name } else { "" };
            self.text.push_str(format!("{line}{name}").trim_end());
            self.text.push('\n');
        }
    }

    fn line(&mut self, level: usize, part: Range<usize>, name: &str) {
        let words = self.words(part);
        self.rows(level, &words, name);
    }

    /// The rest of a level from its fault on, which is not marked where another level's is told.
    fn broken(&mut self, level: usize, part: Range<usize>) {
        let mut words = self.words(part.clone());
        if self.fault == Some(Fault { number: CUT, at: part.end }) {
            words.push("[ ]".into());
        }
        self.rows(level, &words, "not read");
    }

    fn request(&mut self, level: usize, part: Range<usize>, name: &str) {
        let start = part.start;
        let [0x7E, 0x00, 0x41, fourth, high, low, rest @ ..] = &self.octets[part.clone()] else {
            return self.broken(level, part);
        };
        let length = u16::from_be_bytes([*high, *low]) as usize;
        self.line(level, start..start + 3, name);
        self.line(level, start + 3..start + 4, &fourth_name(*fourth));
        self.line(level, start + 4..start + 6, &format!("identity of {length} octets"));
        let Some(identity) = rest.get(..length) else {
            return self.broken(level, start + 6..part.end);
        };
        self.line(level, start + 6..start + 6 + length, identity_name(identity));
        self.elements(level, start + 6 + length..part.end);
    }

    fn elements(&mut self, level: usize, part: Range<usize>) {
        let octets = &self.octets[..part.end];
        let (mut rest, mut seen) = (&octets[part.start..], Vec::new());
        while !rest.is_empty() {
            let at = octets.len() - rest.len();
            let Ok((identifier, contents)) = element(octets, &mut rest, Within::Request) else {
                return self.broken(level, at..part.end);
            };
            let place = at..octets.len() - rest.len();
            let first = !seen.contains(&identifier);
            seen.push(identifier);
            let name = element_name(identifier, contents, first);
            let held = contents_name(identifier, contents).filter(|_| first);
            if identifier == CONTAINER && first && !contents.is_empty() {
                self.container(level, place, contents.len());
            } else if let Some(held) = held {
                let (inner, length) = (place.end - contents.len(), contents.len());
                self.line(level, place.start..inner, &format!("{name} of {length} octets"));
                self.line(level, inner..place.end, held);
            } else {
                self.line(level, place, &name);
            }
        }
    }

    fn container(&mut self, level: usize, part: Range<usize>, length: usize) {
        if level == LEVELS {
            return self.line(level, part, "NAS message container, not opened");
        }
        let inner = part.end - length;
        self.line(level, part.start..inner, &format!("NAS message container, {length} octets:"));
        self.request(level + 1, inner..part.end, "registration request");
    }
}

/// The lines of a message; `over` says where it is sent.
fn split(octets: &[u8], over: &str) -> String {
    let fault = request::read(octets).err();
    let mut split = Split { octets, fault, text: String::new() };
    let name = format!("registration request{over}, {} octets", octets.len());
    split.request(1, 0..octets.len(), &name);
    if let Some(fault) = fault {
        split.text.push_str(&format!("  {}\n", refusal(fault)));
    }
    split.text
}

/// The new requests of a replay, each below its event.
fn replayed(events: &str, replay: &str) -> Parsed<String> {
    let events: Vec<&str> = events.lines().collect();
    let (mut number, mut text) = (0usize, String::new());
    // What each access would send before and after an event; nothing outside state 4.
    let (mut before, mut after) = ([""; 2], [""; 2]);
    for line in replay.lines() {
        let words: Vec<&str> = line.split(' ').collect();
        match words[..] {
            ["request", access @ ("0" | "1"), digits] => {
                let place = usize::from(access == "1");
                after[place] = digits;
                if before[place] != digits {
                    let event = events.get(number.wrapping_sub(1));
                    let event = event.ok_or("the replay has more events than the text")?;
                    text.push_str(&format!("{number} {event}\n"));
                    text.push_str(&split(&octets(digits)?, &format!(" over access {access}")));
                }
            }
            ["read", ..] | ["bad", "log", ..] => {}
            _ => {
                number += 1;
                before = std::mem::take(&mut after);
            }
        }
    }
    Ok(text)
}

fn job() -> Parsed<()> {
    let words: Vec<String> = std::env::args().skip(1).collect();
    let text = match &words[..] {
        [hex, digits @ ..] if hex == "hex" => {
            split(&octets(&digits.concat().replace(' ', ""))?, "")
        }
        [named] => {
            let events = std::fs::read_to_string(named);
            let events = events.map_err(|error| format!("{named}: {error}"))?;
            let mut replay = String::new();
            io::stdin().read_to_string(&mut replay).map_err(|error| error.to_string())?;
            replayed(&events, &replay)?
        }
        _ => return Err("name the file with the events' text, or say hex and octets".into()),
    };
    io::stdout().write_all(text.as_bytes()).map_err(|error| error.to_string())
}

fn main() -> ExitCode {
    match job() {
        Ok(()) => ExitCode::SUCCESS,
        Err(error) => {
            eprintln!("requests: {error}");
            ExitCode::FAILURE
        }
    }
}
