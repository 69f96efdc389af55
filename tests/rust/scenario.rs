// An event log as readable text, and back.
//
//   scenario to-log [NAME [LIMITS]]    text on standard input, log on standard output
//   scenario to-text [NAME]            log on standard input, text on standard output
//
// NAME is what faults call the input. Of a text each bad line is told, as NAME:LINE: what is wrong,
// and no log is written; of a log the offset of its bad record, and the text before it is written.
// It ends with 1 then, and with 2 where its arguments are wrong.
//
// A text may say before its first event with what limits its record begins, each 1 to 10; without
// that line they are 3 3 3, those of `regrun`.
//
//   limits CARD BAN N1
//
// A log has no place for them. LIMITS is a file that takes what the line says, and nothing where
// there is none; without LIMITS a note says that the log does not hold them, if they are not 3 3 3.
//
// One event a line, words split by spaces; `#` begins a comment; empty lines count for
// nothing. A network is MCC-MNC, as 001-01 or 310-260, or six hex digits where it is no
// network code. An access is 0 or 1, a cause and a draw are decimal, octets are hex.
//
//   card NETWORK SUCI [edition NUMBER]
//   start ACCESS NETWORK area CODE [manual]
//   update ACCESS mobility|periodic NETWORK area CODE [uplink OCTETS] [sessions OCTETS]
//   reject ACCESS CAUSE protected|unprotected [DRAWS] [T3346 OCTET]
//   accept ACCESS protected|unprotected [DRAWS] [guti OCTETS]
//          [equivalents NETWORK,NETWORK..] [T3502 OCTET] [T3512 OCTET]
//   message ACCESS protected|unprotected [DRAWS] OCTETS
//   timer T3510|T3511|T3502|T3346 ACCESS
//   timer T3247|T3512
//   power
//   key ACCESS SET
//   import [NETWORK|unused]..   the card's file of forbidden networks, place by place
//   raw OCTETS                  any other record: kind and body
//
// A card with an edition of the identity order is log kind 11; without one it is kind 1, which
// means edition 1. DRAWS are `draw SECONDS`, that for T3247 alone (log kind 3), or `draws SECONDS
// SECONDS`, that for T3346 behind it (log kind 8); left out they are `draw 1800`. `uplink` and
// `sessions` are the two octets of 40 and of 50 as sent, session 0 the lowest bit of the first;
// left out they are 0000. An accept's elements stand in the order of their words, which is free; a
// reject's words say one 5F of one octet and no other element. `unused` stands for FF FF FF;
// `import` alone is an empty file, and one that ends within a place is `raw`. Octets of `message`
// and `raw` may be split by spaces. A log and its text hold the same: to-text and then to-log gives
// the log back, octet for octet.
//
// Behind a message that is no accept and no reject, to-text adds a comment: the refusal's number,
// the offset from 0 of the octet at fault, the fault in words, and the octets around that one. It
// stands in brackets, which are empty where the message is cut.
//
//   message 0 unprotected draw 1800 7E0144  # by itself 15 at 1, octet 2 not 00: 7E [01] 44
//   message 0 unprotected draw 1800 7E  # by itself 13 at 1, fewer than the fixed octets: 7E [ ]
//
// By itself: the event may be refused by its state or a range before its message is read.

#[allow(dead_code)]
#[path = "../../docs/src/message.rs"]
mod message;

use std::fmt::Write as _;
use std::io::{self, Read, Write};
use std::process::ExitCode;

type Parsed<T> = Result<T, String>;

/// In a scenario's order, and what `regrun` has for all three.
const LIMITS: [&str; 3] = ["card", "ban", "N1"];
const COMMON: &str = "3 3 3";

/// By their numbers in a log, from 1; T3247 and T3512 are the device's.
const TIMERS: [&str; 6] = ["T3510", "T3511", "T3502", "T3247", "T3512", "T3346"];
const OF_DEVICE: std::ops::Range<usize> = 3..5;

/// Kinds of log records with a message, by how many draws they have, from 1.
const HEARD: [u8; 2] = [3, 8];

/// By their numbers in a log, from 2.
const UPDATES: [&str; 2] = ["mobility", "periodic"];

/// A place of the card's file without a network, and its word.
const UNUSED: ([u8; 3], &str) = ([0xFF; 3], "unused");

/// What is wrong with a message, by the refusals' numbers from 13.
const FAULTS: [&str; 6] = [
    "fewer than the fixed octets",
    "octet 1 not 7E",
    "octet 2 not 00",
    "type not one this call reads",
    "an element past the end",
    "an unknown element that must be understood",
];
const FIRST_FAULT: usize = 13;

/// At most so many octets are shown before the one at fault, and behind it.
const BEFORE: usize = 6;
const BEHIND: usize = 4;

fn octets(word: &str) -> Parsed<Vec<u8>> {
    let bad = || format!("`{word}` is not a row of hex octets");
    if word.len() % 2 != 0 || !word.bytes().all(|digit| digit.is_ascii_hexdigit()) {
        return Err(bad());
    }
    let pair = |at| u8::from_str_radix(&word[at..at + 2], 16).map_err(|_| bad());
    (0..word.len()).step_by(2).map(pair).collect()
}

fn sized(word: &str, count: usize) -> Parsed<Vec<u8>> {
    let got = octets(word)?;
    if got.len() == count {
        return Ok(got);
    }
    Err(format!("`{word}` has {} octets, not {count}", got.len()))
}

fn number<T: std::str::FromStr>(word: &str, what: &str) -> Parsed<T> {
    word.parse().map_err(|_| format!("`{word}` is no {what}"))
}

/// Three octets: MCC2 MCC1, MNC3 MCC3, MNC2 MNC1, the third MNC digit F where there is none.
fn network(word: &str) -> Parsed<Vec<u8>> {
    let Some((mcc, mnc)) = word.split_once('-') else {
        return sized(word, 3)
            .map_err(|_| format!("`{word}` is no network: 001-01 or six hex digits"));
    };
    let digits: Vec<u8> = mcc.bytes().chain(mnc.bytes()).collect();
    if mcc.len() != 3 || !(2..=3).contains(&mnc.len()) || !digits.iter().all(u8::is_ascii_digit) {
        return Err(format!("`{word}` is no network: three digits, `-`, two or three digits"));
    }
    let digit = |at: usize| digits.get(at).map_or(15, |digit| digit - b'0');
    Ok(vec![digit(1) << 4 | digit(0), digit(5) << 4 | digit(2), digit(4) << 4 | digit(3)])
}

/// The words of a line that are still to be read.
struct Words<'a>(Vec<&'a str>);

impl<'a> Words<'a> {
    fn of(line: &'a str) -> Words<'a> {
        let text = line.split('#').next().unwrap_or("");
        Words(text.split_whitespace().rev().collect())
    }

    fn next(&mut self, what: &str) -> Parsed<&'a str> {
        self.0.pop().ok_or_else(|| format!("{what} is missing"))
    }

    /// Whether the next word is this one; it is then read.
    fn takes(&mut self, word: &str) -> bool {
        let found = self.0.last() == Some(&word);
        if found {
            self.0.pop();
        }
        found
    }

    fn rest(&mut self) -> String {
        self.0.drain(..).rev().collect()
    }

    fn limit(&mut self, name: &str) -> Parsed<String> {
        let word = self.next(&format!("the {name} limit"))?;
        let known = (1..=10).map(|limit| limit.to_string()).find(|limit| limit == word);
        known.ok_or_else(|| format!("`{word}` is no {name} limit: 1 to 10"))
    }

    fn access(&mut self) -> Parsed<u8> {
        let word = self.next("the access")?;
        number(word, "access: 0 (mobile) or 1 (Wi-Fi)")
    }

    fn protection(&mut self) -> Parsed<u8> {
        match self.next("`protected` or `unprotected`")? {
            "protected" => Ok(1),
            "unprotected" => Ok(0),
            word => Err(format!("`{word}` stands for `protected` or `unprotected`")),
        }
    }

    /// A network, `area` and the area code.
    fn area(&mut self) -> Parsed<Vec<u8>> {
        let named = network(self.next("the network")?)?;
        if !self.takes("area") {
            return Err("`area` and the area code are missing".into());
        }
        Ok([named, sized(self.next("the area code")?, 3)?].concat())
    }

    /// Two octets of sessions behind this word, or none of the sixteen.
    fn sessions(&mut self, word: &str) -> Parsed<Vec<u8>> {
        if !self.takes(word) {
            return Ok(vec![0, 0]);
        }
        sized(self.next("two octets of sessions")?, 2)
    }

    /// One draw or two, in seconds.
    fn draws(&mut self) -> Parsed<Vec<u16>> {
        let count = match self.0.last() {
            Some(&"draw") => 1,
            Some(&"draws") => 2,
            _ => return Ok(vec![1800]),
        };
        self.0.pop();
        let draw = |_| number(self.next("a draw's seconds")?, "draw: seconds from 0 to 65535");
        (0..count).map(draw).collect()
    }

    /// An element of one octet behind its name, if that is the next word.
    fn timer(&mut self, name: &str, identifier: u8) -> Parsed<Option<[u8; 3]>> {
        if !self.takes(name) {
            return Ok(None);
        }
        let octet = sized(self.next(&format!("{name}'s octet"))?, 1)?[0];
        Ok(Some([identifier, 0x01, octet]))
    }
}

fn equivalents(list: &str) -> Parsed<Vec<u8>> {
    let networks: Parsed<Vec<_>> = list.split(',').map(network).collect();
    let held = networks?.concat();
    let length = u8::try_from(held.len()).map_err(|_| "more than 85 equivalent networks")?;
    Ok([vec![0x4A, length], held].concat())
}

/// The accept's octets, its elements in the order of their words.
fn accept(words: &mut Words) -> Parsed<Vec<u8>> {
    let mut message = vec![0x7E, 0x00, 0x42, 0x01, 0x01];
    loop {
        if words.takes("guti") {
            message.extend([0x77, 0x00, 0x0B, 0xF2]);
            message.extend(sized(words.next("the GUTI")?, 10)?);
        } else if words.takes("equivalents") {
            message.extend(equivalents(words.next("the equivalent networks")?)?);
        } else if let Some(element) = words.timer("T3502", 0x16)? {
            message.extend(element);
        } else if let Some(element) = words.timer("T3512", 0x5E)? {
            message.extend(element);
        } else {
            return Ok(message);
        }
    }
}

fn heard(access: u8, protected: u8, draws: &[u16], message: &[u8]) -> Vec<u8> {
    let mut held = vec![HEARD[draws.len() - 1], 0, access, protected];
    held.extend(draws.iter().flat_map(|draw| draw.to_le_bytes()));
    [&held[..], message].concat()
}

fn card(words: &mut Words) -> Parsed<Vec<u8>> {
    let home = network(words.next("the home network")?)?;
    let suci = octets(words.next("the SUCI")?)?;
    let mut held = vec![1, 0];
    if words.takes("edition") {
        held = vec![11, 0, number(words.next("the edition")?, "edition: 0 to 255")?];
    }
    Ok([held, home, suci].concat())
}

fn start(words: &mut Words) -> Parsed<Vec<u8>> {
    let access = words.access()?;
    let area = words.area()?;
    let manual = u8::from(words.takes("manual"));
    Ok([vec![2, 0, access, manual], area].concat())
}

fn update(words: &mut Words) -> Parsed<Vec<u8>> {
    let access = words.access()?;
    let name = words.next("`mobility` or `periodic`")?;
    let place = UPDATES.iter().position(|update| *update == name);
    let place = place.ok_or_else(|| format!("`{name}` stands for {}", UPDATES.join(" or ")))?;
    let area = words.area()?;
    let (uplink, sessions) = (words.sessions("uplink")?, words.sessions("sessions")?);
    Ok([vec![7, 0, access, place as u8 + 2], area, uplink, sessions].concat())
}

fn reject(words: &mut Words) -> Parsed<Vec<u8>> {
    let access = words.access()?;
    let cause = number(words.next("the cause")?, "cause: 0 to 255")?;
    let (protected, draws) = (words.protection()?, words.draws()?);
    let mut message = vec![0x7E, 0x00, 0x44, cause];
    message.extend(words.timer("T3346", 0x5F)?.iter().flatten());
    Ok(heard(access, protected, &draws, &message))
}

fn timer(words: &mut Words) -> Parsed<Vec<u8>> {
    let name = words.next("the timer")?;
    let place = TIMERS.iter().position(|timer| *timer == name);
    let place = place.ok_or_else(|| format!("`{name}` is no timer: {}", TIMERS.join(", ")))?;
    let bare = OF_DEVICE.contains(&place) && words.0.is_empty();
    let access = if bare { 0 } else { words.access()? };
    Ok(vec![4, 0, place as u8 + 1, access])
}

fn import(words: &mut Words) -> Parsed<Vec<u8>> {
    let (octets, unused) = UNUSED;
    let place = |word| if word == unused { Ok(octets.to_vec()) } else { network(word) };
    let places: Parsed<Vec<_>> = words.0.drain(..).rev().map(place).collect();
    Ok([vec![10, 0], places?.concat()].concat())
}

fn raw(words: &mut Words) -> Parsed<Vec<u8>> {
    let got = octets(&words.rest())?;
    if got.len() < 2 {
        return Err("a record has at least its two kind octets".into());
    }
    Ok(got)
}

/// A line's record, kind and body.
fn record(words: &mut Words) -> Parsed<Vec<u8>> {
    match words.next("the event")? {
        "card" => card(words),
        "start" => start(words),
        "update" => update(words),
        "reject" => reject(words),
        "accept" => {
            let (access, protected) = (words.access()?, words.protection()?);
            Ok(heard(access, protected, &words.draws()?, &accept(words)?))
        }
        "message" => {
            let (access, protected) = (words.access()?, words.protection()?);
            Ok(heard(access, protected, &words.draws()?, &octets(&words.rest())?))
        }
        "timer" => timer(words),
        "power" => Ok(vec![5, 0]),
        "key" => {
            let access = words.access()?;
            Ok(vec![6, 0, access, number(words.next("the key set")?, "key set: 0 to 255")?])
        }
        "import" => import(words),
        "raw" => raw(words),
        word => Err(format!(
            "`{word}` is no event: card, start, update, reject, accept, message, timer, power, \
             key, import or raw"
        )),
    }
}

/// What the lines of a text come to.
#[derive(Default)]
struct Scenario {
    /// As a log's reader is told them; empty where no line says them.
    limits: String,
    /// Whether an event's line has come.
    begun: bool,
    log: Vec<u8>,
}

impl Scenario {
    /// Takes the next line.
    fn line(&mut self, text: &str) -> Parsed<()> {
        let mut words = Words::of(text);
        if words.0.is_empty() {
            return Ok(());
        }
        let held =
            if words.takes("limits") { self.limits(&mut words) } else { self.event(&mut words) };
        match words.0.last() {
            Some(word) if held.is_ok() => Err(format!("`{word}` is not expected here")),
            _ => held,
        }
    }

    fn limits(&mut self, words: &mut Words) -> Parsed<()> {
        if self.begun {
            return Err("limits are said before the first event".into());
        }
        if !self.limits.is_empty() {
            return Err("the limits are said already".into());
        }
        let limit = |name: &&str| words.limit(name);
        let limits: Vec<String> = LIMITS.iter().map(limit).collect::<Parsed<_>>()?;
        self.limits = limits.join(" ");
        Ok(())
    }

    fn event(&mut self, words: &mut Words) -> Parsed<()> {
        self.begun = true;
        let held = record(words)?;
        let length = u16::try_from(held.len()).map_err(|_| "a record has at most 65535 octets")?;
        self.log.extend(length.to_le_bytes());
        self.log.extend(held);
        Ok(())
    }

    /// What is told of limits that the log does not hold.
    fn note(&self, name: &str) -> Option<String> {
        let limits =
            Some(&self.limits).filter(|limits| !["", COMMON].contains(&limits.as_str()))?;
        Some(format!(
            "{name}: the log does not hold the limits {limits}: regrun replays it with {COMMON}, \
             tools/timeline --limits {limits} with these"
        ))
    }
}

/// What the text comes to; else every bad line, with its number and what is wrong.
fn read(text: &[u8], name: &str) -> Parsed<Scenario> {
    let (mut scenario, mut faults) = (Scenario::default(), Vec::new());
    for (place, held) in text.split(|octet| *octet == b'\n').enumerate() {
        let line = std::str::from_utf8(held).map_err(|_| "the line is not UTF-8".into());
        if let Err(error) = line.and_then(|line| scenario.line(line)) {
            faults.push(format!("{name}:{}: {error}", place + 1));
        }
    }
    if faults.is_empty() {
        return Ok(scenario);
    }
    Err(faults.join("\n"))
}

fn hex(held: &[u8]) -> String {
    held.iter().fold(String::new(), |mut text, octet| {
        let _ = write!(text, "{octet:02X}");
        text
    })
}

fn network_text(held: &[u8]) -> String {
    let [a, b, c] = [held[0], held[1], held[2]];
    let digits = [a & 15, a >> 4, b & 15, c & 15, c >> 4, b >> 4];
    let digit = |place: usize| char::from(b'0' + digits[place]);
    if digits[..5].iter().any(|digit| *digit > 9) || !(digits[5] < 10 || digits[5] == 15) {
        return hex(held);
    }
    let mnc: String = (3..if digits[5] == 15 { 5 } else { 6 }).map(digit).collect();
    format!("{}{}{}-{mnc}", digit(0), digit(1), digit(2))
}

/// The words of an accept's first element and the octets behind it, if there are words for it.
fn element_text(rest: &[u8]) -> Option<(String, &[u8])> {
    match rest {
        [0x77, 0x00, 0x0B, 0xF2, behind @ ..] => {
            Some((format!(" guti {}", hex(behind.get(..10)?)), &behind[10..]))
        }
        [0x4A, length, behind @ ..] if *length > 0 && length % 3 == 0 => {
            let list = behind.get(..*length as usize)?;
            let networks: Vec<_> = list.chunks(3).map(network_text).collect();
            Some((format!(" equivalents {}", networks.join(",")), &behind[list.len()..]))
        }
        [0x16, 0x01, octet, behind @ ..] => Some((format!(" T3502 {octet:02X}"), behind)),
        [0x5E, 0x01, octet, behind @ ..] => Some((format!(" T3512 {octet:02X}"), behind)),
        _ => None,
    }
}

/// The words of an accept with these elements, if there are words for each.
fn accept_text(mut rest: &[u8]) -> Option<String> {
    let mut text = String::new();
    while !rest.is_empty() {
        let (words, behind) = element_text(rest)?;
        text.push_str(&words);
        rest = behind;
    }
    Some(text)
}

/// The octets around the one at fault, in brackets; a cut message has none there.
fn marked(message: &[u8], at: usize) -> String {
    let octet =
        |place: usize| message.get(place).map_or(" ".into(), |octet| format!("{octet:02X}"));
    let word = |place| if place == at { format!("[{}]", octet(at)) } else { octet(place) };
    let first = at.saturating_sub(BEFORE);
    let end = message.len().clamp(at + 1, at + 1 + BEHIND);
    let words: Vec<String> = (first..end).map(word).collect();
    let before = if first > 0 { ".. " } else { "" };
    let behind = if end < message.len() { " .." } else { "" };
    format!("{before}{}{behind}", words.join(" "))
}

/// The comment behind a message that is no accept and no reject.
fn fault_text(message: &[u8]) -> String {
    let Err(fault) = message::read(message) else { return String::new() };
    let words = FAULTS[fault.number as usize - FIRST_FAULT];
    let shown = marked(message, fault.at);
    format!("  # by itself {} at {}, {words}: {shown}", fault.number, fault.at)
}

/// The words of a reject with these elements: none, or one 5F of one octet.
fn reject_text(rest: &[u8]) -> Option<String> {
    match rest {
        [] => Some(String::new()),
        [0x5F, 0x01, octet] => Some(format!(" T3346 {octet:02X}")),
        _ => None,
    }
}

fn message_text(access: u8, protected: u8, draws: &str, message: &[u8]) -> String {
    let way = if protected == 1 { "protected" } else { "unprotected" };
    if let [0x7E, 0x00, 0x44, cause, rest @ ..] = message {
        if let Some(elements) = reject_text(rest) {
            return format!("reject {access} {cause} {way} {draws}{elements}");
        }
    }
    if let [0x7E, 0x00, 0x42, 0x01, 0x01, rest @ ..] = message {
        if let Some(elements) = accept_text(rest) {
            return format!("accept {access} {way} {draws}{elements}");
        }
    }
    let text = format!("message {access} {way} {draws} {}", hex(message));
    format!("{}{}", text.trim_end(), fault_text(message))
}

/// A record of kind 8: the second draw behind the first.
fn drawn_text(access: u8, protected: u8, draws: [u8; 4], message: &[u8]) -> String {
    let [low, high, second_low, second_high] = draws;
    let first = u16::from_le_bytes([low, high]);
    let second = u16::from_le_bytes([second_low, second_high]);
    message_text(access, protected, &format!("draws {first} {second}"), message)
}

/// The body is the network, the area code and the octets of 40 and 50.
fn update_text(access: u8, kind: u8, body: &[u8]) -> String {
    let (name, network) = (UPDATES[kind as usize - 2], network_text(&body[..3]));
    let [code, uplink, sessions] = [&body[3..6], &body[6..8], &body[8..]].map(hex);
    format!("update {access} {name} {network} area {code} uplink {uplink} sessions {sessions}")
}

/// The body is the card's file, of whole places.
fn import_text(file: &[u8]) -> String {
    let (octets, unused) = UNUSED;
    let word = |place: &[u8]| if place == octets { unused.into() } else { network_text(place) };
    let words: String = file.chunks(3).map(|place| format!(" {}", word(place))).collect();
    format!("import{words}")
}

fn text_of(held: &[u8]) -> String {
    match held {
        [1, 0, h1, h2, h3, suci @ ..] if !suci.is_empty() => {
            format!("card {} {}", network_text(&[*h1, *h2, *h3]), hex(suci))
        }
        [11, 0, edition, h1, h2, h3, suci @ ..] if !suci.is_empty() => {
            let home = network_text(&[*h1, *h2, *h3]);
            format!("card {home} {} edition {edition}", hex(suci))
        }
        [2, 0, access, manual @ (0 | 1), n1, n2, n3, code @ ..] if code.len() == 3 => {
            let manual = if *manual == 1 { " manual" } else { "" };
            format!("start {access} {} area {}{manual}", network_text(&[*n1, *n2, *n3]), hex(code))
        }
        [3, 0, access, protected @ (0 | 1), low, high, message @ ..] => {
            let draw = format!("draw {}", u16::from_le_bytes([*low, *high]));
            message_text(*access, *protected, &draw, message)
        }
        [8, 0, access, protected @ (0 | 1), a, b, c, d, message @ ..] => {
            drawn_text(*access, *protected, [*a, *b, *c, *d], message)
        }
        [4, 0, number @ (4 | 5), 0] => format!("timer {}", TIMERS[*number as usize - 1]),
        [4, 0, number @ 1..=6, access] => {
            format!("timer {} {access}", TIMERS[*number as usize - 1])
        }
        [5, 0] => "power".into(),
        [6, 0, access, set] => format!("key {access} {set}"),
        [7, 0, access, kind @ (2 | 3), body @ ..] if body.len() == 10 => {
            update_text(*access, *kind, body)
        }
        [10, 0, file @ ..] if file.len() % 3 == 0 => import_text(file),
        _ => format!("raw {}", hex(held)),
    }
}

/// The record at an offset, kind and body; none where the log is cut or the length below 2.
fn record_at(log: &[u8], at: usize) -> Option<&[u8]> {
    let length = log.get(at..at + 2)?;
    let length = u16::from_le_bytes([length[0], length[1]]) as usize;
    log.get(at + 2..at + 2 + length).filter(|held| held.len() >= 2)
}

/// The text, up to a bad record if there is one.
fn to_text(log: &[u8]) -> (String, Parsed<()>) {
    let mut text = String::new();
    let mut at = 0;
    while at < log.len() {
        let Some(held) = record_at(log, at) else {
            return (text, Err(format!("bad log at {at}")));
        };
        text.push_str(&text_of(held));
        text.push('\n');
        at += 2 + held.len();
    }
    (text, Ok(()))
}

fn write(output: &[u8]) -> Parsed<()> {
    io::stdout().write_all(output).map_err(|error| format!("standard output: {error}"))
}

/// The log, and the limits to their file or to a note.
fn to_log(input: &[u8], name: &str, limits: Option<&str>) -> Parsed<()> {
    let scenario = read(input, name)?;
    match limits {
        Some(file) => {
            let written = std::fs::write(file, &scenario.limits);
            written.map_err(|error| format!("{file}: {error}"))?;
        }
        None => scenario.note(name).iter().for_each(|note| eprintln!("{note}")),
    }
    write(&scenario.log)
}

fn job(way: &str, name: &str, limits: Option<&str>) -> Parsed<()> {
    let mut input = Vec::new();
    io::stdin().read_to_end(&mut input).map_err(|error| format!("{name}: {error}"))?;
    if way == "to-log" {
        return to_log(&input, name, limits);
    }
    let (text, ended) = to_text(&input);
    write(text.as_bytes())?;
    ended.map_err(|error| format!("{name}: {error}"))
}

fn main() -> ExitCode {
    let words: Vec<String> = std::env::args().skip(1).collect();
    let words: Vec<&str> = words.iter().map(String::as_str).collect();
    let ended = match words[..] {
        [way @ ("to-log" | "to-text")] => job(way, "standard input", None),
        [way @ ("to-log" | "to-text"), name] => job(way, name, None),
        ["to-log", name, limits] => job("to-log", name, Some(limits)),
        _ => {
            eprintln!("scenario: say to-log or to-text; the input comes on standard input");
            return ExitCode::from(2);
        }
    };
    match ended {
        Ok(()) => ExitCode::SUCCESS,
        Err(error) => {
            eprintln!("{error}");
            ExitCode::FAILURE
        }
    }
}
