// Scenes: an event log as text, each event with what documents 01 and 02 say comes of it.
//
//   scene make SCENES           the log, on standard output
//   scene check SCENES OUTPUT   holds the output of `--full` on that log to the expectations
//
// tests/scenes.txt says how a scene is written.

use std::collections::BTreeMap;
use std::io::Write;

/// Every word of the whole reply and record (docs/src/full.rs) under a name: `answer`, `offset`,
/// `told.T3247`, `told0.T3510`, `restart`, `home`, `0.state`.
type Fields = BTreeMap<String, String>;

const TIMERS: [&str; 4] = ["T3510", "T3511", "T3502", "T3346"];
/// The device's own, told once and not for each access.
const CLOCKS: [&str; 2] = ["T3247", "T3512"];
/// `T3512length` is `length` in the device's part of a line; a bare `length` is an access's T3502.
const DEVICE: [&str; 13] = [
    "card",
    "home",
    "suci",
    "limits",
    "cap",
    "sec",
    "edition",
    "T3247",
    "T3512",
    "T3512length",
    "due",
    "roaming",
    "regional",
];
const ASKED: [&str; 3] = ["restart", "leave", "update"];
/// The log kind of a card with an edition.
const CARD_EDITION: u8 = 11;

struct Scene {
    place: String,
    access: u8,
    /// What `sent` says of the access: the pending area, type, uplink and sessions.
    pending: Vec<(&'static str, String)>,
    record: Vec<u8>,
    hope: Vec<String>,
}

/// `HEX`, or `HEX*TIMES`.
fn octets(text: &str) -> Vec<u8> {
    let (hex, times) = text.split_once('*').unwrap_or((text, "1"));
    assert!(hex.len() % 2 == 0, "half an octet in {text}");
    let once: Vec<u8> = (0..hex.len() / 2).map(|i| octet(&hex[2 * i..2 * i + 2])).collect();
    once.repeat(decimal(times).into())
}

fn octet(text: &str) -> u8 {
    u8::from_str_radix(text, 16).unwrap_or_else(|_| panic!("no hex: {text}"))
}

fn decimal(text: &str) -> u16 {
    text.parse().unwrap_or_else(|_| panic!("no number: {text}"))
}

/// Whole lines, `def` and `for` written out; each with its line number.
fn expand(lines: &[(usize, String)]) -> Vec<(usize, String)> {
    let mut defined: BTreeMap<String, Vec<(usize, String)>> = BTreeMap::new();
    let mut out = Vec::new();
    let mut i = 0;
    while i < lines.len() {
        let (number, line) = &lines[i];
        i += 1;
        let words: Vec<&str> = line.split_whitespace().collect();
        match words[0] {
            "def" | "for" => {
                let end = i + lines[i..].iter().position(|l| l.1 == "end").expect("an end");
                let body = &lines[i..end];
                i = end + 1;
                if words[0] == "def" {
                    defined.insert(words[1].to_string(), body.to_vec());
                    continue;
                }
                for value in &words[1..] {
                    for (number, line) in body {
                        out.extend(put_in(*number, line.replace("{}", value), &defined));
                    }
                }
            }
            _ => out.extend(put_in(*number, line.clone(), &defined)),
        }
    }
    out
}

/// A line, or for `do NAME ARGUMENTS` the lines of that definition, which may name others.
fn put_in(
    number: usize,
    line: String,
    defined: &BTreeMap<String, Vec<(usize, String)>>,
) -> Vec<(usize, String)> {
    let words: Vec<&str> = line.split_whitespace().collect();
    if words[0] != "do" {
        return vec![(number, line)];
    }
    let mut out = Vec::new();
    for (_, text) in &defined[words[1]] {
        let mut text = text.clone();
        for (i, word) in words[2..].iter().enumerate() {
            text = text.replace(&format!("{{{}}}", i + 1), word);
        }
        out.extend(put_in(number, text, defined));
    }
    out
}

/// The draws are one number, kind 3, or two with a comma between, kind 8.
fn message(access: &str, protected: u8, draws: &str, octets: &[u8]) -> Vec<u8> {
    let kind = if draws.contains(',') { 8 } else { 3 };
    let mut body = vec![kind, 0, decimal(access) as u8, protected];
    for draw in draws.splitn(2, ',') {
        body.extend(decimal(draw).to_le_bytes());
    }
    body.extend(octets);
    body
}

fn number_of(timer: &str) -> u8 {
    match timer {
        "T3510" => 1,
        "T3511" => 2,
        "T3502" => 3,
        "T3247" => 4,
        "T3512" => 5,
        "T3346" => 6,
        other => decimal(other) as u8,
    }
}

/// `reject ACCESS CAUSE [protected] [draw=SECONDS] [draws=FIRST,SECOND] [HEX]..`
fn reject(words: &[&str]) -> Vec<u8> {
    let mut octets_of = vec![0x7E, 0, 0x44, decimal(words[2]) as u8];
    let mut protected = 0;
    let mut draws = "1800";
    for word in &words[3..] {
        match word.split_once('=') {
            Some(("draw", text)) if !text.contains(',') => draws = text,
            Some(("draws", text)) if text.contains(',') => draws = text,
            Some(_) => panic!("no draw: {word}"),
            None if *word == "protected" => protected = 1,
            None => octets_of.extend(octets(word)),
        }
    }
    message(words[1], protected, draws, &octets_of)
}

/// `accept ACCESS [unprotected] [HEX]..`: the result is one octet, 01.
fn accept(words: &[&str]) -> Vec<u8> {
    let mut octets_of = vec![0x7E, 0, 0x42, 1, 1];
    let mut protected = 1;
    for word in &words[2..] {
        if *word == "unprotected" {
            protected = 0;
        } else {
            octets_of.extend(octets(word));
        }
    }
    message(words[1], protected, "1800", &octets_of)
}

/// `card [edition=NUMBER] HOME SUCI`: kind 11 with an edition, else kind 1.
fn card(words: &[&str]) -> Vec<u8> {
    let edition = words[1].strip_prefix("edition=");
    let (mut held, rest) = match edition {
        Some(number) => (vec![CARD_EDITION, 0, decimal(number) as u8], &words[2..]),
        None => (vec![1, 0], &words[1..]),
    };
    held.extend(rest.iter().flat_map(|word| octets(word)));
    held
}

fn record(words: &[&str]) -> Vec<u8> {
    let hex = |from: usize| words[from..].iter().flat_map(|word| octets(word)).collect::<Vec<u8>>();
    match words[0] {
        "card" => card(words),
        "start" => {
            let manual = (words.get(4) == Some(&"manual")) as u8;
            let area = octets(&words[2..4].concat());
            [vec![2, 0, decimal(words[1]) as u8, manual], area].concat()
        }
        "update" => [vec![7, 0, decimal(words[1]) as u8, decimal(words[2]) as u8], hex(3)].concat(),
        "reject" => reject(words),
        "accept" => accept(words),
        "message" => message(words[1], decimal(words[2]) as u8, words[3], &hex(4)),
        "timer" => vec![4, 0, number_of(words[1]), decimal(words[2]) as u8],
        "power" => vec![5, 0],
        "key" => vec![6, 0, decimal(words[1]) as u8, decimal(words[2]) as u8],
        "import" => [vec![10, 0], hex(1)].concat(),
        "raw" | "cut" => hex(1),
        other => panic!("no event: {other}"),
    }
}

/// A start is of type 1 and takes the octets of 40 and 50 back to none.
fn pending(words: &[&str]) -> Vec<(&'static str, String)> {
    let values = match words[0] {
        "start" => [words[2..4].concat(), "1".into(), "0000".into(), "0000".into()],
        "update" => [words[3..5].concat(), words[2].into(), words[5].into(), words[6].into()],
        _ => return Vec::new(),
    };
    ["pending", "type", "uplink", "sessions"].into_iter().zip(values).collect()
}

fn scene(number: usize, line: &str) -> Scene {
    let (event, hope) = line.split_once("->").unwrap_or((line, ""));
    let words: Vec<&str> = event.split_whitespace().collect();
    let access = match words[0] {
        "timer" => words[2],
        "start" | "update" | "reject" | "accept" | "message" | "key" => words[1],
        _ => "0",
    };
    Scene {
        place: format!("line {number}: {}", line.trim()),
        access: decimal(access) as u8,
        pending: pending(&words),
        record: record(&words),
        hope: hope.split_whitespace().map(str::to_string).collect(),
    }
}

fn scenes(path: &str) -> (Vec<Scene>, Vec<u8>) {
    let text = std::fs::read_to_string(path).expect("the scenes");
    let bare = |line: &str| line.split('#').next().unwrap_or("").trim().to_string();
    let lines: Vec<(usize, String)> = text
        .lines()
        .enumerate()
        .map(|(i, line)| (i + 1, bare(line)))
        .filter(|(_, line)| !line.is_empty())
        .collect();
    let mut out = Vec::new();
    let mut cut = Vec::new();
    for (number, line) in expand(&lines) {
        let scene = scene(number, &line);
        if line.starts_with("cut") {
            cut = scene.record;
        } else {
            out.push(scene);
        }
    }
    (out, cut)
}

fn log(scenes: &[Scene]) -> Vec<u8> {
    let mut log = Vec::new();
    for scene in scenes {
        log.extend((scene.record.len() as u16).to_le_bytes());
        log.extend(&scene.record);
    }
    log
}

/// The record that the program begins with.
fn first() -> Fields {
    let mut fields = fresh();
    for (name, value) in [("card", "0"), ("home", "000000"), ("suci", "-")] {
        fields.insert(name.to_string(), value.to_string());
    }
    for name in ["0.state", "1.state"] {
        fields.insert(name.to_string(), "0".to_string());
    }
    fields
}

/// "A new record has": all but the card and the states.
fn fresh() -> Fields {
    let mut fields = Fields::new();
    let device = "limits=3_3_3 cap=00 sec=f0f0 edition=1 T3247=0 T3512=0 T3512length=3240 due=0 \
                  roaming=- regional=-";
    let access = "status=2 attempts=0 T3510=0 T3511=0 T3502=0 length=720 T3346=0 \
                  pending=000000000000 type=1 uplink=0000 sessions=0000 guti=- last=- ksi=7 \
                  equivalents=- cards=0 entries=-";
    let mut put = |front: &str, words: &str| {
        for word in words.split_whitespace() {
            let (name, value) = word.split_once('=').expect("a value");
            fields.insert(format!("{front}{name}"), value.to_string());
        }
    };
    put("", device);
    put("0.", access);
    put("1.", access);
    fields
}

fn read_reply(part: &str, fields: &mut Fields) {
    let words: Vec<&str> = part.split(' ').collect();
    assert!(words.len() == 26 && words[0] == "=", "a reply of {} words", words.len());
    fields.insert("answer".to_string(), words[1].to_string());
    assert!(words[2] == "at");
    fields.insert("offset".to_string(), words[3].to_string());
    for (i, timer) in TIMERS.iter().enumerate() {
        assert!(words[4 + 3 * i] == *timer);
        fields.insert(format!("told0.{timer}"), words[5 + 3 * i].to_string());
        fields.insert(format!("told1.{timer}"), words[6 + 3 * i].to_string());
    }
    for (i, timer) in CLOCKS.iter().enumerate() {
        assert!(words[16 + 2 * i] == *timer);
        fields.insert(format!("told.{timer}"), words[17 + 2 * i].to_string());
    }
    for (i, name) in ASKED.iter().enumerate() {
        assert!(words[20 + 2 * i] == *name);
        fields.insert(name.to_string(), words[21 + 2 * i].to_string());
    }
}

/// Names and values in turn; `limits` has three values.
fn read_part(front: &str, words: &[&str], fields: &mut Fields) {
    let mut rest = words;
    while let [name, others @ ..] = rest {
        let count = if *name == "limits" { 3 } else { 1 };
        fields.insert(format!("{front}{name}"), others[..count].join("_"));
        rest = &others[count..];
    }
}

fn read(line: &str) -> Fields {
    let mut fields = Fields::new();
    let parts: Vec<&str> = line.split(" | ").collect();
    read_reply(parts[0], &mut fields);
    read_part("", &parts[1].split(' ').collect::<Vec<_>>(), &mut fields);
    let length = fields.remove("length").expect("T3512's length");
    fields.insert("T3512length".to_string(), length);
    for a in 0..2 {
        let words: Vec<&str> = parts[2 + a].split(' ').collect();
        assert!(words[0] == a.to_string());
        read_part(&format!("{a}."), &words[1..], &mut fields);
    }
    fields
}

fn items(list: &str) -> Vec<String> {
    list.split(',').filter(|item| *item != "-").map(str::to_string).collect()
}

fn joined(items: &[String]) -> String {
    if items.is_empty() {
        "-".to_string()
    } else {
        items.join(",")
    }
}

/// What is expected after an event, from what stood before it.
struct Hope<'a> {
    scene: &'a Scene,
    fields: Fields,
}

impl Hope<'_> {
    fn set(&mut self, name: &str, value: &str) {
        let known = self.fields.insert(name.to_string(), value.to_string());
        assert!(known.is_some(), "{}: no field {name}", self.scene.place);
    }

    /// A field without an access in front is the device's or of the event's access.
    fn name(&self, word: &str) -> String {
        let device = DEVICE.contains(&word) || ASKED.contains(&word);
        if device || word.contains('.') {
            word.to_string()
        } else {
            format!("{}.{word}", self.scene.access)
        }
    }

    fn timer(&mut self, timer: &str, flag: &str, told: &str) {
        let (access, timer) = match timer.split_once('.') {
            Some((access, timer)) => (access.to_string(), timer),
            None => (self.scene.access.to_string(), timer),
        };
        if CLOCKS.contains(&timer) {
            self.set(timer, flag);
            self.set(&format!("told.{timer}"), told);
        } else {
            self.set(&format!("{access}.{timer}"), flag);
            self.set(&format!("told{access}.{timer}"), told);
        }
    }

    /// Every running timer is stopped, and told so.
    fn off(&mut self) {
        let own = |a: u8| TIMERS.map(|timer| format!("{a}.{timer}"));
        let clocks = CLOCKS.map(str::to_string);
        for timer in own(0).iter().chain(&own(1)).chain(&clocks) {
            if self.fields[timer] == "1" {
                self.timer(timer, "0", "stopped");
            }
        }
    }

    /// An accept that gives no T3512, over access 0: the length kept, unless it is zero.
    fn paced(&mut self) {
        if self.scene.access == 1 {
            return;
        }
        self.set("due", "0");
        let length = self.fields["T3512length"].clone();
        if length != "0" {
            self.timer("T3512", "1", &format!("started:{length}"));
        }
    }

    /// A card change: a new record, with the edition that the card has, else the first.
    fn new_record(&mut self) {
        self.off();
        self.fields.extend(fresh());
        let record = &self.scene.record;
        let (edition, body) = match record[..] {
            [CARD_EDITION, _, edition, ..] => (edition, &record[3..]),
            _ => (1, &record[2..]),
        };
        let hex = |octets: &[u8]| octets.iter().map(|o| format!("{o:02x}")).collect::<String>();
        let (home, suci, edition) = (hex(&body[..3]), hex(&body[3..]), edition.to_string());
        let card = [("card", "1"), ("home", &home), ("suci", &suci), ("edition", &edition)];
        for (name, value) in card {
            self.set(name, value);
        }
        self.set("0.state", "1");
        self.set("1.state", "1");
    }

    /// `NAME+=ITEM`, `NAME-=ITEM` and `NAME~=ITEM`: put last, taken out, in another's place.
    fn change(&mut self, name: &str, how: char, item: &str) {
        let name = self.name(name);
        let mut list = items(&self.fields[&name]);
        let front = |text: &str| text.split(':').next().unwrap_or("").to_string();
        let found = list.iter().position(|held| front(held) == front(item));
        match (how, found) {
            ('+', None) => list.push(item.to_string()),
            ('-', Some(place)) => {
                list.remove(place);
            }
            ('~', Some(place)) => list[place] = item.to_string(),
            _ => panic!("{}: {item} in {name}", self.scene.place),
        }
        self.set(&name, &joined(&list));
    }

    /// `NAME@FRONT=ITEM`: in the place of the item of that other network or area.
    fn replace(&mut self, name: &str, front: &str, item: &str) {
        let name = self.name(name);
        let mut list = items(&self.fields[&name]);
        let found = list.iter_mut().find(|held| held.split(':').next() == Some(front));
        *found.unwrap_or_else(|| panic!("{}: {front} in {name}", self.scene.place)) = item.into();
        self.set(&name, &joined(&list));
    }

    /// No entry of an access has a mark.
    fn bare(&mut self, name: &str) {
        let name = self.name(name).replace("bare", "entries");
        let held = items(&self.fields[&name]);
        let list: Vec<String> =
            held.iter().map(|item| format!("{}--", &item[..item.len() - 2])).collect();
        self.set(&name, &joined(&list));
    }

    fn word(&mut self, word: &str) {
        let access = self.scene.access;
        match word {
            "bare" | "0.bare" | "1.bare" => return self.bare(word),
            "new" => return self.new_record(),
            "off" => return self.off(),
            "paced" => return self.paced(),
            "sent" => {
                self.set(&format!("{access}.state"), "4");
                for (name, value) in &self.scene.pending {
                    self.set(&format!("{access}.{name}"), value);
                }
                return self.timer("T3510", "1", "started:15");
            }
            "clear" => {
                self.set(&format!("{access}.guti"), "-");
                self.set(&format!("{access}.last"), "-");
                return self.set(&format!("{access}.ksi"), "7");
            }
            _ => {}
        }
        if let Some(timer) = word.strip_prefix("stop:") {
            return self.timer(timer, "0", "stopped");
        }
        if let Some(rest) = word.strip_prefix("run:") {
            let (timer, seconds) = rest.split_once(':').expect("seconds");
            return self.timer(timer, "1", &format!("started:{seconds}"));
        }
        let (name, value) = word.split_once('=').unwrap_or_else(|| panic!("no word: {word}"));
        if let Some((name, front)) = name.split_once('@') {
            return self.replace(name, front, value);
        }
        match name.chars().last() {
            Some(how @ ('+' | '-' | '~')) => self.change(&name[..name.len() - 1], how, value),
            _ => self.set(&self.name(name), value),
        }
    }
}

/// `ANSWER`, or `ANSWER@OFFSET`, which 13 to 18 have and no other.
fn answered(text: &str) -> (String, String) {
    let (answer, offset) = text.split_once('@').unwrap_or((text, "0"));
    let faulty = (13..=18).contains(&decimal(answer));
    assert!(faulty == text.contains('@'), "{text}: 13 to 18 tell an offset, no other does");
    (answer.to_string(), offset.to_string())
}

/// Whatever an expectation does not name stays: a field as it was, a timer left, nothing asked.
fn hoped(scene: &Scene, before: &Fields) -> Fields {
    let mut fields = before.clone();
    let (answer, offset) = answered(&scene.hope[0]);
    fields.insert("answer".to_string(), answer);
    fields.insert("offset".to_string(), offset);
    for timer in CLOCKS {
        fields.insert(format!("told.{timer}"), "left".to_string());
    }
    for timer in TIMERS {
        fields.insert(format!("told0.{timer}"), "left".to_string());
        fields.insert(format!("told1.{timer}"), "left".to_string());
    }
    for name in ASKED {
        fields.insert(name.to_string(), "-".to_string());
    }
    let mut hope = Hope { scene, fields };
    for word in &scene.hope[1..] {
        hope.word(word);
    }
    hope.fields
}

fn check(scenes: &[Scene], cut: &[u8], output: &str) -> usize {
    let mut wrong = 0;
    let mut lines = output.lines();
    let mut before = first();
    for (i, scene) in scenes.iter().enumerate() {
        let (Some(own), Some(full)) = (lines.next(), lines.next()) else {
            println!("{}: no output", scene.place);
            return wrong + 1;
        };
        let now = read(full);
        let hope = hoped(scene, &before);
        for (name, value) in &hope {
            if now.get(name) != Some(value) {
                println!(
                    "{}: event {}: {name} is {:?}, not {value}",
                    scene.place,
                    i + 1,
                    now.get(name)
                );
                wrong += 1;
            }
        }
        let columns = ["answer", "0.state", "1.state", "T3247"].map(|name| now[name].as_str());
        if own != format!("{} {}", i + 1, columns.join(" ")) {
            println!("{}: the line is {own}", scene.place);
            wrong += 1;
        }
        before = now;
    }
    let last = (!cut.is_empty()).then(|| format!("bad log at {}", log(scenes).len()));
    if lines.next() != last.as_deref() || lines.next().is_some() {
        println!("the output ends otherwise");
        wrong += 1;
    }
    wrong
}

fn main() {
    let words: Vec<String> = std::env::args().skip(1).collect();
    let words: Vec<&str> = words.iter().map(String::as_str).collect();
    match words[..] {
        ["make", path] => {
            let (scenes, cut) = scenes(path);
            std::io::stdout().write_all(&[log(&scenes), cut].concat()).expect("an output");
        }
        ["check", path, output] => {
            let (scenes, cut) = scenes(path);
            let text = std::fs::read_to_string(output).expect("the output");
            let wrong = check(&scenes, &cut, &text);
            println!("scene: {} events, {wrong} other than expected", scenes.len());
            std::process::exit((wrong > 0) as i32);
        }
        _ => panic!("scene make SCENES | scene check SCENES OUTPUT"),
    }
}
