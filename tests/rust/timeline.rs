// A replay as an SVG picture, time going down, one row for each event; or in words, one line for
// each.
//
//   timeline draw|words EVENTS [SCENARIO] <FULL
//
// FULL is what `regrun-rust --full` prints (docs/src/full.rs has its format); EVENTS has a line
// of text for each event, as `scenario to-text` writes it. Columns: the event and its answer, of
// a message that cannot be read with the octet at fault in brackets, of a card that has an edition
// or changes it with that edition; the state of access 0 and of access 1 with its counters and the
// update that is pending; T3247; T3512 and whether a periodic update is due, if it ever ran; T3346
// of each access where it ever ran; and for each network that an access ever held an entry of, its
// counters against their limits and its marks, and where it gave up its place to another. A ban
// with counter 0 is the card's own.
//
// SCENARIO is the text that the log was made from. Of its comments before the first event the first
// sentence is the picture's title, and the rest stands below it, with the limits where they are not
// 3 3 3. A comment behind an event stands at its row; an indented line goes on with it. Lines
// between two events stand above the second, and what follows the last is left out.
//
// In words an event is its number and text, the answer and both states, and whether T3247 runs:
//
//   4 start 0 002-02 area 00002A: 8 network listed; mobile 6 network search; Wi-Fi 1 normal
//     service; T3247 running

use std::collections::BTreeMap;
use std::fmt::Write as _;
use std::io::{self, Read, Write as _};
use std::process::ExitCode;

type Parsed<T> = Result<T, String>;

/// By their numbers, in the words of include/tjernfaug.h.
const STATES: [(&str, &str); 7] = [
    ("no card or card refused", "#cfcfcf"),
    ("normal service", "#d9ead3"),
    ("limited service", "#f9cb9c"),
    ("attempting registration", "#fff2cc"),
    ("registration initiated", "#cfe2f3"),
    ("registered", "#93c47d"),
    ("network search", "#f4cccc"),
];

/// What is pending in state 4 where it is an update, by its type from 2 on.
const UPDATES: [&str; 2] = ["mobility update", "periodic update"];
const UPDATING: &str = "#b4d7c8";

/// By their numbers, in the words of include/tjernfaug.h; 3, 12 and 19 answer no event.
const ANSWERS: [&str; 21] = [
    "taken",
    "a number out of its range",
    "ignored by the two-access rule",
    "no request by the layout",
    "no entry for the network",
    "a start without a card, or with a refused one",
    "wrong state for the event",
    "the other access is registering with the same network",
    "network listed",
    "area listed",
    "an accept without protection",
    "timer not running",
    "buffer too short",
    "fewer than the fixed octets",
    "octet 1 not 7E",
    "octet 2 not 00",
    "type not one this call reads",
    "an element past the end",
    "an unknown element that must be understood",
    "a request on a third level",
    "the network has asked for time",
];
/// Those that tell an octet at fault.
const FAULTS: std::ops::RangeInclusive<usize> = 13..=18;

/// The timers of a reply, and of how many accesses each is told.
const TIMERS: [(&str, usize); 6] =
    [("T3510", 2), ("T3511", 2), ("T3502", 2), ("T3346", 2), ("T3247", 1), ("T3512", 1)];

const ACCESSES: [&str; 2] = ["mobile", "Wi-Fi"];

/// The limits that need not be told.
const COMMON: [&str; 3] = ["3"; 3];

/// Widths of the columns: the events, an access's states, and all others.
const EVENT: usize = 470;
const STATE: usize = 196;
const LANE: usize = 172;

/// Where rows begin below a title of one line, and how high lines of text are.
const TOP: usize = 96;
const TITLE: usize = 20;
const LINE: usize = 16;
const SMALL: usize = 12;
/// An event's row without its small lines.
const ROW: usize = 14;

/// What fits a width, in hundredths of the font's size. Titles and headings are bold, which is
/// wider, and so they are given less.
const fn room(width: usize, size: usize) -> usize {
    width * 100 / size
}
const TITLE_ROOM: usize = room(880, 16);
const ABOUT_ROOM: usize = room(980, 12);
const HEADING_ROOM: usize = room(400, 12);
const LABEL_ROOM: usize = room(EVENT - 12, 12);
const SMALL_ROOM: usize = room(EVENT - 30, 10);

/// A network's entry on an access after an event.
struct Entry {
    ban: String,
    n1: String,
    marks: String,
}

impl Entry {
    /// Each reject that forbids a network counts, so that with counter 0 an import did.
    fn by_card(&self) -> bool {
        self.ban == "0" && self.marks.starts_with('F')
    }
}

/// What is drawn of one access after an event.
struct Access {
    state: usize,
    /// The pending registration's type, 1 to 3.
    kind: usize,
    attempts: String,
    t3346: bool,
    cards: String,
    entries: BTreeMap<String, Entry>,
    /// The entries' networks in entry order.
    places: Vec<String>,
}

/// One event's row.
struct Step {
    answer: usize,
    /// The offset of the octet at fault.
    at: String,
    t3247: bool,
    t3512: bool,
    due: bool,
    /// Of the identity order.
    edition: String,
    told: String,
    limits: [String; 3],
    areas: [usize; 2],
    access: Vec<Access>,
}

/// The word behind `name` in a part of a line.
fn after<'a>(part: &'a [&'a str], name: &str) -> Parsed<&'a str> {
    let at = part.iter().position(|word| *word == name);
    let word = at.and_then(|at| part.get(at + 1));
    word.copied().ok_or_else(|| format!("no `{name}`"))
}

fn listed(word: &str) -> impl Iterator<Item = &str> {
    word.split(',').filter(|item| *item != "-")
}

fn digits(hex: &str) -> String {
    let half: Vec<char> = hex.chars().collect();
    if half.len() != 6 {
        return hex.into();
    }
    let mnc: String = [half[5], half[4], half[2]].iter().filter(|digit| **digit != 'f').collect();
    format!("{}{}{}-{mnc}", half[1], half[0], half[3])
}

fn entry(text: &str) -> Parsed<(String, Entry)> {
    let parts: Vec<&str> = text.split(':').collect();
    let [network, ban, n1, marks] = parts[..] else {
        return Err(format!("`{text}` is no entry"));
    };
    let held = Entry { ban: ban.into(), n1: n1.into(), marks: marks.into() };
    Ok((digits(network), held))
}

/// The number behind `name`, if it is in the range.
fn number(part: &[&str], name: &str, range: std::ops::Range<usize>) -> Parsed<usize> {
    let word = after(part, name)?;
    let number = word.parse().ok().filter(|number| range.contains(number));
    number.ok_or(format!("{name} {word}"))
}

fn access(part: &[&str]) -> Parsed<Access> {
    let entries = listed(after(part, "entries")?).map(entry).collect::<Parsed<Vec<_>>>()?;
    Ok(Access {
        state: number(part, "state", 0..STATES.len())?,
        kind: number(part, "type", 1..2 + UPDATES.len())?,
        attempts: after(part, "attempts")?.into(),
        t3346: after(part, "T3346")? == "1",
        cards: after(part, "cards")?.into(),
        places: entries.iter().map(|(network, _)| network.clone()).collect(),
        entries: entries.into_iter().collect(),
    })
}

/// Timers started and stopped, and what is asked, in words.
fn told(part: &[&str]) -> Parsed<String> {
    let mut text = Vec::new();
    for (name, count) in TIMERS {
        let at = part.iter().position(|word| *word == name).ok_or(format!("no `{name}`"))?;
        for change in part.iter().skip(at + 1).take(count).filter(|change| **change != "left") {
            let seconds =
                change.strip_prefix("started:").map(|seconds| format!("{name} runs {seconds} s"));
            text.push(seconds.unwrap_or(format!("{name} stops")));
        }
    }
    for name in ["restart", "leave", "update"] {
        let access = after(part, name)?;
        if access != "-" {
            text.push(format!("asks: {name} {access}"));
        }
    }
    Ok(text.join(", "))
}

fn step(line: &str) -> Parsed<Step> {
    let parts: Vec<Vec<&str>> =
        line.split('|').map(|part| part.split_whitespace().collect()).collect();
    let [reply, device, zero, one] = &parts[..] else {
        return Err("four parts are expected".into());
    };
    let at = device.iter().position(|word| *word == "limits").ok_or("no `limits`")?;
    let limit =
        |place| device.get(at + place).map_or(String::new(), |word: &&str| word.to_string());
    Ok(Step {
        answer: number(reply, "=", 0..ANSWERS.len())?,
        at: after(reply, "at")?.into(),
        t3247: after(device, "T3247")? == "1",
        t3512: after(device, "T3512")? == "1",
        due: after(device, "due")? == "1",
        edition: after(device, "edition")?.into(),
        told: told(reply)?,
        limits: [limit(1), limit(2), limit(3)],
        areas: [
            listed(after(device, "roaming")?).count(),
            listed(after(device, "regional")?).count(),
        ],
        access: vec![access(zero)?, access(one)?],
    })
}

fn steps(full: &str) -> Parsed<Vec<Step>> {
    let lines = full.lines().enumerate().filter(|(_, line)| line.starts_with('='));
    lines
        .map(|(at, line)| step(line).map_err(|error| format!("line {}: {error}", at + 1)))
        .collect()
}

/// A character's width in hundredths of its size, in a font that is rather wide.
fn wide(letter: char) -> usize {
    match letter {
        ' ' | '.' | ',' | ':' | ';' | '\'' | '!' | '|' | 'I' | 'i' | 'j' | 'l' => 35,
        'f' | 'r' | 't' | '-' | '/' | '(' | ')' | '[' | ']' | '"' => 46,
        'M' | 'W' | 'm' | 'w' | '%' | '@' | '\u{1100}'.. => 100,
        'A'..='Z' | '<' | '=' | '>' | '+' | '&' | '#' => 84,
        _ => 64,
    }
}

/// The text in lines that fit the room; a word that does not is cut.
fn wrapped(text: &str, room: usize) -> Vec<String> {
    let (mut lines, mut line, mut used) = (Vec::new(), String::new(), 0);
    for word in text.split_whitespace() {
        let needed: usize = word.chars().map(wide).sum();
        if used > 0 && used + wide(' ') + needed <= room {
            line.push(' ');
            used += wide(' ');
        } else {
            used = room;
        }
        for letter in word.chars() {
            if used + wide(letter) > room {
                lines.push(std::mem::take(&mut line));
                used = 0;
            }
            line.push(letter);
            used += wide(letter);
        }
    }
    lines.push(line);
    lines.retain(|line| !line.is_empty());
    lines
}

/// The text, or as much of it as fits with two dots behind it.
fn shortened(text: &str, room: usize) -> String {
    let (mut used, mut end) = (0, 0);
    for (at, letter) in text.char_indices() {
        if used + 2 * wide('.') <= room {
            end = at;
        }
        used += wide(letter);
    }
    if used <= room {
        text.into()
    } else {
        format!("{}..", &text[..end])
    }
}

/// The first sentence without its full stop, and what follows it.
fn sentence(paragraph: &str) -> (&str, &str) {
    let mut parts = paragraph.match_indices(' ').map(|(at, _)| paragraph.split_at(at));
    let ended = parts.find(|(before, behind)| {
        let goes_on = behind.trim_start().starts_with(char::is_lowercase);
        before.ends_with(['.', '?', '!']) && !goes_on
    });
    let (first, rest) = ended.unwrap_or((paragraph, ""));
    (first.strip_suffix('.').unwrap_or(first), rest.trim_start())
}

/// What a scenario says beside its events, in paragraphs.
struct Notes {
    head: Vec<String>,
    /// For each event what stands above it, and behind it.
    events: Vec<(Vec<String>, String)>,
}

/// A line goes on with the paragraph above it; one without words ends that.
fn add(paragraphs: &mut Vec<String>, line: &str) {
    match paragraphs.last_mut() {
        Some(last) if !last.is_empty() && !line.is_empty() => {
            last.push(' ');
            last.push_str(line);
        }
        _ => paragraphs.push(line.into()),
    }
}

impl Notes {
    fn read(text: &str) -> Notes {
        let (mut events, mut above) = (Vec::<(Vec<String>, String)>::new(), Vec::new());
        // Whether the comment behind the last event may go on.
        let mut open = false;
        for line in text.lines() {
            let (event, comment) = line.split_once('#').unwrap_or((line, ""));
            let (word, comment) = (event.split_whitespace().next(), comment.trim());
            open &= word.is_none() && !event.is_empty() && !comment.is_empty();
            match (word, events.last_mut()) {
                (None, Some((_, behind))) if open => {
                    behind.push(' ');
                    behind.push_str(comment);
                }
                (None, _) => add(&mut above, comment),
                (Some("limits"), _) => above.extend([comment.into(), String::new()]),
                _ => {
                    events.push((std::mem::take(&mut above), comment.into()));
                    open = !comment.is_empty();
                }
            }
        }
        let head = events.first_mut().map_or(above, |(first, _)| std::mem::take(first));
        Notes { head, events }
    }
}

/// The network that gave up its place to another at a row's event, and that other one. A card
/// change leaves no place, and nothing else puts one network where another was.
fn given(steps: &[Step], row: usize, which: usize) -> Option<(&str, &str)> {
    let before = &steps[row.checked_sub(1)?].access[which].places;
    let mut both = before.iter().zip(&steps[row].access[which].places);
    both.find(|(old, new)| old != new).map(|(old, new)| (old.as_str(), new.as_str()))
}

/// An event's text, and from the comment behind it the octets around the one at fault.
fn parted(label: &str) -> (&str, &str) {
    let (event, comment) = label.split_once("  # ").unwrap_or((label, ""));
    (event, comment.rsplit_once(": ").map_or("", |(_, octets)| octets))
}

/// The answer's number and name, with the octet at fault if it is of one.
fn named(step: &Step, octets: &str) -> String {
    let (number, name) = (step.answer, ANSWERS[step.answer]);
    if FAULTS.contains(&number) {
        return format!("{number} at {}, {name}: {octets}", step.at);
    }
    format!("{number} {name}")
}

/// The edition of a taken card that has one, or that takes the record back to the first.
fn edition<'a>(steps: &'a [Step], row: usize, event: &str) -> Option<&'a str> {
    let (now, before) = (&steps[row], row.checked_sub(1).map(|row| &steps[row]));
    let taken = now.answer == 0 && event.starts_with("card ");
    let changed = before.is_some_and(|before| before.edition != now.edition);
    (taken && (changed || event.contains(" edition "))).then_some(&now.edition)
}

/// The answer, what is told with it, whose place was taken and what edition a card brought.
fn answered(steps: &[Step], row: usize, event: &str, octets: &str) -> String {
    let step = &steps[row];
    let told = if step.told.is_empty() { String::new() } else { format!(": {}", step.told) };
    let old = (0..2).find_map(|which| given(steps, row, which));
    let place = old.map_or(String::new(), |(old, _)| format!("; takes the place of {old}"));
    let edition = edition(steps, row, event);
    let order = edition.map_or(String::new(), |number| format!("; identities by edition {number}"));
    format!("{}{told}{place}{order}", named(step, octets))
}

/// An event's row: its lines, and where they stand.
struct Row {
    heading: Vec<String>,
    label: String,
    answer: Vec<String>,
    comment: Vec<String>,
    /// Where the heading begins, where the event does, and where the row ends.
    top: usize,
    y: usize,
    bottom: usize,
}

impl Row {
    fn below(top: usize, steps: &[Step], place: usize, label: &str, notes: &Notes) -> Row {
        let (event, octets) = parted(label);
        let (above, behind) = notes.events.get(place).map_or((&[][..], ""), |(a, b)| (a, b));
        let heading = above.iter().flat_map(|text| wrapped(text, HEADING_ROOM)).collect::<Vec<_>>();
        let answer = wrapped(&answered(steps, place, event, octets), SMALL_ROOM);
        let comment = wrapped(behind, SMALL_ROOM);
        let y = top + if heading.is_empty() { 0 } else { heading.len() * LINE + LINE / 2 };
        let bottom = y + ROW + (answer.len() + comment.len()) * SMALL;
        let label = shortened(&format!("{} {event}", place + 1), LABEL_ROOM);
        Row { heading, label, answer, comment, top, y, bottom }
    }
}

/// What is drawn.
struct Sheet<'a> {
    title: String,
    about: Vec<String>,
    steps: &'a [Step],
    /// Where the rows begin.
    top: usize,
    rows: Vec<Row>,
}

/// The title, and the paragraphs below it.
fn titled(notes: &Notes, steps: &[Step]) -> (String, Vec<String>) {
    let mut title = "What the replay makes of both accesses".to_string();
    let mut paragraphs = notes.head.iter().filter(|text| !text.is_empty()).cloned();
    let mut about = Vec::new();
    if let Some(first) = paragraphs.next() {
        let (sentence, rest) = sentence(&first);
        title = sentence.into();
        about.push(rest.to_string());
    }
    about.extend(paragraphs);
    about.retain(|text| !text.is_empty());
    if let Some(step) = steps.first().filter(|step| step.limits != COMMON) {
        let [card, ban, n1] = &step.limits;
        about.push(format!("Limits: card counter {card}, ban counter {ban}, N1 counter {n1}."));
    }
    (title, about)
}

impl Sheet<'_> {
    fn of<'a>(labels: &[&str], steps: &'a [Step], notes: &Notes) -> Sheet<'a> {
        let (title, about) = titled(notes, steps);
        let titles = wrapped(&title, TITLE_ROOM).len().max(1) - 1;
        let below: usize = about.iter().map(|text| wrapped(text, ABOUT_ROOM).len()).sum();
        let top = TOP + titles * TITLE + below * LINE;
        let mut rows: Vec<Row> = Vec::new();
        for place in 0..steps.len() {
            let above = rows.last().map_or(top, |row| row.bottom);
            let label = labels.get(place).copied().unwrap_or("");
            rows.push(Row::below(above, steps, place, label, notes));
        }
        Sheet { title, about, steps, top, rows }
    }

    fn bottom(&self) -> usize {
        self.rows.last().map_or(self.top, |row| row.bottom)
    }

    fn each(&self) -> impl Iterator<Item = (&Row, &Step)> {
        self.rows.iter().zip(self.steps)
    }

    /// Whether any step is so.
    fn any(&self, test: impl Fn(&Step) -> bool) -> bool {
        self.steps.iter().any(test)
    }

    fn waits(&self, which: usize) -> bool {
        self.any(|step| step.access[which].t3346)
    }

    /// Each network that an access ever held an entry of.
    fn held(&self) -> Vec<(usize, &String)> {
        let mut lanes: Vec<(usize, &String)> = Vec::new();
        for step in self.steps {
            for (which, access) in step.access.iter().enumerate() {
                lanes.extend(access.entries.keys().map(|name| (which, name)));
            }
        }
        lanes.sort();
        lanes.dedup();
        lanes
    }
}

/// What XML takes: no control characters, and none of its own.
fn escaped(text: &str) -> String {
    let mut out = String::new();
    for letter in text.chars() {
        match letter {
            '&' => out.push_str("&amp;"),
            '<' => out.push_str("&lt;"),
            '>' => out.push_str("&gt;"),
            '\u{FFFE}' | '\u{FFFF}' => out.push(char::REPLACEMENT_CHARACTER),
            _ if letter.is_control() => out.push(char::REPLACEMENT_CHARACTER),
            _ => out.push(letter),
        }
    }
    out
}

/// The SVG text and how to add to it.
struct Picture(String);

impl Picture {
    /// Beside an event.
    fn bar(&mut self, x: usize, row: &Row, width: usize, fill: &str) {
        let (y, height) = (row.y, row.bottom - row.y);
        let _ = writeln!(
            self.0,
            r#"<rect x="{x}" y="{y}" width="{width}" height="{height}" fill="{fill}"/>"#
        );
    }

    fn text(&mut self, x: usize, y: usize, style: &str, text: &str) {
        let text = escaped(text);
        if !text.is_empty() {
            let _ = writeln!(self.0, r#"<text x="{x}" y="{y}" {style}>{text}</text>"#);
        }
    }

    /// Lines from `y` on, each so much below the one before; where the next would stand.
    fn lines(
        &mut self,
        (x, y): (usize, usize),
        high: usize,
        style: &str,
        lines: &[String],
    ) -> usize {
        for (place, line) in lines.iter().enumerate() {
            self.text(x, y + place * high, style, line);
        }
        y + lines.len() * high
    }
}

fn head(picture: &mut Picture, x: usize, sheet: &Sheet, [first, second]: [&str; 2]) {
    picture.text(x + 6, sheet.top - 26, r#"font-weight="bold""#, first);
    picture.text(x + 6, sheet.top - 10, r##"fill="#555""##, second);
}

/// An access's state with its number where it is another than before, and small below it the
/// update that is pending and the counters that are not 0.
fn state_lane(picture: &mut Picture, x: usize, which: usize, sheet: &Sheet) {
    head(picture, x, sheet, [&format!("access {which}"), ACCESSES[which]]);
    let mut before = None;
    for (row, step) in sheet.each() {
        let held = &step.access[which];
        let (name, fill) = STATES[held.state];
        let update = UPDATES.get(held.kind.wrapping_sub(2)).filter(|_| held.state == 4);
        picture.bar(x, row, STATE - 8, update.map_or(fill, |_| UPDATING));
        if before.replace(held.state) != Some(held.state) || row.top < row.y {
            picture.text(x + 6, row.y + 12, "", &format!("{} {name}", held.state));
        }
        let mut small: Vec<String> = update.iter().map(|name| name.to_string()).collect();
        if held.attempts != "0" {
            small.push(format!("tries {}", held.attempts));
        }
        if held.cards != "0" {
            small.push(format!("card {}/{}", held.cards, step.limits[0]));
        }
        let style = r##"font-size="10" fill="#555""##;
        picture.text(x + 6, row.y + 23, style, &small.join(", "));
    }
}

fn clock_lane(picture: &mut Picture, x: usize, sheet: &Sheet) {
    head(picture, x, sheet, ["T3247", "and area lists"]);
    for (row, step) in sheet.each() {
        if step.t3247 {
            picture.bar(x, row, 14, "#674ea7");
        }
        let areas = [("roaming", step.areas[0]), ("regional", step.areas[1])];
        let text = areas.iter().filter(|(_, n)| *n != 0).map(|(name, n)| format!("{name} {n}"));
        let text: Vec<String> = text.collect();
        picture.text(x + 20, row.y + 12, r#"font-size="10""#, &text.join(" "));
    }
}

/// T3512 as a bar beside that of a periodic update that is due.
fn period_lane(picture: &mut Picture, x: usize, sheet: &Sheet) {
    head(picture, x, sheet, ["T3512", "and periodic update due"]);
    for (row, step) in sheet.each() {
        if step.t3512 {
            picture.bar(x, row, 14, "#0b7285");
        }
        if step.due {
            picture.bar(x + 16, row, 14, "#f1c232");
            picture.text(x + 36, row.y + 12, r#"font-size="10""#, "due");
        }
    }
}

fn wait_lane(picture: &mut Picture, x: usize, which: usize, sheet: &Sheet) {
    head(picture, x, sheet, ["T3346", &format!("on access {which}")]);
    for (row, _) in sheet.each().filter(|(_, step)| step.access[which].t3346) {
        picture.bar(x, row, 14, "#a0522d");
    }
}

fn entry_lane(picture: &mut Picture, x: usize, (which, network): (usize, &str), sheet: &Sheet) {
    head(picture, x, sheet, [network, &format!("on access {which}")]);
    for (place, (row, step)) in sheet.each().enumerate() {
        let gone = given(sheet.steps, place, which).filter(|(old, _)| *old == network);
        if let Some((_, new)) = gone {
            let style = r##"font-size="10" fill="#555""##;
            picture.text(x + 6, row.y + 12, style, &format!("place given up to {new}"));
        }
        let Some(entry) = step.access[which].entries.get(network) else { continue };
        let (fill, style) = match entry.marks.as_str() {
            "F-" => ("#e06666", ""),
            "-N" => ("#f6b26b", ""),
            "FN" => ("#a61c00", r#"fill="white""#),
            _ => ("#eeeeee", ""),
        };
        picture.bar(x, row, LANE - 8, fill);
        let mut text = format!("ban {}/{}", entry.ban, step.limits[1]);
        if entry.n1 != "0" {
            let _ = write!(text, " N1 {}/{}", entry.n1, step.limits[2]);
        }
        if entry.by_card() {
            text.push_str(" (card)");
        }
        picture.text(x + 6, row.y + 12, style, &text);
    }
}

/// All columns behind the events; where they end.
fn lanes(picture: &mut Picture, sheet: &Sheet) -> usize {
    let mut x = EVENT;
    for which in 0..2 {
        state_lane(picture, x, which, sheet);
        x += STATE;
    }
    clock_lane(picture, x, sheet);
    x += LANE;
    if sheet.any(|step| step.t3512 || step.due) {
        period_lane(picture, x, sheet);
        x += LANE;
    }
    for which in (0..2).filter(|which| sheet.waits(*which)) {
        wait_lane(picture, x, which, sheet);
        x += LANE;
    }
    for (which, network) in sheet.held() {
        entry_lane(picture, x, (which, network), sheet);
        x += LANE;
    }
    x
}

/// An event's label stands before its heading and further left than all else in its column.
fn events(picture: &mut Picture, sheet: &Sheet) {
    head(picture, 0, sheet, ["event", "answer, timers and requests below"]);
    for (row, step) in sheet.each() {
        picture.text(6, row.y + 12, "", &row.label);
        picture.lines((8, row.top + 18), LINE, r#"font-weight="bold""#, &row.heading);
        let colour = if step.answer == 0 { "#38761d" } else { "#990000" };
        let style = format!(r#"font-size="10" fill="{colour}""#);
        let next = picture.lines((24, row.y + 23), SMALL, &style, &row.answer);
        let style = r##"font-size="10" font-style="italic" fill="#555""##;
        picture.lines((24, next), SMALL, style, &row.comment);
    }
}

/// Short forms and colours are named where they are drawn; below which line it ends.
fn legend(picture: &mut Picture, sheet: &Sheet, width: usize) -> usize {
    let tries = |step: &Step| step.access.iter().any(|held| held.attempts != "0");
    let cards = |step: &Step| step.access.iter().any(|held| held.cards != "0");
    let by_card = |step: &Step| step.access[0].entries.values().any(Entry::by_card);
    let gone = |row| (0..2).any(|which| given(sheet.steps, row, which).is_some());
    let rows = [
        (true, "Answers and states have the numbers that regrun prints. Counters stand against their limits."),
        (sheet.any(tries), "tries: the attempt counter."),
        (sheet.any(cards), "card: the card counter."),
        (true, "A row shows the record after its event; rows are events, not times."),
    ];
    let colours = [
        (true, "Red: forbidden. Orange: N1 not allowed. Dark red: both. Grey: entry without a mark. Violet: T3247 runs. Teal: T3512 runs. Yellow: due."),
        (sheet.waits(0) || sheet.waits(1), "Brown: T3346 runs."),
        (sheet.any(by_card), "(card): the card's own ban, which T3247 does not lift."),
        ((0..sheet.rows.len()).any(gone), "A network that gave up its place is forgotten, counters too."),
    ];
    let mut y = sheet.bottom() + 20;
    for sentences in [rows, colours] {
        let named = sentences.iter().filter(|(drawn, _)| *drawn).map(|(_, text)| *text);
        let text = named.collect::<Vec<_>>().join(" ");
        let lines = wrapped(&text, room(width - 12, 11));
        y = picture.lines((6, y), LINE, r##"font-size="11" fill="#333""##, &lines);
    }
    y
}

fn draw(labels: &[&str], steps: &[Step], notes: &Notes) -> String {
    let sheet = Sheet::of(labels, steps, notes);
    let mut picture = Picture(String::new());
    let style = r#"font-size="16" font-weight="bold""#;
    let mut y = picture.lines((6, 24), TITLE, style, &wrapped(&sheet.title, TITLE_ROOM));
    for text in &sheet.about {
        y = picture.lines((6, y), LINE, r##"fill="#333""##, &wrapped(text, ABOUT_ROOM));
    }
    let width = lanes(&mut picture, &sheet) + 8;
    let tops = sheet.rows.iter().map(|row| row.top);
    for y in tops.chain([sheet.bottom()]) {
        let _ = writeln!(picture.0, r##"<path d="M0 {y}H{width}" stroke="#dddddd"/>"##);
    }
    events(&mut picture, &sheet);
    let height = legend(&mut picture, &sheet, width) - LINE + 12;
    let mut svg = String::from("<svg xmlns=\"http://www.w3.org/2000/svg\" ");
    let _ = write!(svg, r#"width="{width}" height="{height}" "#);
    svg.push_str("font-family=\"sans-serif\" font-size=\"12\">\n");
    let _ = writeln!(svg, "<title>{}</title>", escaped(&sheet.title));
    if !sheet.about.is_empty() {
        let _ = writeln!(svg, "<desc>{}</desc>", escaped(&sheet.about.join(" ")));
    }
    svg.push_str("<rect width=\"100%\" height=\"100%\" fill=\"white\"/>\n");
    format!("{svg}{}</svg>\n", picture.0)
}

fn words(labels: &[&str], steps: &[Step]) -> String {
    let mut text = String::new();
    for (place, step) in steps.iter().enumerate() {
        let (event, octets) = parted(labels.get(place).copied().unwrap_or(""));
        let _ = write!(text, "{} {event}: {}", place + 1, named(step, octets));
        for (name, held) in ACCESSES.iter().zip(&step.access) {
            let _ = write!(text, "; {name} {} {}", held.state, STATES[held.state].0);
        }
        let _ = writeln!(text, "; T3247 {}", if step.t3247 { "running" } else { "not running" });
    }
    text
}

fn file(named: &str) -> Parsed<String> {
    std::fs::read_to_string(named).map_err(|error| format!("{named}: {error}"))
}

fn job() -> Parsed<String> {
    let given: Vec<String> = std::env::args().skip(1).collect();
    let (way, events, scenario) = match &given[..] {
        [way, events] => (way, events, String::new()),
        [way, events, scenario] => (way, events, file(scenario)?),
        _ => {
            return Err(
                "say draw or words, the file with the events' text, and a scenario or none".into()
            )
        }
    };
    let (labels, mut full) = (file(events)?, String::new());
    io::stdin().read_to_string(&mut full).map_err(|error| error.to_string())?;
    let (labels, steps) = (labels.lines().collect::<Vec<_>>(), steps(&full)?);
    match way.as_str() {
        "draw" => Ok(draw(&labels, &steps, &Notes::read(&scenario))),
        "words" => Ok(words(&labels, &steps)),
        other => Err(format!("`{other}` is neither draw nor words")),
    }
}

fn main() -> ExitCode {
    let written = |text: String| io::stdout().write_all(text.as_bytes());
    match job().and_then(|text| written(text).map_err(|error| error.to_string())) {
        Ok(()) => ExitCode::SUCCESS,
        Err(error) => {
            eprintln!("timeline: {error}");
            ExitCode::FAILURE
        }
    }
}
