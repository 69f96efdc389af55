// Makes a page of a log for people to look at: the timeline of its replay and, for the event that
// is chosen, what the engine of history says of each network and access.
//
//   page NAME EVENTS TIMELINE <BLOCKS >HTML
//
// NAME is the log's file name; EVENTS has a line of text for each event, as `scenario to-text`
// writes it; TIMELINE is what `timeline` draws of them. BLOCKS has, for each network and access,
// what `explain` prints of no log and then with `each` of the log, with empty lines in between.
//
// All that the page says of counters and marks is taken from the blocks, word for word. A network
// and access of which never anything else is said than of no log is left out. A block is stored
// where it differs from the one before it, and each of its lines once for the whole page.

use std::collections::HashMap;
use std::fmt::Write as _;
use std::io::{self, Read};
use std::process::ExitCode;

type Parsed<T> = Result<T, String>;

/// The lines of a block below its first, by their places among the words.
type Lines = [usize; 3];

/// The height of the columns' heads, which stand right above the rows of a timeline.
const HEADS: i64 = 44;
/// The room left of the events' names, for what marks a row.
const MARGIN: i64 = 36;

/// Each line once, by its place.
#[derive(Default)]
struct Words {
    list: Vec<String>,
    places: HashMap<String, usize>,
}

impl Words {
    fn place(&mut self, line: &str) -> usize {
        if let Some(place) = self.places.get(line) {
            return *place;
        }
        self.places.insert(line.into(), self.list.len());
        self.list.push(line.into());
        self.list.len() - 1
    }
}

/// What is said of a network on an access, from each event on where it is something else; event 0
/// stands for no log.
struct Told {
    name: String,
    runs: Vec<(usize, Lines)>,
}

/// All that the blocks say.
#[derive(Default)]
struct Story {
    /// Of each event what follows the name in the first line of its blocks.
    points: Vec<String>,
    told: Vec<Told>,
    words: Words,
    /// The line that ends the blocks of a log at fault.
    fault: Option<String>,
}

impl Story {
    fn read(text: &str) -> Parsed<Story> {
        let mut story = Story::default();
        let lines: Vec<&str> = text.lines().collect();
        for block in lines.split(|line| line.is_empty()).filter(|block| !block.is_empty()) {
            story.block(block)?;
        }
        // A network and access that nothing ever happens to.
        story.told.retain(|told| told.runs.len() > 1);
        Ok(story)
    }

    fn block(&mut self, block: &[&str]) -> Parsed<()> {
        match block {
            [fault] => self.ends(fault),
            [head, rest @ ..] if rest.len() == 3 => self.says(head, rest),
            [head, rest @ .., fault] if rest.len() == 3 => {
                self.says(head, rest)?;
                self.ends(fault)
            }
            _ => Err(format!("no block: {}", block.join(" / "))),
        }
    }

    fn ends(&mut self, line: &str) -> Parsed<()> {
        if !line.starts_with(|digit: char| digit.is_ascii_digit()) || !line.contains(": ") {
            return Err(format!("no block and no fault: {line}"));
        }
        self.fault = Some(line.into());
        Ok(())
    }

    fn says(&mut self, head: &str, lines: &[&str]) -> Parsed<()> {
        let lines = [0, 1, 2].map(|line| self.words.place(lines[line]));
        if let Some(name) = head.strip_suffix(", no event") {
            self.told.push(Told { name: name.into(), runs: vec![(0, lines)] });
            return Ok(());
        }
        let (name, point) = parted(head).ok_or(head)?;
        let event = number(point).ok_or(head)?;
        if self.points.len() + 1 == event {
            self.points.push(point.into());
        }
        let held = self.told.last_mut().filter(|told| told.name == name);
        let Some(told) = held.filter(|_| self.points.get(event - 1).is_some_and(|it| it == point))
        else {
            return Err(format!("out of order: {head}"));
        };
        if told.runs.last().is_some_and(|(_, before)| *before != lines) {
            told.runs.push((event, lines));
        }
        Ok(())
    }
}

/// The network and access of a block's first line, and the event behind them.
fn parted(head: &str) -> Option<(&str, &str)> {
    let at = head.find(" after event ")?;
    Some((&head[..at], &head[at + 1..]))
}

fn number(point: &str) -> Option<usize> {
    point.split(' ').nth(2)?.parse().ok().filter(|event| *event > 0)
}

/// A picture's elements, by the part of the page that shows them: the columns' heads stay in sight
/// while rows are scrolled, and the events' names while columns are. All keep their coordinates.
#[derive(Default)]
struct Drawn {
    width: i64,
    /// Where rows begin, and where each of them ends.
    top: i64,
    ends: Vec<i64>,
    /// Where the columns behind the events' names begin.
    lanes: i64,
    title: String,
    about: String,
    legend: Vec<String>,
    /// Corner, heads, names and lanes.
    parts: [String; 4],
}

/// The number behind a name in a line of SVG.
fn figure(line: &str, name: &str) -> Option<i64> {
    let at = line.find(&format!("{name}\""))? + name.len() + 1;
    line[at..].split('"').next()?.parse().ok()
}

/// The text of the element that has this name and a line of its own, as it is escaped.
fn named<'a>(svg: &'a str, name: &str) -> &'a str {
    let (begin, end) = (format!("<{name}>"), format!("</{name}>"));
    let mut lines = svg.lines();
    lines.find_map(|line| line.strip_prefix(&begin)?.strip_suffix(&end)).unwrap_or("")
}

/// The text of an element, as it is escaped.
fn inside(line: &str) -> &str {
    line.split_once('>').and_then(|(_, rest)| rest.strip_suffix("</text>")).unwrap_or("")
}

impl Drawn {
    /// None if there are no rows.
    fn read(svg: &str) -> Option<Drawn> {
        let ruled = svg.lines().filter_map(|line| line.strip_prefix("<path d=\"M0 "));
        let mut rules: Vec<i64> =
            ruled.filter_map(|rest| rest.split('H').next()?.parse().ok()).collect();
        let bars = || svg.lines().filter(|line| line.starts_with("<rect x="));
        let mut drawn = Drawn {
            width: figure(svg.lines().next()?, " width=")?,
            title: named(svg, "title").into(),
            about: named(svg, "desc").into(),
            top: *rules.first()?,
            ends: rules.split_off(1),
            lanes: bars().filter_map(|line| figure(line, " x=")).min()?,
            ..Drawn::default()
        };
        for line in svg.lines() {
            if let (Some(x), Some(y)) = (figure(line, " x="), figure(line, " y=")) {
                drawn.element(line, x, y);
            }
        }
        Some(drawn)
    }

    fn element(&mut self, line: &str, x: i64, y: i64) {
        if y > self.bottom() {
            self.legend.push(inside(line).into());
        } else if y >= self.top - HEADS {
            let part = 2 * (y >= self.top) as usize + (x >= self.lanes) as usize;
            self.parts[part].push_str(line);
            self.parts[part].push('\n');
        }
    }

    fn bottom(&self) -> i64 {
        self.ends.last().copied().unwrap_or(self.top)
    }

    /// How high each row is.
    fn heights(&self) -> Vec<i64> {
        let tops = [self.top].into_iter().chain(self.ends.iter().copied());
        self.ends.iter().zip(tops).map(|(end, top)| end - top).collect()
    }

    fn sheet(&self) -> String {
        let rows = (self.top, self.bottom() - self.top);
        let heads = (self.top - HEADS, HEADS);
        let names = (-MARGIN, self.lanes + MARGIN);
        let lanes = (self.lanes, self.width - self.lanes);
        let places = [
            ("corner", names, heads),
            ("heads", lanes, heads),
            ("names", names, rows),
            ("lanes", lanes, rows),
        ];
        let mut text = String::new();
        for ((name, (x, width), (y, height)), part) in places.iter().zip(&self.parts) {
            let _ = write!(text, "<svg class=\"{name}\" width=\"{width}\" height=\"{height}\" ");
            let _ = write!(text, "viewBox=\"{x} {y} {width} {height}\" aria-hidden=\"true\">\n");
            text.push_str(part);
            text.push_str("</svg>\n");
        }
        text
    }
}

fn escaped(text: &str) -> String {
    let mut out = String::new();
    for letter in text.chars() {
        match letter {
            '&' => out.push_str("&amp;"),
            '<' => out.push_str("&lt;"),
            '>' => out.push_str("&gt;"),
            '"' => out.push_str("&quot;"),
            other => out.push(other),
        }
    }
    out
}

/// A JSON string that ends no script: `<` and its like are written by their numbers.
fn quoted(text: &str) -> String {
    let mut out = String::from("\"");
    for letter in text.chars() {
        match letter {
            '"' | '\\' => out.extend(['\\', letter]),
            '<' | '>' | '&' | '\0'..='\x1f' | '\x7f'..='\u{9f}' | '\u{2028}' | '\u{2029}' => {
                let _ = write!(out, "\\u{:04x}", letter as u32);
            }
            other => out.push(other),
        }
    }
    out.push('"');
    out
}

fn listed<T>(items: &[T], show: impl Fn(&T) -> String) -> String {
    let items: Vec<String> = items.iter().map(show).collect();
    format!("[{}]", items.join(",\n"))
}

fn data(texts: &[&str], story: &Story, drawn: &Drawn) -> String {
    let run = |(event, [a, b, c]): &(usize, Lines)| format!("[{event},{a},{b},{c}]");
    let runs = |told: &Told| told.runs.iter().map(run).collect::<Vec<_>>().join(",");
    let told = |told: &Told| format!("[{},[{}]]", quoted(&told.name), runs(told));
    format!(
        "{{\"heights\":{:?},\n\"texts\":{},\n\"points\":{},\n\"words\":{},\n\"told\":{}}}",
        drawn.heights(),
        listed(texts, |text| quoted(text)),
        listed(&story.points, |point| quoted(point)),
        listed(&story.words.list, |line| quoted(line)),
        listed(&story.told, told),
    )
}

/// Each network that something is told of, as a choice.
fn choices(story: &Story) -> String {
    let mut names: Vec<&str> =
        story.told.iter().filter_map(|told| told.name.split(' ').next()).collect();
    names.dedup();
    names.iter().map(|name| format!("<option>{}</option>\n", escaped(name))).collect()
}

/// What the blocks say of a log at fault.
fn noted(fault: &str) -> String {
    let words = escaped(fault);
    format!("<p class=\"fault\" role=\"note\">The log is shown up to its fault. {words}</p>\n")
}

/// The page from its pattern, in which every other part between `@@` names what stands there.
fn filled(name: &str, texts: &[&str], story: &Story, drawn: &Drawn) -> String {
    let mut page = String::new();
    for (place, part) in PAGE.split("@@").enumerate() {
        match part {
            _ if place % 2 == 0 => page.push_str(part),
            "name" => page.push_str(&escaped(name)),
            "style" => page.push_str(STYLE),
            "script" => page.push_str(SCRIPT),
            "data" => page.push_str(&data(texts, story, drawn)),
            "choices" => page.push_str(&choices(story)),
            "title" => page.push_str(&drawn.title),
            "sheet" => page.push_str(&drawn.sheet()),
            "about" => page.push_str(&drawn.about),
            "legend" => page.extend(drawn.legend.iter().map(|line| format!("<p>{line}</p>\n"))),
            "fault" => page.extend(story.fault.iter().map(|line| noted(line))),
            other => page.push_str(other),
        }
    }
    page
}

fn file(named: &str) -> Parsed<String> {
    std::fs::read_to_string(named).map_err(|error| format!("{named}: {error}"))
}

fn job() -> Parsed<String> {
    let words: Vec<String> =
        std::env::args_os().skip(1).map(|word| word.to_string_lossy().into_owned()).collect();
    let [name, events, timeline] = &words[..] else {
        return Err("name the log, the file with the events' text and the timeline".into());
    };
    let (events, timeline) = (file(events)?, file(timeline)?);
    let mut blocks = String::new();
    io::stdin().read_to_string(&mut blocks).map_err(|error| error.to_string())?;
    let story = Story::read(&blocks)?;
    let texts: Vec<&str> = events.lines().take(story.points.len()).collect();
    let drawn = Drawn::read(&timeline).unwrap_or_default();
    let rows = drawn.ends.len();
    if texts.len() != story.points.len() || rows != texts.len() {
        return Err(format!("{} events are explained, {rows} drawn", story.points.len()));
    }
    Ok(filled(name, &texts, &story, &drawn))
}

fn main() -> ExitCode {
    match job() {
        Ok(page) => {
            print!("{page}");
            ExitCode::SUCCESS
        }
        Err(error) => {
            eprintln!("page: {error}");
            ExitCode::FAILURE
        }
    }
}

/// `default-src 'none'`: whatever the page holds, the browser fetches nothing for it.
const PAGE: &str = r#"<!DOCTYPE html>
<html lang="en">
<head>
<meta charset="utf-8"/>
<meta http-equiv="Content-Security-Policy" content="default-src 'none'; style-src 'unsafe-inline'; script-src 'unsafe-inline'; base-uri 'none'; form-action 'none'"/>
<meta name="viewport" content="width=device-width, initial-scale=1"/>
<title>@@name@@, event by event</title>
<style>
@@style@@</style>
</head>
<body>
<header>
<h1>@@name@@, event by event</h1>
<label>Network <select id="filter"><option value="">all</option>
@@choices@@</select></label>
<p class="help">Choose an event by mouse or with <kbd>↑</kbd> <kbd>↓</kbd> <kbd>Page Up</kbd> <kbd>Page Down</kbd> <kbd>Home</kbd> <kbd>End</kbd>; <kbd>Tab</kbd> goes on to the explanation. <span class="sign">◆</span> an explanation changed with this event.</p>
</header>
@@fault@@<noscript><p class="fault">The explanations are shown by a script, and scripts are switched off.</p></noscript>
<main>
<section id="timeline" aria-label="Timeline">
<h2>@@title@@</h2>
<p class="about">@@about@@</p>
<div id="scroller">
<div id="sheet">
@@sheet@@<ul id="events" role="listbox" tabindex="0" aria-label="Events" aria-controls="explanation"></ul>
</div>
</div>
<div class="legend">
@@legend@@<p>Frames say it too: a line forbidden, dashes N1 not allowed, a thick line both.</p>
</div>
</section>
<section id="explanation" tabindex="0" aria-live="polite" aria-labelledby="chosen">
<h2 id="chosen">The log has no events</h2>
<p id="text"></p>
<p id="point"></p>
<div id="now"></div>
<div id="before" aria-live="off"></div>
</section>
</main>
<script type="application/json" id="data">
@@data@@
</script>
<script>//<![CDATA[
@@script@@//]]></script>
</body>
</html>
"#;

const STYLE: &str = r##":root {
  color-scheme: light dark;
  --ink: #1c2128; --muted: #57606a; --paper: #ffffff; --desk: #f3f5f7; --line: #d3d9df;
  --strong: #0b57d0; --tint: rgb(11 87 208 / 8%); --yes: #a01220; --moved: #8a4600;
}
html, body { height: 100%; margin: 0; }
body { display: flex; flex-direction: column; background: var(--desk); color: var(--ink); font: 16px/1.45 system-ui, sans-serif; }
h1, h2, h3, h4, p, ul { margin: 0; padding: 0; }
h1 { font-size: 1.25rem; }
h2 { font-size: 1.05rem; }
a { color: var(--strong); }
:focus-visible { outline: 3px solid var(--strong); outline-offset: -3px; }
header { display: flex; flex-wrap: wrap; gap: .3rem 1.5rem; align-items: baseline; padding: .6rem 1rem; background: var(--paper); border-bottom: 1px solid var(--line); }
header label { margin-left: auto; font-weight: 600; }
header select { font: inherit; padding: .1rem .3rem; }
.help { flex-basis: 100%; font-size: .85rem; color: var(--muted); }
kbd { font: inherit; border: 1px solid var(--line); border-radius: 3px; padding: 0 .3em; }
.sign { color: var(--moved); margin-left: .8em; }
.fault { padding: .4rem 1rem; font-weight: 600; color: var(--yes); background: var(--paper); border-bottom: 3px double; }
main { flex: 1; min-height: 0; display: grid; grid-template-columns: minmax(0, 1fr) minmax(20rem, 26rem); }
#timeline { display: flex; flex-direction: column; min-height: 0; border-right: 1px solid var(--line); }
#timeline h2 { padding: .6rem 1rem .4rem; }
.about { padding: 0 1rem .5rem; max-width: 60rem; font-size: .9rem; color: var(--muted); }
.about:empty { display: none; }
#scroller { min-height: 0; overflow: auto; background: var(--paper); border: 1px solid var(--line); border-width: 1px 0; }
#sheet { display: grid; grid-template-columns: max-content max-content; width: max-content; }
#sheet svg { display: block; background: var(--paper); fill: var(--ink); font: 12px sans-serif; }
#sheet .corner { grid-area: 1 / 1; position: sticky; top: 0; left: 0; z-index: 3; }
#sheet .heads { grid-area: 1 / 2; position: sticky; top: 0; z-index: 2; }
#sheet .names { grid-area: 2 / 1; position: sticky; left: 0; }
#sheet .lanes { grid-area: 2 / 2; }
#sheet .lanes text { fill: var(--ink); }
#sheet rect[fill="#e06666"] { stroke: #7d1c1c; }
#sheet rect[fill="#f6b26b"] { stroke: #7a4100; stroke-dasharray: 5 4; }
#sheet rect[fill="#a61c00"] { stroke: #3d0a00; stroke-width: 4; }
#sheet .lanes rect[fill="#a61c00"] + text { fill: #ffffff; }
#events { grid-area: 2 / 1 / 3 / 3; z-index: 1; margin-top: 1px; list-style: none; outline: none; }
#events li { box-sizing: border-box; height: var(--row); line-height: var(--row); border-bottom: 1px solid var(--line); cursor: pointer; scroll-margin: 72px 0 28px; }
#events li:first-child { box-shadow: 0 -1px var(--line); }
#events li::before, #events li::after { content: ""; display: inline-block; position: sticky; left: 6px; width: 16px; font-size: 13px; }
#events li::after { left: 22px; color: var(--moved); }
#events li.moves::after { content: "◆"; }
#events li:hover { background: var(--tint); }
#events li[aria-selected="true"] { background: var(--tint); outline: 2px dashed var(--strong); outline-offset: -1px; }
#events li[aria-selected="true"]::before { content: "▶"; color: var(--strong); }
#events:focus li[aria-selected="true"] { outline-style: solid; }
.empty #timeline, .empty label, .empty .help { display: none; }
.legend { padding: .4rem 1rem .6rem; font-size: .8rem; color: var(--muted); }
#explanation { overflow: auto; padding: .6rem 1rem 1.5rem; }
#text { font: .95rem/1.4 ui-monospace, monospace; overflow-wrap: anywhere; margin-top: .2rem; }
#point { color: var(--muted); font-size: .9rem; }
h3 { margin-top: 1rem; font-size: .95rem; color: var(--muted); }
#now h3:not(:last-child) { color: var(--moved); }
#now h3:not(:last-child)::before { content: "◆ "; }
article { margin-top: .5rem; padding: .5rem .8rem .6rem; background: var(--paper); border: 1px solid var(--line); border-radius: 6px; }
#now article { border: 2px solid var(--moved); }
article h4 { font-size: 1rem; }
article p { margin-top: .15rem; padding-left: 1.2rem; font-size: .95rem; }
article b { font-weight: 600; }
article .yes { color: var(--yes); }
article .moved::before { content: "◆"; display: inline-block; width: 1.2rem; margin-left: -1.2rem; font-size: .8em; color: var(--moved); }
@media (max-width: 62rem) {
  main { grid-template-columns: minmax(0, 1fr); grid-template-rows: minmax(0, 1fr) minmax(0, 1fr); }
  #timeline { border-right: 0; border-bottom: 1px solid var(--line); }
}
@media screen and (prefers-color-scheme: dark) {
  :root {
    --ink: #e4e8ed; --muted: #a6b0bb; --paper: #171b21; --desk: #0e1116; --line: #39414b;
    --strong: #8ab4f8; --tint: rgb(138 180 248 / 12%); --yes: #ff9a94; --moved: #f2b15c;
  }
  #sheet text[fill="#555"] { fill: #a6b0bb; }
  #sheet text[fill="#38761d"] { fill: #8fd07a; }
  #sheet text[fill="#990000"] { fill: #ff9a94; }
  #sheet rect[fill="#cfcfcf"] { fill: #4c5158; }
  #sheet rect[fill="#d9ead3"] { fill: #2c4428; }
  #sheet rect[fill="#f9cb9c"] { fill: #6b4416; }
  #sheet rect[fill="#fff2cc"] { fill: #544917; }
  #sheet rect[fill="#cfe2f3"] { fill: #23415e; }
  #sheet rect[fill="#93c47d"] { fill: #3a682a; }
  #sheet rect[fill="#f4cccc"] { fill: #57282b; }
  #sheet rect[fill="#b4d7c8"] { fill: #1f5546; }
  #sheet rect[fill="#eeeeee"] { fill: #363c44; }
  #sheet rect[fill="#e06666"] { fill: #a83a3a; stroke: #ffb3ad; }
  #sheet rect[fill="#f6b26b"] { fill: #945400; stroke: #ffd9a8; }
  #sheet rect[fill="#a61c00"] { fill: #7c1500; stroke: #ff8a70; }
  #sheet rect[fill="#674ea7"] { fill: #9c86dd; }
  #sheet rect[fill="#0b7285"] { fill: #35a3b8; }
  #sheet rect[fill="#f1c232"] { fill: #e0b12a; }
  #sheet rect[fill="#a0522d"] { fill: #c97d54; }
}
@media print {
  :root { color-scheme: light; }
  @page { size: landscape; margin: 12mm; }
  html, body { height: auto; }
  body, main, #timeline { display: block; background: none; }
  .help, header label { display: none; }
  #scroller, #explanation { overflow: visible; border: 0; }
  #sheet { zoom: var(--fit, 1); }
  #sheet svg { position: static; }
  article { break-inside: avoid; }
  h2, h3, #text, #point { break-after: avoid; }
}
"##;

const SCRIPT: &str = r##"'use strict';
const byId = (name) => document.getElementById(name);
const data = JSON.parse(byId('data').textContent);
const last = data.points.length;
// A column's width, about.
const LANE = 180;
const steps = { ArrowUp: -1, ArrowDown: 1, PageUp: -10, PageDown: 10, Home: -last, End: last };
const rows = [];
let chosen = 0;

function made(name, text, kind) {
  const element = document.createElement(name);
  element.textContent = text;
  if (kind) element.className = kind;
  return element;
}

// What is told of a network and access at an event: the place of its run, and whether that begins there.
function runAt(runs, event) {
  let place = runs.length - 1;
  while (runs[place][0] > event) place -= 1;
  return { place, moved: runs[place][0] === event };
}

// A line as it was said; an event that it names is a link to that event.
function line(words, moved) {
  const said = made('p', '');
  const [, label, rest] = /^([^:]*:)?(.*)$/.exec(words);
  if (label) said.append(made('b', label));
  rest.split(/(event [0-9]+)(?= at [0-9])/).forEach((part, place) => {
    const link = place % 2 === 1;
    const shown = link ? made('a', part) : part;
    if (link) shown.href = '#' + part.replace(' ', '-');
    said.append(shown);
  });
  said.classList.toggle('moved', moved);
  said.classList.toggle('yes', rest.startsWith(' yes'));
  return said;
}

function card(name, runs, at) {
  const article = made('article', '');
  article.append(made('h4', name));
  const now = runs[at.place];
  const was = at.moved ? runs[at.place - 1] : now;
  for (const place of [1, 2, 3]) article.append(line(data.words[now[place]], now[place] !== was[place]));
  return article;
}

// The networks and accesses that the filter leaves.
function picked() {
  const network = byId('filter').value;
  return data.told.filter(([name]) => network === '' || name.startsWith(network + ' '));
}

// First those that changed, then those that something has happened to, then the rest.
function show() {
  const cards = [[], [], []];
  for (const [name, runs] of picked()) {
    const at = runAt(runs, chosen);
    cards[at.moved ? 0 : at.place > 0 ? 1 : 2].push(card(name, runs, at));
  }
  const [moved, ...others] = cards;
  const of = byId('filter').value && ' for ' + byId('filter').value;
  byId('chosen').textContent = 'Event ' + chosen + ' of ' + last;
  byId('text').textContent = data.texts[chosen - 1];
  byId('point').textContent = data.points[chosen - 1];
  byId('now').replaceChildren(made('h3', moved.length ? 'Changed with this event' : 'Nothing changed' + of + ' with this event'), ...moved);
  const rest = others.flat();
  byId('before').replaceChildren(...(rest.length ? [made('h3', 'As before'), ...rest] : []));
}

function choose(event) {
  if (chosen) rows[chosen - 1].setAttribute('aria-selected', 'false');
  chosen = Math.min(Math.max(event, 1), last);
  const row = rows[chosen - 1];
  row.setAttribute('aria-selected', 'true');
  row.scrollIntoView({ block: 'nearest', inline: 'nearest' });
  byId('events').setAttribute('aria-activedescendant', row.id);
  const hash = '#event-' + chosen;
  if (location.hash !== hash) history.replaceState(null, '', hash);
  byId('explanation').scrollTop = 0;
  show();
}

// Scrolls to the first column of the network that is picked.
function reveal() {
  const heads = [...document.querySelectorAll('.heads text')];
  const head = heads.find((text) => text.textContent === byId('filter').value);
  if (!head) return;
  const scroller = byId('scroller');
  const beyond = head.getBoundingClientRect().left + LANE - scroller.getBoundingClientRect().right;
  scroller.scrollLeft += beyond;
}

// Each row with which an explanation changes that the filter leaves.
function mark() {
  const events = new Set(picked().flatMap(([, runs]) => runs.map(([event]) => event)));
  rows.forEach((row, place) => {
    row.classList.toggle('moves', events.has(place + 1));
    row.setAttribute('aria-description', events.has(place + 1) ? 'an explanation changed' : '');
  });
}

function list() {
  for (let event = 1; event <= last; event += 1) {
    const row = document.createElement('li');
    const answer = data.points[event - 1].split(', ').pop();
    row.id = 'row-' + event;
    row.style.setProperty('--row', data.heights[event - 1] + 'px');
    row.setAttribute('role', 'option');
    row.setAttribute('aria-selected', 'false');
    row.setAttribute('aria-label', event + ' ' + data.texts[event - 1] + ', ' + answer);
    rows.push(row);
  }
  byId('events').append(...rows);
}

// The column of names is as wide as its longest; on paper the whole timeline is as wide as the paper.
function fit() {
  const columns = ['corner', 'names'].map((name) => document.querySelector('svg.' + name));
  const ends = columns.map((svg) => { const box = svg.getBBox(); return box.x + box.width; });
  for (const svg of columns) {
    const box = svg.viewBox.baseVal;
    box.width = Math.min(box.width, Math.ceil(Math.max(...ends)) + 14 - box.x);
    svg.setAttribute('width', box.width);
  }
  byId('sheet').style.setProperty('--fit', Math.min(1, 1000 / byId('sheet').offsetWidth));
}

function linked() {
  const named = /^#event-([0-9]+)$/.exec(location.hash);
  choose(named ? Number(named[1]) : chosen || 1);
  // A link that was followed is gone, and with it the focus.
  if (document.activeElement === document.body) byId('events').focus({ preventScroll: true });
}

function begin() {
  list();
  fit();
  mark();
  byId('filter').addEventListener('change', () => { mark(); show(); reveal(); });
  byId('events').addEventListener('click', (at) => { const row = rows.indexOf(at.target.closest('li')); if (row >= 0) choose(row + 1); });
  byId('events').addEventListener('keydown', (key) => {
    if (!Object.hasOwn(steps, key.key) || key.ctrlKey || key.altKey || key.metaKey) return;
    key.preventDefault();
    choose(chosen + steps[key.key]);
  });
  window.addEventListener('hashchange', linked);
  linked();
}

if (last > 0) begin();
else document.body.classList.add('empty');
"##;
