// Opens a page of tools/explain in a browser without a window, chooses events by real keys and a
// real mouse, and holds what is shown to what the program `explain` printed.
//
//   browser PORT PAGE NAME EVENTS [WORDS..] <BLOCKS
//
// PORT is chromedriver's on this machine, which is spoken to by WebDriver; WORDS are the browser's
// own. PAGE is the page's full path, NAME the log's file name, EVENTS has a line of text for each
// event. BLOCKS has, for each network and access that could be told of, what `explain` prints of no
// log and then with `each` of the log, with empty lines in between. What has to be shown is worked
// out from them here, apart from the page. It prints what was tried:
//
//   EVENTS events, EXPLANATIONS explanations, KEYS keys, CLICKS clicks

use std::cell::Cell;
use std::fmt::Write as _;
use std::io::{self, BufRead, BufReader, Read, Write};
use std::net::TcpStream;
use std::process::ExitCode;
use std::time::Duration;

type Parsed<T> = Result<T, String>;

/// Keys by their numbers in WebDriver.
const TAB: char = '\u{E004}';
const ENTER: char = '\u{E007}';
const SHIFT: char = '\u{E008}';
const PAGE_UP: char = '\u{E00E}';
const PAGE_DOWN: char = '\u{E00F}';
const END: char = '\u{E010}';
const HOME: char = '\u{E011}';
const UP: char = '\u{E013}';
const DOWN: char = '\u{E015}';

/// How many events a page key goes.
const LEAP: usize = 10;
/// At most so many events one after the other, rows by the mouse, and networks of the filter.
const WALKED: usize = 24;
const CLICKED: usize = 5;
const FILTERED: usize = 4;

/// What WebDriver calls an element.
const ELEMENT: &str = "element-6066-11e4-a52e-4f735466cecf";

/// What is shown, line by line: the title and heading, the hash, the chosen rows, the active one,
/// the event's text, its point, whether the row lies over its words in the timeline, and each
/// explanation: its group, its name and its lines, each behind a star if it has a sign.
const SHOWN: &str = r#"
const all = (named, within) => [...within.querySelectorAll(named)];
const seen = (element) => element.checkVisibility() ? element.innerText : 'hidden';
const words = (named) => seen(document.querySelector(named));
const chosen = all('[aria-selected="true"]', document);
const event = Number(chosen[0].id.replace('row-', ''));
const texts = all('.names text', document);
const drawn = texts.filter((text) => text.getAttribute('x') === texts[0].getAttribute('x'))[event - 1];
const [over, under] = [chosen[0], drawn].map((element) => element.getBoundingClientRect());
const middle = (under.top + under.bottom) / 2;
const lies = drawn.textContent.startsWith(event + ' ') && over.top < middle && middle < over.bottom;
const sign = (line) => getComputedStyle(line, '::before').content === 'none' ? '' : '*';
const lines = (card) => all('p', card).map((line) => sign(line) + seen(line));
const cards = (group) => all('#' + group + ' article', document).map((card) =>
  [group, seen(card.querySelector('h4')), ...lines(card)].join(' | '));
return [document.title, words('h1'), location.hash, chosen.map((row) => row.id).join(),
  document.getElementById('events').getAttribute('aria-activedescendant'),
  words('#text'), words('#point'), lies, ...cards('now'), ...cards('before')].join('\n');
"#;
/// How many of its lines stand before the explanations.
const BEFORE: usize = 8;

/// A text as JSON.
fn quoted(text: &str) -> String {
    let mut out = String::from("\"");
    for letter in text.chars() {
        match letter {
            '"' | '\\' => out.extend(['\\', letter]),
            '\0'..='\x1f' => {
                let _ = write!(out, "\\u{:04x}", letter as u32);
            }
            other => out.push(other),
        }
    }
    out.push('"');
    out
}

/// What stands behind a backslash, in units of 16 bits.
fn escape(letters: &mut std::str::Chars) -> Option<Vec<u16>> {
    let letter = match letters.next()? {
        'u' => {
            let digits: String = letters.by_ref().take(4).collect();
            return Some(vec![u16::from_str_radix(&digits, 16).ok()?]);
        }
        'n' => '\n',
        't' => '\t',
        'r' => '\r',
        'b' => '\x08',
        'f' => '\x0c',
        other => other,
    };
    Some(letter.encode_utf16(&mut [0; 2]).to_vec())
}

/// The text behind a name in JSON, if it is one.
fn text_behind(json: &str, name: &str) -> Option<String> {
    let at = json.find(&format!("\"{name}\":"))? + name.len() + 3;
    let mut letters = json[at..].trim_start().strip_prefix('"')?.chars();
    let mut units: Vec<u16> = Vec::new();
    loop {
        match letters.next()? {
            '"' => return String::from_utf16(&units).ok(),
            '\\' => units.extend(escape(&mut letters)?),
            other => units.extend(other.encode_utf16(&mut [0; 2]).iter()),
        }
    }
}

/// A session of a browser; it ends with this.
struct Browser {
    port: u16,
    session: String,
    keys: Cell<usize>,
    clicks: Cell<usize>,
}

impl Drop for Browser {
    fn drop(&mut self) {
        let _ = asked(self.port, "DELETE", &format!("/session/{}", self.session), "");
    }
}

/// An answer's status and body.
fn answer(stream: TcpStream) -> io::Result<(String, String)> {
    let mut lines = BufReader::new(stream);
    let (mut status, mut length) = (String::new(), 0);
    lines.read_line(&mut status)?;
    loop {
        let mut line = String::new();
        lines.read_line(&mut line)?;
        let head = line.trim().to_ascii_lowercase();
        if head.is_empty() {
            break;
        }
        if let Some(count) = head.strip_prefix("content-length:") {
            length = count.trim().parse().unwrap_or(0);
        }
    }
    let mut body = vec![0; length];
    lines.read_exact(&mut body)?;
    Ok((status, String::from_utf8_lossy(&body).into_owned()))
}

/// The body of what is answered; an answer other than 200 is a fault.
fn asked(port: u16, way: &str, path: &str, body: &str) -> Parsed<String> {
    let told = |error: io::Error| format!("{way} {path}: {error}");
    let mut stream = TcpStream::connect(("127.0.0.1", port)).map_err(told)?;
    stream.set_read_timeout(Some(Duration::from_secs(60))).map_err(told)?;
    let length = body.len();
    let head = format!("{way} {path} HTTP/1.1\r\nHost: 127.0.0.1\r\nConnection: close\r\nContent-Type: application/json\r\nContent-Length: {length}\r\n\r\n");
    stream.write_all((head + body).as_bytes()).map_err(told)?;
    let (status, body) = answer(stream).map_err(told)?;
    if status.split(' ').nth(1) != Some("200") {
        return Err(format!("{way} {path}: {}: {body}", status.trim()));
    }
    Ok(body)
}

impl Browser {
    fn begun(port: u16, words: &[String]) -> Parsed<Browser> {
        let words: Vec<String> = words.iter().map(|word| quoted(word)).collect();
        let body = format!(
            r#"{{"capabilities":{{"alwaysMatch":{{"browserName":"chrome","goog:loggingPrefs":{{"browser":"ALL"}},"goog:chromeOptions":{{"args":[{}]}}}}}}}}"#,
            words.join(",")
        );
        let said = asked(port, "POST", "/session", &body)?;
        let session = text_behind(&said, "sessionId").ok_or("no session")?;
        Ok(Browser { port, session, keys: Cell::new(0), clicks: Cell::new(0) })
    }

    fn ask(&self, way: &str, path: &str, body: &str) -> Parsed<String> {
        asked(self.port, way, &format!("/session/{}/{path}", self.session), body)
    }

    fn open(&self, url: &str) -> Parsed<()> {
        self.ask("POST", "url", &format!("{{\"url\":{}}}", quoted(url))).map(|_| ())
    }

    /// The text that a script in the page gives back.
    fn run(&self, script: &str) -> Parsed<String> {
        let body = format!("{{\"script\":{},\"args\":[]}}", quoted(script));
        let said = self.ask("POST", "execute/sync", &body)?;
        text_behind(&said, "value").ok_or(format!("no text: {said}"))
    }

    /// Keys one after the other, each pressed while those before it are held, if `held`.
    fn keys(&self, keys: &[char], held: bool) -> Parsed<()> {
        let act = |way: &str, key: &char| format!(r#"{{"type":"{way}","value":"{key}"}}"#);
        let (down, up) = (|key| act("keyDown", key), |key| act("keyUp", key));
        let acts: Vec<String> = if held {
            keys.iter().map(down).chain(keys.iter().rev().map(up)).collect()
        } else {
            keys.iter().flat_map(|key| [down(key), up(key)]).collect()
        };
        self.keys.set(self.keys.get() + keys.len());
        self.act(r#""type":"key","id":"keyboard""#, &acts.join(","))
    }

    fn act(&self, source: &str, acts: &str) -> Parsed<()> {
        let body = format!("{{\"actions\":[{{{source},\"actions\":[{acts}]}}]}}");
        self.ask("POST", "actions", &body).map(|_| ())
    }

    fn press(&self, key: char) -> Parsed<()> {
        self.keys(&[key], false)
    }

    /// The left button on a place of what is seen, told as `X Y`.
    fn click(&self, place: &str) -> Parsed<()> {
        let (x, y) = place.split_once(' ').ok_or(format!("no place: {place}"))?;
        self.clicks.set(self.clicks.get() + 1);
        self.act(
            r#""type":"pointer","id":"mouse","parameters":{"pointerType":"mouse"}"#,
            &format!(r#"{{"type":"pointerMove","x":{x},"y":{y}}},{{"type":"pointerDown","button":0}},{{"type":"pointerUp","button":0}}"#),
        )
    }

    /// How many errors the browser has told of since it was last asked.
    fn errors(&self) -> Parsed<usize> {
        let said = self.ask("POST", "se/log", r#"{"type":"browser"}"#)?;
        Ok(said.matches("\"SEVERE\"").count())
    }

    /// What tells a screen reader of an element: its role and its name.
    fn told(&self, named: &str) -> Parsed<(String, String)> {
        let body = format!(r#"{{"using":"css selector","value":{}}}"#, quoted(named));
        let said = self.ask("POST", "element", &body)?;
        let element = text_behind(&said, ELEMENT).ok_or(said)?;
        let one = |what: &str| {
            let said = self.ask("GET", &format!("element/{element}/{what}"), "")?;
            text_behind(&said, "value").ok_or(said)
        };
        Ok((one("computedrole")?, one("computedlabel")?))
    }
}

/// A network and access: its name and its blocks, of no log and after each event.
struct Told {
    name: String,
    blocks: Vec<Vec<String>>,
}

impl Told {
    /// Whether anything ever happens to it.
    fn counts(&self) -> bool {
        self.blocks.iter().any(|block| block[1..] != self.blocks[0][1..])
    }

    /// How the page has to show it at an event.
    fn card(&self, event: usize) -> String {
        let (now, was) = (&self.blocks[event], &self.blocks[event - 1]);
        let group = if now[1..] == was[1..] { "before" } else { "now" };
        let mut text = format!("{group} | {}", self.name);
        for (line, before) in now[1..].iter().zip(&was[1..]) {
            let sign = if line == before { "" } else { "*" };
            let _ = write!(text, " | {sign}{line}");
        }
        text
    }
}

/// The blocks of each network and access that anything ever happens to, and each event's point.
fn story(text: &str) -> Parsed<(Vec<Told>, Vec<String>)> {
    let mut all: Vec<Told> = Vec::new();
    let lines: Vec<String> = text.lines().map(String::from).collect();
    for block in lines.split(|line| line.is_empty()).filter(|block| block.len() >= 4) {
        if let Some(name) = block[0].strip_suffix(", no event") {
            all.push(Told { name: name.into(), blocks: Vec::new() });
        }
        // A fifth line tells a fault of the log.
        all.last_mut().ok_or("no name")?.blocks.push(block[..4].to_vec());
    }
    let first = all.first().ok_or("no blocks")?;
    let behind = |block: &Vec<String>| block[0][first.name.len() + 1..].to_string();
    let points = first.blocks[1..].iter().map(behind).collect();
    Ok((all.into_iter().filter(Told::counts).collect(), points))
}

/// A page and what it has to show.
struct Case {
    browser: Browser,
    url: String,
    name: String,
    texts: Vec<String>,
    points: Vec<String>,
    told: Vec<Told>,
    /// The network that the filter is set to, or nothing.
    filter: String,
    events: usize,
    explanations: usize,
}

impl Case {
    fn last(&self) -> usize {
        self.points.len()
    }

    fn left(&self) -> impl Iterator<Item = &Told> {
        let network = |told: &&Told| told.name.split(' ').next() == Some(&self.filter);
        self.told.iter().filter(move |told| self.filter.is_empty() || network(told))
    }

    /// What has to be shown at an event, as SHOWN reads it.
    fn wanted(&self, event: usize) -> Vec<String> {
        let title = format!("{}, event by event", self.name);
        let row = format!("row-{event}");
        let mut cards: Vec<String> = self.left().map(|told| told.card(event)).collect();
        cards.sort();
        let (text, point) = (self.texts[event - 1].clone(), self.points[event - 1].clone());
        let mut lines = vec![title.clone(), title, format!("#event-{event}"), row.clone(), row];
        lines.extend([text, point, "true".into()]);
        lines.extend(cards);
        lines
    }

    /// The event is chosen, and shown is what was printed of it.
    fn holds(&self, event: usize) -> Parsed<()> {
        let shown = self.browser.run(SHOWN)?;
        let mut shown: Vec<&str> = shown.split('\n').collect();
        shown[BEFORE..].sort();
        let wanted = self.wanted(event);
        let differ = |(place, line): (usize, &String)| shown.get(place) != Some(&line.as_str());
        if let Some(place) = wanted.iter().enumerate().position(differ) {
            let seen = shown.get(place).unwrap_or(&"nothing");
            return Err(format!("event {event}: wanted: {}\nshown: {seen}", wanted[place]));
        }
        if shown.len() > wanted.len() {
            return Err(format!("event {event}: shown and not wanted: {}", shown[wanted.len()]));
        }
        Ok(())
    }

    fn held(&mut self, event: usize) -> Parsed<()> {
        self.holds(event)?;
        self.events += 1;
        self.explanations += self.left().count();
        Ok(())
    }

    fn pressed(&mut self, key: char, event: usize) -> Parsed<()> {
        self.browser.press(key)?;
        self.held(event.clamp(1, self.last())).map_err(|error| format!("{key:?}: {error}"))
    }

    /// The focus is on the element of this id.
    fn focused(&self, id: &str) -> Parsed<()> {
        let found = self.browser.run("return document.activeElement.id")?;
        if found == id {
            return Ok(());
        }
        Err(format!("the focus is on `{found}`, not on `{id}`"))
    }

    /// A page that is loaded anew, with an event in its link or without.
    fn opened(&mut self, event: Option<usize>) -> Parsed<()> {
        let hash = event.map_or(String::new(), |event| format!("#event-{event}"));
        self.browser.open("about:blank")?;
        self.browser.open(&format!("{}{hash}", self.url))?;
        self.focused("events")?;
        self.held(event.unwrap_or(1))
    }

    fn by_keys(&mut self) -> Parsed<()> {
        let last = self.last();
        self.opened(None)?;
        for event in 2..=last.min(WALKED) {
            self.pressed(DOWN, event)?;
        }
        self.pressed(END, last)?;
        self.pressed(DOWN, last)?;
        self.pressed(UP, last - 1)?;
        self.pressed(PAGE_UP, last.saturating_sub(LEAP + 1))?;
        self.pressed(HOME, 1)?;
        self.pressed(UP, 1)?;
        self.pressed(PAGE_DOWN, 1 + LEAP)?;
        // A wrong expectation is seen.
        let chosen = (1 + LEAP).min(last);
        if self.holds(chosen - 1).is_ok() {
            return Err("another event's blocks are held to be shown".into());
        }
        let (role, label) = self.browser.told(&format!("#row-{chosen}"))?;
        let number = self.points[chosen - 1].rsplit(", ").next().unwrap_or("");
        let wanted = format!("{chosen} {}, {number}", self.texts[chosen - 1]);
        if (role.as_str(), label.as_str()) != ("option", &wanted) {
            return Err(format!("a screen reader is told: {role}: {label}"));
        }
        Ok(())
    }

    /// Rows by the mouse, where they are seen.
    fn by_mouse(&mut self) -> Parsed<()> {
        let last = self.last();
        for place in 0..CLICKED {
            let event = 1 + place * (last - 1) / (CLICKED - 1);
            let place = self.browser.run(&format!(
                "const row = document.getElementById('row-{event}'); row.scrollIntoView({{ block: 'nearest', inline: 'nearest' }});
                 const box = row.getBoundingClientRect(); return '300 ' + Math.round((box.top + box.bottom) / 2);"
            ))?;
            self.browser.click(&place)?;
            self.held(event).map_err(|error| format!("click on {place}: {error}"))?;
            self.focused("events")?;
        }
        Ok(())
    }

    /// An event that names another one, and that one.
    fn naming(&self) -> Option<(usize, usize)> {
        let links = |block: &Vec<String>| {
            let text = block[2..].join(" ");
            let at = text.find("by event ")? + 9;
            text[at..].split(' ').next()?.parse().ok()
        };
        let first = self.told.first()?;
        let named = |event| Some((event, links(&first.blocks[event])?));
        (1..=self.last()).filter_map(named).find(|(event, named)| event != named)
    }

    /// From the row by Tab to the explanation, to the event it names, and on by keys from there.
    fn by_links(&mut self) -> Parsed<()> {
        let last = self.last();
        self.opened(Some(last))?;
        self.opened(Some(1 + last / 2))?;
        let Some((event, named)) = self.naming() else { return Ok(()) };
        let network = self.told[0].name.split(' ').next().unwrap_or("").to_string();
        self.opened(Some(event))?;
        self.filtered(&network, event)?;
        self.browser.press(TAB)?;
        self.focused("explanation")?;
        for _ in 0..last {
            self.browser.press(TAB)?;
            let at = self.browser.run("return document.activeElement.textContent")?;
            if at == format!("event {named}") {
                return self.followed(named);
            }
        }
        Err(format!("no Tab leads to the link to event {named}"))
    }

    /// The link that has the focus leads to an event, and keys go on from there.
    fn followed(&mut self, event: usize) -> Parsed<()> {
        self.browser.press(ENTER)?;
        // The page hears of another link only after the key is done.
        for _ in 0..40 {
            if self.holds(event).is_ok() {
                break;
            }
            std::thread::sleep(Duration::from_millis(50));
        }
        self.held(event)?;
        self.focused("events")?;
        self.pressed(DOWN, event + 1)?;
        self.filtered("", (event + 1).min(self.last()))
    }

    /// From the row to the filter, a network by its first letters, and back.
    fn filtered(&mut self, network: &str, event: usize) -> Parsed<()> {
        self.browser.keys(&[SHIFT, TAB], true)?;
        self.focused("filter")?;
        let typed = if network.is_empty() { "all" } else { network };
        self.browser.keys(&typed.chars().collect::<Vec<char>>(), false)?;
        self.filter = network.into();
        self.held(event).map_err(|error| format!("filter {network}: {error}"))?;
        self.browser.press(TAB)?;
        self.focused("events")
    }

    fn by_filter(&mut self) -> Parsed<()> {
        let mut networks: Vec<String> =
            self.told.iter().filter_map(|told| Some(told.name.split(' ').next()?.into())).collect();
        networks.dedup();
        let last = self.last();
        self.opened(Some(last))?;
        for network in networks.iter().take(FILTERED) {
            self.filtered(network, last)?;
            self.pressed(HOME, 1)?;
            self.pressed(DOWN, 2)?;
            self.pressed(END, last)?;
        }
        self.filtered("", last)
    }

    /// Nothing was fetched, and no error told; one that is made is.
    fn quiet(&self) -> Parsed<()> {
        let fetched = "return String(performance.getEntriesByType('resource').length)";
        let fetched = self.browser.run(fetched)?;
        let errors = self.browser.errors()?;
        if (fetched.as_str(), errors) != ("0", 0) {
            return Err(format!("{fetched} things were fetched, {errors} errors told"));
        }
        self.browser.run("console.error('made'); return ''")?;
        if self.browser.errors()? != 1 {
            return Err("an error that is made is not told".into());
        }
        Ok(())
    }

    fn tried(&mut self) -> Parsed<()> {
        if self.last() == 0 {
            self.browser.open(&self.url)?;
            return self.quiet();
        }
        self.by_keys()?;
        self.by_mouse()?;
        self.by_links()?;
        self.by_filter()?;
        self.quiet()
    }
}

/// A path as a link: all but letters, digits and a few signs by their numbers.
fn link(path: &str) -> String {
    path.bytes().fold(String::from("file://"), |mut url, octet| {
        if octet.is_ascii_alphanumeric() || b"/-._~".contains(&octet) {
            url.push(octet as char);
        } else {
            let _ = write!(url, "%{octet:02X}");
        }
        url
    })
}

fn job() -> Parsed<String> {
    let words: Vec<String> = std::env::args().skip(1).collect();
    let [port, page, name, events, rest @ ..] = &words[..] else {
        return Err("say a port, a page, the log's name and the file with its events' text".into());
    };
    let texts = std::fs::read_to_string(events).map_err(|error| format!("{events}: {error}"))?;
    let mut blocks = String::new();
    io::stdin().read_to_string(&mut blocks).map_err(|error| error.to_string())?;
    let (told, points) = story(&blocks)?;
    let browser = Browser::begun(port.parse().map_err(|_| "no port")?, rest)?;
    let mut case = Case {
        browser,
        url: link(page),
        name: name.clone(),
        texts: texts.lines().map(String::from).collect(),
        points,
        told,
        filter: String::new(),
        events: 0,
        explanations: 0,
    };
    case.tried()?;
    let (keys, clicks) = (case.browser.keys.get(), case.browser.clicks.get());
    Ok(format!(
        "{} events, {} explanations, {keys} keys, {clicks} clicks",
        case.events, case.explanations
    ))
}

fn main() -> ExitCode {
    match job() {
        Ok(tried) => {
            println!("{tried}");
            ExitCode::SUCCESS
        }
        Err(error) => {
            eprintln!("browser: {error}");
            ExitCode::FAILURE
        }
    }
}
