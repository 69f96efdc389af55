// Tells where the instructions of a program go. All of regrun is inlined into one function, so that
// its functions' names are gone; each instruction of the module that the compiler is given gets a
// place then, as debug information: for a file the name of its function, for a line its count.
//
//   places         LLVM text on standard input, the same with places on standard output
//   places parts   what callgrind wrote of regrun with places, on standard input: a line
//                  `COUNT PART` for each part, with a tab between them
//   places files   the same for the second program built with -g, by source file
//
// A function of `std` gets no places: what is inlined of it counts where it is called.

use std::collections::HashMap;
use std::io::{self, Read, Write};
use std::process::exit;

const LIBRARY: &str = "the C library";
const PARTS: [&str; 10] = [
    "reading the log",
    "the line",
    "reading messages",
    "checks",
    "what is planned",
    "the record's numbers",
    "entries",
    "areas",
    "carrying out",
    LIBRARY,
];
const FILES: [&str; 8] = [
    "record.rs",
    "log.rs",
    "message.rs",
    "main.rs",
    "card.rs",
    "the other files",
    "the standard library",
    LIBRARY,
];

/// The metadata behind the text, by number.
struct Notes {
    next: usize,
    lines: Vec<String>,
}

impl Notes {
    /// The number of a new note.
    fn add(&mut self, text: &str) -> usize {
        self.lines.push(format!("!{} = {text}", self.next));
        self.next += 1;
        self.next - 1
    }
}

/// The first number that no metadata of the text has.
fn free(text: &str) -> usize {
    let number = |line: &str| line.strip_prefix('!')?.split_once(" =")?.0.parse::<usize>().ok();
    text.lines().filter_map(number).max().map_or(0, |most| most + 1)
}

/// The name in a function's first line.
fn defined(line: &str) -> Option<&str> {
    let name = line.strip_prefix("define ")?.split_once('@')?.1;
    match name.strip_prefix('"') {
        Some(quoted) => Some(quoted.split_once('"')?.0),
        None => Some(name.split_once('(')?.0),
    }
}

/// The whole program as one unit, and the type that all functions are said to have.
fn unit(notes: &mut Notes) -> (usize, usize) {
    let file = notes.add("!DIFile(filename: \"module\", directory: \"/\")");
    let unit = notes.add(&format!(
        "distinct !DICompileUnit(language: DW_LANG_C, file: !{file}, isOptimized: true, \
         runtimeVersion: 0, emissionKind: LineTablesOnly)"
    ));
    let none = notes.add("!{null}");
    let kind = notes.add(&format!("!DISubroutineType(types: !{none})"));
    let flags = ["7, !\"Dwarf Version\", i32 4", "2, !\"Debug Info Version\", i32 3"];
    let [dwarf, version] = flags.map(|flag| notes.add(&format!("!{{i32 {flag}}}")));
    notes.lines.push(format!("!llvm.dbg.cu = !{{!{unit}}}"));
    notes.lines.push(format!("!llvm.module.flags = !{{!{dwarf}, !{version}}}"));
    (unit, kind)
}

/// A function of this name, in a file of this name.
fn function(notes: &mut Notes, name: &str, (unit, kind): (usize, usize)) -> usize {
    let file = notes.add(&format!("!DIFile(filename: \"{name}\", directory: \"/\")"));
    notes.add(&format!(
        "distinct !DISubprogram(name: \"{name}\", scope: !{file}, file: !{file}, line: 1, \
         type: !{kind}, scopeLine: 1, unit: !{unit}, \
         spFlags: DISPFlagLocalToUnit | DISPFlagDefinition | DISPFlagOptimized)"
    ))
}

/// It is a function of the standard library: of `std` or of a crate that it is made of.
fn of_std(name: &str) -> bool {
    let first = name.split("::").next().unwrap_or_default();
    first == "core" || first == "std" || first.starts_with("std_")
}

/// The text with places; a `switch` has its own behind its last line.
fn placed(text: &str) -> String {
    let mut notes = Notes { next: free(text), lines: Vec::new() };
    let whole = unit(&mut notes);
    let (mut scope, mut count, mut cases) = (None, 0, false);
    let mut lines = Vec::new();
    for line in text.lines() {
        let mut line = line.to_string();
        if let Some(name) = defined(&line) {
            scope = (!of_std(name)).then(|| function(&mut notes, name, whole));
            count = 0;
            if let Some(scope) = scope {
                line = format!("{}!dbg !{scope} {{", line.trim_end_matches('{'));
            }
        } else if line == "}" {
            scope = None;
        } else if let (Some(scope), true) = (scope, line.starts_with("  ")) {
            cases = line.ends_with('[') || cases && line.trim() != "]";
            if !cases {
                count += 1;
                let place = format!("!DILocation(line: {count}, column: 1, scope: !{scope})");
                line = format!("{line}, !dbg !{}", notes.add(&place));
            }
        }
        lines.push(line);
    }
    lines.append(&mut notes.lines);
    lines.join("\n") + "\n"
}

/// The part that a function of regrun belongs to.
fn part(name: &str) -> Option<&'static str> {
    let mut path = name.split("::");
    let (first, second) = (path.next()?, path.next().unwrap_or_default());
    Some(match (first, second) {
        ("eventlog", "lines") => "the line",
        ("eventlog" | "regrun" | "main" | "io" | "libc", _) => "reading the log",
        ("octets" | "messages" | "timers", _) => "reading messages",
        ("checks" | "networks", _) | ("record", "code") => "checks",
        ("rules" | "turns" | "effects", _) => "what is planned",
        ("record", _) => "the record's numbers",
        ("entries", _) => "entries",
        ("areas", _) => "areas",
        ("events", _) => "carrying out",
        _ => return None,
    })
}

/// The row that a source file of the second program belongs to: all that is not of docs/src is
/// Rust's.
fn file(path: &str) -> &'static str {
    let Some((_, name)) = path.split_once("docs/src/") else { return "the standard library" };
    FILES[..5].iter().find(|known| **known == name).unwrap_or(&"the other files")
}

/// The row for instructions of this object and file. What is in the program and has no place there
/// is its start and its way to the C library.
fn row(rows: &[&str], object: &str, path: &str) -> Result<&'static str, String> {
    if object == "???" || object.contains(".so") || path == "???" {
        return Ok(LIBRARY);
    }
    if rows == FILES {
        return Ok(file(path));
    }
    part(path.trim_start_matches('/')).ok_or(format!("{path} belongs to no part"))
}

/// A name as callgrind writes it: a number, with the name where that comes first.
fn named<'a>(names: &mut HashMap<&'a str, &'a str>, text: &'a str) -> &'a str {
    let (number, name) = text.split_once(' ').unwrap_or((text, ""));
    if !name.is_empty() {
        names.insert(number, name);
    }
    names.get(number).copied().unwrap_or("???")
}

/// Each row's own instructions. The line behind `calls=` has those of the function that is called.
fn sums(text: &str, rows: &[&'static str]) -> Result<HashMap<&'static str, u64>, String> {
    let (mut files, mut objects) = (HashMap::new(), HashMap::new());
    let (mut path, mut object, mut called) = ("???", "???", false);
    let mut sums = HashMap::new();
    for line in text.lines() {
        match line.split_once('=') {
            Some(("fl" | "fi" | "fe", name)) => path = named(&mut files, name),
            Some(("cfl" | "cfi", name)) => _ = named(&mut files, name),
            Some(("ob", name)) => object = named(&mut objects, name),
            Some(("cob", name)) => _ = named(&mut objects, name),
            Some(("calls", _)) => called = true,
            None if line.starts_with(|c: char| c.is_ascii_digit() || "+-*".contains(c)) => {
                let cost = line.split(' ').nth(1).and_then(|cost| cost.parse().ok()).unwrap_or(0);
                if !std::mem::take(&mut called) {
                    *sums.entry(row(rows, object, path)?).or_insert(0) += cost;
                }
            }
            _ => {}
        }
    }
    Ok(sums)
}

/// All rows, which have to make up callgrind's own total.
fn table(text: &str, rows: &[&'static str]) -> Result<String, String> {
    let sums = sums(text, rows)?;
    let count = |row: &&str| sums.get(*row).copied().unwrap_or(0);
    let total = text.lines().find_map(|line| line.strip_prefix("totals: "));
    let sum: u64 = rows.iter().map(count).sum();
    if total != Some(&sum.to_string()) {
        return Err(format!("the rows make {sum}, and callgrind counted {total:?}"));
    }
    Ok(rows.iter().map(|row| format!("{}\t{row}\n", count(row))).collect())
}

fn run() -> Result<(), String> {
    let words: Vec<String> = std::env::args().skip(1).collect();
    let mut text = String::new();
    io::stdin().read_to_string(&mut text).map_err(|error| error.to_string())?;
    let said = match words.iter().map(String::as_str).collect::<Vec<_>>()[..] {
        [] => placed(&text),
        ["parts"] => table(&text, &PARTS)?,
        ["files"] => table(&text, &FILES)?,
        _ => return Err("places [parts|files]".to_string()),
    };
    io::stdout().write_all(said.as_bytes()).map_err(|error| error.to_string())
}

fn main() {
    if let Err(error) = run() {
        eprintln!("places: {error}");
        exit(1);
    }
}
