// Draws the crates of crates.txt as an SVG picture: each above what it stands on.
//
//   map <crates.txt >SVG
//
// A line stands for a crate that is used; one that follows from two others is left out, and so
// are the kit's own libraries, which are named in the box. Programs, the crates with a main.rt
// where it is run, have a rounded box.

use std::collections::{BTreeMap, BTreeSet};
use std::fmt::Write as _;
use std::io::{self, Read};
use std::path::Path;
use std::process::ExitCode;

const WIDE: usize = 110;
const HIGH: usize = 40;
const STEP: usize = 130;
const LAYER: usize = 78;

type Graph = BTreeMap<String, Vec<String>>;

/// The crates and what each stands on; a dependency that is no crate here is the kit's.
fn graph(text: &str) -> Result<Graph, String> {
    let mut crates = Graph::new();
    for (at, line) in text.lines().enumerate() {
        let line = line.split('#').next().unwrap_or("").trim();
        if line.is_empty() {
            continue;
        }
        // Behind the name may stand its kind, as `staticlib`.
        let (head, rest) = line.split_once(':').ok_or(format!("line {}: no `:`", at + 1))?;
        let name = head.split_whitespace().next().ok_or(format!("line {}: no name", at + 1))?;
        crates.insert(name.into(), rest.split_whitespace().map(String::from).collect());
    }
    Ok(crates)
}

/// How many crates at most lie below one; crates.txt has no circle.
fn depth(crates: &Graph, name: &str) -> usize {
    let below = crates[name].iter().filter(|used| crates.contains_key(*used));
    below.map(|used| depth(crates, used) + 1).max().unwrap_or(0)
}

fn reaches(crates: &Graph, from: &str, to: &str) -> bool {
    let own = crates[from].iter().filter(|used| crates.contains_key(*used));
    own.into_iter().any(|used| used == to || reaches(crates, used, to))
}

/// The lines to draw: those that do not follow from others.
fn lines(crates: &Graph) -> Vec<(String, String)> {
    let mut drawn = Vec::new();
    for (name, used) in crates {
        let own: BTreeSet<&String> =
            used.iter().filter(|used| crates.contains_key(*used)).collect();
        for low in &own {
            if !own.iter().any(|high| high != low && reaches(crates, high, low)) {
                drawn.push((name.clone(), low.to_string()));
            }
        }
    }
    drawn
}

/// Layers from the bottom, each a row of names. A line over more than one layer takes a place
/// in each between, so that it passes beside the boxes; that place has the line's own name.
struct Layout {
    rows: Vec<Vec<String>>,
    paths: Vec<Vec<String>>,
}

fn layout(crates: &Graph) -> Layout {
    let layers = crates.keys().map(|name| depth(crates, name)).max().map_or(0, |top| top + 1);
    let mut rows = vec![Vec::new(); layers];
    for name in crates.keys() {
        rows[depth(crates, name)].push(name.clone());
    }
    let mut paths = Vec::new();
    for (high, low) in lines(crates) {
        let mut path = vec![high.clone()];
        for layer in (depth(crates, &low) + 1..depth(crates, &high)).rev() {
            let place = format!("{low} {layer}");
            if !rows[layer].contains(&place) {
                rows[layer].push(place.clone());
            }
            path.push(place);
        }
        path.push(low);
        paths.push(path);
    }
    Layout { rows, paths }
}

impl Layout {
    /// The mean place of a name's neighbours in another row, in thousandths.
    fn middle(&self, name: &String, other: &[String]) -> Option<usize> {
        let pairs = self.paths.iter().flat_map(|path| path.windows(2));
        let near = pairs.filter_map(|pair| match pair {
            [a, b] if a == name => Some(b),
            [a, b] if b == name => Some(a),
            _ => None,
        });
        let places: Vec<usize> =
            near.filter_map(|near| other.iter().position(|held| held == near)).collect();
        let sum: usize =
            places.iter().map(|place| (2 * place + 1) * 1000 / (2 * other.len())).sum();
        (!places.is_empty()).then(|| sum / places.len())
    }

    /// Orders each row by where its neighbours stand, up and down a few times.
    fn untangle(&mut self) {
        for round in 0..8 {
            let count = self.rows.len();
            for step in 1..count {
                let (row, other) = if round % 2 == 0 {
                    (step, step - 1)
                } else {
                    (count - 1 - step, count - step)
                };
                let size = self.rows[row].len();
                let mut keyed: Vec<(usize, String)> = Vec::new();
                for (place, name) in self.rows[row].iter().enumerate() {
                    let own = (2 * place + 1) * 1000 / (2 * size);
                    keyed.push((self.middle(name, &self.rows[other]).unwrap_or(own), name.clone()));
                }
                keyed.sort_by_key(|(key, _)| *key);
                self.rows[row] = keyed.into_iter().map(|(_, name)| name).collect();
            }
        }
    }

    fn place(&self, name: &String) -> (usize, usize) {
        let widest = self.rows.iter().map(Vec::len).max().unwrap_or(1);
        let (layer, row) = self
            .rows
            .iter()
            .enumerate()
            .find(|(_, row)| row.contains(name))
            .unwrap_or((0, &self.rows[0]));
        let at = row.iter().position(|held| held == name).unwrap_or(0);
        let x = (2 * at + 1) * widest * STEP / (2 * row.len());
        (x, 40 + (self.rows.len() - 1 - layer) * LAYER)
    }
}

/// Lines between crates, straight within a layer and slanting between two.
fn draw_lines(svg: &mut String, layout: &Layout) {
    for path in &layout.paths {
        let points: Vec<(usize, usize)> = path.iter().map(|name| layout.place(name)).collect();
        let mut line = format!("M{} {}", points[0].0, points[0].1 + HIGH);
        for (place, (x, y)) in points.iter().enumerate().skip(1) {
            let end = if place + 1 == points.len() { *y } else { y + HIGH };
            let _ = write!(line, "L{x} {y}L{x} {end}");
        }
        let _ = writeln!(svg, r##"<path d="{line}" fill="none" stroke="#888"/>"##);
    }
}

fn draw_box(svg: &mut String, name: &str, kit: &str, x: usize, y: usize) {
    let program = Path::new("crates").join(name).join("src/main.rt").exists();
    let (round, fill) = if program { (18, "#fff2cc") } else { (2, "#e8f0fe") };
    let down = if kit.is_empty() { 25 } else { 18 };
    let left = x - WIDE / 2;
    let _ = write!(svg, r#"<rect x="{left}" y="{y}" width="{WIDE}" height="{HIGH}" "#);
    let _ = writeln!(svg, r##"rx="{round}" fill="{fill}" stroke="#444"/>"##);
    let middle = r#"text-anchor="middle""#;
    let _ = writeln!(svg, r#"<text x="{x}" y="{}" {middle}>{name}</text>"#, y + down);
    if !kit.is_empty() {
        let small = r##"font-size="10" fill="#555""##;
        let _ = writeln!(svg, r#"<text x="{x}" y="{}" {middle} {small}>{kit}</text>"#, y + 33);
    }
}

fn draw(crates: &Graph) -> String {
    let mut layout = layout(crates);
    layout.untangle();
    let widest = layout.rows.iter().map(Vec::len).max().unwrap_or(1);
    let (width, height) = (widest * STEP, layout.rows.len() * LAYER + 30);
    let mut svg = String::from("<svg xmlns=\"http://www.w3.org/2000/svg\" ");
    let _ = write!(svg, r#"width="{width}" height="{height}" "#);
    svg.push_str("font-family=\"sans-serif\" font-size=\"14\">\n");
    svg.push_str("<rect width=\"100%\" height=\"100%\" fill=\"white\"/>\n");
    svg.push_str("<text x=\"8\" y=\"20\" font-size=\"12\" fill=\"#555\">");
    svg.push_str("Each crate above what it stands on (from crates.txt)</text>\n");
    draw_lines(&mut svg, &layout);
    for (name, used) in crates {
        let (x, y) = layout.place(name);
        let kit: Vec<&str> =
            used.iter().filter(|used| !crates.contains_key(*used)).map(String::as_str).collect();
        draw_box(&mut svg, name, &kit.join(" "), x, y);
    }
    svg.push_str("</svg>\n");
    svg
}

fn main() -> ExitCode {
    let mut text = String::new();
    let read = io::stdin().read_to_string(&mut text).map_err(|error| error.to_string());
    match read.and_then(|_| graph(&text)) {
        Ok(crates) => {
            print!("{}", draw(&crates));
            ExitCode::SUCCESS
        }
        Err(error) => {
            eprintln!("map: {error}");
            ExitCode::FAILURE
        }
    }
}
