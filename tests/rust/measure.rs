// Runs a program and prints on one line what it took: microseconds by the clock, microseconds of
// processor time, KiB of memory at its peak, KiB of it at the end that are no file's, and the exit
// status, or 128 and the signal that ended it.
//
//   measure INPUT OUTPUT PROGRAM [ARGUMENTS]
//   measure pipe TIMES INPUT OUTPUT PROGRAM [ARGUMENTS]
//
// INPUT is a file, or - for measure's own standard input; OUTPUT is a file, /dev/null among them.
// With `pipe` the file goes TIMES over through a pipe, and memory is asked for while that is still
// open: the program is there then, and has had all but what the pipe holds. If it ended before it
// had all of it, both are 0. Without `pipe` the peak is what wait4 says, which counts measure's own
// memory too and so never is less than that, and the part that is no file's is 0.

use std::ffi::{c_int, c_long};
use std::fs::{self, File};
use std::io::{self, ErrorKind::BrokenPipe, Write};
use std::process::{exit, Child, Command, Stdio};
use std::time::Instant;

/// What wait4 tells of a process that has ended, as in getrusage(2): seconds and microseconds of
/// both kinds of processor time, and the peak in KiB.
#[repr(C)]
#[derive(Default)]
struct Usage {
    user: [c_long; 2],
    system: [c_long; 2],
    peak: c_long,
    others: [c_long; 13],
}

extern "C" {
    fn wait4(process: c_int, status: *mut c_int, options: c_int, usage: *mut Usage) -> c_int;
}

/// KiB at the peak, and now without files' pages.
#[derive(Default)]
struct Memory {
    peak: u64,
    own: u64,
}

/// Waits for the program's end: what it took, and its exit.
fn ended(child: Child) -> io::Result<(Usage, c_int)> {
    let mut usage = Usage::default();
    let mut status = 0;
    // SAFETY: both places are ours, and `Usage` is laid out like C's structure.
    if unsafe { wait4(child.id() as c_int, &mut status, 0, &mut usage) } < 0 {
        return Err(io::Error::last_os_error());
    }
    let signal = status & 0x7F;
    Ok((usage, if signal == 0 { status >> 8 & 0xFF } else { 128 + signal }))
}

/// The memory of a program that runs; 0 if it has ended.
fn memory(child: &Child) -> io::Result<Memory> {
    let text = fs::read_to_string(format!("/proc/{}/status", child.id()))?;
    let number = |name: &str| {
        let line = text.lines().find_map(|line| line.strip_prefix(name))?;
        line.split_whitespace().next()?.parse().ok()
    };
    Ok(Memory {
        peak: number("VmHWM:").unwrap_or_default(),
        own: number("RssAnon:").unwrap_or_default(),
    })
}

/// The log into the program's standard input, so often; of one that ends early the memory is 0.
fn feed(child: &mut Child, log: &[u8], times: u64) -> io::Result<Memory> {
    let mut pipe = child.stdin.take().expect("a pipe");
    for _ in 0..times {
        match pipe.write_all(log) {
            Err(error) if error.kind() == BrokenPipe => return Ok(Memory::default()),
            result => result?,
        }
    }
    memory(child)
}

/// One run, with the file as standard input or, if `times` says how often, through a pipe.
fn measure(times: Option<u64>, input: &str, output: &str, words: &[&str]) -> io::Result<()> {
    let mut command = Command::new(words[0]);
    command.args(&words[1..]).stdout(File::create(output)?);
    let mut log = Vec::new();
    if times.is_some() {
        log = fs::read(input)?;
        command.stdin(Stdio::piped());
    } else if input != "-" {
        command.stdin(File::open(input)?);
    }
    let start = Instant::now();
    let mut child = command.spawn()?;
    let fed = times.map(|times| feed(&mut child, &log, times)).transpose()?;
    let (usage, status) = ended(child)?;
    let clock = start.elapsed().as_micros();
    let [seconds, rest] = [0, 1].map(|at| usage.user[at] + usage.system[at]);
    let memory = fed.unwrap_or(Memory { peak: usage.peak as u64, own: 0 });
    println!("{clock} {} {} {} {status}", seconds * 1_000_000 + rest, memory.peak, memory.own);
    Ok(())
}

fn main() {
    let words: Vec<String> = std::env::args().skip(1).collect();
    let words: Vec<&str> = words.iter().map(String::as_str).collect();
    let result = match words[..] {
        ["pipe", times, input, output, _, ..] => match times.parse() {
            Ok(times) => measure(Some(times), input, output, &words[4..]),
            Err(_) => Err(io::Error::other("how often is not a number")),
        },
        [input, output, _, ..] => measure(None, input, output, &words[2..]),
        _ => Err(io::Error::other("measure [pipe TIMES] INPUT OUTPUT PROGRAM [ARGUMENTS]")),
    };
    if let Err(error) = result {
        eprintln!("measure: {error}");
        exit(1);
    }
}
