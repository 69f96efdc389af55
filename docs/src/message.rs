// Reading accepts and rejects: which octet is at fault, the optional elements and the timer octets.

/// Why a message is not read, by request R-1's number, and the offset of the octet at fault; a
/// request also by number 3 with offset 0, or by R-3's 19.
#[derive(Clone, Copy, PartialEq, Debug)]
pub struct Fault {
    pub number: u8,
    pub at: usize,
}

// The numbers of faults.

/// Fewer than the fixed octets, or an accept whose result has length 0.
pub const CUT: u8 = 13;
/// Octet 1 not 7E.
pub const FIRST: u8 = 14;
/// Octet 2 not 00.
pub const SECOND: u8 = 15;
/// Type not one this call reads.
pub const KIND: u8 = 16;
/// An element past the end.
pub const PAST: u8 = 17;
/// An unknown element that must be understood.
pub const STRANGE: u8 = 18;

/// What an accept says; `equivalents` are whole triplets or less than one.
#[derive(Default)]
pub struct Accept<'a> {
    pub guti: Option<&'a [u8; 10]>,
    pub equivalents: &'a [u8],
    pub t3502: Option<u16>,
    /// 0 also where T3512 is deactivated: both say that it does not run.
    pub t3512: Option<u32>,
}

/// What a reject says.
#[derive(Clone, Copy, PartialEq, Debug)]
pub struct Reject {
    pub cause: u8,
    /// None also where T3346 is zero or deactivated: all three give no time to wait.
    pub t3346: Option<u16>,
}

pub enum Message<'a> {
    Accept(Accept<'a>),
    Reject(Reject),
}

/// What a timer octet says.
#[derive(Clone, Copy, PartialEq, Debug)]
pub enum Span<T> {
    Deactivated,
    Zero,
    /// Above 0.
    Seconds(T),
}

impl<T: Default + PartialEq> Span<T> {
    fn of(seconds: T) -> Span<T> {
        if seconds == T::default() {
            Span::Zero
        } else {
            Span::Seconds(seconds)
        }
    }

    /// Zero is 0 s; None is deactivated.
    fn length(self) -> Option<T> {
        match self {
            Span::Deactivated => None,
            Span::Zero => Some(T::default()),
            Span::Seconds(seconds) => Some(seconds),
        }
    }

    /// The seconds of a time to wait; None if there is none.
    fn above_zero(self) -> Option<T> {
        match self {
            Span::Deactivated | Span::Zero => None,
            Span::Seconds(seconds) => Some(seconds),
        }
    }
}

/// Which message the elements stand in: 52 has seven octets in a request only.
#[derive(Clone, Copy, PartialEq)]
pub enum Within {
    Request,
    Other,
}

/// Takes the first `count` octets off `rest`, if it has so many.
fn take<'a>(rest: &mut &'a [u8], count: usize) -> Option<&'a [u8]> {
    if rest.len() < count {
        return None;
    }
    let (first, others) = rest.split_at(count);
    *rest = others;
    Some(first)
}

/// Takes the next element off `rest`, which is not empty: its contents, None if past the end.
fn contents<'a>(rest: &mut &'a [u8], within: Within) -> Option<&'a [u8]> {
    let identifier = take(rest, 1)?[0];
    let length = match identifier {
        0x52 if within == Within::Request => 6,
        0x70..=0x7F => {
            let length = take(rest, 2)?;
            u16::from_be_bytes([length[0], length[1]]) as usize
        }
        0x80..=0xFF => 0,
        _ => take(rest, 1)?[0] as usize,
    };
    take(rest, length)
}

/// Takes the next element off `rest`, what is left of `octets` and not empty: its identifier
/// and contents. Of two faults at one identifier past the end is told, the lower number.
pub fn element<'a>(
    octets: &[u8],
    rest: &mut &'a [u8],
    within: Within,
) -> Result<(u8, &'a [u8]), Fault> {
    let at = octets.len() - rest.len();
    let identifier = rest[0];
    let contents = contents(rest, within).ok_or(Fault { number: PAST, at })?;
    match identifier {
        0x00..=0x0F => Err(Fault { number: STRANGE, at }),
        _ => Ok((identifier, contents)),
    }
}

/// Takes elements of one octet off the front of `rest`, eight at once where there are so many.
fn skip(rest: &mut &[u8]) {
    const HIGH: u64 = u64::from_ne_bytes([0x80; 8]);
    while let [0x80..=0xFF, others @ ..] = *rest {
        *rest = others;
        while let Some((eight, others)) = rest.split_first_chunk() {
            if u64::from_ne_bytes(*eight) & HIGH != HIGH {
                break;
            }
            *rest = others;
        }
    }
}

/// Takes the next element of an accept or a reject off `rest`, as `element` does, but of more than
/// one octet, since no shorter one is known; None at the end.
fn longer<'a>(octets: &[u8], rest: &mut &'a [u8]) -> Result<Option<(u8, &'a [u8])>, Fault> {
    skip(rest);
    if rest.is_empty() {
        return Ok(None);
    }
    element(octets, rest, Within::Other).map(Some)
}

/// GPRS timer 2.
pub fn seconds(octet: u8) -> Span<u16> {
    let count = (octet & 31) as u16;
    match octet >> 5 {
        0 => Span::of(count * 2),
        2 => Span::of(count * 360),
        7 => Span::Deactivated,
        _ => Span::of(count * 60),
    }
}

/// The units of GPRS timer 3 by the top three bits, in seconds; the last is deactivated.
const UNITS: [Option<u32>; 8] = [
    Some(10 * 60),
    Some(3600),
    Some(10 * 3600),
    Some(2),
    Some(30),
    Some(60),
    Some(320 * 3600),
    None,
];

/// GPRS timer 3.
pub fn long_seconds(octet: u8) -> Span<u32> {
    match UNITS[(octet >> 5) as usize] {
        Some(unit) => Span::of(unit * (octet & 31) as u32),
        None => Span::Deactivated,
    }
}

/// The fault of a cut message, at its length.
pub fn cut(octets: &[u8]) -> Fault {
    Fault { number: CUT, at: octets.len() }
}

/// The fault of a message that is cut or has a wrong octet among its first three: the first one
/// that is missing or wrong. `reads` tells the types that the call reads.
#[cold]
pub fn head_fault(octets: &[u8], reads: fn(u8) -> bool) -> Fault {
    match octets {
        [first, ..] if *first != 0x7E => Fault { number: FIRST, at: 0 },
        [_, second, ..] if *second != 0x00 => Fault { number: SECOND, at: 1 },
        [_, _, third, ..] if !reads(*third) => Fault { number: KIND, at: 2 },
        _ => cut(octets),
    }
}

/// An accept or a reject, or its fault of the lowest offset.
#[inline(always)]
pub fn read(octets: &[u8]) -> Result<Message<'_>, Fault> {
    match octets {
        [0x7E, 0, 0x42, rest @ ..] => accept(octets, rest).map(Message::Accept),
        [0x7E, 0, 0x44, cause, rest @ ..] => {
            // Most have no elements.
            let t3346 = if rest.is_empty() { None } else { wait(octets, rest)? };
            Ok(Message::Reject(Reject { cause: *cause, t3346 }))
        }
        _ => Err(head_fault(octets, |kind| matches!(kind, 0x42 | 0x44))),
    }
}

/// The time to wait in a reject. Only T3346 is known, but all elements must be in order. The first
/// of a repeat counts, even where it reads as absent.
#[inline(never)]
fn wait(octets: &[u8], mut rest: &[u8]) -> Result<Option<u16>, Fault> {
    let mut t3346 = None;
    while let Some((identifier, contents)) = longer(octets, &mut rest)? {
        if identifier == 0x5F {
            t3346 = t3346.or(Some(contents));
        }
    }
    Ok(match t3346 {
        Some([octet, ..]) => seconds(*octet).above_zero(),
        _ => None,
    })
}

/// The elements of an accept, behind its result: a length of at least 1 and so many octets.
fn behind_result<'a>(octets: &[u8], mut rest: &'a [u8]) -> Result<&'a [u8], Fault> {
    let length = take(&mut rest, 1).ok_or(cut(octets))?[0];
    if length == 0 {
        return Err(Fault { number: CUT, at: 3 });
    }
    take(&mut rest, length as usize).ok_or(cut(octets))?;
    Ok(rest)
}

#[inline]
fn accept<'a>(octets: &[u8], rest: &'a [u8]) -> Result<Accept<'a>, Fault> {
    let rest = behind_result(octets, rest)?;
    if rest.is_empty() {
        return Ok(Accept::default());
    }
    elements(octets, rest)
}

/// The first of a repeat counts, even where it reads as absent.
#[inline(never)]
fn elements<'a>(octets: &[u8], mut rest: &'a [u8]) -> Result<Accept<'a>, Fault> {
    let mut guti = None;
    let mut equivalents = None;
    let mut t3502 = None;
    let mut t3512 = None;
    while let Some((identifier, contents)) = longer(octets, &mut rest)? {
        let first = match identifier {
            0x77 => &mut guti,
            0x4A => &mut equivalents,
            0x16 => &mut t3502,
            0x5E => &mut t3512,
            _ => continue,
        };
        first.get_or_insert(contents);
    }
    Ok(Accept {
        guti: match guti {
            Some([0xF2, rest @ ..]) => rest.first_chunk(),
            _ => None,
        },
        equivalents: equivalents.unwrap_or(&[]),
        t3502: match t3502 {
            Some([octet, ..]) => seconds(*octet).length(),
            _ => None,
        },
        t3512: match t3512 {
            Some([octet, ..]) => Some(long_seconds(*octet).length().unwrap_or(0)),
            _ => None,
        },
    })
}
