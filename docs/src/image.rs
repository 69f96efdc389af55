// The image of docs/FIRMWARE.md's "Saving the record": what firmware keeps over a power cut. Every
// field of C's record goes in as it lies there, in use or not, so the fields are C's and not those
// of record.rs.

use crate::record::{RANGE, SHORT, TAKEN};

// Replies to a load; the others are 0 and 1.
pub const VERSION: u8 = 23;
pub const DAMAGED: u8 = 24;

pub const LENGTH: usize = 1392;
const MARK: [u8; 4] = [0x54, 0x4A, 0x52, 0x46];
const LAYOUT: u16 = 1;
/// The octets of the mark, the version and the length, with which every version begins.
const HEAD: usize = 8;

/// A part of an image. Numbers have their lowest octet first.
trait Part {
    fn put(&self, image: &mut Vec<u8>);
    /// Takes the part off the front of octets that are enough for it.
    fn get(octets: &mut &[u8]) -> Self;
}

macro_rules! numbers {
    ($($number:ty)*) => { $(
        impl Part for $number {
            fn put(&self, image: &mut Vec<u8>) {
                image.extend(self.to_le_bytes());
            }

            fn get(octets: &mut &[u8]) -> Self {
                let (front, rest) = octets.split_first_chunk().unwrap();
                *octets = rest;
                Self::from_le_bytes(*front)
            }
        }
    )* };
}

numbers!(u8 u16 u32 u64);

impl<T: Part, const N: usize> Part for [T; N] {
    fn put(&self, image: &mut Vec<u8>) {
        self.iter().for_each(|part| part.put(image));
    }

    fn get(octets: &mut &[u8]) -> Self {
        std::array::from_fn(|_| T::get(octets))
    }
}

/// Structs whose parts lie in an image in the order in which they stand here.
macro_rules! parts {
    ($($name:ident { $($part:ident: $type:ty,)* })*) => { $(
        #[derive(Clone, Copy, PartialEq, Eq, Debug)]
        pub struct $name {
            $(pub $part: $type,)*
        }

        impl Part for $name {
            fn put(&self, image: &mut Vec<u8>) {
                $(self.$part.put(image);)*
            }

            fn get(octets: &mut &[u8]) -> Self {
                $(let $part = Part::get(octets);)*
                $name { $($part,)* }
            }
        }
    )* };
}

parts! {
    Saved {
        serial: u32,
        record: Fields,
        table: Columns,
    }
    Fields {
        device: Device,
        access: [Access; 2],
        entries: [Entries; 2],
        roaming: [u64; 40],
        regional: [u64; 40],
        guti: [[u8; 10]; 2],
        equivalents: [[u32; 15]; 2],
        suci: [u8; 64],
        capability: [u8; 13],
        security: [u8; 8],
    }
    Device {
        home: u32,
        t3512length: u32,
        card: u8,
        suci: u8,
        cardlimit: u8,
        banlimit: u8,
        n1limit: u8,
        t3247: u8,
        t3512: u8,
        due: u8,
        capability: u8,
        security: u8,
        roaming: u8,
        regional: u8,
        edition: u8,
    }
    Access {
        net: u32,
        code: u32,
        lastnet: u32,
        lastcode: u32,
        t3502length: u16,
        uplink: u16,
        sessions: u16,
        state: u8,
        status: u8,
        attempts: u8,
        cardcounter: u8,
        t3510: u8,
        t3511: u8,
        t3502: u8,
        guti: u8,
        visited: u8,
        ksi: u8,
        equivalents: u8,
        entries: u8,
        regtype: u8,
        t3346: u8,
    }
    Entries {
        nets: [u32; 16],
        bans: [u8; 16],
        n1s: [u8; 16],
        forbidden: [u8; 16],
        barred: [u8; 16],
        ranks: [u8; 16],
    }
    Columns {
        rests: [u64; 10],
        ends: [u32; 10],
        held: [u8; 10],
    }
}

/// The remainder of four bits, lowest first, by CRC-32's polynomial.
const fn remainder(bits: u32) -> u32 {
    let (mut rest, mut bit) = (bits, 0);
    while bit < 4 {
        rest = if rest & 1 == 1 { rest >> 1 ^ 0xEDB8_8320 } else { rest >> 1 };
        bit += 1;
    }
    rest
}

const REMAINDERS: [u32; 16] = {
    let (mut all, mut bits) = ([0; 16], 0);
    while bits < 16 {
        all[bits] = remainder(bits as u32);
        bits += 1;
    }
    all
};

/// CRC-32 as zlib and IEEE 802.3 have it, four bits at a time.
pub fn checksum(octets: &[u8]) -> u32 {
    let halves = octets.iter().flat_map(|octet| [octet & 15, octet >> 4]);
    let step =
        |rest: u32, half: u8| rest >> 4 ^ REMAINDERS[((rest ^ u32::from(half)) & 15) as usize];
    !halves.fold(!0, step)
}

/// The octets of an image.
fn image(saved: &Saved) -> Vec<u8> {
    let mut image = MARK.to_vec();
    [LAYOUT, LENGTH as u16].put(&mut image);
    saved.put(&mut image);
    checksum(&image).put(&mut image);
    image
}

/// Writes the image to the front of the lent buffer, or answers 1 or 12 and writes nothing. Which
/// records are valid the caller says.
pub fn save(saved: &Saved, valid: impl Fn(&Fields) -> bool, buffer: &mut [u8]) -> u8 {
    if !valid(&saved.record) {
        return RANGE;
    }
    let Some(front) = buffer.get_mut(..LENGTH) else { return SHORT };
    front.copy_from_slice(&image(saved));
    TAKEN
}

/// The version, and what lies between the head and the checksum; none if that or the mark does not
/// hold, there are fewer octets than the length says, or it says fewer than these parts have.
fn whole(octets: &[u8]) -> Option<(u16, &[u8])> {
    let mut head = octets.get(..HEAD)?.strip_prefix(&MARK)?;
    let [version, length] = <[u16; 2]>::get(&mut head);
    let (covered, sum) = octets.get(..length.into())?.split_last_chunk()?;
    let parts = covered.get(HEAD..)?;
    (checksum(covered) == u32::from_le_bytes(*sum)).then_some((version, parts))
}

/// What an image holds, or answer 24, 23 or 1.
pub fn load(octets: &[u8], valid: impl Fn(&Fields) -> bool) -> Result<Saved, u8> {
    let (version, mut parts) = whole(octets).ok_or(DAMAGED)?;
    if version != LAYOUT {
        return Err(VERSION);
    }
    if parts.len() != LENGTH - HEAD - 4 {
        return Err(DAMAGED);
    }
    let saved = Saved::get(&mut parts);
    if valid(&saved.record) {
        Ok(saved)
    } else {
        Err(RANGE)
    }
}

/// Whether a record is another than before, in any field.
pub fn changed(was: &Fields, now: &Fields) -> bool {
    was != now
}
