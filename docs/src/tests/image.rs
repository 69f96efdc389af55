// The image that C's firmware saves: its layout by docs/FIRMWARE.md, and each answer to a load.

use super::{Draws, RANGE, SHORT, TAKEN};
use crate::image::*;

const MARK: [u8; 4] = *b"TJRF";
const TELLING: u64 = 0x0807_0605_0403_0201;
const WIDE: usize = 65535;

const DEVICE: usize = 12;
const ACCESS: [usize; 2] = [33, 69];
const ENTRIES: [usize; 2] = [105, 249];
const SUM: usize = 1388;

/// Where a number lies: its offset, its octets, how many there are of it, and what it is.
type Place<T> = (usize, usize, usize, fn(&mut T, usize, u64));

const IN_DEVICE: [Place<Device>; 15] = [
    (0, 4, 1, |d, _, n| d.home = n as u32),
    (4, 4, 1, |d, _, n| d.t3512length = n as u32),
    (8, 1, 1, |d, _, n| d.card = n as u8),
    (9, 1, 1, |d, _, n| d.suci = n as u8),
    (10, 1, 1, |d, _, n| d.cardlimit = n as u8),
    (11, 1, 1, |d, _, n| d.banlimit = n as u8),
    (12, 1, 1, |d, _, n| d.n1limit = n as u8),
    (13, 1, 1, |d, _, n| d.t3247 = n as u8),
    (14, 1, 1, |d, _, n| d.t3512 = n as u8),
    (15, 1, 1, |d, _, n| d.due = n as u8),
    (16, 1, 1, |d, _, n| d.capability = n as u8),
    (17, 1, 1, |d, _, n| d.security = n as u8),
    (18, 1, 1, |d, _, n| d.roaming = n as u8),
    (19, 1, 1, |d, _, n| d.regional = n as u8),
    (20, 1, 1, |d, _, n| d.edition = n as u8),
];

const IN_ACCESS: [Place<Access>; 21] = [
    (0, 4, 1, |a, _, n| a.net = n as u32),
    (4, 4, 1, |a, _, n| a.code = n as u32),
    (8, 4, 1, |a, _, n| a.lastnet = n as u32),
    (12, 4, 1, |a, _, n| a.lastcode = n as u32),
    (16, 2, 1, |a, _, n| a.t3502length = n as u16),
    (18, 2, 1, |a, _, n| a.uplink = n as u16),
    (20, 2, 1, |a, _, n| a.sessions = n as u16),
    (22, 1, 1, |a, _, n| a.state = n as u8),
    (23, 1, 1, |a, _, n| a.status = n as u8),
    (24, 1, 1, |a, _, n| a.attempts = n as u8),
    (25, 1, 1, |a, _, n| a.cardcounter = n as u8),
    (26, 1, 1, |a, _, n| a.t3510 = n as u8),
    (27, 1, 1, |a, _, n| a.t3511 = n as u8),
    (28, 1, 1, |a, _, n| a.t3502 = n as u8),
    (29, 1, 1, |a, _, n| a.guti = n as u8),
    (30, 1, 1, |a, _, n| a.visited = n as u8),
    (31, 1, 1, |a, _, n| a.ksi = n as u8),
    (32, 1, 1, |a, _, n| a.equivalents = n as u8),
    (33, 1, 1, |a, _, n| a.entries = n as u8),
    (34, 1, 1, |a, _, n| a.regtype = n as u8),
    (35, 1, 1, |a, _, n| a.t3346 = n as u8),
];

const IN_ENTRIES: [Place<Entries>; 6] = [
    (0, 4, 16, |e, i, n| e.nets[i] = n as u32),
    (64, 1, 16, |e, i, n| e.bans[i] = n as u8),
    (80, 1, 16, |e, i, n| e.n1s[i] = n as u8),
    (96, 1, 16, |e, i, n| e.forbidden[i] = n as u8),
    (112, 1, 16, |e, i, n| e.barred[i] = n as u8),
    (128, 1, 16, |e, i, n| e.ranks[i] = n as u8),
];

const IN_ALL: [Place<Saved>; 13] = [
    (8, 4, 1, |s, _, n| s.serial = n as u32),
    (393, 8, 40, |s, i, n| s.record.roaming[i] = n),
    (713, 8, 40, |s, i, n| s.record.regional[i] = n),
    (1033, 1, 10, |s, i, n| s.record.guti[0][i] = n as u8),
    (1043, 1, 10, |s, i, n| s.record.guti[1][i] = n as u8),
    (1053, 4, 15, |s, i, n| s.record.equivalents[0][i] = n as u32),
    (1113, 4, 15, |s, i, n| s.record.equivalents[1][i] = n as u32),
    (1173, 1, 64, |s, i, n| s.record.suci[i] = n as u8),
    (1237, 1, 13, |s, i, n| s.record.capability[i] = n as u8),
    (1250, 1, 8, |s, i, n| s.record.security[i] = n as u8),
    (1258, 8, 10, |s, i, n| s.table.rests[i] = n),
    (1338, 4, 10, |s, i, n| s.table.ends[i] = n as u32),
    (1378, 1, 10, |s, i, n| s.table.held[i] = n as u8),
];

/// Octets with their checksum behind them.
fn sealed(mut octets: Vec<u8>) -> Vec<u8> {
    octets.extend(checksum(&octets).to_le_bytes());
    octets
}

/// The head of an image of any version and length.
fn head(version: u16, length: usize) -> Vec<u8> {
    [&MARK[..], &version.to_le_bytes(), &(length as u16).to_le_bytes()].concat()
}

/// A whole image of any version and length, with no other octet than 5A behind its head.
fn other(version: u16, length: usize) -> Vec<u8> {
    let mut octets = head(version, length);
    octets.resize(length - 4, 0x5A);
    sealed(octets)
}

fn all(_: &Fields) -> bool {
    true
}

fn none(_: &Fields) -> bool {
    false
}

fn saved_of(octets: &[u8]) -> Saved {
    load(octets, all).unwrap()
}

fn image_of(saved: &Saved) -> Vec<u8> {
    let mut image = vec![0; LENGTH];
    assert_eq!(save(saved, all, &mut image), TAKEN);
    image
}

/// What an image with zeros between its head and its checksum holds.
fn zeros() -> Saved {
    let mut octets = head(1, LENGTH);
    octets.resize(SUM, 0);
    saved_of(&sealed(octets))
}

/// Any numbers at all places.
fn drawn() -> Vec<u8> {
    let (mut draws, mut octets) = (Draws(1), head(1, LENGTH));
    octets.resize_with(SUM, || draws.below(256));
    sealed(octets)
}

/// The check value by which CRC-32 is told from others, and zlib's for some octets.
#[test]
fn checksums() {
    assert_eq!(checksum(b"123456789"), 0xCBF4_3926);
    assert_eq!([checksum(&[]), checksum(&[0; 32])], [0, 0x190A_55AD]);
    assert_eq!(checksum(&[0xFF; 32]), 0xFF6C_AB0B);
    assert_eq!(checksum(&(0..=255).collect::<Vec<u8>>()), 0x2905_8C73);
}

/// A number at a place alone stands there alone, and makes the record another, but for the serial
/// and the table. Gives the octets of the image that the places cover.
fn lies<T>(base: usize, places: &[Place<T>], part: fn(&mut Saved) -> &mut T) -> usize {
    let (zeros, mut covered) = (zeros(), 0);
    for &(offset, width, count, set) in places {
        for i in 0..count {
            let (mut saved, at) = (zeros, base + offset + width * i);
            set(part(&mut saved), i, TELLING);
            let mut want = image_of(&zeros);
            want.truncate(SUM);
            want[at..at + width].copy_from_slice(&TELLING.to_le_bytes()[..width]);
            let (image, beside) = (image_of(&saved), at < DEVICE || at >= 1258);
            assert_eq!(image, sealed(want), "at {at}");
            assert_eq!(saved_of(&image), saved);
            assert_eq!(changed(&zeros.record, &saved.record), !beside);
        }
        covered += width * count;
    }
    covered
}

#[test]
fn layout() {
    let fronts = [head(1, LENGTH), vec![0x54, 0x4A, 0x52, 0x46, 1, 0, 0x70, 5]];
    assert!(fronts.iter().all(|front| image_of(&zeros()).starts_with(front)));
    let covered = lies(0, &IN_ALL, |saved| saved)
        + lies(DEVICE, &IN_DEVICE, |saved| &mut saved.record.device)
        + lies(ACCESS[0], &IN_ACCESS, |saved| &mut saved.record.access[0])
        + lies(ACCESS[1], &IN_ACCESS, |saved| &mut saved.record.access[1])
        + lies(ENTRIES[0], &IN_ENTRIES, |saved| &mut saved.record.entries[0])
        + lies(ENTRIES[1], &IN_ENTRIES, |saved| &mut saved.record.entries[1]);
    assert_eq!(covered, SUM - 8);
}

#[test]
fn comes_back() {
    let image = drawn();
    let saved = saved_of(&image);
    assert_eq!(image_of(&saved), image);
    assert!(!changed(&saved.record, &saved.record) && changed(&saved.record, &zeros().record));
    // What lies behind the image plays no part, and stays.
    for more in [1, 7, 70_000] {
        let behind = [&image[..], &vec![0xFF; more]].concat();
        assert_eq!(load(&behind, all), Ok(saved));
        let mut buffer = vec![0xA5; LENGTH + more];
        assert_eq!(save(&saved, all, &mut buffer), TAKEN);
        assert!(buffer.starts_with(&image) && buffer[LENGTH..].iter().all(|octet| *octet == 0xA5));
    }
}

/// A record that is invalid is told before a buffer that is short, and neither writes.
#[test]
fn saves_nothing() {
    let saved = saved_of(&drawn());
    for (length, valid, answer) in [
        (0, true, SHORT),
        (LENGTH - 1, true, SHORT),
        (LENGTH - 1, false, RANGE),
        (LENGTH, false, RANGE),
    ] {
        let mut buffer = vec![0xA5; length];
        assert_eq!(save(&saved, |_| valid, &mut buffer), answer);
        assert!(buffer.iter().all(|octet| *octet == 0xA5));
    }
}

/// Cut at each length, and each octet another one: also where octets lie behind.
#[test]
fn damaged() {
    let image = drawn();
    for length in 0..LENGTH {
        assert_eq!(load(&image[..length], all), Err(DAMAGED), "{length} octets");
        for bits in [1, 0x80, 0xFF] {
            let mut octets = [&image[..], &[0; WIDE]].concat();
            octets[length] ^= bits;
            assert_eq!(load(&octets, all), Err(DAMAGED), "octet {length}");
        }
    }
    for octets in [vec![], vec![0; WIDE], vec![0xFF; WIDE]] {
        assert_eq!(load(&octets, all), Err(DAMAGED));
    }
    // The mark is another, and the checksum holds.
    for place in 0..4 {
        let mut octets = image[..SUM].to_vec();
        octets[place] ^= 0x20;
        assert_eq!(load(&sealed(octets), all), Err(DAMAGED));
    }
}

/// A whole image of another version, of any length that has room for all that each version has.
#[test]
fn versions() {
    for version in [0, 2, 0x0100, 0x0101, 0xFFFF] {
        for length in [12, 13, LENGTH - 1, LENGTH, LENGTH + 1, WIDE] {
            let image = other(version, length);
            assert_eq!(load(&image, none), Err(VERSION), "version {version} of {length}");
            assert_eq!(load(&[&image[..], &[0]].concat(), none), Err(VERSION));
            assert_eq!(load(&image[..length - 1], none), Err(DAMAGED));
            let mut octets = image.clone();
            octets[length - 1] ^= 1;
            assert_eq!(load(&octets, none), Err(DAMAGED));
        }
    }
}

/// This version with another length is damaged, though its checksum holds there.
#[test]
fn lengths() {
    for length in (12..LENGTH).chain([LENGTH + 1, WIDE]) {
        assert_eq!(load(&other(1, length), all), Err(DAMAGED), "{length}");
    }
}

/// Eleven octets in which a checksum would hold that lies over the length are no image.
#[test]
fn too_short_for_its_parts() {
    let mut found = 0;
    for version in 0..=u16::MAX {
        let front = head(version, 11);
        let sum = checksum(&front[..7]).to_le_bytes();
        let octets = [&front[..], &sum[1..]].concat();
        if sum[0] == front[7] {
            assert_eq!(load(&octets, all), Err(DAMAGED), "version {version}");
            found += 1;
        }
    }
    assert!(found > 0);
}

/// A whole image of a record that is none; where it is damaged or of another version, that is told.
#[test]
fn invalid() {
    let image = drawn();
    let first = saved_of(&image).record.device.edition;
    assert_eq!(load(&image, none), Err(RANGE));
    assert!(load(&image, |record| record.device.edition == first).is_ok());
    assert_eq!(load(&image, |record| record.device.edition != first), Err(RANGE));
    assert_eq!(load(&image[..SUM], none), Err(DAMAGED));
}
