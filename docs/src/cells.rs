// Request R-2: choosing among the cells heard, and why one is left out, for `--cells`.

use crate::record::{Access, Record, RANGE, SHORT};

/// How many networks the radio hands us at most.
pub const MOST: usize = 64;

/// Why the last of the networks heard is left out; None if it may be tried. That it was heard
/// before comes first, since its marks were looked at then.
fn left_out(access: &Access, heard: &[u32]) -> Option<&'static str> {
    let (last, before) = heard.split_last()?;
    if before.contains(last) {
        return Some("heard before");
    }
    let [_, first, second, third] = last.to_be_bytes();
    let entry = access.entry(&[first, second, third])?;
    match (entry.forbidden, entry.n1_barred) {
        (true, true) => Some("forbidden and N1 not allowed"),
        (true, false) => Some("forbidden"),
        (false, true) => Some("N1 not allowed"),
        (false, false) => None,
    }
}

/// Writes the permitted networks to the front of the lent list, in the order heard and each once,
/// and gives their count, or answer 1 or 12. A code with bad digits has no entry, so it is passed.
pub fn permitted(
    record: &Record,
    access: u8,
    heard: &[u32],
    list: &mut [u32],
) -> Result<usize, u8> {
    if access > 1 || heard.len() > MOST || heard.iter().any(|network| network >> 24 != 0) {
        return Err(RANGE);
    }
    // By the lengths: which networks are permitted plays no part.
    if list.len() < heard.len() {
        return Err(SHORT);
    }
    let mut count = 0;
    for (place, &network) in heard.iter().enumerate() {
        if left_out(&record.access[access as usize], &heard[..=place]).is_none() {
            list[count] = network;
            count += 1;
        }
    }
    Ok(count)
}

/// A line for each network heard, in order.
pub fn lines(text: &mut String, access: &Access, heard: &[u32]) {
    for (place, network) in heard.iter().enumerate() {
        let said = match left_out(access, &heard[..=place]) {
            Some(why) => format!("left out: {why}"),
            None => "may be tried".into(),
        };
        text.push_str(&format!("{network:06X} {said}\n"));
    }
}
