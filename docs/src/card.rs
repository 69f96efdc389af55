// Request R-8: the card's own file of forbidden networks (TS 31.102), read into access 0 and
// written from there.

use crate::record::{is_network, Network, Record, FULL, RANGE, SHORT, TAKEN};

/// A place of the file without a network.
pub const UNUSED: Network = [0xFF; 3];

/// The codes of a file, in order, without its unused places and a part of one at its end.
fn codes(file: &[u8]) -> impl Iterator<Item = Network> + '_ {
    file.chunks_exact(3).map(|code| [code[0], code[1], code[2]]).filter(|code| *code != UNUSED)
}

/// The event: each network of the file gets the forbidden mark on access 0, a new one with its
/// counters 0. A network that stands twice has its entry the second time. No entry is given up for
/// it; those that it marked go last in R-9's order, among themselves in entry order.
pub fn on_import(record: &mut Record, file: &[u8]) -> u8 {
    if file.len() % 3 != 0 || !codes(file).all(|code| is_network(&code)) {
        return RANGE;
    }
    let access = &mut record.access[0];
    let held = access.entries.len();
    let mut named = [false; 16];
    for network in codes(file) {
        let Some(place) = access.claim(network.into()) else {
            // A refusal makes no entry.
            access.entries.truncate(held);
            return FULL;
        };
        named[place] = true;
    }
    for place in (0..16).filter(|place| named[*place]) {
        access.entries[place].forbidden = true;
        access.order.mark(place);
    }
    TAKEN
}

/// Writes the networks with the forbidden mark on access 0 into the lent file, in entry order, and
/// FF behind them to its end; gives how many they are, or answer 1 or 12. Called by tests alone.
#[allow(dead_code)]
pub fn write(record: &Record, file: &mut [u8]) -> Result<usize, u8> {
    if file.len() % 3 != 0 {
        return Err(RANGE);
    }
    let marked = record.access[0].entries.iter().filter(|entry| entry.forbidden);
    let list: Vec<Network> = marked.map(|entry| entry.network.octets()).collect();
    let (front, rest) = file.split_at_mut_checked(3 * list.len()).ok_or(SHORT)?;
    front.copy_from_slice(list.as_flattened());
    rest.fill(0xFF);
    Ok(list.len())
}
