//! Flits made by hand, with every field as wished.

use crate::prng::Rng;
use second::check;
use second::flit::{self, FLIT};
use second::receive;
use second::script::Side;

/// The link fields of a control or idle flit.
#[derive(Clone, Copy, Default)]
pub struct Link {
    pub ack: u16,
    pub stalled: bool,
    pub short: bool,
}

fn link_bits(rng: &mut Rng, link: Link) -> u64 {
    let reserved = if rng.coin() { 0 } else { rng.below(8) as u64 };
    u64::from(link.ack) << 23
        | reserved << 20
        | u64::from(link.stalled) << 19
        | u64::from(link.short) << 18
}

/// A flit with random bytes but for its DL content.
fn body(rng: &mut Rng) -> Vec<u8> {
    if rng.once_in(4) {
        vec![0; FLIT]
    } else {
        rng.bytes(FLIT)
    }
}

/// A control flit: template and bad data flit bits are random.
pub fn control(rng: &mut Rng, run: u8, link: Link) -> Vec<u8> {
    let mut flit = body(rng);
    let mine = (rng.below(1 << 14) as u64) << 4 | u64::from(run);
    let value = link_bits(rng, link) | mine;
    flit::set_content(&mut flit, value);
    flit
}

/// An idle flit; reserved bits and unnamed bytes may be set.
pub fn idle(rng: &mut Rng, stalled_run: u8, link: Link) -> Vec<u8> {
    let mut flit = body(rng);
    let reserved = if rng.coin() { 0 } else { rng.below(1 << 10) };
    let value = link_bits(rng, link)
        | (reserved as u64) << 8
        | u64::from(stalled_run) << 4
        | u64::from(flit::IDLE);
    flit::set_content(&mut flit, value);
    flit
}

/// The fields of a replay flit that receive reads.
#[derive(Clone, Copy, Default)]
pub struct Again {
    pub nack: bool,
    pub stalled: bool,
    pub short: bool,
    pub previous: u8,
    pub starting: u16,
    pub acknowledge: u16,
}

/// A replay flit; the unread fields and unnamed bytes may be set.
pub fn replay(rng: &mut Rng, says: Again) -> Vec<u8> {
    let mut flit = body(rng);
    let unread = if rng.coin() { 0 } else { rng.next() };
    let value = unread & (0xF << 24 | 1 << 23 | 3 << 21 | 3 << 16 | 0xFF << 8)
        | u64::from(says.nack) << 20
        | u64::from(says.stalled) << 19
        | u64::from(says.short) << 18
        | u64::from(says.previous) << 4
        | u64::from(flit::REPLAY);
    flit::set_content(&mut flit, value);
    flit[54..56].copy_from_slice(&says.starting.to_le_bytes());
    flit[52..54].copy_from_slice(&says.acknowledge.to_le_bytes());
    flit[44..52].copy_from_slice(&rng.information().to_le_bytes());
    flit
}

/// A flit of any run length with random other fields.
pub fn any(rng: &mut Rng, run: u8) -> Vec<u8> {
    let mut flit = rng.bytes(FLIT);
    let value = rng.next() & !0xF | u64::from(run);
    flit::set_content(&mut flit, value);
    flit
}

/// Gives a flit the check that this end would find right.
pub fn seal_for(side: &Side, flit: &mut [u8]) {
    let data = if receive::closes(&side.state) && side.state.data <= 8 {
        FLIT * usize::from(side.state.data)
    } else {
        0
    };
    let mut unit = side.hold.kept[..data].to_vec();
    unit.extend_from_slice(flit);
    check::seal(&mut unit);
    flit.copy_from_slice(&unit[data..]);
}

/// Flips one bit.
pub fn flip(rng: &mut Rng, flit: &mut [u8]) {
    let bit = rng.below(8 * flit.len());
    flit[bit / 8] ^= 1 << (bit % 8);
}
