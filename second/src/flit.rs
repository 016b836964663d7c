//! The fields of a flit (document 01, "Fields").

/// A flit has 64 bytes.
pub const FLIT: usize = 64;

/// Run length of a replay flit.
pub const REPLAY: u8 = 10;

/// Run length of an idle flit.
pub const IDLE: u8 = 15;

/// DL content bits under the check: 27:0.
pub const BELOW_CHECK: u64 = (1 << 28) - 1;

/// DL content bits of the transaction layer: 17:0.
pub const BELOW_LINK: u64 = (1 << 18) - 1;

/// "DL content is bytes 56 to 63, bit b in byte 56 + b/8."
pub fn content(flit: &[u8]) -> u64 {
    number(flit, 56, 8)
}

/// Writes the DL content.
pub fn set_content(flit: &mut [u8], value: u64) {
    set_number(flit, 56, 8, value);
}

/// The number in `count` bytes from `at`, lowest byte first.
fn number(flit: &[u8], at: usize, count: usize) -> u64 {
    let mut value = 0;
    for i in 0..count {
        value |= u64::from(flit[at + i]) << (8 * i);
    }
    value
}

fn set_number(flit: &mut [u8], at: usize, count: usize, value: u64) {
    for i in 0..count {
        flit[at + i] = (value >> (8 * i)) as u8;
    }
}

/// Bits high:low of the DL content.
fn bits(flit: &[u8], high: u32, low: u32) -> u64 {
    (content(flit) >> low) & ((1u64 << (high - low + 1)) - 1)
}

/// Run length 3:0, the same place in every kind of flit.
pub fn run_length(flit: &[u8]) -> u8 {
    bits(flit, 3, 0) as u8
}

/// ACK count 27:23 of a control or idle flit.
pub fn ack_count(flit: &[u8]) -> u16 {
    bits(flit, 27, 23) as u16
}

/// Data stalled 19; in a replay flit bit 115, the same place.
pub fn data_stalled(flit: &[u8]) -> bool {
    bits(flit, 19, 19) == 1
}

/// Short flit next 18; in a replay flit bit 114, the same place.
pub fn short_next(flit: &[u8]) -> bool {
    bits(flit, 18, 18) == 1
}

/// Stalled run length 7:4 of an idle flit.
pub fn stalled_run(flit: &[u8]) -> u8 {
    bits(flit, 7, 4) as u8
}

/// NACK of a replay flit: bit 116 of bytes 44 to 63, DL content bit 20.
pub fn nack(flit: &[u8]) -> bool {
    bits(flit, 20, 20) == 1
}

/// Previous run length of a replay flit: bits 103:100, DL content 7:4.
pub fn previous_run(flit: &[u8]) -> u8 {
    bits(flit, 7, 4) as u8
}

/// Starting number of a replay flit: bits 95:80, bytes 54 and 55.
pub fn starting(flit: &[u8]) -> u16 {
    number(flit, 54, 2) as u16
}

/// Acknowledge number of a replay flit: bits 79:64, bytes 52 and 53.
pub fn acknowledge(flit: &[u8]) -> u16 {
    number(flit, 52, 2) as u16
}

/// Link information of a replay flit: bits 63:0, bytes 44 to 51.
pub fn information(flit: &[u8]) -> u64 {
    number(flit, 44, 8)
}

/// Refusal 7 looks at this: "run length over 8, or any bit of 63:18 set".
pub fn breaks_field(flit: &[u8]) -> bool {
    field_run(flit) || field_bits(flit)
}

/// The first half of refusal 7.
pub fn field_run(flit: &[u8]) -> bool {
    run_length(flit) > 8
}

/// The second half of refusal 7.
pub fn field_bits(flit: &[u8]) -> bool {
    content(flit) > BELOW_LINK
}

/// Puts ACK count and data stalled into a control flit from the store.
pub fn dress_control(flit: &mut [u8], ack: u16, stalled: bool) {
    let plain = content(flit) & BELOW_LINK;
    set_content(
        flit,
        plain | u64::from(ack) << 23 | u64::from(stalled) << 19,
    );
}

/// Writes an idle flit without its check. "Reserved bits and unnamed bytes
/// of DL-to-DL flits are sent 0"; "Short flit next is sent 0."
pub fn write_idle(flit: &mut [u8], ack: u16, stalled: bool, run: u8) {
    flit.fill(0);
    let value =
        u64::from(ack) << 23 | u64::from(stalled) << 19 | u64::from(run) << 4 | u64::from(IDLE);
    set_content(flit, value);
}

/// What a replay flit says.
pub struct Replay {
    pub nack: bool,
    pub stalled: bool,
    pub errors: u8,
    pub previous: u8,
    pub starting: u16,
    pub acknowledge: u16,
    pub information: u64,
}

/// Writes a replay flit without its check; its ACK count is sent 0.
pub fn write_replay(flit: &mut [u8], says: &Replay) {
    flit.fill(0);
    let value = u64::from(says.nack) << 20
        | u64::from(says.stalled) << 19
        | u64::from(says.errors) << 8
        | u64::from(says.previous) << 4
        | u64::from(REPLAY);
    set_content(flit, value);
    set_number(flit, 54, 2, u64::from(says.starting));
    set_number(flit, 52, 2, u64::from(says.acknowledge));
    set_number(flit, 44, 8, says.information);
}
