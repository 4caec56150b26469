//! Seeded generators: plans, damaged plans, hosts. Everything replays from the printed seed.

pub mod activity;
pub mod automaton;
pub mod damage;
pub mod hosts;
pub mod in_time;
pub mod inputs;
pub mod layout;
pub mod made_up;
pub mod markers;
pub mod messages;
pub mod openings;
pub mod pairs;
pub mod plans;
pub mod questions;
pub mod random;
pub mod templates;
pub mod tying;

pub use random::Random;

/// "Plan T, 93 bytes".
pub fn plan_t() -> Vec<u8> {
    const T: &str = "1F 02 03 00 00 01 01 02 02 07 02 00 02 01 31 00 02 B8 0B 00 00 01 01 31 01 00 \
        88 13 00 00 02 00 02 38 00 E8 03 00 00 01 03 24 00 01 03 24 01 01 02 03 02 00 31 02 01 D0 \
        07 00 00 01 00 24 00 01 01 03 00 04 00 00 00 00 00 00 00 03 00 02 00 01 00 03 01 01 00 00 \
        00 03 01 02 00 01 01";
    from_hex(T)
}

pub fn from_hex(text: &str) -> Vec<u8> {
    text.split_whitespace().map(|byte| u8::from_str_radix(byte, 16).expect("hex")).collect()
}

pub fn to_hex(bytes: &[u8]) -> String {
    bytes.iter().map(|byte| format!("{byte:02X}")).collect::<Vec<_>>().join(" ")
}
