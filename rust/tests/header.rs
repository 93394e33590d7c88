//! The C header has the numbers of this crate.

use pylonfrith::sizes::{
    POINTS, RINGS, SCRATCH_FLOATS_PER_POINT, SCRATCH_WORDS_PER_POINT, SLOTS, SLOT_FLOATS,
    SLOT_WORDS,
};
use pylonfrith::{PointIndex, Refusal};

const HEADER: &str = include_str!("../../include/pylonfrith.h");

/// The number of `#define NAME 123u`.
fn defined(name: &str) -> usize {
    let start = format!("#define {name} ");
    let line = HEADER.lines().find_map(|line| line.strip_prefix(&start));
    let digits = line.expect(name).split('u').next().expect(name);
    digits.parse().expect(name)
}

/// The number of `NAME = 1` in an enum.
fn numbered(name: &str) -> u32 {
    let start = format!("{name} = ");
    let line = HEADER
        .lines()
        .find_map(|line| line.trim().strip_prefix(&start));
    let line = line.expect(name);
    let end = line
        .find(|c: char| !c.is_ascii_digit())
        .unwrap_or(line.len());
    line[..end].parse().expect(name)
}

#[test]
fn sizes() {
    for (name, size) in [
        ("PF_POINTS", POINTS),
        ("PF_RINGS", RINGS),
        ("PF_SLOTS", SLOTS),
        ("PF_SCRATCH_FLOATS_PER_POINT", SCRATCH_FLOATS_PER_POINT),
        ("PF_SCRATCH_WORDS_PER_POINT", SCRATCH_WORDS_PER_POINT),
        ("PF_SLOT_FLOATS", SLOT_FLOATS),
        ("PF_SLOT_WORDS", SLOT_WORDS),
        ("PF_FINISHED", 255),
    ] {
        assert_eq!(defined(name), size, "{name}");
    }
}

#[test]
fn reasons() {
    for (name, refusal) in [
        ("PF_LENGTHS_DIFFER", Refusal::LengthsDiffer),
        ("PF_TOO_MANY_POINTS", Refusal::TooManyPoints),
        ("PF_OFF_GRID", Refusal::OffGrid(PointIndex(0))),
        ("PF_TOLERANCE_NOT_FINITE", Refusal::ToleranceNotFinite),
        ("PF_RING_TABLE", Refusal::RingTable),
        ("PF_RING_NOT_CLOSED", Refusal::RingNotClosed),
        ("PF_OUTPUT_SHORT", Refusal::OutputShort),
        ("PF_MEMORY_SHORT", Refusal::MemoryShort),
        ("PF_NO_SUCH_SLOT", Refusal::NoSuchSlot),
        ("PF_SLOT_IS_OPEN", Refusal::SlotIsOpen),
        ("PF_SLOT_NOT_OPEN", Refusal::SlotNotOpen),
    ] {
        assert_eq!(numbered(name), refusal.number(), "{name}");
    }
}
