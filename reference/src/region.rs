//! The region as a whole: its limits, creation and the checks of attach.

use crate::answer::Answer;
use crate::header::Header;
use crate::party::{Party, Side, Step};

/// The largest capacity power of the house limits, which go from 1.
pub const MOST_POWER: u8 = 30;

/// The largest slot size of the house limits, which go from 8 in steps of 8.
pub const MOST_SLOT_SIZE: u32 = 65_536;

/// The largest spin count of the house limits, which go from 0.
pub const MOST_SPINS: u16 = 1000;

#[inline]
pub fn power_is_allowed(power: u8) -> bool {
    (1..=MOST_POWER).contains(&power)
}

#[inline]
pub fn slot_size_is_allowed(slot_size: u32) -> bool {
    (8..=MOST_SLOT_SIZE).contains(&slot_size) && slot_size.is_multiple_of(8)
}

#[inline]
pub fn spins_are_allowed(spins: u16) -> bool {
    spins <= MOST_SPINS
}

/// The region's length for sizes within the limits: less than 2^47, so a usize of 64 bits holds it.
#[inline]
pub fn total_size(power: u8, slot_size: u32) -> usize {
    Header::SIZE + ((slot_size as usize) << power)
}

/// Where the slot for a counter begins in the region, for sizes within the limits.
#[inline]
pub fn slot_begin(count: u64, power: u8, slot_size: u32) -> usize {
    let index = (count % (1 << power)) as usize;
    Header::SIZE + index * slot_size as usize
}

/// How full a ring is.
#[derive(Clone, Copy, Debug, PartialEq, Eq)]
pub enum Fill {
    Empty,
    Between,
    Full,
    Corrupt,
}

/// How full a ring of 2^power slots is. The counters wrap, so only their difference counts:
/// equal counters are empty, and a head behind its tail is a huge difference.
#[inline]
pub fn fill(head: u64, tail: u64, power: u8) -> Fill {
    let capacity = 1u64 << power;
    match head.wrapping_sub(tail) {
        0 => Fill::Empty,
        used if used < capacity => Fill::Between,
        used if used == capacity => Fill::Full,
        _ => Fill::Corrupt,
    }
}

/// Writes a fresh header. `start` is the value of both counters, 0 in service.
pub fn create(region: &mut [u8], power: u8, slot_size: u32, not_full: bool, start: u64) -> Answer {
    if !slot_size_is_allowed(slot_size) {
        return Answer::InvalidSlotSize;
    }
    if !power_is_allowed(power) {
        return Answer::InvalidCapacity;
    }
    if region.len() != total_size(power, slot_size) {
        return Answer::InvalidLayout;
    }
    match Header::of(region) {
        Some(mut header) => {
            header.fresh(power, slot_size, not_full, start);
            Answer::Done
        }
        None => Answer::InvalidLayout,
    }
}

/// Checks the region and enters it as the party of one side, which spins so many times before it
/// sleeps. A refused attach changes nothing and gives back the record of a party not attached.
pub fn attach(region: &mut [u8], side: Side, spins: u16) -> (Answer, Party) {
    match enter(region, side, spins) {
        Ok(party) => (Answer::Done, party),
        Err(answer) => (answer, Party::unattached(side)),
    }
}

fn enter(region: &mut [u8], side: Side, spins: u16) -> Result<Party, Answer> {
    // Nothing of the region is looked at for a call that is bad by itself.
    if !spins_are_allowed(spins) {
        return Err(Answer::BadCall);
    }
    let length = region.len() as u64;
    let mut header = Header::of(region).ok_or(Answer::InvalidLayout)?;
    if header.magic() != Header::MAGIC {
        return Err(Answer::InvalidMagic);
    }
    if header.version() != Header::VERSION {
        return Err(Answer::UnsupportedVersion);
    }
    if header.header_size() as usize != Header::SIZE {
        return Err(Answer::InvalidHeaderSize);
    }
    let total = header.total_size();
    let ring_bytes = header.ring_bytes();
    if total != length
        || header.ring_offset() != Header::SIZE as u64
        || header.arena() != (0, 0)
        || (Header::SIZE as u64).checked_add(ring_bytes) != Some(total)
    {
        return Err(Answer::InvalidLayout);
    }
    let slot_size = header.slot_size();
    if !slot_size_is_allowed(slot_size) {
        return Err(Answer::InvalidSlotSize);
    }
    let power = header.power();
    if !power_is_allowed(power) {
        return Err(Answer::InvalidCapacity);
    }
    if ring_bytes != u64::from(slot_size) << power {
        return Err(Answer::InvalidLayout);
    }
    let flags = header.flags();
    if !header.reserved_is_zero() || flags & Header::RESERVED_FLAGS != 0 {
        return Err(Answer::InvalidLayout);
    }
    if flags & Header::INITIALISED == 0 {
        return Err(Answer::WouldBlock);
    }
    if flags & side.attached_flag() != 0 {
        return Err(Answer::AlreadyAttached);
    }
    header.set_flag(side.attached_flag());
    Ok(Party {
        side,
        attached: true,
        power,
        slot_size,
        not_full: flags & Header::NOT_FULL_ON != 0,
        spins,
        closed: false,
        count: match side {
            Side::Sender => header.head(),
            Side::Recorder => header.tail(),
        },
        blocking: false,
        tag: 0,
        length: 0,
        rings: false,
        moved: None,
        step: Step::Rest,
    })
}
