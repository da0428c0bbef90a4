//! Creation, the checks of attach in their order, and document 01's starred cases.

mod common;

use common::House;
use reference::region::{fill, slot_begin, total_size, Fill};
use reference::{attach, create, Answer, Bell, Header, Party, Side};

#[test]
fn starred_sizes() {
    assert_eq!(total_size(1, 8), 400);
    assert_eq!(House::new(1, 8, true, 0).bench.sender.payload_capacity(), 0);
    assert_eq!(total_size(30, 65_536), 70_368_744_178_048);
    let mut region = vec![7; 400];
    for (power, slot, answer) in [
        (0, 8, Answer::InvalidCapacity),
        (31, 8, Answer::InvalidCapacity),
        (1, 0, Answer::InvalidSlotSize),
        (1, 12, Answer::InvalidSlotSize),
        (1, 65_544, Answer::InvalidSlotSize),
        (0, 12, Answer::InvalidSlotSize),
        (2, 8, Answer::InvalidLayout),
        (30, 65_536, Answer::InvalidLayout),
    ] {
        assert_eq!(create(&mut region, power, slot, true, 0), answer);
        assert!(region.iter().all(|&byte| byte == 7), "refused, yet written");
    }
}

/// A note that fills the largest slot, and one that is a byte too long for it.
#[test]
fn the_largest_note() {
    let mut house = House::new(1, 65_536, true, 0);
    let note: Vec<u8> = (0..65_529u32).map(|byte| (byte % 251) as u8).collect();
    let begun = house.bench.sender.begin_push(false, 1, note.len());
    assert_eq!(begun, Answer::PayloadTooLong);
    for tag in [2, 3, 4] {
        assert_eq!(house.push(tag, &note[..65_528]), Answer::Done);
        assert_eq!(house.pop(65_527), Answer::OutputTooSmall { length: 65_528 });
        let length = 65_528;
        assert_eq!(house.pop(65_528), Answer::Delivered { tag, length });
        assert!(house.buffer == note[..65_528]);
    }
}

#[test]
fn starred_counters_and_bells() {
    assert_eq!(fill(4, 0, 2), Fill::Full);
    assert_eq!(fill(5, 0, 2), Fill::Corrupt);
    assert_eq!(fill(1, 3, 2), Fill::Corrupt);
    assert_eq!(fill(3, 3, 2), Fill::Empty);
    assert_eq!(fill(1, u64::MAX, 2), Fill::Between);
    assert_eq!(slot_begin(u64::MAX, 2, 32), 480);
    assert_eq!(u64::MAX.wrapping_add(1), 0);

    let mut house = House::new(2, 32, true, 0);
    for (reading, raised) in [(-1i32, 0i32), (2_147_483_647, -2_147_483_648)] {
        house.put(Header::AT_NE, &reading.to_le_bytes());
        Header::of(&mut house.region).unwrap().raise(Bell::Ne);
        assert_eq!(house.bells().0, raised as u32);
    }
}

#[test]
fn create_writes_the_whole_header_and_no_ring_byte() {
    let mut region = vec![0xA5; 512];
    assert_eq!(
        create(&mut region, 2, 32, true, 0x0102_0304_0506_0708),
        Answer::Done
    );
    let mut header = [0u8; 384];
    header[0..8].copy_from_slice(b"QFSPSQHS");
    header[0x0A] = 1;
    header[0x0C..0x0E].copy_from_slice(&[0x80, 0x01]);
    header[0x10..0x12].copy_from_slice(&[0x00, 0x02]);
    header[0x18..0x1A].copy_from_slice(&[0x80, 0x01]);
    header[0x20] = 0x80;
    header[0x38] = 2;
    header[0x40] = 32;
    header[0x48] = 0x41;
    header[0x80..0x88].copy_from_slice(&[8, 7, 6, 5, 4, 3, 2, 1]);
    header[0xC0..0xC8].copy_from_slice(&[8, 7, 6, 5, 4, 3, 2, 1]);
    assert_eq!(region[..384], header);
    assert!(region[384..].iter().all(|&byte| byte == 0xA5));

    create(&mut region, 2, 32, false, 0);
    assert_eq!(region[0x48], 0x01);
}

#[test]
fn attach_sets_its_bit_and_copies_its_counter() {
    let mut region = vec![0; 512];
    create(&mut region, 2, 32, true, 0);
    region[0x80] = 9;
    region[0xC0] = 200;
    // Pids and error code are never read, and the counters' difference is not looked at.
    region[0x50..0x5C].fill(0xFF);
    let before = region.clone();
    let (answer, sender) = attach(&mut region, Side::Sender, 0);
    assert_eq!(answer, Answer::Done);
    assert_eq!(
        (
            sender.count,
            sender.power,
            sender.slot_size,
            sender.not_full
        ),
        (9, 2, 32, true)
    );
    let (answer, recorder) = attach(&mut region, Side::Recorder, 0);
    assert_eq!((answer, recorder.count), (Answer::Done, 200));
    let mut expected = before;
    expected[0x48] = 0x47;
    assert_eq!(region, expected);
    for side in [Side::Sender, Side::Recorder] {
        let refused = attach(&mut region, side, 0);
        assert_eq!(refused, (Answer::AlreadyAttached, Party::unattached(side)));
    }
    assert_eq!(region, expected);
}

/// Each entry spoils one thing more than those before it, from the last check to the first, so
/// that every refusal is given although all later checks would fail too.
#[test]
fn attach_checks_in_order() {
    let spoil: &[(usize, &[u8], Answer)] = &[
        (0x48, &[0x43], Answer::AlreadyAttached),
        (0x48, &[0x42], Answer::WouldBlock),
        (0x48, &[0xC2], Answer::InvalidLayout),
        (0x48, &[0x42], Answer::WouldBlock),
        (0x17F, &[1], Answer::InvalidLayout),
        (0x38, &[3], Answer::InvalidLayout),
        (0x38, &[0], Answer::InvalidCapacity),
        (0x40, &[12], Answer::InvalidSlotSize),
        (0x20, &[0x81], Answer::InvalidLayout),
        (0x20, &[0x80], Answer::InvalidSlotSize),
        (0x30, &[1], Answer::InvalidLayout),
        (0x30, &[0], Answer::InvalidSlotSize),
        (0x2F, &[1], Answer::InvalidLayout),
        (0x2F, &[0], Answer::InvalidSlotSize),
        (0x18, &[0x81], Answer::InvalidLayout),
        (0x18, &[0x80], Answer::InvalidSlotSize),
        (0x10, &[1], Answer::InvalidLayout),
        (0x0C, &[0x81], Answer::InvalidHeaderSize),
        (0x0A, &[2], Answer::UnsupportedVersion),
        (0x0A, &[1], Answer::InvalidHeaderSize),
        (0x08, &[1], Answer::UnsupportedVersion),
        (0x07, &[0], Answer::InvalidMagic),
    ];
    let mut region = vec![0; 512];
    create(&mut region, 2, 32, true, 0);
    for &(at, bytes, answer) in spoil {
        region[at..at + bytes.len()].copy_from_slice(bytes);
        let before = region.clone();
        let refused = attach(&mut region, Side::Sender, 0);
        assert_eq!(
            refused,
            (answer, Party::unattached(Side::Sender)),
            "at {at:#x}"
        );
        assert_eq!(region, before);
    }
    let refused = attach(&mut region[..383], Side::Sender, 0);
    assert_eq!(refused.0, Answer::InvalidLayout);
}

#[test]
fn every_reserved_byte_and_flag_is_looked_at() {
    let mut region = vec![0; 512];
    create(&mut region, 2, 32, true, 0);
    for at in 0x44..384 {
        let field = (0x48..0x4C).contains(&at)
            || (0x50..0x5C).contains(&at)
            || (0x80..0x88).contains(&at)
            || (0xC0..0xC8).contains(&at)
            || (0x100..0x104).contains(&at)
            || (0x140..0x144).contains(&at);
        let mut spoilt = region.clone();
        spoilt[at] |= 0x80;
        let expected = match (at, field) {
            (0x48..=0x4B, _) | (_, false) => Answer::InvalidLayout,
            _ => Answer::Done,
        };
        assert_eq!(
            attach(&mut spoilt, Side::Recorder, 0).0,
            expected,
            "at {at:#x}"
        );
    }
    for at in 0x39..0x40 {
        let mut spoilt = region.clone();
        spoilt[at] = 1;
        assert_eq!(
            attach(&mut spoilt, Side::Sender, 0).0,
            Answer::InvalidLayout
        );
    }
    // Flags 0x80 alone: the reserved bit is seen before bit 0 is missed.
    region[0x48] = 0x80;
    assert_eq!(
        attach(&mut region, Side::Sender, 0).0,
        Answer::InvalidLayout
    );
}

/// Ring bytes near 2^64 are refused and do not overflow the sum with the header.
#[test]
fn ring_bytes_do_not_wrap() {
    let mut region = vec![0; 512];
    create(&mut region, 2, 32, true, 0);
    for ring_bytes in [0, 127, u64::MAX - 383, u64::MAX - 255, u64::MAX] {
        region[0x20..0x28].copy_from_slice(&ring_bytes.to_le_bytes());
        assert_eq!(
            attach(&mut region, Side::Sender, 0).0,
            Answer::InvalidLayout
        );
    }
}

/// After attach a party uses its own copy, whatever the region then says.
#[test]
fn sizes_are_not_read_again() {
    let mut house = House::new(2, 32, true, 0);
    house.put(Header::AT_SLOT_SIZE, &4096u32.to_le_bytes());
    house.put(Header::AT_POWER, &[9]);
    house.put(Header::AT_MAGIC, &[0; 8]);
    for round in 0..9u16 {
        assert_eq!(house.push(round, b"note"), Answer::Done);
        assert_eq!(
            house.pop(24),
            Answer::Delivered {
                tag: round,
                length: 4
            }
        );
    }
}
