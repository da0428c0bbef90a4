//! The region's first 384 bytes: where each field lies and how it is read and stored.

use crate::answer::Bell;

/// The header of a lent region. All accesses have fixed offsets inside a fixed size, so none
/// of them can fall outside.
pub struct Header<'a>(&'a mut [u8; Header::SIZE]);

impl Header<'_> {
    pub const SIZE: usize = 384;
    pub const MAGIC: [u8; 8] = [0x51, 0x46, 0x53, 0x50, 0x53, 0x51, 0x48, 0x53];
    pub const VERSION: (u16, u16) = (0, 1);

    pub const AT_MAGIC: usize = 0x000;
    pub const AT_VERSION_MAJOR: usize = 0x008;
    pub const AT_VERSION_MINOR: usize = 0x00A;
    pub const AT_HEADER_SIZE: usize = 0x00C;
    pub const AT_TOTAL_SIZE: usize = 0x010;
    pub const AT_RING_OFFSET: usize = 0x018;
    pub const AT_RING_BYTES: usize = 0x020;
    pub const AT_ARENA_OFFSET: usize = 0x028;
    pub const AT_ARENA_BYTES: usize = 0x030;
    pub const AT_POWER: usize = 0x038;
    pub const AT_SLOT_SIZE: usize = 0x040;
    pub const AT_FLAGS: usize = 0x048;
    pub const AT_SENDER_PID: usize = 0x050;
    pub const AT_RECORDER_PID: usize = 0x054;
    pub const AT_ERROR_CODE: usize = 0x058;
    pub const AT_HEAD: usize = 0x080;
    pub const AT_TAIL: usize = 0x0C0;
    pub const AT_NE: usize = 0x100;
    pub const AT_NF: usize = 0x140;

    /// Every header byte that is no field: first byte and the byte past the last.
    pub const RESERVED: [(usize, usize); 8] = [
        (0x039, 0x040),
        (0x044, 0x048),
        (0x04C, 0x050),
        (0x05C, 0x080),
        (0x088, 0x0C0),
        (0x0C8, 0x100),
        (0x104, 0x140),
        (0x144, 0x180),
    ];

    pub const INITIALISED: u32 = 1 << 0;
    pub const SENDER_ATTACHED: u32 = 1 << 1;
    pub const RECORDER_ATTACHED: u32 = 1 << 2;
    pub const SENDER_CLOSED: u32 = 1 << 3;
    pub const RECORDER_CLOSED: u32 = 1 << 4;
    pub const SHUTDOWN: u32 = 1 << 5;
    pub const NOT_FULL_ON: u32 = 1 << 6;
    pub const RESERVED_FLAGS: u32 = !0x7F;
}

impl<'a> Header<'a> {
    /// The header of a region; none when the region is shorter than a header.
    #[inline]
    pub fn of(region: &'a mut [u8]) -> Option<Self> {
        region.first_chunk_mut().map(Header)
    }

    #[inline]
    fn field<const N: usize>(&self, at: usize) -> [u8; N] {
        let mut bytes = [0; N];
        bytes.copy_from_slice(&self.0[at..at + N]);
        bytes
    }

    #[inline]
    fn store<const N: usize>(&mut self, at: usize, bytes: [u8; N]) {
        self.0[at..at + N].copy_from_slice(&bytes);
    }

    #[inline]
    fn u16_at(&self, at: usize) -> u16 {
        u16::from_le_bytes(self.field(at))
    }

    #[inline]
    fn u32_at(&self, at: usize) -> u32 {
        u32::from_le_bytes(self.field(at))
    }

    #[inline]
    fn u64_at(&self, at: usize) -> u64 {
        u64::from_le_bytes(self.field(at))
    }

    pub fn magic(&self) -> [u8; 8] {
        self.field(Header::AT_MAGIC)
    }

    pub fn version(&self) -> (u16, u16) {
        (
            self.u16_at(Header::AT_VERSION_MAJOR),
            self.u16_at(Header::AT_VERSION_MINOR),
        )
    }

    pub fn header_size(&self) -> u32 {
        self.u32_at(Header::AT_HEADER_SIZE)
    }

    pub fn total_size(&self) -> u64 {
        self.u64_at(Header::AT_TOTAL_SIZE)
    }

    pub fn ring_offset(&self) -> u64 {
        self.u64_at(Header::AT_RING_OFFSET)
    }

    pub fn ring_bytes(&self) -> u64 {
        self.u64_at(Header::AT_RING_BYTES)
    }

    pub fn arena(&self) -> (u64, u64) {
        (
            self.u64_at(Header::AT_ARENA_OFFSET),
            self.u64_at(Header::AT_ARENA_BYTES),
        )
    }

    pub fn power(&self) -> u8 {
        self.0[Header::AT_POWER]
    }

    pub fn slot_size(&self) -> u32 {
        self.u32_at(Header::AT_SLOT_SIZE)
    }

    /// Whether every reserved byte is zero. Pids and error code are no part of this: they are
    /// never read.
    pub fn reserved_is_zero(&self) -> bool {
        Header::RESERVED
            .iter()
            .all(|&(from, to)| self.0[from..to].iter().all(|&byte| byte == 0))
    }

    #[inline]
    pub fn flags(&self) -> u32 {
        self.u32_at(Header::AT_FLAGS)
    }

    #[inline]
    pub fn set_flag(&mut self, bit: u32) {
        let flags = self.flags() | bit;
        self.store(Header::AT_FLAGS, flags.to_le_bytes());
    }

    #[inline]
    pub fn head(&self) -> u64 {
        self.u64_at(Header::AT_HEAD)
    }

    #[inline]
    pub fn tail(&self) -> u64 {
        self.u64_at(Header::AT_TAIL)
    }

    #[inline]
    pub fn store_head(&mut self, count: u64) {
        self.store(Header::AT_HEAD, count.to_le_bytes());
    }

    #[inline]
    pub fn store_tail(&mut self, count: u64) {
        self.store(Header::AT_TAIL, count.to_le_bytes());
    }

    #[inline]
    pub fn bell(&self, bell: Bell) -> u32 {
        self.u32_at(Header::at_bell(bell))
    }

    /// Adds 1 to a bell. The bell is an epoch and no count of notes, so it may wrap.
    #[inline]
    pub fn raise(&mut self, bell: Bell) {
        let raised = self.bell(bell).wrapping_add(1);
        self.store(Header::at_bell(bell), raised.to_le_bytes());
    }

    #[inline]
    fn at_bell(bell: Bell) -> usize {
        match bell {
            Bell::Ne => Header::AT_NE,
            Bell::Nf => Header::AT_NF,
        }
    }

    /// Writes all 384 bytes of a fresh header; the caller has checked the sizes.
    pub(crate) fn fresh(&mut self, power: u8, slot_size: u32, not_full: bool, start: u64) {
        let ring_bytes = u64::from(slot_size) << power;
        let total = Header::SIZE as u64 + ring_bytes;
        let option = if not_full { Header::NOT_FULL_ON } else { 0 };
        self.0.fill(0);
        self.store(Header::AT_MAGIC, Header::MAGIC);
        self.store(Header::AT_VERSION_MAJOR, Header::VERSION.0.to_le_bytes());
        self.store(Header::AT_VERSION_MINOR, Header::VERSION.1.to_le_bytes());
        self.store(Header::AT_HEADER_SIZE, (Header::SIZE as u32).to_le_bytes());
        self.store(Header::AT_TOTAL_SIZE, total.to_le_bytes());
        self.store(Header::AT_RING_OFFSET, (Header::SIZE as u64).to_le_bytes());
        self.store(Header::AT_RING_BYTES, ring_bytes.to_le_bytes());
        self.store(Header::AT_POWER, [power]);
        self.store(Header::AT_SLOT_SIZE, slot_size.to_le_bytes());
        self.set_flag(Header::INITIALISED | option);
        self.store_head(start);
        self.store_tail(start);
    }
}
