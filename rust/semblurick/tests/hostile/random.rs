//! Numbers that a seed fixes.

pub struct Random(pub u64);

impl Random {
    /// Splitmix64.
    pub fn word(&mut self) -> u64 {
        self.0 = self.0.wrapping_add(0x9E37_79B9_7F4A_7C15);
        let mut z = self.0;
        z = (z ^ z >> 30).wrapping_mul(0xBF58_476D_1CE4_E5B9);
        z = (z ^ z >> 27).wrapping_mul(0x94D0_49BB_1331_11EB);
        z ^ z >> 31
    }

    pub fn below(&mut self, end: usize) -> usize {
        ((u128::from(self.word()) * end as u128) >> 64) as usize
    }

    pub fn percent(&mut self, share: usize) -> bool {
        self.below(100) < share
    }

    pub fn pick<T: Copy>(&mut self, from: &[T]) -> T {
        from[self.below(from.len())]
    }

    pub fn fill(&mut self, bytes: &mut [u8]) {
        for chunk in bytes.chunks_mut(8) {
            chunk.copy_from_slice(&self.word().to_le_bytes()[..chunk.len()]);
        }
    }

    pub fn bytes(&mut self, size: usize) -> Vec<u8> {
        let mut bytes = vec![0; size];
        self.fill(&mut bytes);
        bytes
    }

    /// A count below `end`, mostly; or one at the edges, or any.
    pub fn count(&mut self, end: u32) -> u32 {
        match self.below(20) {
            0 => self.pick(&[0, end, end + 1, 255, 256, 1 << 16, 1 << 31, u32::MAX]),
            1 => self.word() as u32,
            _ => 1 + self.below(end as usize) as u32,
        }
    }

    /// A vCPU below 16, mostly.
    pub fn vcpu(&mut self) -> u32 {
        match self.below(12) {
            0 => self.pick(&[15, 16, 17, 63, 64, 255, 256, 1 << 16, 1 << 31, u32::MAX]),
            1 => self.word() as u32,
            _ => self.below(16) as u32,
        }
    }

    pub fn msr(&mut self) -> u32 {
        match self.below(8) {
            0 => self.word() as u32,
            1 => self.pick(&[0x1FFF, 0x2000, 0x3FFF, 0xBFFF_FFFF, 0xC000_0000, 0xC000_1FFF, 0xC000_2000, u32::MAX]),
            _ => self.pick(&[0, 0xC000_0000]) + self.below(0x2000) as u32,
        }
    }

    pub fn page(&mut self) -> u64 {
        match self.below(5) {
            0 => self.word(),
            1 => self.pick(&[0, 1, (1 << 52) - 1, 1 << 52, 1 << 63, u64::MAX]),
            // guest memory has some of these
            2 => self.below(6) as u64,
            _ => self.below(2000) as u64,
        }
    }

    /// A guest virtual address: near those of which some wrap, or one that is not known, mostly.
    pub fn address(&mut self) -> u64 {
        match self.below(8) {
            0 => self.word(),
            1 => u64::MAX,
            _ => self.pick(&[0, 0x1000, u64::MAX - 200, u64::MAX]).wrapping_add(self.below(300) as u64),
        }
    }
}
