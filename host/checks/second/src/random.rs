//! Numbers for the lists of points: the same in every run, so that a list can be made again.

/// Steele, Lea and Flood's SplitMix, from a seed.
pub struct Random(pub u64);

impl Random {
    /// Any number at all.
    pub fn number(&mut self) -> u64 {
        self.0 = self.0.wrapping_add(0x9E37_79B9_7F4A_7C15);
        let mut mixed = self.0;
        mixed = (mixed ^ (mixed >> 30)).wrapping_mul(0xBF58_476D_1CE4_E5B9);
        mixed = (mixed ^ (mixed >> 27)).wrapping_mul(0x94D0_49BB_1331_11EB);
        mixed ^ (mixed >> 31)
    }

    /// A number up to `most`, small ones as likely as large ones.
    pub fn magnitude(&mut self, most: u64) -> u64 {
        let bits = self.number() % (u64::from(most.ilog2()) + 1) + 1;
        (self.number() % (1 << bits)).min(most)
    }
}
