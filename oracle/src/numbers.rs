//! Inputs and counts that every comparison shares.

/// How many values were set beside each other, and how many differ.
#[derive(Default)]
pub struct Tally {
    pub compared: u64,
    pub differences: u64,
}

impl Tally {
    pub fn same<T: PartialEq>(&mut self, ours: T, theirs: T) {
        self.compared += 1;
        self.differences += u64::from(ours != theirs);
    }

    /// The same bits, every NaN counting as one.
    pub fn same_float(&mut self, ours: f32, theirs: f32) {
        self.same(word(ours), word(theirs));
    }
}

/// The bits of an f32, and one pattern for every NaN.
pub fn word(x: f32) -> u32 {
    if x.is_nan() {
        0x7fc0_0000
    } else {
        x.to_bits()
    }
}

/// What an entry is damaged with: four that stay usable, and what does not.
pub const DAMAGES: [u32; 12] = [
    0x4480_0000, // 1,024
    0xc480_0000,
    0x8000_0000,
    0x0000_0001,
    0x4480_0001, // just above 1,024
    0xc480_0001,
    0x7f80_0000, // the infinities
    0xff80_0000,
    0x7f80_0001, // NaNs
    0x7fc0_0000,
    0xffff_ffff,
    0x7f7f_ffff, // the largest float
];

/// The generator splitmix64.
pub struct Random(pub u64);

impl Random {
    pub fn bits(&mut self) -> u64 {
        self.0 = self.0.wrapping_add(0x9e37_79b9_7f4a_7c15);
        let z = (self.0 ^ (self.0 >> 30)).wrapping_mul(0xbf58_476d_1ce4_e5b9);
        let z = (z ^ (z >> 27)).wrapping_mul(0x94d0_49bb_1331_11eb);
        z ^ (z >> 31)
    }

    /// Any pattern, a moderate magnitude, or a number that the filter meets, by turns.
    pub fn float(&mut self) -> f32 {
        let bits = self.bits();
        let pattern = bits as u32;
        match bits >> 62 {
            0 => f32::from_bits(pattern),
            1 => f32::from_bits((pattern & 0x807f_ffff) | ((97 + (bits >> 32) as u32 % 56) << 23)),
            _ => (pattern as i32 as f32) / 1_073_741_824.0,
        }
    }
}
