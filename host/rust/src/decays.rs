use crate::bytes::{float_at, of_floats};
use crate::Refusal;

/// The length of the decays in bytes.
pub const DECAYS_BYTES: usize = 24;

/// How the charges of a [`State`](crate::State) run down and its blends settle: six numbers from 0 to 1, which every run is lent.
///
/// The first five say what a clock leaves of each charge, in the order of [`Charges`](crate::Charges). The sixth is the part of its way that
/// a blend goes in a clock. No event reads them.
#[derive(Clone, Copy, Debug, PartialEq)]
pub struct Decays {
    numbers: [f32; 6],
}

impl Decays {
    /// The emulator's own, which stand in data/decays.bin too.
    pub const EMULATOR: Decays = Decays { numbers: [0.9994469, 0.99998766, 0.9998946, 0.99993247, 0.99999005, 2.0325184e-5] };

    /// These six numbers. Refused with 12 where one is not from 0 to 1: −0.0 is, a NaN is not.
    ///
    /// ```
    /// use sid_filter::{Decays, Refusal};
    /// assert!(Decays::new([0.5, 0.5, 0.5, 0.5, 0.5, 0.0]).is_ok());
    /// assert_eq!(Decays::new([1.5, 0.5, 0.5, 0.5, 0.5, 0.0]), Err(Refusal::Decays));
    /// ```
    pub fn new(numbers: [f32; 6]) -> Result<Decays, Refusal> {
        if numbers.iter().all(|number| (0.0..=1.0).contains(number)) {
            Ok(Decays { numbers })
        } else {
            Err(Refusal::Decays)
        }
    }

    /// Six numbers that were kept as bytes. Refused as [`new`](Decays::new) refuses them.
    pub fn from_bytes(bytes: &[u8; DECAYS_BYTES]) -> Result<Decays, Refusal> {
        Decays::new([0, 4, 8, 12, 16, 20].map(|place| float_at(bytes, place)))
    }

    /// The bytes: six little-endian f32.
    pub fn to_bytes(&self) -> [u8; DECAYS_BYTES] {
        of_floats(self.numbers)
    }

    /// The six numbers.
    pub fn numbers(&self) -> [f32; 6] {
        self.numbers
    }
}

#[cfg(test)]
mod tests {
    use super::{Decays, DECAYS_BYTES};
    use crate::header::HEADER;

    /// The emulator's, as they were dumped from it.
    const DUMPED: &[u8; DECAYS_BYTES] = include_bytes!("../../../data/decays.bin");

    #[test]
    fn the_emulators_are_those_of_the_file() {
        assert_eq!(Decays::EMULATOR.to_bytes(), *DUMPED);
        assert_eq!(Decays::from_bytes(DUMPED), Ok(Decays::EMULATOR));
        assert_eq!(Decays::new(Decays::EMULATOR.numbers()), Ok(Decays::EMULATOR));
    }

    #[test]
    fn the_emulators_are_those_of_the_header() {
        let (_, from) = HEADER.split_once("#define SID_FILTER_EMULATOR_DECAYS").expect("the decays in the header");
        let (_, from) = from.split_once('{').expect("their begin");
        let (bytes, _) = from.split_once('}').expect("their end");
        let bytes = bytes.split([',', '\\']).filter_map(|byte| byte.trim().strip_prefix("0x"));
        assert!(bytes.map(|byte| u8::from_str_radix(byte, 16).expect("a byte")).eq(*DUMPED));
    }
}
