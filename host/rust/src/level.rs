/// The chip's clock in Hz: the samples of a second.
pub const CLOCK_HZ: u32 = 985_248;
/// The level at which a voice and the external input rest.
pub const VOICE_REST: f32 = 0.45085025;
/// How far a wave of 1 takes a voice from its rest, at full envelope.
pub const VOICE_SWING: f32 = 0.15015182;
/// How far the envelope alone lifts a voice from its rest, at full envelope.
pub const VOICE_RISE: f32 = 0.021486761;
/// The level about which each output that the mode selects is added up.
pub const MODE_REST: f32 = 0.376411;

/// The level of a voice, with its wave from −1 to 1 and its envelope from 0 to 1.
///
/// ```
/// use sid_filter::{voice_level, VOICE_REST};
/// assert_eq!(voice_level(1.0, 0.0), VOICE_REST);
/// assert_eq!(voice_level(1.0, 1.0), 0.62248886);
/// assert_eq!(voice_level(-1.0, 1.0), 0.32218518);
/// ```
pub fn voice_level(wave: f32, envelope: f32) -> f32 {
    (VOICE_REST + (VOICE_SWING * wave + VOICE_RISE) * envelope).clamp(0.0, 1.0)
}

#[cfg(test)]
mod tests {
    use super::{voice_level, CLOCK_HZ, MODE_REST, VOICE_REST, VOICE_RISE, VOICE_SWING};
    use crate::header::{defined, HEADER};

    /// The numbers are the header's.
    #[test]
    fn the_units_are_those_of_the_header() {
        assert_eq!(defined("CLOCK_HZ").parse(), Ok(CLOCK_HZ));
        let levels = [("VOICE_REST", VOICE_REST), ("VOICE_SWING", VOICE_SWING), ("VOICE_RISE", VOICE_RISE), ("MODE_REST", MODE_REST)];
        for (name, ours) in levels {
            let theirs: f32 = defined(name).strip_suffix('f').expect("an f32").parse().expect("a number");
            assert_eq!(theirs.to_bits(), ours.to_bits(), "{name}");
        }
    }

    /// The level is the header's formula, and stays from 0 to 1.
    #[test]
    fn the_level_is_that_of_the_header() {
        assert!(HEADER.contains("SID_FILTER_VOICE_REST + (SID_FILTER_VOICE_SWING * wave + SID_FILTER_VOICE_RISE) * envelope"));
        for (wave, envelope) in [(0.0, 0.0), (0.0, 1.0), (1.0, 0.5), (-1.0, 1.0)] {
            assert_eq!(voice_level(wave, envelope), VOICE_REST + (VOICE_SWING * wave + VOICE_RISE) * envelope);
        }
        assert_eq!((voice_level(-9.0, 1.0), voice_level(9.0, 1.0)), (0.0, 1.0));
    }
}
