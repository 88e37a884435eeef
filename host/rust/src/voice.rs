use crate::bytes::{float_at, of_floats};
use crate::library;
use crate::Refusal;

/// The length of a voice in bytes.
pub const VOICE_BYTES: usize = 12;
/// The length in bytes of the numbers beside the voices: three levels and three blends.
pub const NUMBERS_BYTES: usize = 24;
/// The length of the eight sums in bytes.
pub const SUMS_BYTES: usize = 32;

/// A voice as the chip's two DACs hand it over.
#[derive(Clone, Copy, Debug, Default, PartialEq)]
pub struct Voice {
    /// The level of the waveform DAC, about 0.
    pub waveform: f32,
    /// The level of the envelope DAC, 0 to 1.
    pub envelope: f32,
    /// The selected waveforms, bits 4 to 7 of the voice's control register: 1 triangle, 2 saw, 4 pulse, 8 noise, and their sums.
    pub selection: u8,
    /// They are a combination of waveforms.
    pub combined: bool,
    /// The waveform DAC is frozen: its level stands still.
    pub frozen: bool,
}

impl Voice {
    /// The twelve bytes of a voice.
    pub fn to_bytes(&self) -> [u8; VOICE_BYTES] {
        let [a, b, c, d] = self.waveform.to_le_bytes();
        let [e, f, g, h] = self.envelope.to_le_bytes();
        [a, b, c, d, e, f, g, h, self.selection, self.combined.into(), self.frozen.into(), 0]
    }
}

/// The external input: its sample, −1 to 1, and its levels where it meets the filter and the mixer.
#[derive(Clone, Copy, Debug, PartialEq)]
pub struct Levels {
    /// The sample as it came in.
    pub raw: f32,
    /// The level at the filter's summer.
    pub filter: f32,
    /// The level at the mixer.
    pub mixer: f32,
}

impl Levels {
    /// Nothing is connected: 0, and both levels at [`VOICE_REST`](crate::VOICE_REST).
    pub fn rest() -> Levels {
        Levels { raw: 0.0, filter: crate::VOICE_REST, mixer: crate::VOICE_REST }
    }
}

/// What voices and external input give the filter and the mixer in one clock.
#[derive(Clone, Copy, Debug, Default, PartialEq)]
pub struct Sums {
    /// Into the filter: the sum of the levels, the `input_sum` of a sample.
    pub filter_input: f32,
    /// Into the filter: the sum of (level − rest)², the `source_energy` of a sample.
    pub source_energy: f32,
    /// Into the filter: the sum of the envelopes.
    pub filter_activity: f32,
    /// Beside the filter: the sum of the levels.
    pub bypass_input: f32,
    /// Beside the filter: the sum of the envelopes, and the magnitude of the external input's sample.
    pub bypass_activity: f32,
    /// Beside the filter: the sum of the envelopes of the voices that are neither combined nor frozen.
    pub pure_activity: f32,
    /// Of the same voices: the sum of their attack drives.
    pub attack_drive: f32,
    /// Of the same voices: the sum of the envelopes of the pulses, selection 4.
    pub pulse_activity: f32,
}

impl Sums {
    fn from_bytes(bytes: &[u8; SUMS_BYTES]) -> Sums {
        Sums {
            filter_input: float_at(bytes, 0),
            source_energy: float_at(bytes, 4),
            filter_activity: float_at(bytes, 8),
            bypass_input: float_at(bytes, 12),
            bypass_activity: float_at(bytes, 16),
            pure_activity: float_at(bytes, 20),
            attack_drive: float_at(bytes, 24),
            pulse_activity: float_at(bytes, 28),
        }
    }
}

/// Collects the sums of a routing and a mode nibble: voices 1 to 3 in turn, then the external input. `blends` says how far each voice's saw
/// is bent at the mixer, 0 to 1; [`State::blends`](crate::State::blends) are such. A voice at envelope 0 adds its rest where it is routed, and
/// nothing else.
///
/// Refused are a nibble above 15 (10), a number of a voice, a level or a blend that is not finite or a selection above 15, also of a voice
/// that this routing does not read (11), and a sum that would not be finite (6).
///
/// ```
/// use sid_filter::{collect, Levels, Voice, VOICE_REST};
///
/// # fn main() -> Result<(), sid_filter::Refusal> {
/// let pulse = Voice { waveform: 0.5, envelope: 1.0, selection: 4, ..Voice::default() };
/// // Voice 1 through the filter, 2 and 3 silent beside it.
/// let sums = collect(0b0001, 0b0001, &[pulse, Voice::default(), Voice::default()], &Levels::rest(), &[0.0; 3])?;
/// assert_eq!(sums.filter_activity, 1.0);
/// assert_eq!(sums.bypass_input, VOICE_REST + VOICE_REST + VOICE_REST); // 2, 3 and the external input
/// assert_eq!((sums.bypass_activity, sums.pulse_activity), (0.0, 0.0));
/// # Ok(())
/// # }
/// ```
pub fn collect(routing: u8, mode: u8, voices: &[Voice; 3], levels: &Levels, blends: &[f32; 3]) -> Result<Sums, Refusal> {
    let (mut voice_bytes, mut sums) = ([0; 3 * VOICE_BYTES], [0; SUMS_BYTES]);
    for (place, voice) in voice_bytes.chunks_exact_mut(VOICE_BYTES).zip(voices) {
        place.copy_from_slice(&voice.to_bytes());
    }
    let numbers: [u8; NUMBERS_BYTES] = of_floats([levels.raw, levels.filter, levels.mixer].into_iter().chain(*blends));
    Refusal::check(library::collect(routing, mode, &voice_bytes, &numbers, &mut sums))?;
    Ok(Sums::from_bytes(&sums))
}
