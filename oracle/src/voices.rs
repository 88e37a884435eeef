//! Two nibbles, three voices and six numbers, as bytes and as the Rust has them, and the eight sums that the Rust's `collect` makes of them.

use crate::constants::SID_VOICE_BASE_VOLTS;
use crate::dac::VoiceSignal;
use crate::mixing::{MixingTopology, RoutedSignals};
use crate::response::normalise_voltage;

/// The numbers are the raw, filter and mixer level of the external input, and the blends of three saws.
#[derive(Clone, Copy)]
pub struct Sources {
    pub routing: u8,
    pub mode: u8,
    pub voices: [VoiceSignal; 3],
    pub numbers: [f32; 6],
}

pub fn voice(waveform: f32, envelope: f32, waveform_selection: u8, [combined, frozen]: [bool; 2]) -> VoiceSignal {
    VoiceSignal { waveform, envelope, waveform_selection, combined, frozen }
}

pub const PURE: [bool; 2] = [false, false];
pub const COMBINED: [bool; 2] = [true, false];
pub const FLAGS: [[bool; 2]; 4] = [PURE, COMBINED, [false, true], [true, true]];

/// The level of a voice at rest.
pub fn resting() -> f32 {
    normalise_voltage(SID_VOICE_BASE_VOLTS)
}

/// Three voices as bytes.
pub fn voice_bytes(voices: &[VoiceSignal; 3]) -> [u8; 36] {
    let bytes = voices.map(|voice| {
        let [a, b, c, d] = voice.waveform.to_le_bytes();
        let [e, f, g, h] = voice.envelope.to_le_bytes();
        [a, b, c, d, e, f, g, h, voice.waveform_selection, voice.combined.into(), voice.frozen.into(), 0]
    });
    bytes.as_flattened().try_into().expect("three voices")
}

fn float_at(bytes: &[u8], at: usize) -> f32 {
    f32::from_le_bytes([bytes[at], bytes[at + 1], bytes[at + 2], bytes[at + 3]])
}

/// The voices that valid bytes stand for.
pub fn voices_of(bytes: &[u8; 36]) -> [VoiceSignal; 3] {
    let flags = |at: usize| [bytes[at] == 1, bytes[at + 1] == 1];
    [0, 12, 24].map(|at| voice(float_at(bytes, at), float_at(bytes, at + 4), bytes[at + 8], flags(at + 9)))
}

/// The eight sums, in the order of their fields.
pub fn sums_of(sums: &RoutedSignals) -> [f32; 8] {
    [
        sums.filter_input_sum,
        sums.filter_source_energy,
        sums.filter_input_activity,
        sums.bypass_input_sum,
        sums.bypass_envelope_activity,
        sums.pure_bypass_envelope_activity,
        sums.pure_bypass_attack_drive,
        sums.pure_pulse_envelope_activity,
    ]
}

impl Sources {
    /// Silent voices and levels at rest.
    pub fn at_rest(routing: u8, mode: u8) -> Self {
        Sources { routing, mode, voices: [voice(0.0, 0.0, 0, PURE); 3], numbers: [0.0, resting(), resting(), 0.0, 0.0, 0.0] }
    }

    /// Any valid sources: nibbles, selections and flags by `bits`, each number by `pick`, which is offered a list.
    pub fn any(bits: u64, mut pick: impl FnMut(&[f32]) -> f32) -> Self {
        let voices = [0, 8, 16].map(|shift| {
            let (selection, flags) = ((bits >> shift) as u8 % 16, FLAGS[(bits >> (shift + 4)) as usize % 4]);
            voice(pick(&WAVEFORMS), pick(&ENVELOPES), selection, flags)
        });
        let numbers = [0; 6].map(|_| pick(&[0.0, -0.0, 0.45, 1.0, -1.0, 2e19]));
        Sources { routing: (bits >> 24) as u8 % 16, mode: (bits >> 32) as u8 % 16, voices, numbers }
    }

    /// What lent bytes stand for.
    pub fn read(routing: u8, mode: u8, voices: &[u8; 36], numbers: &[u8; 24]) -> Self {
        Sources { routing, mode, voices: voices_of(voices), numbers: [0, 4, 8, 12, 16, 20].map(|at| float_at(numbers, at)) }
    }

    pub fn voice_bytes(&self) -> [u8; 36] {
        voice_bytes(&self.voices)
    }

    pub fn number_bytes(&self) -> [u8; 24] {
        self.numbers.map(f32::to_le_bytes).as_flattened().try_into().expect("six numbers")
    }

    pub fn topology(&self) -> MixingTopology {
        let mut topology = MixingTopology::new();
        topology.update(self.routing, self.mode);
        topology
    }

    pub fn sums_on(&self, topology: &MixingTopology) -> [f32; 8] {
        let [raw, filter_level, mixer_level, blends @ ..] = self.numbers;
        sums_of(&RoutedSignals::collect(topology, &self.voices, &blends, filter_level, mixer_level, raw, resting()))
    }

    pub fn sums(&self) -> [f32; 8] {
        self.sums_on(&self.topology())
    }
}

/// Each sum but the first can be the only one that is not finite: by its number from 0 on.
pub fn not_finite_alone() -> Vec<(usize, Sources)> {
    let rest = Sources::at_rest(0, 0);
    let silent = rest.voices[0];
    let saw = |waveform, envelope| voice(waveform, envelope, 2, PURE);
    vec![
        (1, Sources { routing: 8, numbers: [0.0, 2e19, 0.0, 0.0, 0.0, 0.0], ..rest }),
        (2, Sources { routing: 3, voices: [voice(0.0, 2e38, 0, PURE), voice(0.0, 2e38, 0, PURE), silent], ..rest }),
        (3, Sources { voices: [saw(4e19, 1.0), silent, silent], ..rest }),
        (4, Sources { voices: [voice(0.0, 2e38, 3, COMBINED), voice(0.0, 2e38, 3, COMBINED), silent], ..rest }),
        (5, Sources { voices: [voice(0.0, -2e38, 3, COMBINED), saw(0.0, 2e38), saw(0.0, 2e38)], ..rest }),
        (6, Sources { voices: [voice(0.0, 3e38, 1, PURE), silent, silent], ..rest }),
        (6, Sources { voices: [voice(0.0, 3e38, 1, PURE), voice(0.0, -3e38, 1, PURE), silent], ..rest }),
        (7, Sources { voices: [voice(0.0, 2e38, 4, PURE), voice(0.0, -2e38, 0, PURE), voice(0.0, 2e38, 4, PURE)], ..rest }),
    ]
}

/// Envelopes at which a voice's way or a sum changes: zeros, negative, subnormal, usual and huge ones.
pub const ENVELOPES: [f32; 11] = [0.0, -0.0, -0.5, 1e-40, -1e-40, 0.02, 0.75, 1.0, 2e38, -2e38, 3e38];

/// Waveforms up to where the bend of a saw overflows.
pub const WAVEFORMS: [f32; 9] = [0.0, -0.0, 0.5, -1.0, 8.0, -8.0, 1e-40, 4e19, -3e38];
