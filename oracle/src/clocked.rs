//! A tick by the Rust's unchanged `clock`, on a filter that is in the state of a block: what the output stage is handed, and what `clock`
//! keeps to itself.

use crate::constants::*;
use crate::dac::VoiceSignal;
use crate::filter::Filter;
use crate::kept::{filter_block, set, transient_floats};
use crate::plain::TickLent;
use crate::response::filter_mode_quiescent_level;
use crate::tables::{build_analogue_transfer_surface, AnalogueTransferSurface};
use crate::voices::{sums_of, voice_bytes, voices_of};

// ---- what a tick takes

/// Five decays and the tracking; raw, filter and mixer level of the external input; three voices.
#[derive(Clone, Copy)]
pub struct Inputs {
    pub decays: [f32; 6],
    pub levels: [f32; 3],
    pub voices: [VoiceSignal; 3],
}

/// The same as bytes.
#[derive(Clone, Copy)]
pub struct InputBytes {
    pub decays: [u8; 24],
    pub levels: [u8; 12],
    pub voices: [u8; 36],
}

/// The floats of four bytes each.
pub fn floats_of<const N: usize>(bytes: &[u8]) -> [f32; N] {
    std::array::from_fn(|index| f32::from_le_bytes(bytes[4 * index..4 * index + 4].try_into().expect("four bytes")))
}

impl Inputs {
    pub fn bytes(&self) -> InputBytes {
        InputBytes {
            decays: self.decays.map(f32::to_le_bytes).as_flattened().try_into().expect("24 bytes"),
            levels: self.levels.map(f32::to_le_bytes).as_flattened().try_into().expect("12 bytes"),
            voices: voice_bytes(&self.voices),
        }
    }
}

impl InputBytes {
    pub fn lent(&self) -> TickLent<'_> {
        TickLent { decays: &self.decays, levels: &self.levels, voices: &self.voices }
    }

    /// What valid bytes stand for.
    pub fn read(&self) -> Inputs {
        Inputs { decays: floats_of(&self.decays), levels: floats_of(&self.levels), voices: voices_of(&self.voices) }
    }
}

/// An entry that is set to other bits: buffer, byte and bits.
pub type Damage = (u32, usize, u32);

/// The bundle, the curves, and a filter that has the same entries.
pub struct Lent {
    pub bundle: Vec<u8>,
    pub curves: Vec<u8>,
    pub filter: Filter,
    surface: AnalogueTransferSurface,
}

/// Where the sections of the bundle begin that the filter has as tables.
const DAMPING: usize = 2_097_208;
const MODULATION: usize = 2_097_272;
const SURFACE: usize = 2_105_464;
const LOADING: usize = 3_293_304;

impl Lent {
    /// The Rust's own tables, of which the bundle is given as bytes.
    pub fn new(bundle: Vec<u8>) -> Self {
        let filter = Filter::new();
        let own = filter.curves();
        let entries = own.summer.iter().chain(&own.mixer).chain(&own.volume).flat_map(|curve| curve.iter());
        let curves = entries.flat_map(|entry| entry.to_le_bytes()).collect();
        Lent { bundle, curves, filter, surface: build_analogue_transfer_surface() }
    }

    /// Sets the bits of an entry, and gives those that it had. Whatever the filter keeps of it follows with the next write.
    pub fn set(&mut self, buffer: u32, place: usize, bits: u32) -> u32 {
        let bytes = if buffer == 0 { &mut self.bundle } else { &mut self.curves };
        let had = u32::from_le_bytes(bytes[place..place + 4].try_into().expect("an entry"));
        bytes[place..place + 4].copy_from_slice(&bits.to_le_bytes());
        let entry = f32::from_bits(bits);
        if buffer == 1 {
            self.curve(place / 4 / 2049)[place / 4 % 2049] = entry;
        } else {
            self.set_table(place, entry);
        }
        had
    }

    /// Sets entries for as long as something lasts.
    pub fn with_damages<T>(&mut self, damages: &[Damage], during: impl FnOnce(&mut Self) -> T) -> T {
        let had: Vec<u32> = damages.iter().map(|&(buffer, place, bits)| self.set(buffer, place, bits)).collect();
        let told = during(self);
        for (&(buffer, place, _), bits) in damages.iter().zip(had).rev() {
            self.set(buffer, place, bits);
        }
        told
    }

    /// Whether the filter has this entry: high-pass loading and directional power it works out anew.
    pub fn follows(buffer: u32, place: usize) -> bool {
        buffer == 1 || place < LOADING
    }

    /// Curve 0 to 30 of the filter.
    fn curve(&mut self, number: usize) -> &mut [f32; 2049] {
        let curves = self.filter.curves_mut();
        match number {
            0..7 => &mut curves.summer[number],
            7..15 => &mut curves.mixer[number - 7],
            _ => &mut curves.volume[number - 15],
        }
    }

    /// An entry of the bundle in the filter's tables: those of the surface move the summer's outputs at rest.
    fn set_table(&mut self, place: usize, entry: f32) {
        let coefficients = self.filter.coefficients();
        match place {
            0..DAMPING => {
                let index = (place - 56) / 4;
                coefficients[index / 256].integrator_gain[index / 16 % 16][index % 16] = entry;
            }
            DAMPING..MODULATION => coefficients.iter_mut().for_each(|code| code.damping[(place - DAMPING) / 4] = entry),
            MODULATION..SURFACE => coefficients[(place - MODULATION) / 4].source_gain_modulation = entry,
            SURFACE..LOADING => {
                self.surface.entries_mut()[(place - SURFACE) / 4] = entry;
                for count in 2..7 {
                    let resting = self.surface.sample(count as f32, filter_mode_quiescent_level());
                    self.filter.curves_mut().summer_resting_output[count] = resting;
                }
            }
            _ => {}
        }
    }
}

// ---- a tick

/// What a tick gives. The numbers are the stage's argument, the charges' sum just before they decay, the mixer's and the filter's output.
pub struct Clocked {
    pub sums: [f32; 8],
    pub numbers: [f32; 4],
    pub after: [u8; 68],
}

impl Clocked {
    /// Whether every number is, those of the block after it too.
    pub fn is_finite(&self) -> bool {
        let after: [f32; 13] = floats_of(&self.after[12..64]);
        self.sums.iter().chain(&self.numbers).chain(&after).all(|x| x.is_finite())
    }
}

fn set_levels(filter: &mut Filter, [raw, filter_level, mixer_level]: [f32; 3]) {
    let external = filter.external();
    (external.raw, external.filter_signal, external.mixer_signal) = (raw, filter_level, mixer_level);
}

fn set_decays(filter: &mut Filter, decays: [f32; 6]) {
    let transients = filter.transients();
    [
        transients.volume_fast_decay,
        transients.volume_slow_decay,
        transients.bypass_attack_decay,
        transients.pulse_gate_fast_decay,
        transients.pulse_gate_slow_decay,
        transients.saw_mixer_tracking,
    ] = decays;
}

/// The transients' ten floats after a tick whose decays are 1: the blends that it collects with, and the charges before they decay.
fn undecayed(filter: &mut Filter, inputs: &Inputs) -> [f32; 10] {
    set_decays(filter, [1.0, 1.0, 1.0, 1.0, 1.0, inputs.decays[5]]);
    filter.clock(inputs.voices);
    transient_floats(filter.transients())
}

/// `mixer_output` of `clock`, in its operations.
fn mixer_output(filter: &mut Filter, raw: f32, raw_level: f32, activity: f32) -> f32 {
    if filter.topology().bypass_internal_mask == 0 && raw_level == 0.0 {
        return raw;
    }
    let quiescent = filter_mode_quiescent_level();
    let two = (1.0 - (activity - 2.0) * (activity - 2.0)).clamp(0.0, 1.0);
    let three = (activity - 2.0).clamp(0.0, 1.0);
    let activity_gain = 1.0 - SID_MIXER_TWO_VOICE_ACTIVITY_LOAD * two + SID_MIXER_THREE_VOICE_ACTIVITY_LIFT * three;
    let volume_gain = 1.0 + two * filter.control().two_voice_volume_gain_offset;
    quiescent + (raw - quiescent) * activity_gain * volume_gain
}

/// One tick of the state that the filter is in, with topology and controls as it keeps them.
pub fn clocked(filter: &mut Filter, inputs: &Inputs) -> Clocked {
    let before = filter_block(filter);
    set_levels(filter, inputs.levels);
    let [fast, slow, _, pulse_fast, pulse_slow, _, _, blends @ ..] = undecayed(filter, inputs);

    set(filter, &before);
    filter.transients().saw_mixer_blend = blends;
    let signals = filter.collected(&inputs.voices);
    let sums = sums_of(&signals);
    let filter_output = filter.filtered(signals);
    let raw = filter.mixer(sums[3] + filter_output);
    let mixer_output = mixer_output(filter, raw, inputs.levels[0], sums[4]);

    set(filter, &before);
    set_decays(filter, inputs.decays);
    filter.clock(inputs.voices);
    let numbers = [filter.stage_argument(), fast + slow + pulse_fast - pulse_slow, mixer_output, filter_output];
    Clocked { sums, numbers, after: filter_block(filter) }
}
