//! The integrator, the response and the topology.

use crate::integrator::IntegratorState;
use crate::line;
use crate::mixing::MixingTopology;
use crate::numbers::{Random, Tally};
use crate::response::*;

/// The proved functions, and their structs as `#[repr(C)]` lays them out.
mod proved {
    #[repr(C)]
    #[derive(Clone, Copy)]
    pub struct State {
        pub band_state: f32,
        pub low_state: f32,
        pub filter_source_energy: f32,
    }

    #[repr(C)]
    #[derive(Clone, Copy)]
    pub struct Coefficients {
        pub damping: f32,
        pub feedback_drive: f32,
        pub a1: f32,
        pub a2: f32,
        pub a3: f32,
    }

    #[repr(C)]
    pub struct Outputs {
        pub high_pass: f32,
        pub band_pass: f32,
        pub low_pass: f32,
    }

    #[repr(C)]
    pub struct Advanced {
        pub outputs: Outputs,
        pub state: State,
    }

    #[repr(C)]
    pub struct Position {
        pub lower: usize,
        pub upper: usize,
        pub fraction: f32,
    }

    #[repr(C)]
    pub struct Topology {
        pub filter_membership: [bool; 4],
        pub bypass_membership: [bool; 4],
        pub counts: [usize; 4],
        pub reciprocals: [f32; 3],
        pub filter_internal_mask: u8,
        pub bypass_internal_mask: u8,
    }

    #[link(name = "probe", kind = "static")]
    unsafe extern "C" {
        pub safe fn probe_saturate(value: f32, drive: f32) -> f32;
        pub safe fn probe_advance(state: State, driven_input: f32, k: Coefficients) -> Advanced;
        pub safe fn probe_normalise_voltage(voltage: f32) -> f32;
        pub safe fn probe_operating_position(input: f32, band: f32, low: f32) -> Position;
        pub safe fn probe_conductance_code(volume: u8) -> f32;
        pub safe fn probe_common_mode(mode: u8, cutoff: u16) -> f32;
        pub safe fn probe_mode_gain(mode: u8, resonance: u8, cutoff: u16, loading: f32) -> f32;
        pub safe fn probe_topology(routing: u8, mode: u8) -> Topology;
        pub fn probe_line(routing: u8, mode: u8, out: *mut u8, len: usize);
    }
}

pub fn compare() -> Vec<(&'static str, Tally)> {
    vec![
        ("saturate", saturate()),
        ("advance", advance()),
        ("normalise_voltage", voltage()),
        ("operating_position", position()),
        ("volume_dac_conductance_code", conductance()),
        ("filter_output_common_mode", common_mode()),
        ("filter_mode_output_gain", mode_gain()),
        ("MixingTopology::update", topology()),
        ("topology_line", line()),
    ]
}

fn saturate() -> Tally {
    let (mut tally, mut random) = (Tally::default(), Random(1));
    for _ in 0..2_000_000 {
        let (value, drive) = (random.float(), random.float());
        tally.same_float(proved::probe_saturate(value, drive), IntegratorState::saturate(value, drive));
    }
    tally
}

/// Chains of four substeps, the state of each going into the next.
fn advance() -> Tally {
    let (mut tally, mut random) = (Tally::default(), Random(2));
    for _ in 0..250_000 {
        let mut theirs = IntegratorState { band_state: random.float(), low_state: random.float(), filter_source_energy: random.float() };
        let mut ours =
            proved::State { band_state: theirs.band_state, low_state: theirs.low_state, filter_source_energy: theirs.filter_source_energy };
        let driven = random.float();
        let k = proved::Coefficients {
            damping: random.float(),
            feedback_drive: random.float(),
            a1: random.float(),
            a2: random.float(),
            a3: random.float(),
        };
        for _ in 0..4 {
            let step = proved::probe_advance(ours, driven, k);
            let outputs = theirs.advance(driven, k.damping, k.feedback_drive, k.a1, k.a2, k.a3);
            ours = step.state;
            tally.same_float(step.outputs.high_pass, outputs.high_pass);
            tally.same_float(step.outputs.band_pass, outputs.band_pass);
            tally.same_float(step.outputs.low_pass, outputs.low_pass);
            tally.same_float(ours.band_state, theirs.band_state);
            tally.same_float(ours.low_state, theirs.low_state);
            tally.same_float(ours.filter_source_energy, theirs.filter_source_energy);
        }
    }
    tally
}

fn voltage() -> Tally {
    let (mut tally, mut random) = (Tally::default(), Random(3));
    for _ in 0..1_000_000 {
        let volts = random.float();
        tally.same_float(proved::probe_normalise_voltage(volts), normalise_voltage(volts));
    }
    tally
}

fn position() -> Tally {
    let (mut tally, mut random) = (Tally::default(), Random(4));
    for _ in 0..1_000_000 {
        let (input, band, low) = (random.float(), random.float(), random.float());
        let ours = proved::probe_operating_position(input, band, low);
        let (lower, upper, fraction) = operating_position(input, band, low);
        tally.same(ours.lower, lower);
        tally.same(ours.upper, upper);
        tally.same_float(ours.fraction, fraction);
    }
    tally
}

fn conductance() -> Tally {
    let mut tally = Tally::default();
    for volume in 0..=255 {
        tally.same_float(proved::probe_conductance_code(volume), volume_dac_conductance_code(volume));
    }
    tally
}

fn common_mode() -> Tally {
    let mut tally = Tally::default();
    for mode in 0..16 {
        for cutoff in 0..=u16::MAX {
            tally.same_float(proved::probe_common_mode(mode, cutoff), filter_output_common_mode(mode, cutoff));
        }
    }
    tally
}

/// Every mode, resonance and cutoff. `highpass_loading` is the bundle's section 4, in the Rust's operations.
fn mode_gain() -> Tally {
    use crate::constants::*;
    let mut tally = Tally::default();
    for cutoff in 0..2048 {
        let power = (cutoff as f32 / 2047.0).powf(FILTER_HIGHPASS_HIGH_CUTOFF_EXPONENT);
        let knee = FILTER_HIGHPASS_HIGH_CUTOFF_KNEE.powf(FILTER_HIGHPASS_HIGH_CUTOFF_EXPONENT);
        let loading = 1.0 / (1.0 + FILTER_HIGHPASS_HIGH_CUTOFF_LOAD * (power / (power + knee)));
        for mode in 0..16 {
            for resonance in 0..16 {
                let ours = proved::probe_mode_gain(mode, resonance, cutoff, loading);
                tally.same_float(ours, filter_mode_output_gain(mode, usize::from(resonance), cutoff));
            }
        }
    }
    tally
}

/// All 65,536 pairs of bytes: of a routing or a mode above 15 both sides take the low nibble. What is left over from the last update is overwritten: one
/// topology of the Rust's serves all.
fn topology() -> Tally {
    let (mut tally, mut theirs) = (Tally::default(), MixingTopology::new());
    for pair in 0..=u16::MAX {
        let [routing, mode] = pair.to_be_bytes();
        let ours = proved::probe_topology(routing, mode);
        theirs.update(routing, mode);
        tally.same(ours.filter_membership, theirs.filter_membership);
        tally.same(ours.bypass_membership, theirs.bypass_membership);
        tally.same(ours.counts, line::counts(&theirs));
        tally.same_float(ours.reciprocals[0], theirs.filter_input_reciprocal);
        tally.same_float(ours.reciprocals[1], theirs.summer_input_reciprocal);
        tally.same_float(ours.reciprocals[2], theirs.mixer_input_reciprocal);
        tally.same(ours.filter_internal_mask, theirs.filter_internal_mask);
        tally.same(ours.bypass_internal_mask, theirs.bypass_internal_mask);
    }
    tally
}

/// The program topology_line prints this line for the nibbles of its two bytes: all 65,536 pairs of bytes.
fn line() -> Tally {
    let (mut tally, mut theirs) = (Tally::default(), MixingTopology::new());
    for registers in 0..=u16::MAX {
        let (routing, mode) = (registers as u8 % 16, (registers >> 12) as u8);
        let mut ours = [0; 39];
        unsafe { proved::probe_line(routing, mode, ours.as_mut_ptr(), ours.len()) };
        theirs.update(routing, mode);
        tally.same(&ours[..], line::line(&theirs).as_bytes());
    }
    tally
}
