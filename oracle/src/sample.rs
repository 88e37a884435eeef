//! Samples after random register writes: the Rust on what it keeps beside the proved code on what the state's block gives.

use crate::charges::fill;
use crate::filter::Filter;
use crate::kept::{block, set};
use crate::numbers::{Random, Tally};
use crate::surface;

mod proved {
    #[repr(C)]
    pub struct Step {
        pub number: u32,
        pub buffer: u32,
        pub place: u32,
        pub outputs: [f32; 4],
        pub state: [f32; 3],
    }

    #[link(name = "probe", kind = "static")]
    unsafe extern "C" {
        fn probe_step(
            bundle: *const u8,
            bundle_len: usize,
            curves: *const u8,
            curves_len: usize,
            block: *const u8,
            block_len: usize,
            sum: f32,
            energy: f32,
        ) -> Step;
    }

    pub fn step(bundle: &[u8], curves: &[u8], block: &[u8], sum: f32, energy: f32) -> Step {
        unsafe { probe_step(bundle.as_ptr(), bundle.len(), curves.as_ptr(), curves.len(), block.as_ptr(), block.len(), sum, energy) }
    }
}

pub fn compare() -> Vec<(&'static str, Tally)> {
    vec![("samples after random writes", samples())]
}

/// A write on the Rust's side, mostly none.
fn write(filter: &mut Filter, bits: u64) {
    let value = (bits >> 8) as u8;
    match bits % 32 {
        0 | 1 => filter.write_cutoff_low(value),
        2 | 3 => filter.write_cutoff_high(value),
        4 | 5 => filter.write_signal_routing(if bits >> 60 == 0 { 0 } else { value }),
        6 | 7 => filter.write_mode_and_volume(value),
        8 if bits >> 56 == 0 => filter.reset(),
        _ => {}
    }
}

/// The integrator's numbers as they are, or set to others: any finite ones, zeros of both signs, or an energy below zero.
fn start(state: [f32; 3], random: &mut Random) -> [f32; 3] {
    let bits = random.bits();
    let zero = |bit: u32| if bits >> bit & 1 == 0 { 0.0 } else { -0.0 };
    let next = match bits % 32 {
        0 => [random.float(), random.float(), random.float()],
        1 => [zero(8), zero(9), zero(10)],
        2 => [state[0], state[1], -0.005],
        _ => state,
    };
    if next.iter().all(|x| x.is_finite()) {
        next
    } else {
        [0.0; 3]
    }
}

/// What is refused must leave the finite domain in the Rust: at once, or in a substep whose outputs it does not hand out.
fn samples() -> Tally {
    let (bundle, mut filter) = (surface::data("bundle"), Filter::new());
    let curves = surface::curves_of(&filter);
    let (mut tally, mut random, mut state) = (Tally::default(), Random(11), [0.0; 3]);
    for turn in 0..1_000_000 {
        write(&mut filter, random.bits());
        state = start(state, &mut random);
        let (sum, energy) = match turn % 16 {
            0 => (random.float(), random.float()),
            _ => ((random.bits() as u32 as f32) / 1_073_741_824.0, (random.bits() as u32 as f32) / 2_147_483_648.0),
        };
        let mut block = block(filter.registers(), state.map(f32::to_bits));
        fill(&mut block, &mut random);
        set(&mut filter, &block);
        let ours = proved::step(&bundle, &curves, &block, sum, energy);
        if !(sum.is_finite() && energy.is_finite()) {
            tally.same([ours.number, ours.buffer, ours.place], [5, 0, 0]);
            continue;
        }
        let theirs = filter.sample(sum, energy);
        let kept = filter.state();
        let after = [kept.band_state, kept.low_state, kept.filter_source_energy];
        if ours.number == 0 {
            tally.same(ours.outputs.map(f32::to_bits), theirs.map(f32::to_bits));
            tally.same(ours.state.map(f32::to_bits), after.map(f32::to_bits));
            state = ours.state;
        } else {
            tally.same([ours.number, ours.buffer, ours.place], [6, 0, 0]);
            tally.same(theirs.iter().chain(&after).all(|x| x.is_finite()), false);
        }
    }
    tally
}
