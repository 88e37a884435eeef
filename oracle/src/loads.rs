//! Whole loads, on surfaces of any usable entries: sample and curve beside the Rust's and, in value, beside each other; and the summer at rest.

use crate::filter::Filter;
use crate::numbers::{word, Random, Tally};
use crate::points::proved::{sample_curve, summer};
use crate::response::filter_mode_quiescent_level;
use crate::ruler::Ruled;
use crate::surface::{built, data, proved, surface_of, SURFACE, SURFACE_ENTRIES};
use crate::tables::AnalogueTransferSurface;

pub fn compare() -> Vec<(&'static str, Tally)> {
    let bundle = data("bundle");
    vec![("whole loads", whole_loads(&bundle)), ("the summer at rest", at_rest(bundle))]
}

/// A usable entry: a zero or a smallest float of either sign, an end, or any other.
fn entry(random: &mut Random) -> f32 {
    let smallest = f32::from_bits(1);
    let any = [0.0, -0.0, smallest, -smallest, 1024.0, -1024.0, random.float(), random.float()];
    let entry = any[(random.bits() % 8) as usize];
    if entry.abs() <= 1024.0 {
        entry
    } else {
        0.5
    }
}

fn put(bundle: &mut [u8], index: usize, entry: f32) {
    bundle[SURFACE + 4 * index..][..4].copy_from_slice(&entry.to_le_bytes());
}

/// The Rust's surface and five of other entries, at the ten loads: at every step of the input, just before and just after it, beyond the ends,
/// and at random. The Rust has a curve at each load, ours are the first seven.
fn whole_loads(bundle: &[u8]) -> Tally {
    let (mut tally, mut random) = (Tally::default(), Random(120));
    let steps = (0..=2047).map(|step| step as f32 / 2047.0).flat_map(|at| [at.next_down(), at, at.next_up()]);
    let inputs: Vec<f32> = steps.chain([-0.0, -1.0, 2.0, f32::MAX, f32::MIN]).collect();
    for turn in 0..6 {
        let mut bundle = bundle.to_vec();
        for index in 0..if turn == 0 { 0 } else { SURFACE_ENTRIES } {
            put(&mut bundle, index, entry(&mut random));
        }
        let (surface, curves) = (surface_of(&bundle), built(&bundle));
        for load in 0..=9 {
            let curve = surface.build_load_curve(AnalogueTransferSurface::load_position(load as f32));
            let others: Vec<f32> = (0..4000).map(|_| random.float()).filter(|input| input.is_finite()).collect();
            for &input in inputs.iter().chain(&others) {
                let (sampled, read) = (surface.sample(load as f32, input), AnalogueTransferSurface::sample_curve(&curve, input));
                tally.same(sampled == read, true);
                let ours = proved::sample(&bundle, load as f32, input);
                tally.same((ours.number, word(ours.value)), (0, word(sampled)));
                if load <= 6 {
                    let ((number, _, _), [value, ..]) = sample_curve(&curves, load, input);
                    tally.same((number, value), (0, word(read)));
                }
            }
        }
    }
    tally
}

/// With no input routed, on surfaces with other entries about the summer's rest: 0, in the Rust and in the proved code.
fn at_rest(mut bundle: Vec<u8>) -> Tally {
    let (mut tally, mut random) = (Tally::default(), Random(121));
    let (mut filter, mut ruled) = (Filter::new(), Ruled::new());
    let rest = filter_mode_quiescent_level();
    let (lower, upper, _) = AnalogueTransferSurface::load_position(2.0).parts();
    let (column, fraction) = ruled.told(|filter| filter.summer(0.0));
    for _ in 0..3000 {
        for index in [lower, upper].map(|base| base + column as usize).into_iter().flat_map(|left| [left, left + 1]) {
            put(&mut bundle, index, entry(&mut random));
        }
        let (surface, curves) = (surface_of(&bundle), built(&bundle));
        let kept = filter.curves_mut();
        kept.summer[2] = surface.build_load_curve(AnalogueTransferSurface::load_position(2.0));
        kept.summer_resting_output[2] = surface.sample(2.0, rest);
        filter.write_signal_routing(0);
        filter.write_mode_and_volume(random.bits() as u8);
        for sum in [0.0, -0.0] {
            let theirs = filter.summer(sum);
            tally.same(theirs == 0.0, true);
            tally.same(summer([&bundle, &curves], 0, sum), ((0, 0, 0), [word(theirs), column, word(fraction)]));
        }
    }
    tally
}
