//! The calls of include/sid_filter.h. All that is unsafe in this package is here.
//!
//! The header asks three things of a caller, and the borrows below keep them. A pointer is good for its length: it is a slice's. No written
//! buffer overlaps another one, and nothing else writes what is lent while a call runs: what is written comes as `&mut`, what is read as
//! `&`. No call keeps a pointer, and each answers plain words and floats.
use crate::{Point, Sample, SAMPLE_BYTES};
use std::mem::{offset_of, size_of, size_of_val};

/// The header's `sid_filter_answer`.
#[repr(C)]
#[derive(Clone, Copy, Debug, PartialEq, Eq)]
pub(crate) struct Answer {
    pub(crate) number: u32,
    pub(crate) events: u32,
    pub(crate) samples: u32,
    pub(crate) buffer: u32,
    pub(crate) place: u32,
}

/// The header's `sid_filter_point`: the answer, then value, index and fraction.
#[repr(C)]
#[derive(Clone, Copy, Debug, PartialEq)]
pub(crate) struct PointAnswer {
    pub(crate) answer: Answer,
    pub(crate) point: Point,
}

extern "C" {
    fn sid_filter_open(bundle: *const u8, bundle_len: usize) -> Answer;
    fn sid_filter_build_curves(bundle: *const u8, bundle_len: usize, curves: *mut u8, curves_len: usize) -> Answer;
    fn sid_filter_widen_state(block: *const u8, block_len: usize, wide: *mut u8, wide_len: usize) -> Answer;
    fn sid_filter_run(
        bundle: *const u8,
        bundle_len: usize,
        curves: *const u8,
        curves_len: usize,
        state: *mut u8,
        state_len: usize,
        decays: *const u8,
        decays_len: usize,
        script: *const u8,
        script_len: usize,
        output: *mut u8,
        output_len: usize,
    ) -> Answer;
    fn sid_filter_collect(
        routing: u8,
        mode: u8,
        voices: *const u8,
        voices_len: usize,
        numbers: *const u8,
        numbers_len: usize,
        sums: *mut u8,
        sums_len: usize,
    ) -> Answer;
    fn sid_filter_sample_curve(curves: *const u8, curves_len: usize, curve: u32, input: f32) -> PointAnswer;
    fn sid_filter_summer(bundle: *const u8, bundle_len: usize, curves: *const u8, curves_len: usize, routing: u8, sum: f32) -> PointAnswer;
    fn sid_filter_mixer(curves: *const u8, curves_len: usize, routing: u8, mode: u8, sum: f32) -> PointAnswer;
    fn sid_filter_volume(curves: *const u8, curves_len: usize, volume: u8, value: f32) -> PointAnswer;
    fn sid_filter_sample_point(
        bundle: *const u8,
        bundle_len: usize,
        curves: *const u8,
        curves_len: usize,
        state: *const u8,
        state_len: usize,
        sum: f32,
        energy: f32,
    ) -> PointAnswer;
}

/// Opens a bundle.
pub(crate) fn open(bundle: &[u8]) -> Answer {
    // SAFETY: a slice's pointer and length; the call only reads it.
    unsafe { sid_filter_open(bundle.as_ptr(), bundle.len()) }
}

/// Builds a bundle's curves.
pub(crate) fn build_curves(bundle: &[u8], curves: &mut [u8]) -> Answer {
    // SAFETY: slices' pointers and lengths; only `curves` is written, and it is borrowed alone.
    unsafe { sid_filter_build_curves(bundle.as_ptr(), bundle.len(), curves.as_mut_ptr(), curves.len()) }
}

/// Turns a block of 24 bytes into one of 68.
pub(crate) fn widen_state(block: &[u8], wide: &mut [u8]) -> Answer {
    // SAFETY: slices' pointers and lengths; only `wide` is written, and it is borrowed alone.
    unsafe { sid_filter_widen_state(block.as_ptr(), block.len(), wide.as_mut_ptr(), wide.len()) }
}

/// Runs a script.
pub(crate) fn run(bundle: &[u8], curves: &[u8], state: &mut [u8], decays: &[u8], script: &[u8], output: &mut [u8]) -> Answer {
    // SAFETY: slices' pointers and lengths; only `state` and `output` are written, and each is borrowed alone.
    unsafe {
        sid_filter_run(
            bundle.as_ptr(),
            bundle.len(),
            curves.as_ptr(),
            curves.len(),
            state.as_mut_ptr(),
            state.len(),
            decays.as_ptr(),
            decays.len(),
            script.as_ptr(),
            script.len(),
            output.as_mut_ptr(),
            output.len(),
        )
    }
}

/// Collects the sums of voices.
pub(crate) fn collect(routing: u8, mode: u8, voices: &[u8], numbers: &[u8], sums: &mut [u8]) -> Answer {
    // SAFETY: slices' pointers and lengths; only `sums` is written, and it is borrowed alone.
    unsafe {
        sid_filter_collect(routing, mode, voices.as_ptr(), voices.len(), numbers.as_ptr(), numbers.len(), sums.as_mut_ptr(), sums.len())
    }
}

/// A curve at an input.
pub(crate) fn sample_curve(curves: &[u8], curve: u32, input: f32) -> PointAnswer {
    // SAFETY: a slice's pointer and length; the call only reads it. So do the next four.
    unsafe { sid_filter_sample_curve(curves.as_ptr(), curves.len(), curve, input) }
}

/// The summer of a routing.
pub(crate) fn summer(bundle: &[u8], curves: &[u8], routing: u8, sum: f32) -> PointAnswer {
    // SAFETY: as above.
    unsafe { sid_filter_summer(bundle.as_ptr(), bundle.len(), curves.as_ptr(), curves.len(), routing, sum) }
}

/// The mixer of a routing and a mode.
pub(crate) fn mixer(curves: &[u8], routing: u8, mode: u8, sum: f32) -> PointAnswer {
    // SAFETY: as above.
    unsafe { sid_filter_mixer(curves.as_ptr(), curves.len(), routing, mode, sum) }
}

/// The volume DAC.
pub(crate) fn volume(curves: &[u8], volume: u8, value: f32) -> PointAnswer {
    // SAFETY: as above.
    unsafe { sid_filter_volume(curves.as_ptr(), curves.len(), volume, value) }
}

/// The summer for a sample of a state.
pub(crate) fn sample_point(bundle: &[u8], curves: &[u8], state: &[u8], sum: f32, energy: f32) -> PointAnswer {
    // SAFETY: as above.
    unsafe {
        sid_filter_sample_point(bundle.as_ptr(), bundle.len(), curves.as_ptr(), curves.len(), state.as_ptr(), state.len(), sum, energy)
    }
}

#[cfg(target_endian = "big")]
compile_error!("the library writes little-endian numbers");

// A sample lies as the library writes it: high, band, low, selected, without gaps.
const _: () = assert!(size_of::<Sample>() == SAMPLE_BYTES);
const _: () = assert!(offset_of!(Sample, high) == 0 && offset_of!(Sample, band) == 4);
const _: () = assert!(offset_of!(Sample, low) == 8 && offset_of!(Sample, selected) == 12);

/// Samples as the bytes that a run writes.
pub(crate) fn bytes_of(samples: &mut [Sample]) -> &mut [u8] {
    // SAFETY: the bytes are those of the slice, which stays borrowed. A sample is four f32 without gaps, so all its bytes have values, and
    // any bytes are a sample.
    unsafe { std::slice::from_raw_parts_mut(samples.as_mut_ptr().cast(), size_of_val(samples)) }
}

#[cfg(test)]
mod tests {
    use super::{build_curves, run, widen_state, Answer, PointAnswer};
    use crate::bytes::of_floats;
    use crate::header::{defined, HEADER};
    use crate::{Decays, Event, Point, Refusal, Script, BUNDLE_BYTES, CURVES_BYTES, DECAYS_BYTES, EVENTS_MAX, EVENT_BYTES};
    use crate::{NARROW_STATE_BYTES, NUMBERS_BYTES, SAMPLE_BYTES, SCRIPT_HEADER_BYTES, STATE_BYTES, SUMS_BYTES, VOICE_BYTES};
    use std::mem::{align_of, offset_of, size_of};

    /// The five words lie as C lays them, in the order in which the header names them.
    #[test]
    fn the_answer_has_the_layout_of_the_header() {
        assert_eq!((size_of::<Answer>(), align_of::<Answer>()), (20, 4));
        let ours = [
            ("number", offset_of!(Answer, number)),
            ("events", offset_of!(Answer, events)),
            ("samples", offset_of!(Answer, samples)),
            ("buffer", offset_of!(Answer, buffer)),
            ("place", offset_of!(Answer, place)),
        ];
        let (_, from) = HEADER.split_once("typedef struct {").expect("a struct in the header");
        let (fields, _) = from.split_once("} sid_filter_answer;").expect("the struct's end");
        let theirs = fields.lines().filter_map(|line| line.trim().strip_prefix("uint32_t ")?.strip_suffix(';'));
        assert!(theirs.eq(ours.iter().map(|(name, _)| *name)));
        assert!(ours.iter().map(|(_, offset)| *offset).eq([0, 4, 8, 12, 16]));
    }

    /// The point lies behind the answer, its fields in the order in which the header names them.
    #[test]
    fn the_point_has_the_layout_of_the_header() {
        assert_eq!((size_of::<PointAnswer>(), align_of::<PointAnswer>()), (32, 4));
        let from = offset_of!(PointAnswer, point);
        let ours = [
            ("sid_filter_answer answer", offset_of!(PointAnswer, answer)),
            ("float value", from + offset_of!(Point, value)),
            ("uint32_t index", from + offset_of!(Point, index)),
            ("float fraction", from + offset_of!(Point, fraction)),
        ];
        let (before, _) = HEADER.split_once("} sid_filter_point;").expect("the struct's end");
        let (_, fields) = before.rsplit_once("typedef struct {").expect("its begin");
        let theirs = fields.lines().filter_map(|line| line.trim().strip_suffix(';'));
        assert!(theirs.eq(ours.iter().map(|(name, _)| *name)));
        assert!(ours.iter().map(|(_, offset)| *offset).eq([0, 20, 24, 28]));
    }

    /// The lengths are the header's.
    #[test]
    fn the_lengths_are_those_of_the_header() {
        let lengths = [
            ("BUNDLE_BYTES", BUNDLE_BYTES),
            ("CURVES_BYTES", CURVES_BYTES),
            ("STATE_BYTES", STATE_BYTES),
            ("NARROW_STATE_BYTES", NARROW_STATE_BYTES),
            ("DECAYS_BYTES", DECAYS_BYTES),
            ("SCRIPT_HEADER_BYTES", SCRIPT_HEADER_BYTES),
            ("EVENT_BYTES", EVENT_BYTES),
            ("SAMPLE_BYTES", SAMPLE_BYTES),
            ("EVENTS_MAX", EVENTS_MAX),
            ("VOICE_BYTES", VOICE_BYTES),
            ("NUMBERS_BYTES", NUMBERS_BYTES),
            ("SUMS_BYTES", SUMS_BYTES),
        ];
        for (name, ours) in lengths {
            assert_eq!(defined(name).parse(), Ok(ours), "{name}");
        }
    }

    /// The repository's bundle, and its curves.
    fn tables() -> (Vec<u8>, Vec<u8>) {
        let bundle = std::fs::read(concat!(env!("CARGO_MANIFEST_DIR"), "/../../data/bundle.bin")).expect("the repository's bundle");
        let mut curves = vec![0; CURVES_BYTES];
        assert_eq!(build_curves(&bundle, &mut curves).number, 0);
        (bundle, curves)
    }

    /// The number of a run that does no event, and so leaves everything.
    fn number_of(bundle: &[u8], curves: &[u8], state: &[u8], decays: &[u8], script: &[u8], output: &[u8]) -> u32 {
        let (mut left, mut written) = (state.to_vec(), output.to_vec());
        let Answer { number, events, samples, .. } = run(bundle, curves, &mut left, decays, script, &mut written);
        assert_eq!((events, samples, &left[..], &written[..]), (0, 0, state, output));
        number
    }

    /// The causes are found in the order of the header, one after another as each is put right.
    #[test]
    fn a_run_refuses_in_order() {
        let (bundle, curves) = tables();
        let script = Script::of(&[Event::Sample { input_sum: 0.0, source_energy: 0.0 }]).expect("one event");
        let (state, decays, script) = ([0; STATE_BYTES], Decays::EMULATOR.to_bytes(), script.as_bytes());
        assert_eq!(number_of(&bundle, &[], &[], &[], &[], &[]), 4);
        assert_eq!(number_of(&bundle, &curves, &[], &[], &[], &[]), 10);
        assert_eq!(number_of(&bundle, &curves, &state, &[], &[], &[]), 12);
        assert_eq!(number_of(&bundle, &curves, &state, &decays, &[], &[]), 7);
        assert_eq!(number_of(&bundle, &curves, &state, &decays, script, &[]), 8);
        assert_eq!(number_of(&bundle, &curves, &state, &decays, Script::new().as_bytes(), &[]), 0);
    }

    /// What the types of the package leave no room for: blocks and decays of other lengths.
    #[test]
    fn other_lengths_are_refused() {
        let (bundle, curves) = tables();
        let number_of = |state: &[u8], decays: &[u8]| number_of(&bundle, &curves, state, decays, Script::new().as_bytes(), &[]);
        for length in [0, NARROW_STATE_BYTES, STATE_BYTES - 1, STATE_BYTES + 1] {
            assert_eq!(number_of(&vec![0; length], &[0; DECAYS_BYTES]), 10, "{length} bytes");
            let mut wide = vec![0xaa; length];
            assert_eq!(widen_state(&[0; NARROW_STATE_BYTES], &mut wide).number, 10, "{length} bytes");
            assert!(wide.iter().all(|byte| *byte == 0xaa));
        }
        for length in [0, DECAYS_BYTES - 1, DECAYS_BYTES + 1] {
            assert_eq!(number_of(&[0; STATE_BYTES], &vec![0; length]), 12, "{length} bytes");
        }
    }

    /// `Decays` refuses what a run refuses, in each of the six places.
    #[test]
    fn decays_are_what_a_run_takes() {
        let (bundle, curves) = tables();
        let smallest = f32::from_bits(1);
        let taken = [0.0, -0.0, smallest, 0.5, 1.0].map(|number| (number, 0));
        let refused = [-smallest, 1.0 + f32::EPSILON, -1.0, f32::NAN, f32::INFINITY, f32::NEG_INFINITY].map(|number| (number, 12));
        for ((number, told), place) in taken.iter().chain(&refused).flat_map(|case| (0..6).map(move |place| (*case, place))) {
            let mut numbers = Decays::EMULATOR.numbers();
            numbers[place] = number;
            let decays: [u8; DECAYS_BYTES] = of_floats(numbers);
            let ours = number_of(&bundle, &curves, &[0; STATE_BYTES], &decays, Script::new().as_bytes(), &[]);
            assert_eq!((ours, Decays::new(numbers).map_or_else(Refusal::number, |_| 0)), (told, told), "{number} at {place}");
        }
    }

    /// A mode write that leaves the domain by its charge: the unusable entry that it reads comes first.
    #[test]
    fn an_entry_comes_before_a_charge() {
        // In section 5: low-pass, cutoff 0, displacement 0.
        const ENTRY: usize = 3_301_496 + 4 * 57;
        let (mut bundle, curves) = tables();
        let script = Script::of(&[Event::Mode(0x10)]).expect("one event");
        let mut state = [0; STATE_BYTES];
        state[44..48].copy_from_slice(&f32::MAX.to_le_bytes());
        let number_of = |bundle: &[u8]| number_of(bundle, &curves, &state, &Decays::EMULATOR.to_bytes(), script.as_bytes(), &[]);
        assert_eq!(number_of(&bundle), 6);
        bundle[ENTRY..ENTRY + 4].copy_from_slice(&f32::NAN.to_le_bytes());
        assert_eq!(number_of(&bundle), 3);
    }

    /// The version is the header's.
    #[test]
    fn the_version_is_that_of_the_header() {
        assert_eq!(defined("VERSION"), concat!('"', env!("CARGO_PKG_VERSION"), '"'));
    }
}
