//! Opening a bundle, the analogue surface and the curves, beside the Rust and, for what is refused, an independent check.

use crate::constants::*;
use crate::filter::Filter;
use crate::numbers::{word, Random, Tally, DAMAGES};
use crate::response::volume_dac_conductance_code;
use crate::tables::AnalogueTransferSurface;

/// The library as include/sid_filter.h has it, and the refusing calls under C names.
pub mod proved {
    pub use crate::answer::Answer;

    #[repr(C)]
    pub struct Value {
        pub number: u32,
        pub buffer: u32,
        pub place: u32,
        pub value: f32,
    }

    #[repr(C)]
    pub struct Load {
        pub number: u32,
        pub lower_base: usize,
        pub upper_base: usize,
        pub fraction: f32,
    }

    #[link(name = "sid_filter", kind = "static")]
    unsafe extern "C" {
        fn sid_filter_open(bundle: *const u8, bundle_len: usize) -> Answer;
        fn sid_filter_build_curves(bundle: *const u8, bundle_len: usize, curves: *mut u8, curves_len: usize) -> Answer;
        fn sid_filter_widen_state(block: *const u8, block_len: usize, wide: *mut u8, wide_len: usize) -> Answer;
        fn sid_filter_run(
            bundle: *const u8,
            bundle_len: usize,
            curves: *const u8,
            curves_len: usize,
            state: *mut u8,
            state_len: usize,
            decays: *const u8,
            decays_len: usize,
            script: *const u8,
            script_len: usize,
            output: *mut u8,
            output_len: usize,
        ) -> Answer;
        fn sid_filter_collect(
            routing: u8,
            mode: u8,
            voices: *const u8,
            voices_len: usize,
            numbers: *const u8,
            numbers_len: usize,
            sums: *mut u8,
            sums_len: usize,
        ) -> Answer;
    }

    #[link(name = "probe", kind = "static")]
    unsafe extern "C" {
        pub safe fn probe_load_position(conductance: f32) -> Load;
        fn probe_sample(bundle: *const u8, len: usize, conductance: f32, input: f32) -> Value;
        fn probe_any_sample(bundle: *const u8, len: usize, conductance: f32, input: f32) -> f32;
        fn probe_summer_resting_output(bundle: *const u8, len: usize, count: u8) -> f32;
    }

    pub fn open(bundle: &[u8]) -> Answer {
        unsafe { sid_filter_open(bundle.as_ptr(), bundle.len()) }
    }

    pub fn build_curves(bundle: &[u8], curves: &mut [u8]) -> Answer {
        unsafe { sid_filter_build_curves(bundle.as_ptr(), bundle.len(), curves.as_mut_ptr(), curves.len()) }
    }

    pub fn widen_state(block: &[u8], wide: &mut [u8]) -> Answer {
        unsafe { sid_filter_widen_state(block.as_ptr(), block.len(), wide.as_mut_ptr(), wide.len()) }
    }

    /// What is lent to be read are bundle, curves and decays.
    pub fn run([bundle, curves, decays]: [&[u8]; 3], state: &mut [u8], script: &[u8], output: &mut [u8]) -> Answer {
        unsafe {
            sid_filter_run(
                bundle.as_ptr(),
                bundle.len(),
                curves.as_ptr(),
                curves.len(),
                state.as_mut_ptr(),
                state.len(),
                decays.as_ptr(),
                decays.len(),
                script.as_ptr(),
                script.len(),
                output.as_mut_ptr(),
                output.len(),
            )
        }
    }

    pub fn collect(routing: u8, mode: u8, voices: &[u8], numbers: &[u8], sums: &mut [u8]) -> Answer {
        let ((voices, voices_len), (numbers, numbers_len)) = ((voices.as_ptr(), voices.len()), (numbers.as_ptr(), numbers.len()));
        unsafe { sid_filter_collect(routing, mode, voices, voices_len, numbers, numbers_len, sums.as_mut_ptr(), sums.len()) }
    }

    pub fn sample(bundle: &[u8], conductance: f32, input: f32) -> Value {
        unsafe { probe_sample(bundle.as_ptr(), bundle.len(), conductance, input) }
    }

    pub fn any_sample(bundle: &[u8], conductance: f32, input: f32) -> f32 {
        unsafe { probe_any_sample(bundle.as_ptr(), bundle.len(), conductance, input) }
    }

    pub fn summer_resting_output(bundle: &[u8], count: u8) -> f32 {
        unsafe { probe_summer_resting_output(bundle.as_ptr(), bundle.len(), count) }
    }
}

pub const CURVES_LENGTH: usize = 254_076;
pub const SURFACE: usize = 2_105_464;
pub const SURFACE_ENTRIES: usize = 296_960;

pub fn compare() -> Vec<(&'static str, Tally)> {
    let bundle = data("bundle");
    let filter = Filter::new();
    vec![
        ("built curves", curves(&bundle, &filter)),
        ("built curves of other surfaces", other_curves(&bundle)),
        ("load_position", load_position()),
        ("sample", sample(&bundle)),
        ("summer_resting_output", resting_output(&bundle, &filter)),
        ("headers and lengths", headers(&bundle)),
        ("damaged bundles", damaged_bundles(bundle)),
    ]
}

/// A file of the program `vectors_surface`, which oracle/dump made.
pub fn data(name: &str) -> Vec<u8> {
    let path = format!("crates/vectors_surface/data/{name}.bin");
    std::fs::read(&path).unwrap_or_else(|error| panic!("{path}: {error}"))
}

fn records<const N: usize>(name: &str) -> Vec<[u32; N]> {
    let words: Vec<u32> = data(name).chunks_exact(4).map(|bytes| u32::from_le_bytes(bytes.try_into().unwrap())).collect();
    words.chunks_exact(N).map(|record| record.try_into().unwrap()).collect()
}

fn bytes(entries: &[f32]) -> impl Iterator<Item = u8> + '_ {
    entries.iter().flat_map(|entry| entry.to_le_bytes())
}

/// The Rust's curves in the order of the curve buffer.
pub fn curves_of(filter: &Filter) -> Vec<u8> {
    let curves = filter.curves();
    curves.summer.iter().chain(&curves.mixer).chain(&curves.volume).flat_map(|curve| bytes(&curve[..])).collect()
}

pub fn built(bundle: &[u8]) -> Vec<u8> {
    let mut curves = vec![0xa5; CURVES_LENGTH];
    assert_eq!(proved::build_curves(bundle, &mut curves).number, 0);
    curves
}

/// An answer that is a number alone.
pub fn number(number: u32) -> proved::Answer {
    placed(number, 0, 0)
}

fn placed(number: u32, buffer: u32, place: usize) -> proved::Answer {
    proved::Answer { number, events: 0, samples: 0, buffer, place: place as u32 }
}

fn same_entries(tally: &mut Tally, ours: &[u8], theirs: &[u8]) {
    tally.same(ours.len(), theirs.len());
    for (ours, theirs) in ours.chunks_exact(4).zip(theirs.chunks_exact(4)) {
        tally.same(ours, theirs);
    }
}

/// The curves of `Filter::new`, entry by entry.
fn curves(bundle: &[u8], filter: &Filter) -> Tally {
    let mut tally = Tally::default();
    let ours = built(bundle);
    same_entries(&mut tally, &ours, &curves_of(filter));
    tally
}

/// The Rust's steps of `Filter::new` on any surface.
pub fn curves_on(surface: &AnalogueTransferSurface) -> Vec<Box<[f32; 2049]>> {
    let curve = |conductance: f32| surface.build_load_curve(AnalogueTransferSurface::load_position(conductance));
    let summer = (0..7).map(|count| curve(count as f32));
    let mixer = (0..8).map(|count| curve(count as f32 * SID_MIXER_CONDUCTANCE_PER_INPUT));
    let volume = (0..16u8).map(|volume| {
        let mut curve = curve(volume_dac_conductance_code(volume) / SID_VOLUME_CONDUCTANCE_DIVISOR);
        let bias = SID_VOLUME_DAC_BIAS_FULL * (f32::from(volume) / 15.0);
        for entry in curve.iter_mut() {
            *entry = (*entry - SID_VOLUME_OUTPUT_CENTRE + bias) * SID_VOLUME_OUTPUT_GAIN;
        }
        curve
    });
    summer.chain(mixer).chain(volume).collect()
}

pub fn surface_of(bundle: &[u8]) -> AnalogueTransferSurface {
    let entries = &bundle[SURFACE..SURFACE + 4 * SURFACE_ENTRIES];
    AnalogueTransferSurface::of(entries.chunks_exact(4).map(|bits| f32::from_le_bytes(bits.try_into().unwrap())).collect())
}

/// Surfaces of random usable entries, up to 1,024 in magnitude: a volume entry may then be larger, and is written.
fn other_curves(bundle: &[u8]) -> Tally {
    let (mut tally, mut random) = (Tally::default(), Random(20));
    for _ in 0..6 {
        let mut bundle = bundle.to_vec();
        for entry in bundle[SURFACE..SURFACE + 4 * SURFACE_ENTRIES].chunks_exact_mut(4) {
            let value = [1024.0, -1024.0, -0.0, random.float().clamp(-1024.0, 1024.0)][(random.bits() % 8).min(3) as usize];
            entry.copy_from_slice(&if value.is_nan() { 0.0 } else { value }.to_le_bytes());
        }
        let theirs: Vec<u8> = curves_on(&surface_of(&bundle)).iter().flat_map(|curve| bytes(&curve[..]).collect::<Vec<u8>>()).collect();
        same_entries(&mut tally, &built(&bundle), &theirs);
    }
    tally
}

fn load_position() -> Tally {
    let (mut tally, mut random) = (Tally::default(), Random(21));
    let dumped = records("load_position").into_iter().map(|[conductance, ..]: [u32; 4]| f32::from_bits(conductance));
    let others = (0..1_000_000).map(|turn| random.float() * if turn % 2 == 0 { 9.0 } else { 1.0 });
    for conductance in dumped.chain(others) {
        let ours = proved::probe_load_position(conductance);
        let (lower_base, upper_base, fraction) = AnalogueTransferSurface::load_position(conductance).parts();
        let theirs = if conductance.is_finite() { (0, lower_base, upper_base, fraction) } else { (10, 0, 0, 0.0) };
        tally.same((ours.number, ours.lower_base, ours.upper_base), (theirs.0, theirs.1, theirs.2));
        tally.same_float(ours.fraction, theirs.3);
    }
    tally
}

/// A value, or 10 where an argument is refused and the value is 0.
fn same_value(tally: &mut Tally, ours: proved::Value, taken: bool, theirs: f32) {
    tally.same((ours.number, ours.buffer, ours.place), (if taken { 0 } else { 10 }, 0, 0));
    tally.same(word(ours.value), if taken { word(theirs) } else { 0 });
}

fn sample(bundle: &[u8]) -> Tally {
    let (mut tally, mut random) = (Tally::default(), Random(22));
    let surface = surface_of(bundle);
    for [conductance, input, value] in records("sample") {
        let ours = proved::any_sample(bundle, f32::from_bits(conductance), f32::from_bits(input));
        tally.same(word(ours), value);
    }
    for turn in 0..1_000_000 {
        let conductance = random.float() * if turn % 2 == 0 { 9.0 } else { 1.0 };
        let input = random.float();
        let theirs = surface.sample(conductance, input);
        tally.same_float(proved::any_sample(bundle, conductance, input), theirs);
        same_value(&mut tally, proved::sample(bundle, conductance, input), conductance.is_finite() && input.is_finite(), theirs);
    }
    tally
}

fn resting_output(bundle: &[u8], filter: &Filter) -> Tally {
    let mut tally = Tally::default();
    for (count, &theirs) in filter.curves().summer_resting_output.iter().enumerate() {
        tally.same_float(proved::summer_resting_output(bundle, count as u8), theirs);
    }
    tally
}

/// Every value of every header byte, and lengths beside the right one, in all three calls that take a bundle.
fn headers(bundle: &[u8]) -> Tally {
    let mut tally = Tally::default();
    let mut bundle = bundle.to_vec();
    let mut curves = vec![0xa5; CURVES_LENGTH];
    let mut refused = |bundle: &[u8], theirs: proved::Answer| {
        tally.same(proved::open(bundle), theirs);
        tally.same(proved::build_curves(bundle, &mut curves), theirs);
        let value = proved::sample(bundle, f32::NAN, 0.5);
        tally.same((value.number, value.buffer, value.place, word(value.value)), (theirs.number, theirs.buffer, theirs.place, 0));
    };
    for place in 0..56 {
        let byte = bundle[place];
        for other in (0..=255).filter(|&other| other != byte) {
            bundle[place] = other;
            bundle[55] ^= (place < 54 && other % 2 == 0) as u8;
            refused(&bundle, placed(2, 0, place));
            bundle[55] ^= (place < 54 && other % 2 == 0) as u8;
        }
        bundle[place] = byte;
    }
    for length in [0, 1, 55, 56, 57, 6_127_732, 6_127_735] {
        refused(&bundle[..length], number(1));
    }
    bundle.push(0);
    refused(&bundle, number(1));
    tally.same(curves, vec![0xa5; CURVES_LENGTH]);
    tally
}

/// The float of an entry is finite and at most 1,024 in magnitude.
fn usable(entry: &[u8]) -> bool {
    let entry = f32::from_le_bytes(entry.try_into().unwrap());
    entry.is_finite() && entry.abs() <= 1024.0
}

fn first_unusable(bytes: &[u8], from: usize, entries: usize) -> Option<usize> {
    bytes[from..from + 4 * entries].chunks_exact(4).position(|entry| !usable(entry)).map(|index| from + 4 * index)
}

/// One to three entries anywhere, in the surface, or about a section's ends.
fn damaged_bundles(mut bundle: Vec<u8>) -> Tally {
    const ENDS: [usize; 8] = [56, 2_097_208, 2_097_272, SURFACE, 3_293_304, 3_301_496, 6_127_732, SURFACE - 4];
    let (mut tally, mut random) = (Tally::default(), Random(24));
    let whole = bundle.clone();
    for turn in 0..1_500 {
        let damages = 1 + turn % 3;
        let places: Vec<usize> = (0..damages)
            .map(|_| match random.bits() % 4 {
                0 => 56 + 4 * (random.bits() % 1_531_920) as usize,
                1 => ENDS[(random.bits() % 8) as usize],
                _ => SURFACE + 4 * (random.bits() as usize % SURFACE_ENTRIES),
            })
            .collect();
        for &place in &places {
            bundle[place..place + 4].copy_from_slice(&DAMAGES[(random.bits() % 12) as usize].to_le_bytes());
        }

        let opened = first_unusable(&bundle, 56, 1_531_920).map_or(number(0), |place| placed(3, 0, place));
        tally.same(proved::open(&bundle), opened);

        let mut curves = vec![0xa5; CURVES_LENGTH - (turn % 50 == 0) as usize];
        let left = curves.clone();
        let refusal = if turn % 50 == 0 {
            Some(number(4))
        } else {
            first_unusable(&bundle, SURFACE, SURFACE_ENTRIES).map(|place| placed(3, 0, place))
        };
        tally.same(proved::build_curves(&bundle, &mut curves), refusal.unwrap_or(number(0)));
        if refusal.is_some() {
            tally.same(&curves, &left);
        } else if turn % 10 == 0 {
            let theirs = curves_on(&surface_of(&bundle));
            same_entries(&mut tally, &curves, &theirs.iter().flat_map(|curve| bytes(&curve[..]).collect::<Vec<u8>>()).collect::<Vec<u8>>());
        }

        // Samples next to the damage: the four entries in the Rust's order.
        for &place in &places {
            let index = place.wrapping_sub(SURFACE) / 4;
            if index < SURFACE_ENTRIES {
                let (row, column) = (index / 2048, index % 2048);
                for (down, left) in [(0.0, 0.0), (0.5, 0.5), (0.5, 0.0), (0.0, 0.5), (1.0, 0.5), (0.5, 1.0)] {
                    let conductance = ((row as f32 - down) / 16.0).max(0.0);
                    let input = ((column as f32 - left) / 2047.0).max(0.0);
                    damaged_sample(&mut tally, &bundle, conductance, input);
                }
            }
        }
        for place in places {
            bundle[place..place + 4].copy_from_slice(&whole[place..place + 4]);
        }
    }
    tally
}

fn damaged_sample(tally: &mut Tally, bundle: &[u8], conductance: f32, input: f32) {
    let entry = |row: usize, column: usize| SURFACE + 4 * (2048 * row + column);
    let (load, position) = (conductance.clamp(0.0, 9.0) * 144.0 / 9.0, input.clamp(0.0, 1.0) * 2047.0);
    let (row, column) = (load as usize, position as usize);
    let (below, beside) = ((row + 1).min(144), (column + 1).min(2047));
    let corners = [entry(row, column), entry(row, beside), entry(below, column), entry(below, beside)];
    let ours = proved::sample(bundle, conductance, input);
    match corners.into_iter().find(|&place| !usable(&bundle[place..place + 4])) {
        Some(place) => tally.same((ours.number, ours.buffer, ours.place, word(ours.value)), (3, 0, place as u32, 0)),
        None => tally.same((ours.number, ours.buffer, ours.place), (0, 0, 0)),
    }
}
