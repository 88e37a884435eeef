//! Writes into the working folder the bundle (docs/FORMATS.md) and the files of the Rust's answers that the program `vectors` replays.
//! README.md says what is in each file.

#![allow(dead_code)]

include!("sid.rs");

mod answer;
mod clocked;
mod kept;
mod line;
mod numbers;
mod plain;
mod ruler;
mod song;
mod tick_rows;
mod tick_vectors;
mod voices;

use clocked::Lent as Tables;
use constants::*;
use filter::Filter;
use integrator::IntegratorState;
use kept::{control_words, decays, filter_block, put, set_transients, step_cutoff};
use mixing::MixingTopology;
use response::*;
use ruler::{rulers, told, Ruled};
use tables::*;
use transients::TransientState;
use voices::{not_finite_alone, voice, Sources, ENVELOPES, FLAGS, WAVEFORMS};

fn main() {
    let coefficients = build_filter_coefficients();
    let surface = build_analogue_transfer_surface();
    let mut filter = Filter::new();
    let mut ruled = Ruled::new();
    let bundle = bundle(&coefficients, &surface);
    write("bundle", &bundle);
    write_bytes("decays", &decays(&TransientState::new()));

    save("constants", constants(&coefficients[0]));
    save("answers", answers());
    save("rounding", rounding(&mut filter));
    save("round", round());
    save("truncate", truncate());
    save("clamp", clamp());
    save("abs", abs());
    save("finite", finite());
    save("to_f32", to_f32());
    save("narrow", narrow());
    save("words", words(&bundle));
    save("reads", reads());
    save("puts", puts());

    save("saturate", saturate());
    save("advance", advance());
    save("substeps", substeps());
    save("operating_position", operating());
    save("conductance", conductance());
    save("common_mode", common_mode());
    save("mode_gain", mode_gain());
    save("topology", topology());
    save("solve_tridiagonal", solutions());
    save("ladder_weights", weights());
    save("ladder_value", levels());
    save("control_positions", positions());
    save("load_position", load_position());
    save("sample", sample(&surface));
    save("sample_curve", sample_curve(&filter));
    save("curves", curve_entries(&filter));
    save("writes", writes(&mut filter));
    save("charges", charges(&mut filter));
    save("widening", widening(&mut filter));
    save("controls", controls(&mut filter));
    save("filter_sample", filter_samples(&mut filter));
    save("transfers", transfers(&mut filter, &mut ruled));
    save("sample_point", sample_points(&mut filter, &mut ruled));
    write("header", &bundle[..14]);
    let (zero_signs, whole_loads) = whole_loads(bundle[8]).into_iter().partition(|record| record[10] != record[11]);
    save("whole_loads", whole_loads);
    save("zero_signs", zero_signs);
    save("summer_at_rest", summer_at_rest(bundle[8], &mut ruled));
    save("collect", collected());
    save("collect_refused", refused_collects());
    let mut tables = Tables::new(bundle.iter().flat_map(|word| word.to_le_bytes()).collect());
    save("ticks", tick_vectors::ticks(&mut tables));
    save("ticks_damaged", tick_vectors::ticks_damaged(&mut tables));
    for (name, bytes) in song::files(&mut filter) {
        write_bytes(name, &bytes);
    }
    std::fs::write("routing_sheet.txt", routing_sheet()).expect("routing_sheet.txt");

    sums();
}

// ---- Files

fn write(name: &str, words: &[u32]) {
    write_bytes(name, &words.iter().flat_map(|word| word.to_le_bytes()).collect::<Vec<u8>>());
}

fn write_bytes(name: &str, bytes: &[u8]) {
    std::fs::write(format!("{name}.bin"), bytes).unwrap_or_else(|error| panic!("{name}.bin: {error}"));
}

/// One vector file: records of N words.
fn save<const N: usize>(name: &str, records: Vec<[u32; N]>) {
    write(name, records.as_flattened());
    println!("{name}: {} records of {N} words", records.len());
}

/// One record of several parts.
fn joined<const PARTS: usize, const N: usize>(parts: [&[u32]; PARTS]) -> [u32; N] {
    parts.concat().try_into().expect("a record of the stated width")
}

/// The word of an f32: its bits, and one pattern for every NaN.
fn word(x: f32) -> u32 {
    if x.is_nan() {
        0x7fc0_0000
    } else {
        x.to_bits()
    }
}

/// The two words of 64 bits, the low one first.
fn halves(x: u64) -> [u32; 2] {
    [x as u32, (x >> 32) as u32]
}

/// The two words of an f64, with one pattern for every NaN.
fn words_f64(x: f64) -> [u32; 2] {
    halves(if x.is_nan() { 0x7ff8_0000_0000_0000 } else { x.to_bits() })
}

// ---- Inputs

/// FNV-1a, 64 bits.
fn fnv(bytes: impl IntoIterator<Item = u8>) -> u64 {
    bytes.into_iter().fold(0xcbf2_9ce4_8422_2325, |hash, byte| (hash ^ u64::from(byte)).wrapping_mul(0x0000_0100_0000_01b3))
}

/// The generator splitmix64, seeded by a file's name: each file is the same at every dump, whatever the others hold.
struct Random(u64);

impl Random {
    fn of(name: &str) -> Self {
        Random(fnv(name.bytes()))
    }

    fn bits(&mut self) -> u64 {
        self.0 = self.0.wrapping_add(0x9e37_79b9_7f4a_7c15);
        let z = (self.0 ^ (self.0 >> 30)).wrapping_mul(0xbf58_476d_1ce4_e5b9);
        let z = (z ^ (z >> 27)).wrapping_mul(0x94d0_49bb_1331_11eb);
        z ^ (z >> 31)
    }

    fn below(&mut self, count: u32) -> u32 {
        ((self.bits() >> 32) * u64::from(count) >> 32) as u32
    }

    /// From `low` to `high`.
    fn between(&mut self, low: f32, high: f32) -> f32 {
        low + (high - low) * (self.below(1 << 24) as f32 / (1 << 24) as f32)
    }

    fn pick(&mut self, from: &[f32]) -> f32 {
        from[self.below(from.len() as u32) as usize]
    }

    /// Any pattern of bits.
    fn any(&mut self) -> f32 {
        f32::from_bits(self.bits() as u32)
    }

    /// Any finite number.
    fn finite(&mut self) -> f32 {
        self.pick(&[1.0, -1.0]) * f32::from_bits(self.below(0x7f80_0000))
    }

    /// Either sign, magnitude from 2^-60 to 2^60.
    fn double(&mut self) -> f64 {
        let bits = self.bits();
        f64::from_bits((bits & 0x800f_ffff_ffff_ffff) | (u64::from(963 + self.below(120)) << 52))
    }

    /// Either sign, magnitude from 2^-30 to 2^26.
    fn moderate(&mut self) -> f32 {
        let bits = self.bits() as u32;
        f32::from_bits((bits & 0x807f_ffff) | ((97 + self.below(56)) << 23))
    }
}

/// Magnitudes at which a conversion, a comparison or a product changes its course.
const EDGES: [f32; 41] = [
    0.0,
    f32::from_bits(1),
    f32::from_bits(0x007f_ffff),
    f32::MIN_POSITIVE,
    1.0e-30,
    0.25,
    0.499_999_97,
    0.5,
    0.500_000_06,
    0.999_999_94,
    1.0,
    1.000_000_1,
    1.5,
    2.5,
    56.5,
    57.0,
    1_023.999_94,
    1_024.0,
    1_024.000_1,
    2_047.0,
    32_767.0,
    32_768.0,
    65_535.0,
    4_194_303.5,
    4_194_304.5,
    8_388_607.0,
    8_388_607.5,
    8_388_608.0,
    8_388_609.0,
    16_777_215.0,
    16_777_216.0,
    16_777_218.0,
    2_147_483_648.0,
    4_294_967_296.0,
    9_223_372_036_854_775_808.0,
    f32::from_bits(0x5f7f_ffff),
    f32::from_bits(0x5f80_0000),
    1.0e30,
    f32::MAX,
    f32::INFINITY,
    f32::NAN,
];

/// The edges with either sign.
fn edges() -> Vec<f32> {
    EDGES.iter().flat_map(|&x| [x, -x]).collect()
}

/// The edges, then other numbers.
fn inputs(random: &mut Random, others: usize) -> Vec<f32> {
    let mut inputs = edges();
    inputs.extend((0..others).map(|index| if index % 2 == 0 { random.any() } else { random.moderate() }));
    inputs
}

// ---- The bundle

/// The bundle as words: the header, then the six sections.
fn bundle(coefficients: &[FilterCoefficients; 2048], surface: &AnalogueTransferSurface) -> Vec<u32> {
    let sections: [Vec<f32>; 6] = [
        coefficients.iter().flat_map(|code| code.integrator_gain).flatten().collect(),
        coefficients[0].damping.to_vec(),
        coefficients.iter().map(|code| code.source_gain_modulation).collect(),
        surface.entries().to_vec(),
        (0..2048).map(highpass_loading).collect(),
        (0..3 * 2048 * 115).map(|at| directional_power(at / 115 / 2048, (at / 115 % 2048) as u16, (at % 115) as i16 - 57)).collect(),
    ];
    let mut offset = 56;
    let mut places = vec![];
    for section in &sections {
        places.extend([offset, section.len() as u32]);
        offset += 4 * section.len() as u32;
    }
    let mut bundle = vec![offset, sections.len() as u32];
    bundle.extend(places);
    bundle.extend(sections.iter().flatten().map(|entry| entry.to_bits()));
    bundle
}

/// `highpass_loading` of `filter_mode_output_gain`, in its operations.
fn highpass_loading(cutoff: u16) -> f32 {
    let cutoff_position = cutoff as f32 / 2047.0;
    let cutoff_power = cutoff_position.powf(FILTER_HIGHPASS_HIGH_CUTOFF_EXPONENT);
    let knee_power = FILTER_HIGHPASS_HIGH_CUTOFF_KNEE.powf(FILTER_HIGHPASS_HIGH_CUTOFF_EXPONENT);
    let loading_position = cutoff_power / (cutoff_power + knee_power);
    1.0 / (1.0 + FILTER_HIGHPASS_HIGH_CUTOFF_LOAD * loading_position)
}

/// `directional_gain.powf(displacement)` of `refresh_mode_output_gain`, in its operations.
fn directional_power(mode_index: usize, cutoff: u16, displacement_codes: i16) -> f32 {
    let position = cutoff as f32 * 31.0 / 2047.0;
    let lower = position.floor() as usize;
    let upper = (lower + 1).min(31);
    let fraction = position - lower as f32;
    let curve = &FILTER_DIRECTIONAL_LOADING_GAIN[mode_index];
    let directional_gain = curve[lower] + (curve[upper] - curve[lower]) * fraction;
    let displacement = displacement_codes as f32 / FILTER_CUTOFF_STEP_CHARGE_LIMIT_CODES as f32;
    directional_gain.powf(displacement)
}

// ---- Constants

/// The f32 numbers that stand alone, in the order of the crate `constants`.
const SCALARS: [f32; 73] = [
    SID_ANALOGUE_MIN_VOLTS,
    SID_ANALOGUE_MAX_VOLTS,
    SID_VOICE_BASE_VOLTS,
    SID_VOICE_AC_VOLTS,
    SID_VOICE_ENVELOPE_BIAS_VOLTS,
    SID_MIXER_VOICE_AC_GAIN,
    SID_MIXER_CONDUCTANCE_PER_INPUT,
    SID_MIXER_TWO_VOICE_ACTIVITY_LOAD,
    SID_MIXER_TWO_VOICE_VOLUME_GAIN_AT_CODE_9,
    SID_MIXER_TWO_VOICE_VOLUME_GAIN_PER_CODE,
    SID_MIXER_THREE_VOICE_ACTIVITY_LIFT,
    SID_VOLUME_CONDUCTANCE_DIVISOR,
    SID_VOLUME_DAC_CONDUCTANCE_SCALE,
    SID_VOLUME_DAC_COMMON_COMPRESSION,
    SID_OUTPUT_SCALE,
    SID_VOLUME_OUTPUT_CENTRE,
    SID_VOLUME_OUTPUT_GAIN,
    SID_VOLUME_DAC_BIAS_FULL,
    SID_VOLUME_TRANSITION_FAST_CHARGE_FULL_SCALE,
    SID_VOLUME_TRANSITION_SLOW_CHARGE_FULL_SCALE,
    SID_ANALOGUE_MAX_CONDUCTANCE,
    SID_ANALOGUE_QUIESCENT_VOLTS,
    SID_RESONANCE_OUTPUT_LIFT,
    FILTER_INPUT_GAIN,
    FILTER_OUTPUT_GAIN,
    FILTER_LOWPASS_GAIN_AT_MID_RESONANCE,
    FILTER_LOWPASS_GAIN_RESONANCE_DROP,
    FILTER_LOWPASS_OUTPUT_TRIM,
    FILTER_BANDPASS_GAIN_ZERO_CUTOFF,
    FILTER_BANDPASS_GAIN_CUTOFF_SLOPE,
    FILTER_BANDPASS_GAIN_RESONANCE_DROP,
    FILTER_BANDPASS_GAIN_TRIM_ZERO,
    FILTER_BANDPASS_GAIN_TRIM_CUTOFF_SLOPE,
    FILTER_BANDPASS_OUTPUT_TRIM,
    FILTER_LOW_BAND_GAIN_ZERO_CUTOFF,
    FILTER_LOW_BAND_GAIN_CUTOFF_SLOPE,
    FILTER_LOW_BAND_GAIN_RESONANCE_DROP,
    FILTER_LOW_BAND_LOW_RESONANCE_LIFT,
    FILTER_BYPASS_ACTIVITY_LINEAR_GAIN,
    FILTER_BYPASS_ACTIVITY_QUADRATIC_GAIN,
    FILTER_BANDPASS_LOW_COUPLING_MAX,
    FILTER_BANDPASS_LOW_COUPLING_KNEE,
    FILTER_HIGHPASS_LOW_COUPLING_ZERO,
    FILTER_HIGHPASS_LOW_COUPLING_DECAY,
    FILTER_HIGHPASS_GAIN_ZERO,
    FILTER_HIGHPASS_GAIN_CUTOFF_SLOPE,
    FILTER_HIGHPASS_GAIN_RESONANCE_DROP,
    FILTER_HIGHPASS_GAIN_CUTOFF_RESONANCE_DROP,
    FILTER_HIGHPASS_RESONANCE_TRIM_C0,
    FILTER_HIGHPASS_RESONANCE_TRIM_C1,
    FILTER_HIGHPASS_RESONANCE_TRIM_C2,
    FILTER_HIGHPASS_RESONANCE_TRIM_C3,
    FILTER_SOURCE_ENERGY_TRACKING,
    FILTER_SOURCE_ENERGY_KNEE,
    FILTER_SOURCE_RESONANCE_FLOOR,
    FILTER_CUTOFF_STEP_CHARGE_GAIN,
    COMBINED_OUTPUT_COMMON_MODE,
    PURE_BYPASS_OUTPUT_COMMON_MODE,
    FILTER_LOWPASS_COMMON_MODE_FC_0,
    FILTER_LOWPASS_COMMON_MODE_FC_2047,
    FILTER_BANDPASS_COMMON_MODE_FC_0,
    FILTER_BANDPASS_COMMON_MODE_FC_2047,
    FILTER_HIGHPASS_COMMON_MODE_FC_0,
    FILTER_HIGHPASS_COMMON_MODE_FC_2047,
    FILTER_INPUT_COMMON_MODE_ONE_VOICE,
    PURE_BYPASS_ATTACK_COMMON_MODE_ONE_VOICE,
    PURE_BYPASS_ATTACK_COMMON_MODE_TWO_VOICE_DELTA,
    PURE_BYPASS_ATTACK_COMMON_MODE_THREE_VOICE_DELTA,
    PURE_BYPASS_ATTACK_COMMON_MODE_SCALE,
    PURE_BYPASS_ATTACK_WAVEFORM_STATE_COUPLING,
    PURE_PULSE_GATE_RELAXATION_CHARGE,
    PURE_SAW_MIXER_LINEAR,
    PURE_SAW_MIXER_QUADRATIC,
];

/// The f32 tables in that order. The drives are those of every code; a single row stands as one.
fn tables_of(coefficients: &FilterCoefficients) -> Vec<Vec<Vec<f32>>> {
    fn rows<const N: usize>(table: &[[f32; N]]) -> Vec<Vec<f32>> {
        table.iter().map(|row| row.to_vec()).collect()
    }
    vec![
        rows(&[SCALARS]),
        rows(&[SID_VOLUME_DAC_BRANCH_WEIGHTS]),
        rows(&[FILTER_MODE_POLARITY]),
        rows(&[PURE_BYPASS_ATTACK_SCALE_BY_SELECTION]),
        rows(&SID_FROZEN_DAC_POLYNOMIAL),
        rows(&[coefficients.input_drive]),
        rows(&[coefficients.feedback_drive]),
        rows(&FILTER_SINGLE_MODE_CUTOFF_GAIN),
        rows(&FILTER_SINGLE_MODE_RESONANCE_GAIN),
        rows(&FILTER_SYMMETRIC_LOADING_GAIN),
    ]
}

/// Table, row, column, and the entry as two words. Past an end of the last three tables there is a NaN. Tables 10 to 12 are the f64
/// numbers, the counts and the displacement's limit.
fn constants(coefficients: &FilterCoefficients) -> Vec<[u32; 5]> {
    let mut records = vec![];
    for (table, rows) in tables_of(coefficients).iter().enumerate() {
        for (row, entries) in rows.iter().enumerate() {
            records.extend(entries.iter().enumerate().map(|(column, &entry)| [table as u32, row as u32, column as u32, word(entry), 0]));
        }
        if rows.len() == 3 {
            let width = rows[0].len() as u32;
            let past = [(0, width), (2, width), (3, 0), (3, width - 1), (u32::MAX, 0), (0, u32::MAX)];
            records.extend(past.map(|(row, column)| [table as u32, row, column, word(f32::NAN), 0]));
        }
    }
    for (column, entry) in [SID_FILTER_DAC_TWO_R_OVER_R, SID_DAC_LEAKAGE].into_iter().enumerate() {
        let [low, high] = words_f64(entry);
        records.push([10, 0, column as u32, low, high]);
    }
    for (column, entry) in [SID_ANALOGUE_LOAD_BINS, FILTER_SUBSTEPS, FILTER_OPERATING_BINS].into_iter().enumerate() {
        records.push([11, 0, column as u32, entry as u32, 0]);
    }
    records.push([12, 0, 0, FILTER_CUTOFF_STEP_CHARGE_LIMIT_CODES as u32, 0]);
    records
}

// ---- Answers

/// The table of refusals, in which 9 is unused: number, buffer and place of two answers, then those of the first that refuses, with what
/// its row names.
fn answers() -> Vec<[u32; 9]> {
    let mut random = Random::of("answers");
    let numbers = || (0..=12).filter(|&number| number != 9);
    let mut pairs = vec![];
    for first in numbers() {
        for second in numbers() {
            let mut answer = |number| [number, random.below(2), 4 * random.below(1 << 21)];
            let (first, second) = (answer(first), answer(second));
            let [number, buffer, place] = if first[0] == 0 { second } else { first };
            let reported = match number {
                2 => [number, 0, place],
                3 => [number, buffer, place],
                _ => [number, 0, 0],
            };
            pairs.push(joined([&first, &second, &reported]));
        }
    }
    pairs
}

// ---- Rust's std and the words of the bundle

/// Every step: the product rounded, and the displacement that a write of cutoff high leaves.
fn rounding(filter: &mut Filter) -> Vec<[u32; 3]> {
    (-2047i32..=2047)
        .map(|step| {
            let next = step.max(0) as u16;
            let registers = filter.registers();
            registers.cutoff = next & 7;
            registers.cutoff_write_base = (-step).max(0) as u16;
            registers.cutoff_low_pending = true;
            filter.write_cutoff_high((next >> 3) as u8);
            let displacement = filter.registers().cutoff_dac_displacement_codes;
            [step as u32, word((step as f32 * FILTER_CUTOFF_STEP_CHARGE_GAIN).round()), i32::from(displacement) as u32]
        })
        .collect()
}

fn round() -> Vec<[u32; 2]> {
    let mut random = Random::of("round");
    let mut inputs = inputs(&mut random, 2000);
    inputs.extend((0..1000).map(|_| random.below(1 << 13) as f32 - 4096.5));
    inputs.into_iter().map(|x| [word(x), word(x.round())]).collect()
}

fn truncate() -> Vec<[u32; 4]> {
    let mut random = Random::of("truncate");
    let mut inputs = inputs(&mut random, 2000);
    inputs.extend((0..1000).map(|_| random.between(0.0, 2047.0)));
    inputs
        .into_iter()
        .map(|x| {
            let [low, high] = halves((x as usize) as u64);
            [word(x), low, high, i32::from(x as i16) as u32]
        })
        .collect()
}

fn clamp() -> Vec<[u32; 4]> {
    let mut random = Random::of("clamp");
    let bounds = [
        (0.0, 1.0),
        (0.0, 9.0),
        (0.0, 2047.0),
        (-57.0, 57.0),
        (1.0, 1.0),
        (-0.0, 0.0),
        (0.0, -0.0),
        (f32::MIN, f32::MAX),
        (f32::NEG_INFINITY, f32::INFINITY),
        (f32::INFINITY, f32::INFINITY),
    ];
    let mut cases: Vec<(f32, f32, f32)> = bounds.iter().flat_map(|&(low, high)| edges().into_iter().map(move |x| (x, low, high))).collect();
    while cases.len() < 3000 {
        let (x, low, high) = if cases.len() % 2 == 0 {
            (random.any(), random.any(), random.any())
        } else {
            (random.moderate(), random.moderate(), random.moderate())
        };
        if low <= high {
            cases.push((x, low, high));
        }
    }
    cases.into_iter().map(|(x, low, high)| [word(x), word(low), word(high), word(x.clamp(low, high))]).collect()
}

fn abs() -> Vec<[u32; 2]> {
    inputs(&mut Random::of("abs"), 2000).into_iter().map(|x| [word(x), word(x.abs())]).collect()
}

fn finite() -> Vec<[u32; 2]> {
    inputs(&mut Random::of("finite"), 2000).into_iter().map(|x| [word(x), x.is_finite().into()]).collect()
}

/// Kind 0 is u16, 1 i16, 2 i32, 3 usize, which the crate `floats` holds at 2^24 from there on.
fn to_f32() -> Vec<[u32; 3]> {
    let mut random = Random::of("to_f32");
    let from_u16 = |x: u16| [0, x.into(), word(x as f32)];
    let from_i16 = |x: i16| [1, x as u32, word(x as f32)];
    let from_i32 = |x: i32| [2, x as u32, word(x as f32)];
    let from_usize = |x: usize| [3, x as u32, word(x.min(1 << 24) as f32)];
    let mut records = vec![from_u16(0), from_u16(2047), from_u16(u16::MAX)];
    records.extend((0..1000).map(|_| from_u16(random.bits() as u16)));
    records.extend([0, 1, -1, 57, -57, i16::MAX, i16::MIN].map(from_i16));
    records.extend((0..1000).map(|_| from_i16(random.bits() as i16)));
    records.extend([0, 1, -1, 2047, -2047, i32::MAX, i32::MIN].map(from_i32));
    for power in 22..31 {
        records.extend([-2, -1, 0, 1, 2, 3].map(|near| from_i32((1 << power) + near)));
        records.extend([-3, -2, -1, 0, 1, 2].map(|near| from_i32(-(1 << power) + near)));
    }
    records.extend((0..1000).map(|_| from_i32((random.bits() as i32) >> random.below(24))));
    records.extend([0, 1, 15, 2047, (1 << 24) - 1, 1 << 24, (1 << 24) + 1, u32::MAX as usize].map(from_usize));
    records.extend((0..1000).map(|_| from_usize((random.bits() as usize % (1 << 24)) >> random.below(24))));
    records
}

/// f64 to f32, and whether it is finite: ties and their neighbours from subnormal to the largest, then any bits and moderate ones.
fn narrow() -> Vec<[u32; 4]> {
    let mut random = Random::of("narrow");
    let top = f32::MAX as f64;
    let mut inputs = vec![0.0, f64::from_bits(1), f64::MIN_POSITIVE, 1.0, 0.1, top, 1.0e39, f64::MAX, f64::INFINITY, f64::NAN];
    let beyond = top + (top - f32::MAX.next_down() as f64);
    let mut ties = vec![(top + beyond) / 2.0, f32::from_bits(1) as f64 / 2.0, f32::MIN_POSITIVE as f64];
    ties.extend((0..350).map(|index| {
        let below = if index % 3 == 0 { random.below(0x0080_0000) } else { random.below(0x7f7f_ffff) };
        (f32::from_bits(below) as f64 + f32::from_bits(below + 1) as f64) / 2.0
    }));
    inputs.extend(ties.into_iter().flat_map(|tie| [tie.next_down(), tie, tie.next_up()]));
    inputs.extend((0..400).map(|_| f64::from_bits(random.bits() >> 1)));
    inputs.extend((0..600).map(|_| {
        let exponent = 1023 - 152 + u64::from(random.below(282));
        f64::from_bits((random.bits() >> 12) | (exponent << 52))
    }));
    inputs
        .into_iter()
        .flat_map(|x| [x, -x])
        .map(|x| {
            let [low, high] = words_f64(x);
            [low, high, word(x as f32), x.is_finite().into()]
        })
        .collect()
}

/// A usable entry: finite and at most 1,024 in magnitude.
fn usable(bits: u32) -> bool {
    let entry = f32::from_bits(bits);
    entry.is_finite() && entry.abs() <= 1024.0
}

/// Byte place, the word there, and whether it is usable as an entry.
fn words(bundle: &[u32]) -> Vec<[u32; 3]> {
    let mut random = Random::of("words");
    let mut places: Vec<u32> = (0..14).map(|index| 4 * index).collect();
    for section in 0..6 {
        let (offset, count) = (bundle[2 + 2 * section], bundle[3 + 2 * section]);
        places.extend([offset, offset + 4 * (count - 1)]);
    }
    places.extend((0..3000).map(|_| 4 * random.below(bundle.len() as u32)));
    places
        .into_iter()
        .map(|place| {
            let bits = bundle[place as usize / 4];
            [place, bits, usable(bits).into()]
        })
        .collect()
}

// ---- Lent bytes, with the answers that the crate `wire` states

/// Twelve bytes of which the first `length` are lent, and the byte place that is asked for.
struct Lent {
    bytes: [u8; 12],
    length: usize,
    place: usize,
}

impl Lent {
    fn random(random: &mut Random) -> Self {
        let words: [u32; 3] = std::array::from_fn(|_| match random.below(3) {
            0 => random.bits() as u32,
            1 => random.between(-1100.0, 1100.0).to_bits(),
            _ => [0x7fc0_0000, 0xffff_ffff, 0x7f80_0001, 0x7f80_0000, 0xff80_0000, 0x4480_0000, 0x4480_0001, 0x8000_0000]
                [random.below(8) as usize],
        });
        let bytes = words.map(u32::to_le_bytes).as_flattened().try_into().expect("twelve bytes");
        let place = match random.below(8) {
            0 => usize::MAX - random.below(13) as usize,
            _ => random.below(14) as usize,
        };
        Lent { bytes, length: random.below(13) as usize, place }
    }

    /// The N bytes at a place, where all of them are lent.
    fn at<const N: usize>(&self, place: usize) -> Option<[u8; N]> {
        self.bytes[..self.length].get(place..)?.first_chunk().copied()
    }

    fn words(&self) -> [u32; 3] {
        std::array::from_fn(|index| u32::from_le_bytes(self.bytes[4 * index..][..4].try_into().expect("four bytes")))
    }
}

/// What is read from lent bytes: what is not there is 0. The call is 0 byte, 1 u16, 2 i16, 3 u32, 4 f32, 5 usable entry, 6 the index
/// of the first unusable one of `count` entries from the place on.
fn reads() -> Vec<[u32; 9]> {
    let mut random = Random::of("reads");
    (0..3000)
        .map(|_| {
            let lent = Lent::random(&mut random);
            let call = random.below(7);
            let count = [random.below(5), u32::MAX][usize::from(random.below(8) == 0)];
            let word_at = |place: usize| lent.at(place).map_or(0, u32::from_le_bytes);
            let answer = match call {
                0 => lent.at(lent.place).map_or(0, |[byte]| byte.into()),
                1 => lent.at(lent.place).map_or(0, |pair| u16::from_le_bytes(pair).into()),
                2 => lent.at(lent.place).map_or(0, |pair| i32::from(i16::from_le_bytes(pair)) as u32),
                3 => word_at(lent.place),
                4 => word(f32::from_bits(word_at(lent.place))),
                5 => usable(word_at(lent.place)).into(),
                _ => (0..count.min(4)).find(|index| !usable(word_at(lent.place.saturating_add(4 * *index as usize)))).unwrap_or(count),
            };
            let [low, high] = halves(lent.place as u64);
            joined([&[call, lent.length as u32, low, high, count], &lent.words(), &[answer]])
        })
        .collect()
}

/// Length, place, a word to be written there, the twelve bytes before and after: a word that does not fit is not written.
fn puts() -> Vec<[u32; 10]> {
    let mut random = Random::of("puts");
    (0..1000)
        .map(|_| {
            let mut lent = Lent::random(&mut random);
            let before = lent.words();
            let value = random.bits() as u32;
            if let Some([_, _, _, _]) = lent.at(lent.place) {
                lent.bytes[lent.place..][..4].copy_from_slice(&value.to_le_bytes());
            }
            let [low, high] = halves(lent.place as u64);
            joined([&[lent.length as u32, low, high, value], &before, &lent.words()])
        })
        .collect()
}

// ---- Integrator

fn saturate() -> Vec<[u32; 3]> {
    let mut random = Random::of("saturate");
    let mut cases: Vec<(f32, f32)> =
        edges().into_iter().flat_map(|value| [0.48, 2.1, 0.0, -1.0, 1.0e30].map(|drive| (value, drive))).collect();
    cases.extend((0..1500).map(|_| (random.between(-2.0, 2.0), random.between(0.3, 2.3))));
    cases.extend((0..1000).map(|_| (random.moderate(), random.moderate())));
    cases.extend((0..500).map(|_| (random.any(), random.any())));
    cases.into_iter().map(|(value, drive)| [word(value), word(drive), word(IntegratorState::saturate(value, drive))]).collect()
}

/// band, low, driven input, damping, feedback drive, a1, a2, a3.
type Step = [f32; 8];

/// Steps as the filter makes them, then some with one number replaced by an edge, then some wholly of edges.
fn steps(name: &str, count: usize) -> Vec<Step> {
    let mut random = Random::of(name);
    let edges = edges();
    (0..count)
        .map(|index| {
            let damping = random.between(SID_RESONANCE_DAMPING_MIN, SID_RESONANCE_DAMPING_MAX);
            let g = random.between(0.0, 0.95);
            let a1 = 1.0 / (1.0 + g * (g + damping));
            let mut step = [
                random.between(-1.5, 1.5),
                random.between(-1.5, 1.5),
                random.between(-1.5, 1.5),
                damping,
                random.between(0.3, 2.3),
                a1,
                g * a1,
                g * g * a1,
            ];
            match 4 * index / count {
                0 | 1 => {}
                2 => step[random.below(8) as usize] = random.pick(&edges),
                _ => step = std::array::from_fn(|_| random.pick(&edges)),
            }
            step
        })
        .collect()
}

/// One `advance`: high, band, low, and the two states after it.
fn advanced(state: &mut IntegratorState, step: &Step) -> [u32; 5] {
    let [_, _, driven_input, damping, feedback_drive, a1, a2, a3] = *step;
    let outputs = state.advance(driven_input, damping, feedback_drive, a1, a2, a3);
    [outputs.high_pass, outputs.band_pass, outputs.low_pass, state.band_state, state.low_state].map(word)
}

fn state_before(step: &Step) -> IntegratorState {
    IntegratorState { band_state: step[0], low_state: step[1], filter_source_energy: 0.0 }
}

fn advance() -> Vec<[u32; 13]> {
    steps("advance", 2000).iter().map(|step| joined([&step.map(word), &advanced(&mut state_before(step), step)])).collect()
}

/// The same inputs, and the five numbers after each of four advances.
fn substeps() -> Vec<[u32; 28]> {
    steps("substeps", 1000)
        .iter()
        .map(|step| {
            let mut state = state_before(step);
            let after: [[u32; 5]; FILTER_SUBSTEPS] = std::array::from_fn(|_| advanced(&mut state, step));
            joined([&step.map(word), after.as_flattened()])
        })
        .collect()
}

// ---- Response

fn operating() -> Vec<[u32; 6]> {
    let mut random = Random::of("operating_position");
    let edges = edges();
    let mut cases: Vec<[f32; 3]> = edges.iter().flat_map(|&x| [[x, 0.0, 0.0], [0.0, x, 0.0], [0.0, 0.0, x]]).collect();
    cases.extend((0..2000).map(|_| std::array::from_fn(|_| random.between(-1.5, 1.5))));
    cases.extend((0..300).map(|_| std::array::from_fn(|_| random.moderate())));
    cases.extend((0..300).map(|_| std::array::from_fn(|_| random.pick(&edges))));
    cases
        .into_iter()
        .map(|case| {
            let (lower, upper, fraction) = operating_position(case[0], case[1], case[2]);
            joined([&case.map(word), &[lower as u32, upper as u32, word(fraction)]])
        })
        .collect()
}

fn conductance() -> Vec<[u32; 2]> {
    (0..16).map(|volume| [volume.into(), word(volume_dac_conductance_code(volume))]).collect()
}

fn common_mode() -> Vec<[u32; 3]> {
    let mut random = Random::of("common_mode");
    let mut cutoffs = vec![0, 1, 1023, 2046, 2047];
    cutoffs.extend((0..195).map(|_| random.below(2048)));
    (0..16)
        .flat_map(|mode: u8| cutoffs.iter().map(move |&cutoff| [mode.into(), cutoff, word(filter_output_common_mode(mode, cutoff as u16))]))
        .collect()
}

/// Mode, resonance, cutoff, the gain, and the bundle's `highpass_loading` at the cutoff.
fn mode_gain() -> Vec<[u32; 5]> {
    let mut random = Random::of("mode_gain");
    let mut records = vec![];
    for mode in 0..16u8 {
        for resonance in 0..16 {
            let mut cutoffs = vec![0, 2047, 66, 67];
            cutoffs.extend((0..8).map(|_| random.below(2048)));
            records.extend(cutoffs.into_iter().map(|cutoff| {
                let gain = filter_mode_output_gain(mode, resonance, cutoff as u16);
                [mode.into(), resonance as u32, cutoff, word(gain), word(highpass_loading(cutoff as u16))]
            }));
        }
    }
    records
}

// ---- Mixing

fn topology() -> Vec<[u32; 19]> {
    (0..=255u8)
        .map(|pair| {
            let (routing, mode) = (pair >> 4, pair & 15);
            let mut topology = MixingTopology::new();
            topology.update(routing, mode);
            let reciprocals = [topology.filter_input_reciprocal, topology.summer_input_reciprocal, topology.mixer_input_reciprocal];
            joined([
                &[routing.into(), mode.into()],
                &topology.filter_membership.map(u32::from),
                &topology.bypass_membership.map(u32::from),
                &line::counts(&topology).map(|count| count as u32),
                &reciprocals.map(word),
                &[topology.filter_internal_mask.into(), topology.bypass_internal_mask.into()],
            ])
        })
        .collect()
}

/// What the program `routing_sheet` prints: the line of every routing and mode nibble, and the totals of the counts.
fn routing_sheet() -> String {
    let (mut sheet, mut totals, mut topology) = (String::new(), [0; 4], MixingTopology::new());
    for routing in 0..16 {
        for mode in 0..16 {
            topology.update(routing, mode);
            sheet += &format!("{routing} {mode} {}", line::line(&topology));
            for (total, count) in totals.iter_mut().zip(line::counts(&topology)) {
                *total += count;
            }
        }
    }
    let [filter, bypass, output, mixer] = totals;
    sheet + &format!("total {filter} {bypass} {output} {mixer}\n")
}

// ---- Ladder

fn twelve_words(xs: &[f64; 12]) -> [u32; 24] {
    joined([xs.map(words_f64).as_flattened()])
}

/// Lower, diagonal, upper and right side of a network, its solution. In turn: a diagonal that outweighs the links, any numbers, zeros of
/// either sign among them, and one entry that is not finite.
fn solutions() -> Vec<[u32; 120]> {
    let mut random = Random::of("solve_tridiagonal");
    (0..400)
        .map(|number| {
            let mut network = [[0.0; 12]; 4];
            for entry in network.as_flattened_mut() {
                *entry = if number % 4 == 0 { random.between(-1.0, 1.0).into() } else { random.double() };
            }
            match number % 4 {
                0 => network[1] = network[1].map(|entry| entry + 4.0),
                2 => (0..6).for_each(|_| network[random.below(4) as usize][random.below(12) as usize] = random.pick(&[0.0, -0.0]).into()),
                3 => {
                    let odd = random.pick(&[f32::INFINITY, f32::NEG_INFINITY, f32::NAN]).into();
                    network[random.below(4) as usize][random.below(12) as usize] = odd;
                }
                _ => (),
            }
            let parts = network.map(|part| twelve_words(&part));
            joined([parts.as_flattened(), &twelve_words(&twelve_solved(&network))])
        })
        .collect()
}

/// Code, leakage, the twelve weights, the level.
fn levels() -> Vec<[u32; 29]> {
    let mut random = Random::of("ladder_value");
    let cutoff = twelve_weights(SID_FILTER_DAC_TWO_R_OVER_R, false);
    let codes = [0, 1, 2, 1_365, 2_047, 2_048, 2_049, 4_094, 4_095, 4_096, 4_097, u32::MAX];
    let mut inputs: Vec<(u32, f64, [f64; 12])> = codes.map(|code| (code, SID_DAC_LEAKAGE, cutoff)).to_vec();
    for weight in [0.0, -0.0, 1.0, f64::MIN_POSITIVE, f64::MAX, f64::INFINITY, f64::NAN] {
        for leakage in [0.0, -0.0, SID_DAC_LEAKAGE, -1.0, f64::INFINITY, f64::NAN] {
            inputs.extend([0, 2_730, 4_095].map(|code| (code, leakage, [weight; 12])));
        }
    }
    inputs.extend((0..200).map(|_| (random.below(4_096), SID_DAC_LEAKAGE, cutoff)));
    inputs.extend((0..200).map(|_| (random.below(4_096), random.double(), [0.0; 12].map(|_: f64| random.double()))));
    inputs
        .into_iter()
        .map(|(code, leakage, weights)| {
            let level = twelve_value(code as usize, &weights, leakage);
            joined([&[code], &words_f64(leakage), &twelve_words(&weights), &words_f64(level)])
        })
        .collect()
}

/// Ratio, terminated, the twelve weights.
fn weights() -> Vec<[u32; 27]> {
    let mut random = Random::of("ladder_weights");
    let mut ratios =
        vec![SID_FILTER_DAC_TWO_R_OVER_R, SID_VOICE_DAC_TWO_R_OVER_R, 2.0, 1.0, 0.5, -2.0, 1.0e-12, 1.0e12, 1.0e-310, f64::INFINITY];
    ratios.extend([0.0, -0.0, f64::NAN]);
    ratios.extend((0..187).map(|_| random.between(0.5, 4.0) as f64 + random.between(0.0, 1.0e-7) as f64));
    ratios
        .into_iter()
        .flat_map(|ratio| [(ratio, false), (ratio, true)])
        .map(|(ratio, terminated)| joined([&words_f64(ratio), &[terminated.into()], &twelve_words(&twelve_weights(ratio, terminated))]))
        .collect()
}

fn positions() -> Vec<[u32; 2]> {
    control_positions().into_iter().enumerate().map(|(code, position)| [code as u32, word(position)]).collect()
}

// ---- Surface and curves

fn load_position() -> Vec<[u32; 4]> {
    let mut random = Random::of("load_position");
    let mut inputs = edges();
    inputs.extend((0..=144).map(|load| load as f32 / 16.0).flat_map(|load| [load.next_down(), load, load.next_up()]));
    inputs.extend((0..8).map(|count| count as f32 * SID_MIXER_CONDUCTANCE_PER_INPUT));
    inputs.extend((0..16).map(|volume| volume_dac_conductance_code(volume) / SID_VOLUME_CONDUCTANCE_DIVISOR));
    inputs.extend((0..1500).map(|_| random.between(-0.5, 9.5)));
    inputs
        .into_iter()
        .map(|conductance| {
            let (lower, upper, fraction) = AnalogueTransferSurface::load_position(conductance).parts();
            [word(conductance), lower as u32, upper as u32, word(fraction)]
        })
        .collect()
}

/// Inputs at and beyond the ends of a curve.
const ENDS: [f32; 12] =
    [0.0, -0.0, f32::MIN_POSITIVE, -1.0, 0.999_999_94, 1.0, 1.000_000_1, 2.0, f32::MAX, f32::INFINITY, f32::NEG_INFINITY, f32::NAN];

/// Conductance and input: the ends, every step of either axis, and others.
fn sample(surface: &AnalogueTransferSurface) -> Vec<[u32; 3]> {
    let mut random = Random::of("sample");
    let mut cases: Vec<(f32, f32)> = [0.0, 2.0, 4.5, 9.0, -1.0, 10.0].iter().flat_map(|&load| ENDS.map(|input| (load, input))).collect();
    cases.extend(ENDS.map(|load| (load, 0.376_4)));
    cases.extend((0..=144).map(|load| (load as f32 / 16.0, random.between(0.0, 1.0))));
    cases.extend((0..2048).map(|step| (random.between(0.0, 9.0), step as f32 / 2047.0)));
    cases.extend((0..1200).map(|_| (random.between(-0.2, 9.2), random.between(-0.1, 1.1))));
    cases.into_iter().map(|(load, input)| [word(load), word(input), word(surface.sample(load, input))]).collect()
}

/// The 31 curves in their order: summer, mixer, volume.
fn curves(filter: &Filter) -> Vec<&[f32; 2049]> {
    let curves = filter.curves();
    curves.summer.iter().chain(&curves.mixer).chain(&curves.volume).map(Box::as_ref).collect()
}

/// Number, value, index and fraction. What is refused has its number and zeros.
fn point(number: u32, value: f32, (index, fraction): (u32, f32)) -> [u32; 4] {
    match number {
        0 => [0, word(value), index, word(fraction)],
        _ => [number, 0, 0, 0],
    }
}

/// Every curve at the ends, each step of the input and others; and numbers that are no curve's, some of them one's in their lowest byte.
fn sample_curve(filter: &Filter) -> Vec<[u32; 6]> {
    let mut random = Random::of("sample_curve");
    let (curves, rulers) = (curves(filter), rulers());
    let mut cases: Vec<(u32, f32)> = (0..31).flat_map(|curve| ENDS.map(|input| (curve, input))).collect();
    cases.extend((0..2048).map(|step| (random.below(31), step as f32 / 2047.0)));
    cases.extend((0..1200).map(|_| (random.below(31), random.between(-0.1, 1.1))));
    cases.extend([31, 255, 256, 259, 286, 287, 65_539, 1 << 31, u32::MAX].map(|curve| (curve, 0.5)));
    let at = |(curve, input): (u32, f32)| match curves.get(curve as usize) {
        Some(entries) if input.is_finite() => {
            let place = told(|ruler| AnalogueTransferSurface::sample_curve(&rulers[ruler], input));
            point(0, AnalogueTransferSurface::sample_curve(entries, input), place)
        }
        _ => point(10, 0.0, (0, 0.0)),
    };
    cases.into_iter().map(|case| joined([&[case.0, word(case.1)], &at(case)])).collect()
}

/// Every entry of the 31 curves, by its number among the words of the lent buffer.
fn curve_entries(filter: &Filter) -> Vec<[u32; 2]> {
    curves(filter).into_iter().flatten().zip(0..).map(|(&entry, number)| [number, word(entry)]).collect()
}

// ---- Register writes

/// Cutoff, displacement, write base, pending.
fn cutoff_words(filter: &mut Filter) -> [u32; 4] {
    let registers = filter.registers();
    [
        registers.cutoff.into(),
        i32::from(registers.cutoff_dac_displacement_codes) as u32,
        registers.cutoff_write_base.into(),
        registers.cutoff_low_pending.into(),
    ]
}

/// Walks of cutoff writes from the starting value: the state before, the register (0 low, 1 high), the value, the state after, and
/// the effective cutoff. Half of the values lie near the cutoff, where the displacement is seldom at its limit.
fn writes(filter: &mut Filter) -> Vec<[u32; 11]> {
    let mut random = Random::of("writes");
    let mut records = vec![];
    for _ in 0..10 {
        filter.reset();
        for _ in 0..300 {
            let before = cutoff_words(filter);
            let register = random.below(2);
            let value = match random.below(4) {
                0 => random.bits() as u8,
                1 => [0, 7, 248, 255][random.below(4) as usize],
                _ => ((before[0] >> 3) as u8).wrapping_add(random.below(17) as u8).wrapping_sub(8),
            };
            match register {
                0 => filter.write_cutoff_low(value),
                _ => filter.write_cutoff_high(value),
            }
            let effective = filter.control().effective_cutoff_index as u32;
            records.push(joined([&before, &[register, value.into()], &cutoff_words(filter), &[effective]]));
        }
    }
    records
}

// ---- States, as blocks

/// The block of the filter's state as words.
fn block_words(filter: &mut Filter) -> [u32; 17] {
    let block = filter_block(filter);
    std::array::from_fn(|index| u32::from_le_bytes(block[4 * index..][..4].try_into().expect("four bytes")))
}

/// Band, low, energy.
fn integrator_floats(filter: &mut Filter) -> [f32; 3] {
    let kept = filter.state();
    [kept.band_state, kept.low_state, kept.filter_source_energy]
}

fn set_integrator(filter: &mut Filter, [band_state, low_state, filter_source_energy]: [f32; 3]) {
    *filter.state() = IntegratorState { band_state, low_state, filter_source_energy };
}

/// Any registers, by writes: every fourth time with a low write pending.
fn write_any(filter: &mut Filter, random: &mut Random) {
    let from = random.below(2048) as u16;
    let to = if random.below(2) == 0 { random.below(2048) as u16 } else { (from + random.below(129) as u16).saturating_sub(64).min(2047) };
    step_cutoff(filter, from, to);
    if random.below(4) == 0 {
        filter.write_cutoff_low(random.bits() as u8);
    }
    filter.write_signal_routing(random.bits() as u8);
    filter.write_mode_and_volume(random.bits() as u8);
}

/// Any charges, by their usual sizes; every other time the code is that of the volume.
fn charge_any(filter: &mut Filter, random: &mut Random) {
    const SIZES: [f32; 10] = [3_200.0, 2_800.0, 1.0, 300.0, 300.0, 16.0, 3.0, 1.0, 1.0, 1.0];
    let mut floats = SIZES.map(|size| match random.below(4) {
        0 => random.pick(&[0.0, -0.0]),
        1 => random.finite(),
        _ => random.between(-size, size),
    });
    if random.below(2) == 0 {
        floats[5] = volume_dac_conductance_code(filter.registers().volume);
    }
    let mut block = [0; 68];
    block[24..64].copy_from_slice(floats.map(f32::to_le_bytes).as_flattened());
    block[64] = random.below(2) as u8;
    set_transients(filter.transients(), &block);
}

/// The places of the fast and the slow charge and of the conductance code in a block.
const FAST: usize = 24;
const SLOW: usize = 28;
const CODE: usize = 44;

/// The block of a volume, with floats at their places and else zeros.
fn charged(volume: u8, floats: &[(usize, f32)]) -> [u8; 68] {
    let mut block = [0; 68];
    block[10] = volume;
    for (place, float) in floats {
        block[*place..][..4].copy_from_slice(&float.to_le_bytes());
    }
    block
}

/// The smallest blocks that show each course of a mode write, each with the volume that is written.
fn least_charged() -> Vec<([u8; 68], u8)> {
    const OVERFLOWS: f32 = 1.654_913_1e36;
    let code = volume_dac_conductance_code;
    // The full step, and back.
    let full = [(FAST, -3152.0623), (SLOW, -2777.7222), (CODE, code(15))];
    let mut cases = vec![(charged(0, &[]), 15), (charged(15, &full), 0)];
    // The volume stays, and -0.0 becomes +0.0; a code of -0.0 leaves it.
    cases.extend((0..16).map(|volume| (charged(volume, &[(FAST, -0.0), (SLOW, -0.0), (CODE, code(volume))]), volume)));
    cases.push((charged(0, &[(FAST, -0.0), (SLOW, -0.0), (CODE, -0.0)]), 0));
    // A code that is not the volume's.
    cases.extend((0..=255).map(|pair| (charged(15 - pair / 16, &[(CODE, code(pair / 16))]), pair % 16)));
    for sign in [1.0, -1.0] {
        // The fast charge overflows from a code on, and the slow one alone where it is large before.
        let codes = [OVERFLOWS.next_down(), OVERFLOWS, OVERFLOWS.next_up(), f32::MAX];
        cases.extend(codes.map(|code| (charged(0, &[(CODE, sign * code)]), 0)));
        let charges = [(SLOW, 3.0e38), (SLOW, -3.0e38), (FAST, 3.0e38)];
        cases.extend(charges.map(|(place, charge)| (charged(0, &[(CODE, sign * 1.2e36), (place, sign * charge)]), 0)));
    }
    cases
}

/// A state's block and the value of a mode write; the block after it, and whether both volume charges are finite there.
fn mode_write(filter: &mut Filter, value: u8) -> [u32; 36] {
    let before = block_words(filter);
    filter.write_mode_and_volume(value);
    let after = block_words(filter);
    let finite = [FAST, SLOW].iter().all(|place| f32::from_bits(after[place / 4]).is_finite());
    joined([&before, &[value.into()], &after, &[finite.into()]])
}

/// Mode writes: from the smallest states that show each course, then from any, of which every eighth keeps its volume and another is about
/// where a charge overflows.
fn charges(filter: &mut Filter) -> Vec<[u32; 36]> {
    let mut random = Random::of("charges");
    let mut records = vec![];
    for (block, volume) in least_charged() {
        put(filter, &block);
        records.push(mode_write(filter, volume));
    }
    for number in 0..2048 {
        write_any(filter, &mut random);
        set_integrator(filter, [(); 3].map(|()| random.between(-1.5, 1.5)));
        charge_any(filter, &mut random);
        if number % 8 == 1 {
            filter.transients().volume_conductance_code = random.between(-3.2e36, 3.2e36);
        }
        let (volume, value) = (filter.registers().volume, random.bits() as u8);
        records.push(mode_write(filter, if number % 8 == 0 { value & 0xf0 | volume } else { value }));
    }
    records
}

/// The first 24 bytes of a block and the block that they widen to: the code that a write of the volume leaves, and nothing charged. Every
/// volume from the starting value, then from any registers.
fn widening(filter: &mut Filter) -> Vec<[u32; 23]> {
    let mut random = Random::of("widening");
    (0..128u8)
        .map(|number| {
            filter.reset();
            if number >= 16 {
                write_any(filter, &mut random);
                set_integrator(filter, [(); 3].map(|()| random.finite()));
            }
            let mode = filter.registers().mode;
            filter.write_mode_and_volume(mode << 4 | number % 16);
            let volume_conductance_code = filter.transients().volume_conductance_code;
            *filter.transients() = TransientState { volume_conductance_code, ..TransientState::new() };
            let wide = block_words(filter);
            joined([&wide[..6], &wide])
        })
        .collect()
}

// ---- The filter's core

/// A state's block, then every field of the control cache in its order: every resonance and mode at cutoffs that are at an end, displaced to
/// an end or displaced from one, with the charges that the writes leave; then any registers and charges.
fn controls(filter: &mut Filter) -> Vec<[u32; 83]> {
    let (mut random, mut charges) = (Random::of("controls"), Random::of("controls, charges"));
    let steps = [(0, 0), (2047, 2047), (2047, 0), (0, 2047), (0, 66), (2047, 1981)];
    let mut records = vec![];
    let mut record = |filter: &mut Filter| {
        let block = block_words(filter);
        records.push(joined([&block, &control_words(filter.control())]));
    };
    filter.reset();
    for (from, to) in steps {
        step_cutoff(filter, from, to);
        for pair in 0..=255u8 {
            filter.write_signal_routing(pair & 0xf0 | if pair == 0 { 3 } else { random.below(16) as u8 });
            filter.write_mode_and_volume(pair << 4 | random.below(16) as u8);
            record(filter);
        }
    }
    for _ in 0..1024 {
        write_any(filter, &mut random);
        charge_any(filter, &mut charges);
        record(filter);
    }
    records
}

/// Band, low, energy before a sample. In turn: zeros of either sign with nothing routed in and with something, an energy of minus the knee,
/// a capacitor so high that the saturation's cube is near overflow, any numbers, and what the filter meets.
fn state_floats(filter: &mut Filter, random: &mut Random, number: usize) -> [f32; 3] {
    let zeros = std::array::from_fn(|bit| if number >> bit & 1 == 0 { 0.0 } else { -0.0 });
    let resonance = (random.below(16) << 4) as u8;
    match number {
        0..128 => {
            filter.write_signal_routing(resonance);
            zeros
        }
        128..256 => {
            filter.write_signal_routing(resonance | (1 + random.below(15)) as u8);
            zeros
        }
        256..512 => [random.between(-1.5, 1.5), random.between(-1.5, 1.5), -FILTER_SOURCE_ENERGY_KNEE],
        512..1024 => {
            let [band, low] = [(); 2].map(|()| random.pick(&[1.0, -1.0]) * random.between(1.0e11, 8.0e12));
            let energy = random.between(0.0, 1.0);
            [[band, low, energy], [band, 0.25, energy], [-0.5, low, energy]][number % 3]
        }
        1024..1536 => [random.any(), random.moderate(), random.moderate()],
        _ => [random.between(-1.5, 1.5), random.between(-1.5, 1.5), random.between(0.0, 1.0)],
    }
}

/// A sum and an energy as the filter meets them, now and then one of them an edge.
fn any_input(random: &mut Random, edges: &[f32]) -> [f32; 2] {
    let mut input = [random.between(0.0, 4.0), random.between(0.0, 2.0)];
    if random.below(8) == 0 {
        input[random.below(2) as usize] = random.pick(edges);
    }
    input
}

/// A state's block, the input's sum and the source's energy; high, band, low and what the mode selects, and the block after the sample. Samples
/// that leave the finite domain are left out.
fn filter_samples(filter: &mut Filter) -> Vec<[u32; 40]> {
    let (mut random, mut charges) = (Random::of("filter_sample"), Random::of("filter_sample, charges"));
    let edges: Vec<f32> = edges().into_iter().filter(|x| x.is_finite()).collect();
    let mut records = vec![];
    for number in 0..4096 {
        write_any(filter, &mut random);
        let state = state_floats(filter, &mut random, number);
        let input = any_input(&mut random, &edges);
        set_integrator(filter, state);
        charge_any(filter, &mut charges);
        let before = block_words(filter);
        let outputs = filter.sample(input[0], input[1]);
        let after = integrator_floats(filter);
        if state.iter().chain(&outputs).chain(&after).all(|x| x.is_finite()) {
            records.push(joined([&before, &input.map(word), &outputs.map(word), &block_words(filter)]));
        }
    }
    records
}

/// A transfer, its two nibbles and its input; number, value, index and fraction. 0 is the summer, by the routing; 1 the mixer, by routing and
/// mode; 2 the volume DAC, by the volume. A nibble that is not there is 0. Every nibble at the ends and at others, and one that is no nibble.
fn transfers(filter: &mut Filter, ruled: &mut Ruled) -> Vec<[u32; 8]> {
    let mut random = Random::of("transfers");
    let mut cases: Vec<(u32, u8, u8, f32)> = vec![];
    for nibble in 0..=16 {
        for transfer in [0, 2] {
            cases.extend(ENDS.map(|input| (transfer, nibble, 0, input)));
            cases.extend((0..40).map(|_| (transfer, nibble, 0, random.between(-0.5, 4.5))));
        }
        for mode in 0..=16 {
            cases.extend([random.pick(&ENDS), 0.0, -0.0, random.between(-0.5, 7.5)].map(|input| (1, nibble, mode, input)));
        }
    }
    let mut at = |(transfer, first, second, input): (u32, u8, u8, f32)| {
        let number = match transfer {
            _ if first > 15 || second > 15 => 10,
            _ if input.is_finite() => 0,
            0 => 5,
            _ => 10,
        };
        if number != 0 {
            return point(number, 0.0, (0, 0.0));
        }
        let ask = |filter: &mut Filter| {
            filter.write_signal_routing(first);
            filter.write_mode_and_volume(if transfer == 2 { first } else { second << 4 });
            match transfer {
                0 => filter.summer(input),
                1 => filter.mixer(input),
                _ => filter.volume(input),
            }
        };
        point(0, ask(filter), ruled.told(ask))
    };
    cases.into_iter().map(|case| joined([&[case.0, case.1.into(), case.2.into(), word(case.3)], &at(case)])).collect()
}

/// A state's block, the input's sum and the source's energy; number, value, index and fraction of the summer in that sample, zeros where it is
/// idle. Samples that leave the finite domain are left out.
fn sample_points(filter: &mut Filter, ruled: &mut Ruled) -> Vec<[u32; 23]> {
    let (mut random, mut charges) = (Random::of("sample_point"), Random::of("sample_point, charges"));
    let edges = edges();
    let mut records = vec![];
    for number in 0..4096 {
        write_any(filter, &mut random);
        let state = state_floats(filter, &mut random, number);
        let [sum, energy] = any_input(&mut random, &edges);
        set_integrator(filter, state);
        charge_any(filter, &mut charges);
        let before = block_words(filter);
        let routing = filter.registers().resonance << 4 | filter.registers().routing;
        let sampled = |filter: &mut Filter| {
            filter.write_signal_routing(routing);
            set_integrator(filter, state);
            filter.sample(sum, energy)
        };
        let refused = if sum.is_finite() && energy.is_finite() { 0 } else { 5 };
        let told = if refused != 0 {
            point(refused, 0.0, (0, 0.0))
        } else if ruled.reads(|blank| sampled(blank)[0]) {
            let place = ruled.told(|filter| {
                filter.write_signal_routing(routing);
                filter.summer(sum)
            });
            point(0, filter.summer(sum), place)
        } else {
            point(0, 0.0, (0, 0.0))
        };
        let outputs = sampled(filter);
        let after = integrator_floats(filter);
        if state.iter().all(|x| x.is_finite()) && (refused != 0 || outputs.iter().chain(&after).all(|x| x.is_finite())) {
            records.push(joined([&before, &[sum, energy].map(word), &told]));
        }
    }
    records
}

// ---- Whole loads, on surfaces of zeros but for four entries

/// The entries about a load and an input: lower left, lower right, upper left, upper right, each with its index in the surface's table.
struct Corners([(usize, f32); 4]);

impl Corners {
    fn about(load: u32, input: f32, [lower_left, lower_right, upper_left, upper_right]: [f32; 4]) -> Self {
        let (lower, upper, _) = AnalogueTransferSurface::load_position(load as f32).parts();
        let column = AnalogueTransferSurface::sample_curve(&rulers()[0], input) as usize;
        let next = (column + 1).min(2047);
        Corners([(lower + column, lower_left), (lower + next, lower_right), (upper + column, upper_left), (upper + next, upper_right)])
    }

    fn surface(&self) -> AnalogueTransferSurface {
        let mut entries = vec![0.0; SID_ANALOGUE_LOAD_BINS * 2048];
        for &(index, entry) in &self.0 {
            entries[index] = entry;
        }
        AnalogueTransferSurface::of(entries)
    }

    /// The byte of each in a bundle whose surface begins at byte `from`, and its bits.
    fn words(&self, from: u32) -> [u32; 8] {
        joined(self.0.map(|(index, entry)| [from + 4 * index as u32, word(entry)]).each_ref().map(|words| &words[..]))
    }
}

/// Every four of both zeros and both smallest floats, between which zeros of either sign come out.
fn near_zero() -> Vec<[f32; 4]> {
    const NEAR: [f32; 4] = [0.0, -0.0, f32::from_bits(1), -f32::from_bits(1)];
    (0..256).map(|four| std::array::from_fn(|corner| NEAR[four >> (2 * corner) & 3])).collect()
}

/// Any entries, some of them ends.
fn any_entries(random: &mut Random) -> [f32; 4] {
    std::array::from_fn(|_| match random.below(2) {
        0 => random.pick(&[0.0, -0.0, f32::from_bits(1), 1024.0, -1024.0]),
        _ => random.between(-1.0, 1.0),
    })
}

/// Four entries, a load of 0 to 6 and an input; what the surface gives and what the curve built at that load gives. First, at every load, entries
/// of which the two are zeros that differ in sign; then those near zero at the fractions 0.75, 0.5 and 0.25; then any.
fn whole_loads(from: u32) -> Vec<[u32; 12]> {
    let mut random = Random::of("whole_loads");
    let smallest = f32::from_bits(1);
    let mut cases: Vec<(u32, f32, [f32; 4])> = (0..7).map(|load| (load, 0.5, [-0.0, -smallest, -smallest, smallest])).collect();
    for input in [0.25, 0.5, 0.75] {
        cases.extend(near_zero().into_iter().map(|entries| (random.below(7), input, entries)));
    }
    cases.extend(ENDS.iter().filter(|input| input.is_finite()).map(|&input| (random.below(7), input, any_entries(&mut random))));
    cases.extend((0..256).map(|_| (random.below(7), random.between(0.0, 1.0), any_entries(&mut random))));
    cases
        .into_iter()
        .map(|(load, input, entries)| {
            let corners = Corners::about(load, input, entries);
            let surface = corners.surface();
            let curve = surface.build_load_curve(AnalogueTransferSurface::load_position(load as f32));
            let (sampled, read) = (surface.sample(load as f32, input), AnalogueTransferSurface::sample_curve(&curve, input));
            joined([&corners.words(from), &[load, word(input)], &[word(sampled), word(read)]])
        })
        .collect()
}

/// Four entries about the summer's rest with no input routed, and a sum of 0 of either sign; number, value, index and fraction of the summer.
fn summer_at_rest(from: u32, ruled: &mut Ruled) -> Vec<[u32; 13]> {
    let mut random = Random::of("summer_at_rest");
    let mut filter = Filter::new();
    let rest = filter_mode_quiescent_level();
    let mut cases = near_zero();
    cases.extend((0..256).map(|_| any_entries(&mut random)));
    cases
        .into_iter()
        .map(|entries| {
            let corners = Corners::about(2, rest, entries);
            let surface = corners.surface();
            let curves = filter.curves_mut();
            curves.summer[2] = surface.build_load_curve(AnalogueTransferSurface::load_position(2.0));
            curves.summer_resting_output[2] = surface.sample(2.0, rest);
            let (sum, mode) = (random.pick(&[0.0, -0.0]), random.bits() as u8);
            let ask = |filter: &mut Filter| {
                filter.write_signal_routing(0);
                filter.write_mode_and_volume(mode);
                filter.summer(sum)
            };
            joined([&corners.words(from), &[word(sum)], &point(0, ask(&mut filter), ruled.told(ask))])
        })
        .collect()
}

/// Says from what zero an iterator's sum of floats starts in this compiler.
fn sums() {
    let (none, one): ([f32; 0], [f32; 1]) = ([], [-0.0]);
    println!("an empty sum of f32 is {:?}, the sum of [-0.0] is {:?}", none.iter().sum::<f32>(), one.iter().sum::<f32>());
    let (none, one): ([f64; 0], [f64; 1]) = ([], [-0.0]);
    println!("an empty sum of f64 is {:?}, the sum of [-0.0] is {:?}", none.iter().sum::<f64>(), one.iter().sum::<f64>());
}

// ---- Voices

/// The words of nibbles, voices and numbers: two, nine and six.
fn source_words(sources: &Sources) -> [u32; 17] {
    let bytes = [&sources.voice_bytes()[..], &sources.number_bytes()].concat();
    let words: Vec<u32> = bytes.chunks_exact(4).map(|word| u32::from_le_bytes(word.try_into().expect("four bytes"))).collect();
    joined([&[sources.routing.into(), sources.mode.into()], &words])
}

/// One of a list, or one that a song has.
fn any_of(random: &mut Random, list: &[f32]) -> f32 {
    if random.below(2) == 0 {
        random.pick(list)
    } else {
        random.between(-1.0, 1.0)
    }
}

fn any_sources(random: &mut Random) -> Sources {
    Sources::any(random.bits(), |list| any_of(random, list))
}

/// Nibbles, voices and numbers; number of the refusal, 0 or 6, and the eight sums, zeros where one of them is not finite. First the sources by which a sum alone
/// is not finite; then each routing with voice 3 on and off, in each of them a voice of every selection and all flags, the rest at random.
fn collected() -> Vec<[u32; 26]> {
    let mut random = Random::of("collect");
    let mut cases: Vec<Sources> = not_finite_alone().into_iter().map(|(_, sources)| sources).collect();
    for number in 0..16 * 2 * 16 * 4 {
        let mut sources = any_sources(&mut random);
        (sources.routing, sources.mode) = (number as u8 % 16, number as u8 / 16 % 2 * 8 + sources.mode % 8);
        let (waveform, envelope) = (WAVEFORMS[number % WAVEFORMS.len()], ENVELOPES[number % ENVELOPES.len()]);
        sources.voices[number % 3] = voice(waveform, envelope, (number / 32 % 16) as u8, FLAGS[number / 512]);
        cases.push(sources);
    }
    cases
        .into_iter()
        .map(|sources| {
            let sums = sources.sums();
            let finite = sums.iter().all(|sum| sum.is_finite());
            let told = if finite { sums.map(word) } else { [0; 8] };
            joined([&source_words(&sources), &[if finite { 0 } else { 6 }], &told])
        })
        .collect()
}

/// The same sources with a flaw, and how many bytes of voices, numbers and sums are lent; the number that the table of refusals has for it.
fn refused_collects() -> Vec<[u32; 21]> {
    let mut random = Random::of("collect_refused");
    let mut cases = Vec::new();
    let mut flawed = |number: u32, lengths: [u32; 3], place: usize, flaw: u32| {
        let mut words = source_words(&Sources::at_rest(random.below(16) as u8, random.below(16) as u8));
        words[place] = if flaw == 0 { words[place] } else { flaw };
        cases.push(joined([&words, &lengths, &[number]]));
    };
    const WHOLE: [u32; 3] = [36, 24, 32];
    for lengths in [[36, 24, 31], [36, 24, 33], [0, 0, 31]] {
        flawed(10, lengths, 0, 0);
    }
    for lengths in [[35, 24, 32], [24, 24, 32], [0, 24, 32], [36, 23, 32], [36, 20, 32], [36, 0, 32]] {
        flawed(11, lengths, 0, 0);
    }
    for (place, flaw) in [(0, 16), (0, 255), (1, 16), (1, 255)] {
        flawed(10, WHOLE, place, flaw);
        flawed(10, [35, 24, 32], place, flaw);
    }
    for voice in 0..3 {
        for flaw in [0x10, 0xff, 0x200, 0xff00, 0x02_0000, 0xff_0000, 0x0100_0000, 0xff00_0000] {
            flawed(11, WHOLE, 4 + 3 * voice, flaw);
        }
    }
    let floats = [2, 3, 5, 6, 8, 9].into_iter().chain(11..17);
    for (place, flaw) in floats.flat_map(|place| [0x7f80_0000, 0xff80_0000, 0x7fc0_0000, 0xffff_ffff].map(|flaw| (place, flaw))) {
        flawed(11, WHOLE, place, flaw);
    }
    // 11 comes before any sum: sums that are not finite, and a last byte that is not zero.
    for (_, sources) in not_finite_alone() {
        let mut words = source_words(&sources);
        words[10] |= 0x0100_0000;
        cases.push(joined([&words, &WHOLE, &[11]]));
    }
    cases
}
