//! The library's calls beside the Rust, in paired rounds: in each round the Rust and then the library do the same work on the same buffers, which were touched
//! before. A row has the median of the rounds' ratios, the ratios that a tenth of the rounds lie below and above, and the time of each side that a tenth of its rounds
//! lie below. A word as argument leaves the rows whose name has it.

#![allow(dead_code)]

include!("sid.rs");

mod answer;
mod kept;
mod numbers;
mod surface;
mod voices;

use std::cell::RefCell;
use std::hint::black_box;
use std::time::Instant;

use constants::*;
use filter::Filter;
use kept::{decays, filter_block, play};
use numbers::Random;
use response::volume_dac_conductance_code;
use surface::proved;
use tables::AnalogueTransferSurface;
use voices::{voice, Sources, FLAGS};

/// A round is short, so that what else the machine does meets both sides of it.
const EVENTS: usize = 8_192;
const ROUNDS: usize = 1_500;

// ---- rounds

/// The time of a call in nanoseconds.
fn time(work: &mut dyn FnMut()) -> f64 {
    let start = Instant::now();
    work();
    start.elapsed().as_secs_f64() * 1e9
}

/// What a share of some numbers lies below.
fn below(share: f64, numbers: &mut [f64]) -> f64 {
    numbers.sort_unstable_by(f64::total_cmp);
    numbers[(share * (numbers.len() - 1) as f64).round() as usize]
}

/// A row of the table: the Rust's time by the library's, round by round, and the times of one of so many `parts`.
fn row(name: &str, parts: usize, rust: &mut dyn FnMut(), library: &mut dyn FnMut()) {
    if std::env::args().nth(1).is_some_and(|word| !name.contains(&word)) {
        return;
    }
    rust();
    library();
    let (mut theirs, mut ours): (Vec<f64>, Vec<f64>) = (0..ROUNDS).map(|_| (time(rust), time(library))).unzip();
    let mut ratios: Vec<f64> = theirs.iter().zip(&ours).map(|(rust, library)| rust / library).collect();
    let [low, middle, high] = [0.1, 0.5, 0.9].map(|share| below(share, &mut ratios));
    let [rust, library] = [&mut theirs, &mut ours].map(|times| below(0.1, times) / parts as f64);
    println!("| {name} | {middle:.3} | {low:.2} to {high:.2} | {rust:.1} ns | {library:.1} ns |");
}

// ---- opening and building

/// The first unusable one of some entries, an entry at a time.
fn scan(entries: &[u8]) -> Option<usize> {
    entries.chunks_exact(4).position(|bits| u32::from_le_bytes(bits.try_into().unwrap()) & 0x7fff_ffff > 0x4480_0000)
}

/// The conductances of the 31 curves.
fn loads() -> Vec<f32> {
    let summer = (0..7).map(|count| count as f32);
    let mixer = (0..8).map(|count| count as f32 * SID_MIXER_CONDUCTANCE_PER_INPUT);
    let volume = (0..16).map(|volume| volume_dac_conductance_code(volume) / SID_VOLUME_CONDUCTANCE_DIVISOR);
    summer.chain(mixer).chain(volume).collect()
}

/// The 31 `build_load_curve` calls, each into a new box; all boxes are held until the last is made, as `Filter::new` holds them.
fn load_curves(surface: &AnalogueTransferSurface, loads: &[f32]) -> Vec<Box<[f32; 2049]>> {
    loads.iter().map(|&load| load_curve(surface, load)).collect()
}

fn load_curve(surface: &AnalogueTransferSurface, load: f32) -> Box<[f32; 2049]> {
    surface.build_load_curve(AnalogueTransferSurface::load_position(load))
}

/// The library has no Rust beside it that judges entries, so opening is set beside a plain scan, and building beside calls that take every entry as it is.
fn tables(bundle: &[u8]) {
    let surface = surface::surface_of(bundle);
    let loads = loads();
    let mut curves = vec![0; surface::CURVES_LENGTH];
    row("opening, beside a plain scan", 1, &mut || _ = black_box(scan(black_box(&bundle[56..]))), &mut || {
        _ = black_box(proved::open(black_box(bundle)))
    });
    let mut build = || _ = black_box(proved::build_curves(black_box(bundle), &mut curves));
    row("building, beside the 31 calls", 1, &mut || drop(black_box(load_curves(&surface, black_box(&loads)))), &mut build);
    let mut dropped = || loads.iter().for_each(|&load| drop(black_box(load_curve(&surface, black_box(load)))));
    row("building, each box dropped at once", 1, &mut dropped, &mut build);
    let entries = &bundle[2_105_464..3_293_304];
    let mut checked = || {
        black_box(scan(black_box(entries)));
        drop(black_box(surface::curves_on(&surface)));
    };
    row("building, beside a scan and the calls", 1, &mut checked, &mut build);
}

// ---- voices

/// Three voices at their levels, of any selection, mostly pure, with blends and external levels in their range.
fn sounding(routing: u8, mode: u8, random: &mut Random) -> Sources {
    let mut unit = || (random.bits() >> 40) as f32 / 16_777_216.0;
    let mut voices = [0; 3].map(|_| voice(2.0 * unit() - 1.0, unit(), (16.0 * unit()) as u8, FLAGS[0]));
    voices[(3.0 * unit()) as usize].combined = unit() < 0.25;
    Sources { routing, mode, voices, numbers: [0; 6].map(|_| unit()) }
}

/// The Rust's side of a call on the same bytes: its topology of the nibbles, its voices, its sums.
#[inline(never)]
fn collect(routing: u8, mode: u8, voices: &[u8; 36], numbers: &[u8; 24], sums: &mut [u8; 32]) {
    let theirs = Sources::read(routing, mode, voices, numbers).sums();
    sums.copy_from_slice(theirs.map(f32::to_le_bytes).as_flattened());
}

/// A row for calls of one routing and mode on other voices each, after one pass in which both sides gave the same bytes.
fn collecting(name: &str, routing: u8, mode: u8, random: &mut Random) {
    let lent: Vec<_> =
        (0..EVENTS).map(|_| sounding(routing, mode, random)).map(|sources| (sources.voice_bytes(), sources.number_bytes())).collect();
    let (mut sums, mut beside) = ([0; 32], [0; 32]);
    for (voices, numbers) in &lent {
        assert_eq!(proved::collect(routing, mode, voices, numbers, &mut sums).number, 0);
        collect(routing, mode, voices, numbers, &mut beside);
        assert_eq!(sums, beside, "{name}: the two differ");
    }
    let mut rust =
        || lent.iter().for_each(|(voices, numbers)| collect(routing, mode, black_box(voices), black_box(numbers), black_box(&mut beside)));
    let mut library = || {
        for (voices, numbers) in &lent {
            _ = black_box(proved::collect(routing, mode, black_box(voices), black_box(numbers), black_box(&mut sums)));
        }
    };
    row(name, EVENTS, &mut rust, &mut library);
}

// ---- runs

/// The bytes of scripts of so many events each.
fn scripts(length: usize, mut event: impl FnMut(usize) -> [u8; 12]) -> Vec<Vec<u8>> {
    let script = |first: usize| {
        let header = [length as u32, 8].map(u32::to_le_bytes).concat();
        header.into_iter().chain((first..first + length).flat_map(&mut event)).collect()
    };
    (0..EVENTS).step_by(length).map(script).collect()
}

fn sample(sum: f32, energy: f32) -> [u8; 12] {
    let mut event = [0; 12];
    event[0] = 4;
    event[4..8].copy_from_slice(&sum.to_le_bytes());
    event[8..].copy_from_slice(&energy.to_le_bytes());
    event
}

fn write(register: usize, value: u8) -> [u8; 12] {
    [register as u8, value, 0, 0, 0, 0, 0, 0, 0, 0, 0, 0]
}

/// Two slow waves, as three voices at their levels make them.
fn waves(time: f32) -> f32 {
    1.35 + 0.3 * (time * 0.013).sin() + 0.2 * (time * 0.0037).sin()
}

fn energy(time: f32) -> f32 {
    0.5 + 0.4 * (time * 0.0011).cos()
}

/// A sample of two waves and noise.
fn noise(number: usize, bits: u64) -> [u8; 12] {
    let time = number as f32;
    sample(waves(time) + (bits >> 48) as f32 / 655_360.0, energy(time))
}

/// Cutoff and resonance in the middle, three voices in the filter, low and band together, full volume.
const REGISTERS: [u8; 4] = [5, 0x60, 0x87, 0x3f];

/// Routing with the same resonance and no voice in the filter.
const NOTHING_ROUTED: [u8; 12] = [2, 0x80, 0, 0, 0, 0, 0, 0, 0, 0, 0, 0];

/// One of these registers again, or any register and any value.
fn fixed(number: usize, _: u64) -> [u8; 12] {
    write(number % 4, REGISTERS[number % 4])
}

fn any(_: usize, bits: u64) -> [u8; 12] {
    write((bits % 4) as usize, (bits >> 8) as u8)
}

/// A volume, the mode staying.
fn volume(_: usize, bits: u64) -> [u8; 12] {
    write(3, REGISTERS[3] & 0xf0 | (bits >> 8) as u8 & 15)
}

/// The state that some events lead to from the starting value.
fn start(filter: &mut Filter, events: &[[u8; 12]]) {
    filter.reset();
    for event in events {
        play(filter, event);
    }
}

/// The events on the Rust's filter, the samples written as a run writes them.
#[inline(never)]
fn play_all(filter: &mut Filter, script: &[u8], output: &mut [u8]) {
    let mut rows = output.as_chunks_mut::<16>().0.iter_mut();
    for event in script[8..].as_chunks().0 {
        if let Some(sample) = play(filter, event) {
            let row = rows.next().expect("room for every sample");
            row.copy_from_slice(sample.map(f32::to_le_bytes).as_flattened());
        }
    }
}

/// A row of the table for scripts that are run one after the other from where some events led, after one pass in which both sides gave the same bytes.
fn run(name: &str, lent: [&[u8]; 3], filter: &mut Filter, events: &[[u8; 12]], scripts: &[Vec<u8>]) {
    let room = scripts.iter().map(|script| script[8..].chunks_exact(12).filter(|event| event[0] == 4).count()).max();
    let mut output = vec![0; 16 * room.expect("a script")];
    let mut beside = output.clone();
    start(filter, events);
    let begin = filter_block(filter);
    let mut state = begin;
    for script in scripts {
        let answer = proved::run(lent, &mut state, script, &mut output);
        play_all(filter, script, &mut beside);
        let all = (answer.number, 12 * answer.events as usize + 8) == (0, script.len());
        assert!(all && output == beside && state == filter_block(filter), "{name}: the two differ");
    }
    let output = RefCell::new(output);
    let mut rust = || {
        start(filter, events);
        scripts.iter().for_each(|script| play_all(filter, black_box(script), black_box(&mut output.borrow_mut())));
    };
    let mut library = || {
        state = begin;
        for script in scripts {
            let output = &mut output.borrow_mut();
            _ = black_box(proved::run(black_box(lent), &mut state, black_box(script), black_box(output)));
        }
    };
    row(name, EVENTS, &mut rust, &mut library);
}

fn main() {
    let bundle = surface::data("bundle");
    let mut curves = vec![0; surface::CURVES_LENGTH];
    assert_eq!(proved::build_curves(&bundle, &mut curves).number, 0);
    let (mut filter, mut random) = (Filter::new(), Random(7));
    let decays = decays(filter.transients());
    let lent = [&bundle[..], &curves, &decays];
    let mut mixed = |every: usize, write: fn(usize, u64) -> [u8; 12]| {
        scripts(EVENTS, |number| {
            let bits = random.bits();
            if number % every == every - 1 {
                write(number / every, bits)
            } else {
                noise(number, bits)
            }
        })
    };
    let full: Vec<_> = (0..4).map(|number| fixed(number, 0)).collect();
    let idle = [&full[..], &[NOTHING_ROUTED]].concat();
    let ringing = [&full[..], &(0..512).map(|number| noise(number, 0)).collect::<Vec<_>>(), &[NOTHING_ROUTED]].concat();
    let quiet = scripts(EVENTS, |number| sample(0.0, energy(number as f32)));
    println!("| {EVENTS} events | Rust time / library time | a tenth below, above | Rust | library |\n|---|---|---|---|---|");
    run("samples of noise", lent, &mut filter, &full, &mixed(EVENTS + 1, fixed));
    run("samples of a sine", lent, &mut filter, &full, &scripts(EVENTS, |number| sample(waves(number as f32), energy(number as f32))));
    run("one write in 16, fixed values", lent, &mut filter, &full, &mixed(16, fixed));
    run("one write in 16, any values", lent, &mut filter, &full, &mixed(16, any));
    run("writes, fixed values", lent, &mut filter, &full, &mixed(1, fixed));
    run("writes, any values", lent, &mut filter, &full, &mixed(1, any));
    run("mode writes, any volumes", lent, &mut filter, &full, &mixed(1, volume));
    run("idle samples", lent, &mut filter, &idle, &quiet);
    run("samples, nothing routed any more", lent, &mut filter, &ringing, &quiet);
    let short = scripts(16, |number| noise(number, number as u64 * 0x9e37_79b9_7f4a_7c15));
    run("scripts of 16 samples", lent, &mut filter, &full, &short);
    collecting("collecting, three voices filtered", 7, 1, &mut random);
    collecting("collecting, one voice beside", 3, 1, &mut random);
    collecting("collecting, all beside", 0, 0, &mut random);
    tables(&bundle);
}
