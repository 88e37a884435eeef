//! The register writes beside the Rust's, and blocks, their widening and scripts beside an independent check.

use crate::charges::fill;
use crate::control::{ControlCache, FilterRegisters};
use crate::filter::Filter;
use crate::kept::{block, filter_block, play, set};
use crate::numbers::{Random, Tally};
use crate::response::volume_dac_conductance_code;
use crate::run::{any_block, framed, room};
use crate::surface::{self, number};

pub mod proved {
    #[repr(C)]
    #[derive(PartialEq)]
    pub struct Script {
        pub refused: bool,
        pub events: usize,
        pub samples: usize,
    }

    #[repr(C)]
    #[derive(Clone, Copy)]
    pub struct FilterControls {
        pub effective_cutoff_index: usize,
        pub integrator_gain: [f32; 16],
        pub input_drive: [f32; 16],
        pub feedback_drive: [f32; 16],
        pub damping: f32,
        pub source_gain_modulation: f32,
        pub high_pass_low_coupling: f32,
        pub band_pass_low_coupling: f32,
        pub resonance_position: f32,
        pub resonance_index: usize,
        pub resonance_feedback_scale: f32,
        pub source_modulation_resonance_scale: f32,
        pub resonance_output_gain: f32,
    }

    #[repr(C)]
    #[derive(Clone, Copy)]
    pub struct OutputControls {
        pub filter_common_mode: f32,
        pub volume_fraction: f32,
        pub two_voice_volume_gain_offset: f32,
        pub combined_common_mode_gain: f32,
        pub pure_bypass_common_mode_gain: f32,
        pub scaled_filter_common_mode: f32,
        pub frozen_dac_bias_mode: bool,
    }

    #[repr(C)]
    #[derive(Clone, Copy)]
    pub struct Controls {
        pub filter: FilterControls,
        pub mode_output_gain: f32,
        pub output: OutputControls,
    }

    #[link(name = "probe", kind = "static")]
    unsafe extern "C" {
        pub fn probe_effective_cutoff(block: *const u8, len: usize) -> u16;
        pub fn probe_write(block: *mut u8, len: usize, register: u8, value: u8);
        pub fn probe_controls(bundle: *const u8, bundle_len: usize, block: *const u8, len: usize) -> Controls;
        pub fn probe_script(script: *const u8, len: usize) -> Script;
    }
}

pub fn compare() -> Vec<(&'static str, Tally)> {
    let mut filter = Filter::new();
    vec![
        ("cutoff writes, every base, code and value", cutoff(&mut filter)),
        ("routing and mode writes, reset", nibbles(&mut filter)),
        ("controls after random writes", controls(&mut filter)),
        ("state blocks", blocks()),
        ("widening, every volume", volumes(&mut filter)),
        ("widening, valid and damaged blocks", widening()),
        ("widening, every length of block and target", lengths()),
        ("scripts", scripts()),
    ]
}

fn effective_cutoff(block: &[u8]) -> u16 {
    unsafe { proved::probe_effective_cutoff(block.as_ptr(), block.len()) }
}

fn write(block: &mut [u8], register: u8, value: u8) {
    unsafe { proved::probe_write(block.as_mut_ptr(), block.len(), register, value) }
}

/// One write on both sides; registers 0 to 3, else a reset. A mode write may leave a number that is not finite, and so no valid block.
fn both(tally: &mut Tally, filter: &mut Filter, register: u8, value: u8) {
    let mut ours = filter_block(filter);
    write(&mut ours, register, value);
    play(filter, &[register, value, 0, 0, 0, 0, 0, 0, 0, 0, 0, 0]);
    tally.same(ours, filter_block(filter));
    // A mode write leaves the cached index, which the cutoff writes set, as it is.
    let index = if is_valid(&ours) { filter.control().effective_cutoff_index } else { 65_535 };
    tally.same(usize::from(effective_cutoff(&ours)), index);
}

/// The floats and charges of any valid state.
fn charge(filter: &mut Filter, random: &mut Random) {
    let mut block = any_block(random);
    block[..12].copy_from_slice(&filter_block(filter)[..12]);
    set(filter, &block);
}

/// A high write from every code, and from every code with each low write pending on it.
fn cutoff(filter: &mut Filter) -> Tally {
    let (mut tally, mut random) = (Tally::default(), Random(8));
    for base in 0..2048 {
        for low in 0..=8 {
            charge(filter, &mut random);
            for value in 0..=255 {
                let registers = filter.registers();
                registers.cutoff = base;
                registers.cutoff_low_pending = false;
                registers.cutoff_dac_displacement_codes = i16::from(value) % 115 - 57;
                if low < 8 && value == 0 {
                    both(&mut tally, filter, 0, low | 0xa8);
                } else if low < 8 {
                    filter.write_cutoff_low(low);
                }
                both(&mut tally, filter, 1, value);
            }
        }
    }
    tally
}

/// Every value of the two registers after one another, from other floats and charges each time, and resets between.
fn nibbles(filter: &mut Filter) -> Tally {
    let (mut tally, mut random) = (Tally::default(), Random(9));
    for pair in 0..=u16::MAX {
        charge(filter, &mut random);
        if pair % 256 == 0 {
            both(&mut tally, filter, 5, 0);
        }
        both(&mut tally, filter, 2, pair as u8);
        both(&mut tally, filter, 3, (pair >> 8) as u8);
    }
    tally
}

/// Random writes, and after each the Rust's control cache beside the controls worked out afresh from the state.
fn controls(filter: &mut Filter) -> Tally {
    let bundle = surface::data("bundle");
    let (mut tally, mut random) = (Tally::default(), Random(7));
    filter.reset();
    for _ in 0..200_000 {
        let bits = random.bits();
        let value = (bits >> 8) as u8;
        match bits % 16 {
            0..=3 => filter.write_cutoff_low(value),
            4..=7 => filter.write_cutoff_high(value),
            8..=11 => filter.write_signal_routing(value),
            12..=14 => filter.write_mode_and_volume(value),
            _ => filter.reset(),
        }
        let ours = controls_of(&bundle, &filter_block(filter));
        same_controls(&mut tally, &ours, filter.control());
    }
    tally
}

pub fn controls_of(bundle: &[u8], block: &[u8]) -> proved::Controls {
    unsafe { proved::probe_controls(bundle.as_ptr(), bundle.len(), block.as_ptr(), block.len()) }
}

/// Every field by its bits, an array as one value.
pub fn same_controls(tally: &mut Tally, ours: &proved::Controls, theirs: &ControlCache) {
    let (filtered, output) = (&ours.filter, &ours.output);
    tally.same(filtered.effective_cutoff_index, theirs.effective_cutoff_index);
    tally.same(filtered.resonance_index, theirs.resonance_index);
    tally.same(output.frozen_dac_bias_mode, theirs.frozen_dac_bias_mode);
    let tables = [
        (filtered.integrator_gain, theirs.integrator_gain),
        (filtered.input_drive, theirs.input_drive),
        (filtered.feedback_drive, theirs.feedback_drive),
    ];
    for (ours, theirs) in tables {
        tally.same(ours.map(f32::to_bits), theirs.map(f32::to_bits));
    }
    let numbers = [
        (filtered.damping, theirs.damping),
        (filtered.source_gain_modulation, theirs.source_gain_modulation),
        (filtered.high_pass_low_coupling, theirs.high_pass_low_coupling),
        (filtered.band_pass_low_coupling, theirs.band_pass_low_coupling),
        (filtered.resonance_position, theirs.resonance_position),
        (filtered.resonance_feedback_scale, theirs.resonance_feedback_scale),
        (filtered.source_modulation_resonance_scale, theirs.source_modulation_resonance_scale),
        (filtered.resonance_output_gain, theirs.resonance_output_gain),
        (ours.mode_output_gain, theirs.mode_output_gain),
        (output.filter_common_mode, theirs.filter_common_mode),
        (output.volume_fraction, theirs.volume_fraction),
        (output.two_voice_volume_gain_offset, theirs.two_voice_volume_gain_offset),
        (output.combined_common_mode_gain, theirs.combined_common_mode_gain),
        (output.pure_bypass_common_mode_gain, theirs.pure_bypass_common_mode_gain),
        (output.scaled_filter_common_mode, theirs.scaled_filter_common_mode),
    ];
    for (ours, theirs) in numbers {
        tally.same_float(ours, theirs);
    }
}

fn is_finite(bits: &[u8]) -> bool {
    f32::from_le_bytes(bits.try_into().expect("4 bytes")).is_finite()
}

/// Of the first 24 bytes, which are the whole of a block without charges.
fn is_valid_narrow(block: &[u8]) -> bool {
    let word = |at: usize| u16::from_le_bytes([block[at], block[at + 1]]);
    block.len() == 24
        && word(0) <= 2047
        && (-57..=57).contains(&(word(2) as i16))
        && word(4) <= 2047
        && block[6] <= 1
        && block[7..11].iter().all(|&nibble| nibble <= 15)
        && block[11] == 0
        && block[12..].chunks_exact(4).all(is_finite)
}

fn is_valid(block: &[u8]) -> bool {
    block.len() == 68
        && is_valid_narrow(&block[..24])
        && block[24..64].chunks_exact(4).all(is_finite)
        && block[64] <= 1
        && block[65..] == [0, 0, 0]
}

/// Registers in their ranges with any floats, and any valid charges.
fn any_state(random: &mut Random) -> [u8; 68] {
    let bits = random.bits();
    let registers = FilterRegisters {
        cutoff: bits as u16 % 2048,
        cutoff_dac_displacement_codes: (bits >> 16) as i16 % 58,
        cutoff_write_base: (bits >> 32) as u16 % 2048,
        cutoff_low_pending: bits >> 63 == 1,
        resonance: (bits >> 48) as u8 % 16,
        routing: (bits >> 52) as u8 % 16,
        mode: (bits >> 56) as u8 % 16,
        volume: (bits >> 44) as u8 % 16,
    };
    let mut state = block(&registers, [random.float().to_bits(), random.float().to_bits(), random.float().to_bits()]);
    fill(&mut state, random);
    state
}

/// Now and then another bit, or another length of up to past 68.
fn damage(bytes: &mut Vec<u8>, random: &mut Random) {
    let bits = random.bits();
    if bits % 4 == 0 {
        let place = (bits >> 8) as usize % bytes.len();
        bytes[place] ^= 1 << ((bits >> 24) % 8);
    }
    if bits % 64 == 1 {
        bytes.resize((bits >> 8) as usize % 80, 0);
    }
}

/// Blocks of every length up to past 68 with a bit or a float out of its range, and valid ones: an invalid block has no cutoff and stays as
/// it is.
fn blocks() -> Tally {
    let (mut tally, mut random) = (Tally::default(), Random(5));
    for _ in 0..2_000_000 {
        let mut ours = any_state(&mut random).to_vec();
        damage(&mut ours, &mut random);
        let valid = is_valid(&ours);
        tally.same(effective_cutoff(&ours) != 65535, valid);
        let before = ours.clone();
        write(&mut ours, 9, 0);
        tally.same(ours, if valid { vec![0; 68] } else { before });
    }
    tally
}

// ---- widening

/// A block into a target on both sides, margins and all: a valid one has zeros behind its bytes but for the conductance of its volume, any
/// other is refused and leaves the target. What is given is the target after it.
fn widen(tally: &mut Tally, block: &[u8], target: &[u8]) -> Vec<u8> {
    let mut ours = framed(target);
    let answer = surface::proved::widen_state(block, room(&mut ours));
    let mut theirs = framed(target);
    let widens = is_valid_narrow(block) && target.len() == 68;
    if widens {
        let wide = room(&mut theirs);
        wide.fill(0);
        wide[..24].copy_from_slice(block);
        wide[44..48].copy_from_slice(&volume_dac_conductance_code(block[10]).to_le_bytes());
    }
    tally.same(answer, number(if widens { 0 } else { 10 }));
    tally.same(&ours, &theirs);
    room(&mut ours).to_vec()
}

/// Every volume and mode: what is widened is valid, and charges nothing at the write of the volume that it has. The starting value gives
/// that of a reset.
fn volumes(filter: &mut Filter) -> Tally {
    let (mut tally, mut random) = (Tally::default(), Random(12));
    for value in 0..=255 {
        let mut block = any_block(&mut random);
        (block[9], block[10]) = (value >> 4, value & 15);
        let wide = widen(&mut tally, &block[..24], &block);
        tally.same(is_valid(&wide), true);
        let mut written = wide.clone();
        write(&mut written, 3, value);
        tally.same(written, wide);
    }
    filter.reset();
    let start = widen(&mut tally, &[0; 24], &[0xa5; 68]);
    tally.same(&start[..], &[0; 68]);
    tally.same(&start[..], &filter_block(filter));
    tally
}

/// Every byte of a block with every value; then blocks with a bit, a float or the length wrong, and valid ones.
fn widening() -> Tally {
    let (mut tally, mut random) = (Tally::default(), Random(10));
    for start in [[0; 68], any_block(&mut random)] {
        for place in 0..24 {
            for value in 0..=255 {
                let mut block = start;
                block[place] = value;
                widen(&mut tally, &block[..24], &start);
            }
        }
    }
    for _ in 0..1_000_000 {
        let state = any_state(&mut random);
        let mut block = state[..24].to_vec();
        damage(&mut block, &mut random);
        widen(&mut tally, &block, &state);
    }
    tally
}

/// Blocks of every length up to past 68, each into targets of every length up to past twice that.
fn lengths() -> Tally {
    let (mut tally, mut random) = (Tally::default(), Random(13));
    let valid = any_block(&mut random);
    let long: Vec<u8> = valid.iter().copied().cycle().take(140).collect();
    for block in 0..=80 {
        for target in 0..=140 {
            widen(&mut tally, &long[..block], &long[..target]);
        }
    }
    tally
}

// ---- scripts

fn check(script: &[u8]) -> proved::Script {
    let refused = proved::Script { refused: true, events: 0, samples: 0 };
    if script.len() < 8 || script[4..8] != [8, 0, 0, 0] {
        return refused;
    }
    let events = u32::from_le_bytes(script[..4].try_into().unwrap()) as usize;
    let slices = script[8..].chunks(12);
    if events > 65_536 || script.len() != 8 + 12 * events || slices.clone().any(|event| event[0] > 5 || event[2..4] != [0, 0]) {
        return refused;
    }
    proved::Script { refused: false, events, samples: slices.filter(|event| event[0] == 4).count() }
}

/// Scripts of every small length and some of the largest, half of them damaged in one byte.
fn scripts() -> Tally {
    let (mut tally, mut random) = (Tally::default(), Random(6));
    for turn in 0..200_000u32 {
        let events = match turn % 50_000 {
            0 => 65_536,
            1 => 65_537,
            2 => 65_535,
            _ => turn as usize % 40,
        };
        let mut script = vec![];
        script.extend((events as u32).to_le_bytes());
        script.extend(8u32.to_le_bytes());
        for _ in 0..events {
            let bits = random.bits();
            script.extend([(bits % 6) as u8, (bits >> 8) as u8, 0, 0]);
            script.extend(random.bits().to_le_bytes());
        }
        let damage = random.bits();
        let at = (damage >> 16) as usize % script.len();
        match damage % 8 {
            0..=2 => script[at] ^= 1 << ((damage >> 8) % 8),
            3 => script.truncate(at),
            _ => {}
        }
        let ours = unsafe { proved::probe_script(script.as_ptr(), script.len()) };
        tally.same(ours, check(&script));
    }
    tally
}
