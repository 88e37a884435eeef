//! The last 44 bytes of a state's block, at random and beside the Rust's: each event is a run of its own, so that what every single one
//! leaves is compared.

use crate::filter::Filter;
use crate::kept::{decays, filter_block, play, put};
use crate::numbers::{Random, Tally};
use crate::response::volume_dac_conductance_code;
use crate::run::{any_block, any_event, event, script_of};
use crate::surface::proved::{self, Answer};
use crate::surface::{curves_of, data};

pub fn compare() -> Vec<(&'static str, Tally)> {
    let mut beside = Beside::new();
    vec![
        ("charges, after every event of random lists", lists(&mut beside)),
        ("charges, from every code to every volume", steps(&mut beside)),
        ("charges, zeros where the volume stays", zeros(&mut beside)),
        ("charges, the codes and charges that are refused", refused(&mut beside)),
        ("charges, on either side of the refused", borders(&mut beside)),
    ]
}

// ---- inputs

/// A float of a size, a zero of either sign, a subnormal one, one about where a write overflows, or any finite one.
fn any_float(random: &mut Random, size: f32) -> f32 {
    let bits = random.bits();
    let part = (bits >> 40) as f32 / 16_777_216.0;
    let magnitude = match bits % 8 {
        0 => 0.0,
        1 => f32::from_bits((bits >> 8) as u32 % 0x80_0000),
        2 => f32::MAX * part,
        3 => 3.0e36 * part,
        _ => size * part,
    };
    if bits >> 3 & 1 == 0 {
        magnitude
    } else {
        -magnitude
    }
}

/// Fills the last 44 bytes of a block. Now and then nothing is charged, and half the time the code is that of a volume, mostly the block's
/// own.
pub fn fill(block: &mut [u8; 68], random: &mut Random) {
    let bits = random.bits();
    let mut floats = match bits % 8 {
        0 => [0.0; 10],
        _ => [3_200.0, 2_800.0, 1.0, 300.0, 300.0, 16.0, 3.0, 1.0, 1.0, 1.0].map(|size| any_float(random, size)),
    };
    if bits >> 3 & 1 == 0 {
        floats[5] = volume_dac_conductance_code(if bits >> 4 & 3 == 0 { (bits >> 8) as u8 & 15 } else { block[10] });
    }
    block[24..64].copy_from_slice(floats.map(f32::to_le_bytes).as_flattened());
    block[64] = (bits >> 16) as u8 & 1;
}

/// Six numbers from 0 to 1, the ends and both zeros often among them.
pub fn any_decays(random: &mut Random) -> [u8; 24] {
    let mut any = || match random.bits() {
        bits if bits % 2 == 0 => [0.0, -0.0, 1.0, 1.0e-45, 0.999_999_94][(bits >> 8) as usize % 5],
        bits => (bits >> 40) as f32 / 16_777_216.0,
    };
    [0; 6].map(|_| any().to_le_bytes()).as_flattened().try_into().expect("24 bytes")
}

fn write(mode: u8, volume: u8) -> [u8; 12] {
    event(3, mode << 4 | volume, [0.0; 2])
}

/// The places of the fast and the slow charge and of the code.
const FAST: usize = 24;
const SLOW: usize = 28;
const CODE: usize = 44;

/// A block with floats set at their places.
fn with(mut block: [u8; 68], floats: &[(usize, f32)]) -> [u8; 68] {
    for (place, float) in floats {
        block[*place..place + 4].copy_from_slice(&float.to_le_bytes());
    }
    block
}

// ---- one event

/// Whether every float of a block is.
pub fn is_finite(block: &[u8; 68]) -> bool {
    block[12..64].as_chunks().0.iter().all(|&bits| f32::from_le_bytes(bits).is_finite())
}

/// What is lent, the Rust's filter, and the block of the state that both sides are in.
struct Beside {
    bundle: Vec<u8>,
    curves: Vec<u8>,
    decays: [u8; 24],
    filter: Filter,
    block: [u8; 68],
}

impl Beside {
    fn new() -> Self {
        let mut filter = Filter::new();
        let decays = decays(filter.transients());
        Beside { bundle: data("bundle"), curves: curves_of(&filter), decays, filter, block: [0; 68] }
    }

    fn start(&mut self, block: [u8; 68]) {
        self.block = block;
        put(&mut self.filter, &block);
    }

    /// One event on both sides, and whether it was done: it is refused with 6 where it leaves the Rust a number that is not finite, and then
    /// both go on from the state before it.
    fn event(&mut self, tally: &mut Tally, event: [u8; 12]) -> bool {
        let (before, mut row) = (self.block, [0; 16]);
        let answer = proved::run([&self.bundle, &self.curves, &self.decays], &mut self.block, &script_of(&[event]), &mut row);
        let sample = play(&mut self.filter, &event);
        let after = filter_block(&mut self.filter);
        let done = is_finite(&after) && sample.unwrap_or_default().iter().all(|x| x.is_finite());
        let (left, outputs) = if done { (after, sample.unwrap_or_default()) } else { (before, [0.0; 4]) };
        let number = if done { 0 } else { 6 };
        tally.same(answer, Answer { number, events: done.into(), samples: (done && sample.is_some()).into(), buffer: 0, place: 0 });
        tally.same(&row[..], outputs.map(f32::to_le_bytes).as_flattened());
        tally.same(&self.block[..24], &left[..24]);
        for (ours, theirs) in self.block[24..64].chunks_exact(4).zip(left[24..64].chunks_exact(4)) {
            tally.same(ours, theirs);
        }
        tally.same(&self.block[64..], &left[64..]);
        if !done {
            self.start(before);
        }
        done
    }

    /// An event from a block's state that is to be done or refused.
    fn event_from(&mut self, tally: &mut Tally, block: [u8; 68], event: [u8; 12], done: bool) {
        self.start(block);
        let told = self.event(tally, event);
        tally.same(told, done);
    }
}

// ---- random lists

/// Mostly mode writes, of which some write the volume that a block has.
fn list_event(random: &mut Random, volume: u8) -> [u8; 12] {
    let bits = random.bits();
    let mode = (bits >> 8) as u8 & 15;
    match bits % 8 {
        0 => write(mode, volume),
        1..=4 => write(mode, (bits >> 16) as u8 & 15),
        _ => any_event(random, false),
    }
}

const LISTS: u64 = 200_000;

/// Lists from any valid states, with other decays each; the mode writes are counted.
fn lists(beside: &mut Beside) -> Tally {
    let (mut tally, mut random) = (Tally::default(), Random(140));
    let (mut events, mut writes, mut refused, mut stayed) = (0, 0, 0, 0);
    for _ in 0..LISTS {
        beside.start(any_block(&mut random));
        beside.decays = any_decays(&mut random);
        for _ in 0..1 + random.bits() % 24 {
            let volume = beside.block[10];
            let event = list_event(&mut random, volume);
            let done = beside.event(&mut tally, event);
            events += 1;
            if event[0] == 3 {
                writes += 1;
                refused += u64::from(!done);
                stayed += u64::from(done && event[1] & 15 == volume);
            }
        }
    }
    println!("charges: {LISTS} lists with {events} events, {writes} of them mode writes");
    println!("  of the mode writes {refused} were refused with 6, {stayed} left the volume as it was");
    tally
}

// ---- steps of the volume

/// Every volume in the block with the code of every volume, and every volume written: what is charged is the step from the code, whatever
/// the volume was, and is nothing where both codes are the same.
fn steps(beside: &mut Beside) -> Tally {
    let mut tally = Tally::default();
    for (code, next) in (0..=255).map(|pair| (pair >> 4, pair & 15)) {
        let mut charged = [[0; 44]; 16];
        for volume in 0..16 {
            let mut block = with([0; 68], &[(CODE, volume_dac_conductance_code(code))]);
            block[10] = volume;
            beside.event_from(&mut tally, block, write(volume, next), true);
            charged[usize::from(volume)].copy_from_slice(&beside.block[24..]);
        }
        tally.same(charged, [charged[0]; 16]);
        tally.same(charged[0][..8] == [0; 8], code == next);
    }
    tally
}

/// Charges of either zero where volume and code stay: both are +0.0 after the write. A code of -0.0 is no such one: its step to volume 0 is
/// -0.0, which changes no charge.
fn zeros(beside: &mut Beside) -> Tally {
    let mut tally = Tally::default();
    for volume in 0..16 {
        for (fast, slow) in [(0.0, 0.0), (0.0, -0.0), (-0.0, 0.0), (-0.0, -0.0)] {
            let mut block = with([0; 68], &[(FAST, fast), (SLOW, slow), (CODE, volume_dac_conductance_code(volume))]);
            block[10] = volume;
            for mode in 0..16 {
                beside.event_from(&mut tally, block, write(mode, volume), true);
                tally.same(&beside.block[FAST..FAST + 8], &[0; 8]);
            }
            let before = with(block, &[(CODE, -0.0)]);
            beside.event_from(&mut tally, before, write(0, 0), true);
            tally.same(&beside.block[FAST..FAST + 8], &before[FAST..FAST + 8]);
        }
    }
    tally
}

// ---- refused writes

/// From the starting value a write of 0 overflows the fast charge from this code on, of either sign; and with a smaller one the slow charge
/// alone, where it is large before.
fn refused(beside: &mut Beside) -> Tally {
    const FIRST: f32 = 1.654_913_1e36;
    let mut tally = Tally::default();
    for sign in [1.0, -1.0] {
        let cases = [
            (&[(CODE, FIRST.next_down())][..], true),
            (&[(CODE, FIRST)], false),
            (&[(CODE, FIRST.next_up())], false),
            (&[(CODE, f32::MAX)], false),
            (&[(CODE, 1.2e36)], true),
            (&[(CODE, 1.2e36), (SLOW, 3.0e38)], false),
            (&[(CODE, 1.2e36), (SLOW, -3.0e38)], true),
            (&[(CODE, 1.2e36), (FAST, 3.0e38)], false),
        ];
        for (floats, done) in cases {
            let signed: Vec<_> = floats.iter().map(|(place, float)| (*place, sign * float)).collect();
            beside.event_from(&mut tally, with([0; 68], &signed), write(0, 0), done);
        }
    }
    tally
}

/// Whether the Rust's write leaves all numbers finite.
fn goes(filter: &mut Filter, block: &[u8; 68], event: &[u8; 12]) -> bool {
    put(filter, block);
    play(filter, event);
    is_finite(&filter_block(filter))
}

/// The largest float of a sign at a place with which the Rust's write goes, by halving; none where each one goes or is refused.
fn border(filter: &mut Filter, block: [u8; 68], place: usize, sign: f32, event: &[u8; 12]) -> Option<f32> {
    let mut at = |bits: u32| goes(filter, &with(block, &[(place, sign * f32::from_bits(bits))]), event);
    let (mut low, mut high) = (0, f32::MAX.to_bits());
    if !at(low) || at(high) {
        return None;
    }
    while high - low > 1 {
        let middle = low + (high - low) / 2;
        *if at(middle) { &mut low } else { &mut high } = middle;
    }
    Some(sign * f32::from_bits(low))
}

/// From any states: the last three floats of a charge or of the code that go, and the first three that do not.
fn borders(beside: &mut Beside) -> Tally {
    let (mut tally, mut random, mut found) = (Tally::default(), Random(141), 0);
    for _ in 0..20_000 {
        let (block, bits) = (any_block(&mut random), random.bits());
        let (place, sign) = ([FAST, SLOW, CODE, CODE][bits as usize % 4], [1.0, -1.0][(bits >> 2) as usize % 2]);
        let event = write((bits >> 8) as u8 & 15, (bits >> 16) as u8 & 15);
        let Some(last) = border(&mut beside.filter, block, place, sign, &event) else { continue };
        found += 1;
        for (step, done) in [(-2, true), (-1, true), (0, true), (1, false), (2, false), (3, false)] {
            let float = f32::from_bits(last.to_bits().saturating_add_signed(step));
            if float.is_finite() {
                beside.event_from(&mut tally, with(block, &[(place, float)]), event, done);
            }
        }
    }
    println!("charges: {found} borders between writes that go and refused ones");
    tally
}
