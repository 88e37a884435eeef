//! Runs through the C interface. Answers and every byte of state and output beside the plain machine of plain.rs; on the bundle as it is,
//! what was done also event by event beside the Rust's filter, which keeps its topology and controls from write to write; and every script
//! whose output has room also in pieces. The room of state and output lies between bytes that must stay.

use crate::charges::{any_decays, fill, is_finite};
use crate::filter::Filter;
use crate::kept::{filter_block, play, put};
use crate::numbers::{Random, Tally, DAMAGES};
use crate::plain::{check_script, Machine, BUNDLE_LENGTH, CURVES_LENGTH};
use crate::surface::proved::{self, Answer};
use crate::surface::{curves_of, data, number};

pub fn compare() -> Vec<(&'static str, Tally)> {
    let mut beside = Beside::new();
    let mut subjects = vec![
        ("runs, random scripts", random_scripts(&mut beside)),
        ("runs, all scripts of up to two events", small_scripts(&mut beside)),
        ("runs, state blocks", blocks(&mut beside)),
        ("runs, decays", decays(&mut beside)),
        ("runs, the order of 10, 12, 7 and 8", order(&mut beside)),
        ("runs, unreadable scripts", unreadable(&mut beside)),
        ("runs, output lengths", outputs(&mut beside)),
        ("runs, wrong lengths and headers", wrong_buffers(&mut beside)),
        ("runs, damaged entries", damaged(&mut beside)),
        ("runs, an unusable entry and a charge that overflows", entry_and_charge(&mut beside)),
        ("runs, several flaws at once", flaws(&mut beside)),
        ("runs, what is lent to be read and each number reached", beside.ended()),
    ];
    subjects.push(("runs, cut into pieces", beside.cut));
    subjects.push(("runs, beside the Rust's filter", beside.kept));
    println!("runs: {} with {} events and {} samples done", beside.runs, beside.events, beside.samples);
    println!("runs by number: {}", (0..13).map(|number| format!("{number}: {}", beside.numbers[number])).collect::<Vec<_>>().join(", "));
    subjects
}

// ---- one run

/// Bytes on either side of a room that no run may touch.
const MARGIN: usize = 32;

fn pattern(length: usize) -> Vec<u8> {
    (0..length).map(|place| (place * 37 + 11) as u8).collect()
}

/// A room with its margins, filled with a pattern.
pub fn framed(room: &[u8]) -> Vec<u8> {
    let mut frame = pattern(room.len() + 2 * MARGIN);
    frame[MARGIN..MARGIN + room.len()].copy_from_slice(room);
    frame
}

pub fn room(frame: &mut [u8]) -> &mut [u8] {
    let end = frame.len() - MARGIN;
    &mut frame[MARGIN..end]
}

/// What a run answers and leaves, margins and all.
#[derive(PartialEq)]
struct Left {
    answer: Answer,
    block: Vec<u8>,
    output: Vec<u8>,
}

/// One run on a block and on an output of a length.
fn left(block: &[u8], length: usize, run: impl FnOnce(&mut [u8], &mut [u8]) -> Answer) -> Left {
    let (mut block, mut output) = (framed(block), pattern(length + 2 * MARGIN));
    let answer = run(room(&mut block), room(&mut output));
    Left { answer, block, output }
}

fn events_of(script: &[u8]) -> &[[u8; 12]] {
    script[8..].as_chunks().0
}

fn samples_of(events: &[[u8; 12]]) -> usize {
    events.iter().filter(|event| event[0] == 4).count()
}

pub fn script_of(events: &[[u8; 12]]) -> Vec<u8> {
    let header = [events.len() as u32, 8].map(u32::to_le_bytes);
    [header.as_flattened(), events.as_flattened()].concat()
}

/// Bundle and curves, as they are, and the counts of all runs.
struct Beside {
    bundle: Vec<u8>,
    curves: Vec<u8>,
    filter: Filter,
    random: Random,
    cut: Tally,
    kept: Tally,
    runs: u64,
    events: u64,
    samples: u64,
    numbers: [u64; 13],
}

impl Beside {
    fn new() -> Self {
        let filter = Filter::new();
        Beside {
            bundle: data("bundle"),
            curves: curves_of(&filter),
            filter,
            random: Random(40),
            cut: Tally::default(),
            kept: Tally::default(),
            runs: 0,
            events: 0,
            samples: 0,
            numbers: [0; 13],
        }
    }

    /// One run on both sides, and where the script is readable and the output has room also in pieces; what the proved one left.
    fn run(&mut self, tally: &mut Tally, lent: [&[u8]; 3], block: &[u8], script: &[u8], length: usize) -> Left {
        let ours = left(block, length, |state, output| proved::run(lent, state, script, output));
        let theirs = left(block, length, |state, output| Machine::new(lent[0], lent[1]).run(state, lent[2], script, output));
        tally.same(ours.answer, theirs.answer);
        tally.same(&ours.block, &theirs.block);
        tally.same(&ours.output, &theirs.output);
        self.runs += 1;
        self.events += u64::from(ours.answer.events);
        self.samples += u64::from(ours.answer.samples);
        self.numbers[(ours.answer.number as usize).min(12)] += 1;
        if check_script(script).is_ok() && length >= 16 * samples_of(events_of(script)) {
            let cuts = any_cuts(&mut self.random, events_of(script).len());
            self.cut(lent, block, events_of(script), &cuts, &ours);
        }
        ours
    }

    /// A run on the bundle and the curves as they are, with some decays.
    fn decayed(&mut self, tally: &mut Tally, decays: &[u8], block: &[u8], script: &[u8], length: usize) -> Left {
        let (bundle, curves) = (std::mem::take(&mut self.bundle), std::mem::take(&mut self.curves));
        let ours = self.run(tally, [&bundle, &curves, decays], block, script, length);
        (self.bundle, self.curves) = (bundle, curves);
        ours
    }

    /// The same with any valid decays.
    fn whole(&mut self, tally: &mut Tally, block: &[u8], script: &[u8], length: usize) -> Left {
        let decays = any_decays(&mut self.random);
        self.decayed(tally, &decays, block, script, length)
    }

    /// A readable script from a valid block with room for its samples and some bytes more, then beside the Rust's filter.
    fn readable(&mut self, tally: &mut Tally, block: &[u8; 68], events: &[[u8; 12]]) {
        let decays = any_decays(&mut self.random);
        let length = 16 * samples_of(events) + (self.runs % 24) as usize;
        let ours = self.decayed(tally, &decays, block, &script_of(events), length);
        self.beside_filter(&decays, block, events, &ours);
    }

    /// Pieces between the cuts, each a script of its own that goes on from the block the last one left, with the same decays; none after a
    /// stop. They end where the uncut run does.
    fn cut(&mut self, lent: [&[u8]; 3], block: &[u8], events: &[[u8; 12]], cuts: &[usize], uncut: &Left) {
        let (mut block, mut written, mut done, mut samples) = (framed(block), vec![], 0, 0);
        let (mut from, mut last) = (0, uncut.answer);
        for end in cuts.iter().copied().chain([events.len()]) {
            let piece = &events[from..end];
            let output = &mut pattern(16 * samples_of(piece));
            last = proved::run(lent, room(&mut block), &script_of(piece), output);
            written.extend(output.iter().take(16 * last.samples as usize));
            (done, samples) = (done + last.events, samples + last.samples);
            if last.number != 0 {
                break;
            }
            from = end;
        }
        self.cut.same(Answer { events: done, samples, ..last }, uncut.answer);
        self.cut.same(&block, &uncut.block);
        self.cut.same(Some(&written[..]), uncut.output.get(MARGIN..MARGIN + 16 * uncut.answer.samples as usize));
    }

    /// The Rust's filter in the block's state, and the events that were done, each a run of its own too: what every one of them leaves and
    /// writes is the filter's, and a 6 is where the filter's numbers are no longer finite.
    fn beside_filter(&mut self, decays: &[u8], before: &[u8; 68], events: &[[u8; 12]], ours: &Left) {
        let lent = [&self.bundle[..], &self.curves, decays];
        let (filter, kept) = (&mut self.filter, &mut self.kept);
        let (mut block, mut row) = (*before, [0; 16]);
        let mut rows = ours.output[MARGIN..].chunks_exact(16);
        let (done, rest) = events.split_at(ours.answer.events as usize);
        put(filter, before);
        for event in done {
            kept.same(proved::run(lent, &mut block, &script_of(&[*event]), &mut row).number, 0);
            if let Some(sample) = play(filter, event) {
                kept.same(&row[..], sample.map(f32::to_le_bytes).as_flattened());
                kept.same(rows.next(), Some(&row[..]));
            }
            kept.same(block, filter_block(filter));
        }
        kept.same(&ours.block[MARGIN..MARGIN + 68], &block);
        if ours.answer.number == 6 {
            let outputs = rest.first().and_then(|event| play(filter, event)).unwrap_or_default();
            kept.same(is_finite(&filter_block(filter)) && outputs.iter().all(|x| x.is_finite()), false);
        }
    }

    /// Bundle and curves are as they were, and every number was reached but 9, which is unused, and 11, which is that of voices.
    fn ended(&self) -> Tally {
        let mut tally = Tally::default();
        tally.same(&self.bundle, &data("bundle"));
        tally.same(&self.curves, &curves_of(&self.filter));
        for (number, &count) in self.numbers.iter().enumerate() {
            tally.same(count > 0, number != 9 && number != 11);
        }
        tally
    }
}

// ---- inputs

pub fn between(random: &mut Random, low: f32, high: f32) -> f32 {
    low + (high - low) * ((random.bits() >> 40) as f32 / 16_777_216.0)
}

pub fn finite(random: &mut Random) -> f32 {
    let x = random.float();
    if x.is_finite() {
        x
    } else {
        f32::MAX
    }
}

/// Any valid block; the floats of the filter's size, zeros of either sign, near the saturation's overflow, or any finite ones.
pub fn any_block(random: &mut Random) -> [u8; 68] {
    let bits = random.bits();
    let mut bytes = [0; 68];
    let code = |bits: u64| [0, 2047, bits as u16 % 2048, bits as u16 % 2048][(bits >> 12) as usize % 4];
    bytes[0..2].copy_from_slice(&code(bits).to_le_bytes());
    bytes[2..4].copy_from_slice(&(((bits >> 14) % 115) as i16 - 57).to_le_bytes());
    bytes[4..6].copy_from_slice(&code(bits >> 24).to_le_bytes());
    bytes[6] = (bits >> 40) as u8 % 2;
    for (nibble, shift) in bytes[7..11].iter_mut().zip([44, 48, 52, 56]) {
        *nibble = (bits >> shift) as u8 % 16;
    }
    let zero = |bit: u64| if bits >> bit & 1 == 0 { 0.0 } else { -0.0 };
    let floats = match bits >> 61 {
        0 => [zero(0), zero(1), zero(2)],
        1 => [finite(random), finite(random), finite(random)],
        2 => [between(random, -8.0e12, 8.0e12), between(random, -8.0e12, 8.0e12), between(random, 0.0, 1.0)],
        _ => [between(random, -1.5, 1.5), between(random, -1.5, 1.5), between(random, 0.0, 1.0)],
    };
    bytes[12..24].copy_from_slice(floats.map(f32::to_le_bytes).as_flattened());
    fill(&mut bytes, random);
    bytes
}

/// A random event. What its kind does not use is any bytes. Wild floats are any, and now and then not finite.
pub fn any_event(random: &mut Random, wild: bool) -> [u8; 12] {
    let bits = random.bits();
    let kind = match bits % 64 {
        0..=5 => 0,
        6..=11 => 1,
        12..=15 => 2,
        16..=19 => 3,
        20 if bits >> 61 == 0 => 5,
        _ => 4,
    };
    let floats = match (kind, wild) {
        (4, false) => [between(random, 0.0, 4.0), between(random, 0.0, 2.0)],
        (4, true) => [random.float(), random.float()],
        _ => [f32::from_bits(random.bits() as u32), f32::from_bits(random.bits() as u32)],
    };
    event(kind, (bits >> 8) as u8, floats)
}

pub fn event(kind: u8, value: u8, [sum, energy]: [f32; 2]) -> [u8; 12] {
    let mut event = [kind, value, 0, 0, 0, 0, 0, 0, 0, 0, 0, 0];
    event[4..8].copy_from_slice(&sum.to_le_bytes());
    event[8..].copy_from_slice(&energy.to_le_bytes());
    event
}

/// Where a script is cut: nowhere, at some places, or, if it is short, before and after every event. Some places are the same, so pieces are
/// empty.
fn any_cuts(random: &mut Random, events: usize) -> Vec<usize> {
    let bits = random.bits();
    if bits % 8 == 0 && events <= 2_000 || events <= 2 {
        return (0..=events).collect();
    }
    let mut cuts: Vec<usize> = (0..(bits >> 8) % 8).map(|_| random.bits() as usize % (events + 1)).collect();
    if bits % 8 == 1 {
        cuts.extend_from_within(..);
        cuts.extend([0, events]);
    }
    cuts.sort();
    cuts
}

// ---- readable scripts

/// Every length up to 128 many times, some up to 4,096, few up to 65,536, and that length itself; every third script is wild, every third
/// wild only now and then.
fn random_scripts(beside: &mut Beside) -> Tally {
    let mut tally = Tally::default();
    let short = (0..77_400).map(|turn| turn % 129);
    let longer = (0..2_400).map(|turn| 128 + turn * 7919 % 3_969);
    let long = (0..72).map(|turn| 4_096 + turn * 15_486_001 % 61_440).chain([65_535, 65_536, 65_536, 65_536]);
    for (turn, length) in short.chain(longer).chain(long).enumerate() {
        let mut random = Random(beside.random.bits());
        let block = any_block(&mut random);
        let events: Vec<[u8; 12]> = (0..length)
            .map(|_| {
                let wild = match turn % 3 {
                    0 => false,
                    1 => random.bits() % 2_048 == 0,
                    _ => true,
                };
                any_event(&mut random, wild)
            })
            .collect();
        beside.readable(&mut tally, &block, &events);
    }
    tally
}

/// The letters of which every script of none, one and two is run.
fn letters() -> Vec<[u8; 12]> {
    const SUMS: [f32; 8] = [0.0, -0.0, 1.5, -3.0, 1.0e30, f32::MAX, f32::INFINITY, f32::NAN];
    const ENERGIES: [f32; 7] = [0.0, -0.0, 0.5, -0.005, 3.0e38, f32::NEG_INFINITY, f32::NAN];
    let writes: [(u8, &[u8]); 5] = [
        (0, &[0, 3, 7, 255]),
        (1, &[0, 1, 8, 127, 255]),
        (2, &[0x00, 0x03, 0x0f, 0x85, 0xf1, 0xf8]),
        (3, &[0x00, 0x0f, 0x1f, 0x28, 0x4f, 0x7f, 0x98, 0xff]),
        (5, &[0, 255]),
    ];
    let mut letters = vec![];
    for (kind, values) in writes {
        letters.extend(values.iter().map(|&value| event(kind, value, [f32::NAN, 0.0])));
    }
    for sum in SUMS {
        letters.extend(ENERGIES.map(|energy| event(4, 0, [sum, energy])));
    }
    letters
}

/// The states they start from: the starting value, and others about the ends of what a block holds.
fn starts() -> Vec<[u8; 68]> {
    let (mut starts, mut random) = (vec![[0; 68]], Random(47));
    let registers: [(u16, i16, u16, [u8; 5]); 5] = [
        (2047, 57, 0, [1, 15, 15, 7, 15]),
        (0, -57, 2047, [0, 0, 1, 1, 0]),
        (1023, -57, 8, [1, 8, 0, 2, 9]),
        (2047, 0, 2047, [0, 0, 3, 4, 1]),
        (8, 13, 0, [1, 7, 12, 8, 7]),
    ];
    let floats = [[-0.0, 0.0, -0.0], [0.5, -0.25, 0.1], [8.0e12, -8.0e12, 1.0], [f32::MAX, f32::MIN, f32::MAX], [0.0, 0.0, -0.005]];
    for (cutoff, displacement, base, bytes) in registers {
        for floats in floats {
            let mut start = [0; 68];
            start[0..2].copy_from_slice(&cutoff.to_le_bytes());
            start[2..4].copy_from_slice(&displacement.to_le_bytes());
            start[4..6].copy_from_slice(&base.to_le_bytes());
            start[6..11].copy_from_slice(&bytes);
            start[12..24].copy_from_slice(floats.map(f32::to_le_bytes).as_flattened());
            fill(&mut start, &mut random);
            starts.push(start);
        }
    }
    starts
}

fn small_scripts(beside: &mut Beside) -> Tally {
    let (mut tally, letters) = (Tally::default(), letters());
    for block in starts() {
        beside.readable(&mut tally, &block, &[]);
        for &first in &letters {
            beside.readable(&mut tally, &block, &[first]);
            for &second in &letters {
                beside.readable(&mut tally, &block, &[first, second]);
            }
        }
    }
    tally
}

// ---- what is refused before the start

fn short_script(random: &mut Random) -> Vec<[u8; 12]> {
    (0..random.bits() % 12).map(|_| any_event(random, false)).collect()
}

/// Every byte of a block with every value, every length up to past twice its own, that of 24 bytes among them, and floats that are not
/// finite.
fn blocks(beside: &mut Beside) -> Tally {
    let (mut tally, mut random) = (Tally::default(), Random(41));
    for start in [[0; 68], any_block(&mut random), any_block(&mut random)] {
        let events = short_script(&mut random);
        let (script, length) = (script_of(&events), 16 * samples_of(&events));
        for place in 0..68 {
            for value in 0..=255 {
                let mut block = start;
                block[place] = value;
                beside.whole(&mut tally, &block, &script, length);
            }
        }
        for place in [0, 2, 4] {
            for value in [2047, 2048, 57, 58, 65_479, 65_478, 32_767, 32_768, 65_535u16] {
                let mut block = start;
                block[place..place + 2].copy_from_slice(&value.to_le_bytes());
                beside.whole(&mut tally, &block, &script, length);
            }
        }
        for place in (12..64).step_by(4) {
            for bits in [0x7f80_0000, 0xff80_0000, 0x7f80_0001, 0x7fc0_0000, 0xffff_ffff, 0x7f7f_ffff, 0xff7f_ffff, 1, 0x8000_0000u32] {
                let mut block = start;
                block[place..place + 4].copy_from_slice(&bits.to_le_bytes());
                beside.whole(&mut tally, &block, &script, length);
            }
        }
        for size in 0..=140 {
            let block: Vec<u8> = start.iter().copied().cycle().take(size).collect();
            let ours = beside.whole(&mut tally, &block, &script, length);
            tally.same(ours.answer.number == 10, size != 68);
        }
    }
    tally
}

/// What one of the six decays is set to: five that it may be, and what it may not.
const DECAYS: [u32; 16] = [
    0x0000_0000, // the zeros
    0x8000_0000,
    0x0000_0001,
    0x3f7f_ffff, // just below 1
    0x3f80_0000,
    0x3f80_0001, // just above 1
    0x8000_0001, // just below 0
    0x8080_0000,
    0xbf80_0000,
    0x7f7f_ffff, // the largest floats
    0xff7f_ffff,
    0x7f80_0000, // the infinities
    0xff80_0000,
    0x7f80_0001, // NaNs
    0x7fc0_0000,
    0xffff_ffff,
];

/// Each of the six with each of these, every byte of them with every value, and every length about 24.
fn decays(beside: &mut Beside) -> Tally {
    let (mut tally, mut random) = (Tally::default(), Random(48));
    for start in [[0; 24], any_decays(&mut random), any_decays(&mut random)] {
        let (block, events) = (any_block(&mut random), short_script(&mut random));
        let (script, length) = (script_of(&events), 16 * samples_of(&events));
        for place in (0..24).step_by(4) {
            for (index, bits) in DECAYS.into_iter().enumerate() {
                let mut decays = start;
                decays[place..place + 4].copy_from_slice(&bits.to_le_bytes());
                let ours = beside.decayed(&mut tally, &decays, &block, &script, length);
                tally.same(ours.answer.number == 12, index >= 5);
            }
        }
        for place in 0..24 {
            for value in 0..=255 {
                let mut decays = start;
                decays[place] = value;
                beside.decayed(&mut tally, &decays, &block, &script, length);
            }
        }
        for size in 0..=72 {
            let decays: Vec<u8> = start.iter().copied().cycle().take(size).collect();
            let ours = beside.decayed(&mut tally, &decays, &block, &script, length);
            tally.same(ours.answer.number == 12, size != 24);
        }
    }
    tally
}

/// Every set of a wrong block, wrong decays, an unreadable script and a short output: the first of them is answered.
fn order(beside: &mut Beside) -> Tally {
    let (mut tally, mut random) = (Tally::default(), Random(49));
    for turn in 0..16 * 500 {
        let (mut block, mut decays) = (any_block(&mut random), any_decays(&mut random));
        let mut events = short_script(&mut random);
        events.push(event(4, 0, [0.5, 0.5]));
        let (mut script, mut length, bits) = (script_of(&events), 16 * samples_of(&events), random.bits());
        let flaws: Vec<u32> = (0..4).filter(|bit| turn >> bit & 1 == 1).map(|bit| [10, 12, 7, 8][bit]).collect();
        for flaw in &flaws {
            match flaw {
                10 => block[[11, 65, 66, 67][bits as usize % 4]] = 1,
                12 => decays[(bits >> 8) as usize % 6 * 4 + 3] = 0x7f,
                7 => script[4] = 9,
                _ => length -= 1,
            }
        }
        let ours = beside.decayed(&mut tally, &decays, &block, &script, length);
        if let Some(&first) = flaws.first() {
            tally.same(ours.answer, number(first));
        }
    }
    tally
}

/// Every byte of the header and of some events with every value, every shorter length and some longer ones, and counts whose length
/// overflows. Another value of a byte that a script may have so is readable.
fn unreadable(beside: &mut Beside) -> Tally {
    let (mut tally, mut random) = (Tally::default(), Random(42));
    for count in [0, 1, 4] {
        let block = any_block(&mut random);
        let script = script_of(&(0..count).map(|_| any_event(&mut random, false)).collect::<Vec<_>>());
        for place in 0..script.len() {
            for value in 0..=255 {
                let mut script = script.clone();
                script[place] = value;
                beside.whole(&mut tally, &block, &script, 16 * count);
            }
        }
        for length in 0..script.len() + 40 {
            let script: Vec<u8> = script.iter().copied().chain(pattern(40)).take(length).collect();
            beside.whole(&mut tally, &block, &script, 16 * count);
        }
        for claimed in [65_536, 65_537, 0x1555_5555, 0x1555_5556, 0x2aaa_aaab, 0x8000_0000, 0xffff_ffff, 0x0001_0000u32 + count as u32] {
            let mut script = script.clone();
            script[..4].copy_from_slice(&claimed.to_le_bytes());
            for length in [script.len(), 16, 8 + (12u32.wrapping_mul(claimed) as usize).min(1 << 20)] {
                script.resize(length, 0);
                beside.whole(&mut tally, &block, &script, 16 * count);
            }
        }
    }
    // One event too many, and the most with the last one unreadable.
    let mut events = vec![event(4, 0, [0.5, 0.5]); 65_537];
    beside.whole(&mut tally, &[0; 68], &script_of(&events), 16 * 65_537);
    events.pop();
    for (place, value) in [(0, 6), (2, 1), (3, 128), (0, 255)] {
        let byte = std::mem::replace(&mut events[65_535][place], value);
        beside.whole(&mut tally, &[0; 68], &script_of(&events), 16 * 65_536);
        events[65_535][place] = byte;
    }
    tally
}

/// Every output length about what short scripts need, and the longest script's to the byte.
fn outputs(beside: &mut Beside) -> Tally {
    let (mut tally, mut random) = (Tally::default(), Random(43));
    for _ in 0..200 {
        let block = any_block(&mut random);
        let events = short_script(&mut random);
        for length in 0..16 * samples_of(&events) + 20 {
            beside.whole(&mut tally, &block, &script_of(&events), length);
        }
    }
    let script = script_of(&vec![event(4, 0, [0.5, 0.5]); 65_536]);
    for length in [0, 16 * 65_535, 16 * 65_536 - 1, 16 * 65_536, 16 * 65_536 + 1] {
        beside.whole(&mut tally, &any_block(&mut random), &script, length);
    }
    tally
}

/// Every value of every header byte of the bundle, alone and with another one wrong, and wrong lengths of bundle and curves, with all else
/// right and with other flaws.
fn wrong_buffers(beside: &mut Beside) -> Tally {
    let (mut tally, mut random) = (Tally::default(), Random(44));
    let (mut bundle, mut curves) = (beside.bundle.clone(), beside.curves.clone());
    let mut both = |bundle: &[u8], curves: &[u8]| {
        let (mut block, events, bits) = (any_block(&mut random), short_script(&mut random), random.bits());
        let (mut decays, mut script) = (any_decays(&mut random), script_of(&events));
        block[[11, 67][(bits >> 5) as usize % 2]] = u8::from(bits % 4 == 0);
        decays[3] |= u8::from(bits >> 6 & 3 == 0) << 6;
        script[4] += u8::from(bits >> 2 & 3 == 0);
        let a_sample = if bits >> 4 & 1 == 0 { 16 } else { 15 };
        beside.run(&mut tally, [bundle, curves, &decays], &block, &script, a_sample * samples_of(&events));
    };
    for place in 0..56 {
        let byte = bundle[place];
        for value in 0..=255 {
            bundle[place] = value;
            both(&bundle, &curves[..CURVES_LENGTH - usize::from(value % 2)]);
            bundle[55 - place] ^= 1;
            both(&bundle, &curves);
            bundle[55 - place] ^= 1;
        }
        bundle[place] = byte;
    }
    bundle.extend([0; 9]);
    curves.extend([0; 9]);
    for bundle_length in [0, 1, 8, 55, 56, 57, 6_127_732, 6_127_735, BUNDLE_LENGTH, 6_127_737, 6_127_740, 6_127_745] {
        for curves_length in [0, 1, 4, 8_196, 254_072, 254_075, CURVES_LENGTH, 254_077, 254_080, 254_085] {
            both(&bundle[..bundle_length], &curves[..curves_length]);
        }
    }
    tally
}

// ---- entries

/// Entries set to other bits, and what they were.
struct Damage(Vec<(u32, usize, [u8; 4])>);

impl Damage {
    /// One to three of the places that a run reads.
    fn done(random: &mut Random, read: &[(u32, usize)], bundle: &mut [u8], curves: &mut [u8]) -> Self {
        let mut whole = vec![];
        for _ in 0..1 + random.bits() % 3 {
            let (buffer, place) = read[random.bits() as usize % read.len()];
            let entry = entry_of(buffer, place, bundle, curves);
            whole.push((buffer, place, *entry));
            *entry = DAMAGES[random.bits() as usize % 12].to_le_bytes();
        }
        Damage(whole)
    }

    fn undone(self, bundle: &mut [u8], curves: &mut [u8]) {
        for (buffer, place, whole) in self.0.into_iter().rev() {
            *entry_of(buffer, place, bundle, curves) = whole;
        }
    }
}

fn entry_of<'a>(buffer: u32, place: usize, bundle: &'a mut [u8], curves: &'a mut [u8]) -> &'a mut [u8; 4] {
    let bytes = if buffer == 0 { bundle } else { curves };
    (&mut bytes[place..place + 4]).try_into().unwrap()
}

/// Every place that a run reads, in order.
fn places(bundle: &[u8], curves: &[u8], block: &[u8], events: &[[u8; 12]]) -> Vec<(u32, usize)> {
    let mut machine = Machine::new(bundle, curves);
    machine.read = Some(vec![]);
    machine.run(&mut block.to_vec(), &[0; 24], &script_of(events), &mut vec![0; 16 * events.len()]);
    machine.read.unwrap_or_default()
}

/// Scripts with one to three of the entries damaged that they read: at the start, in a write, in a sample, or first after a reset.
fn damaged(beside: &mut Beside) -> Tally {
    let (mut tally, mut random) = (Tally::default(), Random(45));
    let (mut bundle, mut curves) = (beside.bundle.clone(), beside.curves.clone());
    for _ in 0..60_000 {
        let block = any_block(&mut random);
        let events: Vec<[u8; 12]> = (0..1 + random.bits() % 24).map(|_| any_event(&mut random, false)).collect();
        let read = places(&bundle, &curves, &block, &events);
        let damage = Damage::done(&mut random, &read, &mut bundle, &mut curves);
        let decays = any_decays(&mut random);
        beside.run(&mut tally, [&bundle, &curves, &decays], &block, &script_of(&events), 16 * samples_of(&events));
        damage.undone(&mut bundle, &mut curves);
    }
    tally.same(bundle == beside.bundle, true);
    tally.same(curves == beside.curves, true);
    tally
}

/// Mode writes that would overflow a charge, on the whole bundle and with the entry unusable that they alone read: the entry is judged first.
fn entry_and_charge(beside: &mut Beside) -> Tally {
    let (mut tally, mut random) = (Tally::default(), Random(50));
    let (mut bundle, curves) = (beside.bundle.clone(), beside.curves.clone());
    for turn in 0..600 {
        let (mut block, bits, decays) = (any_block(&mut random), random.bits(), any_decays(&mut random));
        block[9] = 0;
        block[44..48].copy_from_slice(&[f32::MAX, f32::MIN][turn % 2].to_le_bytes());
        let events = [event(3, [0x10, 0x20, 0x40][turn % 3] | bits as u8 & 0x8f, [0.0; 2])];
        let place = places(&bundle, &curves, &block, &events).last().expect("an entry").1;
        let ours = beside.run(&mut tally, [&bundle, &curves, &decays], &block, &script_of(&events), 0);
        tally.same(ours.answer, number(6));
        let entry: [u8; 4] = bundle[place..place + 4].try_into().unwrap();
        bundle[place..place + 4].copy_from_slice(&DAMAGES[4 + turn % 8].to_le_bytes());
        let ours = beside.run(&mut tally, [&bundle, &curves, &decays], &block, &script_of(&events), 0);
        tally.same(ours.answer, Answer { place: place as u32, ..number(3) });
        bundle[place..place + 4].copy_from_slice(&entry);
    }
    tally
}

/// Any of the flaws together, so that the order of judgement decides.
fn flaws(beside: &mut Beside) -> Tally {
    let (mut tally, mut random) = (Tally::default(), Random(46));
    let (mut bundle, mut curves) = (beside.bundle.clone(), beside.curves.clone());
    for _ in 0..60_000 {
        let mut block = any_block(&mut random).to_vec();
        let wild = random.bits() % 2 == 0;
        let events: Vec<[u8; 12]> = (0..random.bits() % 12).map(|_| any_event(&mut random, wild)).collect();
        let read = places(&bundle, &curves, &block, &events);
        let damage = Damage::done(&mut random, &read, &mut bundle, &mut curves);
        let bits = random.bits();
        let has = |flaw: u32| bits >> (2 * flaw) & 3 == 0;
        let header = if has(0) { (bits >> 32) as usize % 56 } else { 56 };
        bundle[header] ^= 1;
        let mut script = script_of(&events);
        let at = (bits >> 40) as usize % script.len();
        if has(1) {
            script[at] ^= 1 << (bits >> 20 & 7);
        }
        if has(2) {
            block[(bits >> 48) as usize % 68] ^= 1 << (bits >> 24 & 7);
        }
        let mut decays = any_decays(&mut random);
        if has(6) {
            decays[(bits >> 56) as usize % 24] ^= 1 << (bits >> 28 & 7);
        }
        let bundle_length = BUNDLE_LENGTH - usize::from(has(3));
        let curves_length = CURVES_LENGTH - usize::from(has(4));
        let length = (16 * samples_of(&events)).saturating_sub(usize::from(has(5)));
        beside.run(&mut tally, [&bundle[..bundle_length], &curves[..curves_length], &decays], &block, &script, length);
        bundle[header] ^= 1;
        damage.undone(&mut bundle, &mut curves);
    }
    tally
}
