//! Ticks, each a call of its own: the four numbers and the block after it beside the Rust's unchanged `clock` (clocked.rs), the refusals
//! beside the plain machine (plain.rs), which works every tick out a second time and is set beside `clock` too.

use crate::charges::{any_decays, is_finite};
use crate::clocked::{clocked, floats_of, Clocked, Damage, InputBytes, Inputs, Lent};
use crate::dac::VoiceSignal;
use crate::filter::Filter;
use crate::kept::{filter_block, put, set};
use crate::mixing::{frozen_dac_operating_point, ExternalInputState};
use crate::numbers::{Random, Tally, DAMAGES};
use crate::plain::{Machine, Refusal, TickLent, BUNDLE_LENGTH, CURVES_LENGTH};
use crate::ruler::rulers;
use crate::run::{any_block, between, finite, framed, room};
use crate::surface::data;
use crate::tick_rows::*;
use crate::voices::{resting, voice, FLAGS, PURE};

mod proved {
    use crate::plain::{Refusal, TickLent};

    #[repr(C)]
    struct Reply {
        number: u32,
        buffer: u32,
        place: u32,
    }

    #[link(name = "probe_ticks", kind = "static")]
    unsafe extern "C" {
        fn probe_tick(
            bundle: *const u8,
            bundle_len: usize,
            curves: *const u8,
            curves_len: usize,
            state: *mut u8,
            state_len: usize,
            decays: *const u8,
            decays_len: usize,
            levels: *const u8,
            levels_len: usize,
            voices: *const u8,
            voices_len: usize,
            output: *mut u8,
            output_len: usize,
        ) -> Reply;
    }

    pub fn tick([bundle, curves]: [&[u8]; 2], state: &mut [u8], lent: TickLent, output: &mut [u8]) -> Refusal {
        let reply = unsafe {
            probe_tick(
                bundle.as_ptr(),
                bundle.len(),
                curves.as_ptr(),
                curves.len(),
                state.as_mut_ptr(),
                state.len(),
                lent.decays.as_ptr(),
                lent.decays.len(),
                lent.levels.as_ptr(),
                lent.levels.len(),
                lent.voices.as_ptr(),
                lent.voices.len(),
                output.as_mut_ptr(),
                output.len(),
            )
        };
        (reply.number, reply.buffer, reply.place)
    }
}

pub fn compare() -> Vec<(&'static str, Tally)> {
    let mut beside = Beside { lent: Lent::new(data("bundle")), seen: Seen::default() };
    let mut subjects = vec![
        ("ticks, the smallest of every way", rows(&mut beside)),
        ("ticks, from any states", singles(&mut beside)),
        ("ticks, in and about bias mode", bias_mode(&mut beside)),
        ("ticks, pulses pending and activities about the previous one", rises(&mut beside)),
        ("ticks, lists with writes between them", lists(&mut beside)),
        ("ticks, voices that sound for long", long_lists(&mut beside)),
        ("ticks, on either side of the refused", borders(&mut beside)),
        ("ticks, damaged entries", damaged(&mut beside)),
        ("ticks, every set of causes", causes(&mut beside)),
        ("ticks, every byte and every length", bytes_and_lengths(&mut beside)),
        ("ticks, wrong headers and lengths of bundle and curves", wrong_buffers(&mut beside)),
        ("ticks, what is lent to be read and every way met", ended(&beside)),
        ("ticks, the volume's curves as rulers", on_rulers(&mut beside)),
        ("ticks, curves of any usable entries", on_any_curves(&mut beside)),
    ];
    beside.seen.print();
    subjects.push(("ticks, the plain machine beside `clock`", beside.seen.plain));
    subjects
}

// ---- what was met

/// How many ticks there were, how often each way, each selection of a voice and each number of an answer was met, and the plain machine
/// beside `clock`.
#[derive(Default)]
struct Seen {
    ticks: u64,
    ways: [(&'static str, u64); 19],
    selections: [u64; 16],
    numbers: [u64; 13],
    plain: Tally,
}

impl Seen {
    fn print(&self) {
        let listed = |counts: &[u64]| counts.iter().enumerate().map(|(at, count)| format!("{at}: {count}")).collect::<Vec<_>>().join(", ");
        println!("ticks: {}, of them with", self.ticks);
        for (way, count) in self.ways {
            println!("  {way}: {count}");
        }
        println!("  voices by selection: {}", listed(&self.selections));
        println!("  answers by number: {}", listed(&self.numbers));
    }

    fn answer(&mut self, told: Refusal) {
        self.ticks += 1;
        self.numbers[(told.0 as usize).min(12)] += 1;
    }

    fn meet(&mut self, lent: &mut Lent, before: &[u8; 68], inputs: &Inputs, theirs: &Clocked) {
        for (kept, (way, met)) in self.ways.iter_mut().zip(ways(&mut lent.filter, before, inputs, theirs)) {
            *kept = (way, kept.1 + u64::from(met));
        }
        for voice in &inputs.voices {
            self.selections[usize::from(voice.waveform_selection)] += 1;
        }
    }
}

/// Which ways a tick goes, on valid bytes and usable entries.
fn ways(filter: &mut Filter, before: &[u8; 68], inputs: &Inputs, theirs: &Clocked) -> [(&'static str, bool); 19] {
    let (t, bias_mode) = (*filter.topology(), filter.control().frozen_dac_bias_mode);
    let (mode, volume, pending, voices) = (before[9], before[10], before[PENDING] == 1, &inputs.voices);
    let integrator: [f32; 3] = floats_of(&before[BAND..]);
    let [previous]: [f32; 1] = floats_of(&before[PREVIOUS..]);
    let [.., bypass, pure, _, _] = theirs.sums;
    let advanced: [f32; 3] = floats_of(&theirs.after[BAND..]);
    let sums_finite = theirs.sums.iter().all(|x| x.is_finite());
    let core_finite = advanced.iter().all(|x| x.is_finite()) && theirs.numbers[3].is_finite();
    [
        ("idle core", t.filter_input_count == 0 && integrator == [0.0; 3]),
        ("no input at the mixer", t.mixer_input_count == 0),
        ("mixer output that is its curve's", t.bypass_internal_mask == 0 && inputs.levels[0] == 0.0),
        ("activity of two voices", bypass > 1.0 && bypass < 3.0),
        ("activity of three voices", bypass > 2.0),
        ("bias mode", bias_mode),
        ("frozen point", frozen_dac_operating_point(bias_mode, mode, volume, voices).is_some()),
        ("no mode output", t.filter_output_count == 0),
        ("no voice beside the filter", t.bypass_internal_mask == 0),
        ("rising activity", t.bypass_internal_mask != 0 && pure > previous),
        ("pulse pending", pending),
        ("pending used up", pending && theirs.after[PENDING] == 0),
        ("saw above 0.02", voices.iter().any(|voice| voice.waveform_selection == 2 && voice.envelope > 0.02)),
        ("combined voice", voices.iter().any(|voice| voice.combined)),
        ("voice 3 off", mode >= 8),
        ("volume 0", volume == 0),
        ("6 in collecting", !sums_finite),
        ("6 in the core", sums_finite && !core_finite),
        ("6 in the rest", sums_finite && core_finite && !theirs.is_finite()),
    ]
}

// ---- one tick

/// What is lent with the Rust's filter, and what was met.
struct Beside {
    lent: Lent,
    seen: Seen,
}

/// What a call answers and leaves.
#[derive(PartialEq)]
struct Left {
    told: Refusal,
    state: [u8; 68],
    output: [u8; 16],
}

/// What the output holds before a call.
const BEFORE: [u8; 16] = [0xa5; 16];

fn left(block: &[u8; 68], tick: impl FnOnce(&mut [u8], &mut [u8]) -> Refusal) -> Left {
    let (mut state, mut output) = (*block, BEFORE);
    let told = tick(&mut state, &mut output);
    Left { told, state, output }
}

fn same_left(tally: &mut Tally, ours: &Left, theirs: &Left) {
    tally.same(ours.told, theirs.told);
    for (ours, theirs) in ours.output.chunks_exact(4).zip(theirs.output.chunks_exact(4)) {
        tally.same(ours, theirs);
    }
    tally.same(ours.state, theirs.state);
}

/// What the Rust's tick leaves where it is done.
fn left_by(clocked: &Clocked) -> Left {
    let output = clocked.numbers.map(f32::to_le_bytes).as_flattened().try_into().expect("16 bytes");
    Left { told: (0, 0, 0), state: clocked.after, output }
}

/// The call and the plain machine on the same bytes.
fn both(lent: &Lent, block: &[u8; 68], inputs: &InputBytes) -> (Left, Left) {
    let Lent { bundle, curves, .. } = lent;
    let ours = left(block, |state, output| proved::tick([bundle, curves], state, inputs.lent(), output));
    let plain = left(block, |state, output| Machine::new(bundle, curves).tick(state, inputs.lent(), output));
    (ours, plain)
}

impl Beside {
    /// One tick of the state that the filter is in, on valid bytes and usable entries: it is refused with 6 where the Rust's numbers are not
    /// all finite, and the filter then stays as it was. Whether it was done.
    fn tick(&mut self, tally: &mut Tally, inputs: &Inputs) -> bool {
        let before = filter_block(&mut self.lent.filter);
        let (ours, plain) = both(&self.lent, &before, &inputs.bytes());
        let clocked = clocked(&mut self.lent.filter, inputs);
        self.seen.answer(ours.told);
        self.seen.meet(&mut self.lent, &before, inputs, &clocked);
        let done = clocked.is_finite();
        let theirs = if done { left_by(&clocked) } else { Left { told: (6, 0, 0), state: before, output: BEFORE } };
        same_left(tally, &ours, &theirs);
        same_left(&mut self.seen.plain, &plain, &theirs);
        if !done {
            set(&mut self.lent.filter, &before);
        }
        done
    }

    /// One tick of a block's state.
    fn tick_from(&mut self, tally: &mut Tally, block: &[u8; 68], inputs: &Inputs) -> bool {
        put(&mut self.lent.filter, block);
        self.tick(tally, inputs)
    }

    /// A tick on damaged entries, maybe of invalid bytes too, beside the plain machine; what is done also beside `clock`, where the filter
    /// has every entry.
    fn tick_damaged(&mut self, tally: &mut Tally, block: &[u8; 68], inputs: &InputBytes, damages: &[Damage]) -> Refusal {
        let follows = damages.iter().all(|&(buffer, place, _)| Lent::follows(buffer, place));
        let seen = &mut self.seen;
        self.lent.with_damages(damages, |lent| {
            let (ours, plain) = both(lent, block, inputs);
            seen.answer(ours.told);
            same_left(tally, &ours, &plain);
            if plain.told.0 == 0 && follows {
                put(&mut lent.filter, block);
                let theirs = left_by(&clocked(&mut lent.filter, &inputs.read()));
                same_left(&mut seen.plain, &plain, &theirs);
            }
            ours.told
        })
    }
}

/// A call on buffers of any lengths beside the plain machine. State and output lie between bytes that must stay.
fn on_any(seen: &mut Seen, tally: &mut Tally, buffers: [&[u8]; 2], block: &[u8], lent: TickLent, length: usize) -> Refusal {
    let frames = || (framed(block), framed(&vec![0xa5; length]));
    let (mut ours, mut plain) = (frames(), frames());
    let told = proved::tick(buffers, room(&mut ours.0), lent, room(&mut ours.1));
    let theirs = Machine::new(buffers[0], buffers[1]).tick(room(&mut plain.0), lent, room(&mut plain.1));
    seen.answer(told);
    tally.same(told, theirs);
    tally.same(ours, plain);
    told
}

/// What is lent is as it was, and every way, every selection and every number of a tick's answer was met.
fn ended(beside: &Beside) -> Tally {
    let (mut tally, whole, seen) = (Tally::default(), Lent::new(data("bundle")), &beside.seen);
    tally.same(&beside.lent.bundle, &whole.bundle);
    tally.same(&beside.lent.curves, &whole.curves);
    for count in seen.ways.map(|(_, count)| count).into_iter().chain(seen.selections) {
        tally.same(count > 0, true);
    }
    for (number, &count) in seen.numbers.iter().enumerate() {
        tally.same(count > 0, [0, 1, 2, 3, 4, 6, 10, 11, 12].contains(&number));
    }
    tally
}

// ---- inputs

/// Envelopes at which a tick takes another way, and sizes at which a number overflows.
const ENVELOPES: [f32; 24] = [
    0.0,
    -0.0,
    0.02,
    0.020_000_001,
    0.019_999_998,
    0.99,
    0.989_999_95,
    0.990_000_1,
    1.0,
    2.0,
    2.5,
    3.0,
    4.0,
    -0.5,
    -1.0,
    1.0e-40,
    -1.0e-40,
    1.16e12,
    4.9e17,
    7.4e34,
    2.0e38,
    -2.0e38,
    3.0e38,
    -3.0e38,
];

/// Waveforms up to where the bend of a saw overflows.
const WAVEFORMS: [f32; 9] = [0.0, -0.0, 0.5, -1.0, 8.0, -8.0, 3.238_764e19, -4.0e19, 3.0e38];

/// What the external levels have at their edges.
const LEVELS: [f32; 12] = [0.0, -0.0, 1.0e-45, 1.0, -1.0, 2.5, 4.9e17, -4.9e17, 1.8e19, 2.0e19, 3.4e38, -3.4e38];

fn of(random: &mut Random, list: &[f32]) -> f32 {
    list[random.bits() as usize % list.len()]
}

/// A voice as a song has it, mostly; else with edges, or any finite numbers. Half of them are pure, and of the selections those that count
/// come often.
fn any_voice(random: &mut Random) -> VoiceSignal {
    let bits = random.bits();
    let [waveform, envelope] = match bits % 16 {
        0..2 => [of(random, &WAVEFORMS), of(random, &ENVELOPES)],
        2..5 => [between(random, -1.0, 1.0), of(random, &ENVELOPES[..16])],
        5 => [finite(random), between(random, 0.0, 1.0)],
        6 => [finite(random), finite(random)],
        7 => [between(random, -2.0, 2.0), between(random, -1.0, 3.5)],
        _ => [between(random, -0.3, 0.8), between(random, 0.0, 1.0)],
    };
    let selection = if bits >> 8 & 1 == 0 { [1, 2, 4, 4][(bits >> 9) as usize % 4] } else { (bits >> 9) as u8 % 16 };
    let flags = if bits >> 16 & 1 == 0 { PURE } else { FLAGS[(bits >> 17) as usize % 4] };
    voice(waveform, envelope, selection, flags)
}

/// The levels at rest, those of a sample, or any.
fn any_levels(random: &mut Random) -> [f32; 3] {
    let bits = random.bits();
    match bits % 8 {
        0 => [of(random, &LEVELS), of(random, &LEVELS), of(random, &LEVELS)],
        1 => [finite(random), finite(random), finite(random)],
        2 => [of(random, &LEVELS), resting(), resting()],
        3..5 => {
            let mut external = ExternalInputState::new();
            external.set_sample((bits >> 16) as i16);
            [external.raw, external.filter_signal, external.mixer_signal]
        }
        5 => [-0.0, between(random, 0.0, 1.0), between(random, 0.0, 1.0)],
        _ => [0.0, resting(), resting()],
    }
}

fn any_inputs(random: &mut Random) -> Inputs {
    let decays = if random.bits() % 2 == 0 { own_decays() } else { floats_of(&any_decays(random)) };
    Inputs { decays, levels: any_levels(random), voices: [0; 3].map(|_| any_voice(random)) }
}

fn put_float(block: &mut [u8; 68], place: usize, float: f32) {
    block[place..place + 4].copy_from_slice(&float.to_le_bytes());
}

/// A block with numbers of a usual size from the integrator on.
fn tame_block(random: &mut Random) -> [u8; 68] {
    let mut block = any_block(random);
    let sizes = [(BAND, 1.5), (LOW, 1.5), (FAST, 3_200.0), (SLOW, 2_800.0), (ATTACK, 0.01), (PULSE_FAST, 1_300.0), (PULSE_SLOW, 1_300.0)];
    for (place, size) in sizes {
        put_float(&mut block, place, between(random, -size, size));
    }
    for place in [ENERGY, BLENDS[0], BLENDS[1], BLENDS[2]] {
        put_float(&mut block, place, between(random, 0.0, 1.0));
    }
    put_float(&mut block, PREVIOUS, between(random, 0.0, 3.0));
    block
}

/// A tame block mostly, else any.
fn some_block(random: &mut Random) -> [u8; 68] {
    match random.bits() % 3 {
        0 => any_block(random),
        _ => tame_block(random),
    }
}

/// The inputs of the next clock: mostly the same voices a little further on.
fn moved(inputs: &Inputs, random: &mut Random) -> Inputs {
    let mut next = *inputs;
    for voice in &mut next.voices {
        match random.bits() % 32 {
            0 => *voice = any_voice(random),
            1 => voice.envelope = of(random, &ENVELOPES[..16]),
            _ => (voice.waveform, voice.envelope) = (between(random, -0.3, 0.8), voice.envelope + between(random, -0.01, 0.01)),
        }
    }
    if random.bits() % 16 == 0 {
        next.levels = any_levels(random);
    }
    next
}

// ---- single ticks

/// What the rows state.
fn rows(beside: &mut Beside) -> Tally {
    let mut tally = Tally::default();
    let mut rows = crate::tick_rows::rows(&mut beside.lent.filter);
    rows.extend(damaged_rows(&beside.lent));
    for row in rows {
        let told = beside.tick_damaged(&mut tally, &row.block, &row.inputs, &row.damages);
        tally.same(told, row.told);
    }
    tally
}

fn singles(beside: &mut Beside) -> Tally {
    let (mut tally, mut random) = (Tally::default(), Random(150));
    for _ in 0..3_500_000 {
        let (block, inputs) = (some_block(&mut random), any_inputs(&mut random));
        beside.tick_from(&mut tally, &block, &inputs);
    }
    tally
}

/// Bias mode, or now and then another cutoff, resonance or routing; mostly frozen voices, about 0.99 and above.
fn bias_mode(beside: &mut Beside) -> Tally {
    let (mut tally, mut random) = (Tally::default(), Random(151));
    for _ in 0..600_000 {
        let (mut block, mut inputs, bits) = (some_block(&mut random), any_inputs(&mut random), random.bits());
        let other = |shift: u32, usual: u8, byte: u8| if bits >> shift & 31 == 0 { byte } else { usual };
        let cutoff = [2047, 2046][usize::from(bits & 31 == 0)];
        block[..2].copy_from_slice(&u16::to_le_bytes(cutoff));
        (block[7], block[8]) = (other(5, 0, 1), other(10, 3, (bits >> 32) as u8 & 15));
        for voice in &mut inputs.voices {
            let bits = random.bits();
            voice.frozen = bits % 16 != 0;
            voice.envelope = match bits >> 8 & 15 {
                0 => of(&mut random, &ENVELOPES),
                1..4 => of(&mut random, &[0.99, 0.990_000_1, 0.989_999_95]),
                _ => between(&mut random, 0.99, 1.01),
            };
        }
        beside.tick_from(&mut tally, &block, &inputs);
    }
    tally
}

/// A pulse is pending, and the previous activity is that of the tick, a neighbour of it or another.
fn rises(beside: &mut Beside) -> Tally {
    let (mut tally, mut random) = (Tally::default(), Random(152));
    for _ in 0..600_000 {
        let (mut block, inputs) = (some_block(&mut random), any_inputs(&mut random));
        block[PENDING] = 1;
        put(&mut beside.lent.filter, &block);
        let pure = clocked(&mut beside.lent.filter, &inputs).sums[5];
        let previous = [pure, pure.next_up(), pure.next_down(), 0.0, -0.0][random.bits() as usize % 5];
        if previous.is_finite() {
            put_float(&mut block, PREVIOUS, previous);
        }
        beside.tick_from(&mut tally, &block, &inputs);
    }
    tally
}

// ---- lists

/// A write, a reset or a gate that rises, by the Rust's own calls; undone where it leaves a charge that is not finite.
fn write(filter: &mut Filter, random: &mut Random) {
    let (before, bits) = (filter_block(filter), random.bits());
    let value = (bits >> 8) as u8;
    match bits % 32 {
        0..5 => filter.write_cutoff_low(value),
        5..10 => filter.write_cutoff_high(value),
        10..16 => filter.write_signal_routing(value),
        16..24 => filter.write_mode_and_volume(value),
        24..27 => filter.mark_pure_pulse_gate_rise(),
        27..29 => filter.mark_pure_saw_gate_rise(usize::from(value % 3)),
        29 => filter.reset(),
        _ => {
            filter.write_cutoff_low(7);
            filter.write_cutoff_high(255);
            filter.write_signal_routing(3);
        }
    }
    if !is_finite(&filter_block(filter)) {
        put(filter, &before);
    }
}

/// Lists from any states, on what the filter keeps from write to write; they end at some of the refused ticks.
fn lists(beside: &mut Beside) -> Tally {
    let (mut tally, mut random) = (Tally::default(), Random(153));
    for _ in 0..75_000 {
        put(&mut beside.lent.filter, &some_block(&mut random));
        let mut inputs = any_inputs(&mut random);
        for _ in 0..1 + random.bits() % 128 {
            if random.bits() % 8 == 0 {
                write(&mut beside.lent.filter, &mut random);
            }
            inputs = moved(&inputs, &mut random);
            if !beside.tick(&mut tally, &inputs) && random.bits() % 4 == 0 {
                break;
            }
        }
    }
    tally
}

/// Voices of a song with the Rust's own decays: one list without a write, in which charges become subnormal, and others with few.
fn long_lists(beside: &mut Beside) -> Tally {
    let (mut tally, mut random) = (Tally::default(), Random(154));
    for list in 0..17 {
        put(&mut beside.lent.filter, &tame_block(&mut random));
        let mut inputs = Inputs { decays: own_decays(), ..any_inputs(&mut random) };
        for tick in 0..if list == 0 { 250_000 } else { 60_000 } {
            if list > 0 && random.bits() % 512 == 0 {
                write(&mut beside.lent.filter, &mut random);
            }
            if tick % 4_096 == 0 {
                inputs.voices = [0; 3].map(|_| voice(0.0, 0.0, [1, 2, 4][random.bits() as usize % 3], PURE));
                inputs.levels = [0.0, resting(), resting()];
            }
            for voice in &mut inputs.voices {
                voice.waveform = between(&mut random, -0.3, 0.8);
                voice.envelope = (voice.envelope + between(&mut random, -0.000_9, 0.001)).clamp(0.0, 1.0);
            }
            beside.tick(&mut tally, &inputs);
        }
    }
    tally
}

// ---- what is refused

/// Sets one of the numbers that a tick takes: the block's thirteen, the voices' six, the levels' three.
fn set_number(block: &mut [u8; 68], inputs: &mut Inputs, index: usize, number: f32) {
    match index {
        0..13 => put_float(block, BAND + 4 * index, number),
        13..16 => inputs.voices[index - 13].envelope = number,
        16..19 => inputs.voices[index - 16].waveform = number,
        _ => inputs.levels[index - 19] = number,
    }
}

/// The largest bits of a sign at which the Rust's numbers are finite, by halving; none where there is no border.
fn border(filter: &mut Filter, block: &[u8; 68], inputs: &Inputs, index: usize, sign: f32) -> Option<u32> {
    let mut goes = |bits: u32| {
        let (mut block, mut inputs) = (*block, *inputs);
        set_number(&mut block, &mut inputs, index, sign * f32::from_bits(bits));
        put(filter, &block);
        clocked(filter, &inputs).is_finite()
    };
    let (mut low, mut high) = (0, f32::MAX.to_bits());
    if !goes(low) || goes(high) {
        return None;
    }
    while high - low > 1 {
        let middle = low + (high - low) / 2;
        *if goes(middle) { &mut low } else { &mut high } = middle;
    }
    Some(low)
}

/// From tame states: the last three floats of a number with which a tick goes, and the next three.
fn borders(beside: &mut Beside) -> Tally {
    let (mut tally, mut random, mut found) = (Tally::default(), Random(155), [0; 22]);
    for _ in 0..40_000 {
        let (mut block, mut inputs, bits) = (tame_block(&mut random), any_inputs(&mut random), random.bits());
        let (index, sign) = (bits as usize % 22, [1.0, -1.0][(bits >> 8) as usize % 2]);
        let Some(last) = border(&mut beside.lent.filter, &block, &inputs, index, sign) else { continue };
        found[index] += 1;
        for step in -2..=3 {
            let number = f32::from_bits(last.saturating_add_signed(step));
            if number.is_finite() {
                set_number(&mut block, &mut inputs, index, sign * number);
                beside.tick_from(&mut tally, &block, &inputs);
            }
        }
    }
    println!("ticks: borders between ticks that go and refused ones, number by number: {found:?}");
    tally
}

/// One to three of the entries damaged that a tick reads, mostly behind the controls.
fn damaged(beside: &mut Beside) -> Tally {
    let (mut tally, mut random) = (Tally::default(), Random(156));
    for _ in 0..300_000 {
        let (block, inputs) = (some_block(&mut random), any_inputs(&mut random));
        let reads = places(&beside.lent, &block, &inputs);
        let damages: Vec<Damage> = (0..1 + random.bits() % 3)
            .map(|_| {
                let bits = random.bits();
                let from = if bits % 8 == 0 { 0 } else { reads.len().saturating_sub(10) };
                let (buffer, place) = reads[from + (bits >> 8) as usize % (reads.len() - from)];
                (buffer, place, DAMAGES[(bits >> 32) as usize % 12])
            })
            .collect();
        beside.tick_damaged(&mut tally, &block, &inputs.bytes(), &damages);
    }
    tally
}

/// The causes that a tick may have, in the order in which they are looked for. The last seven are: an entry of the controls, a sum, an entry
/// of the summer, the core, an entry of the mixer, one of the volume, the rest.
const CAUSES: [u32; 13] = [1, 2, 4, 10, 12, 11, 3, 6, 3, 6, 3, 3, 6];

/// Every set of them: the first is answered.
fn causes(beside: &mut Beside) -> Tally {
    let (mut tally, mut random) = (Tally::default(), Random(157));
    for turn in 0..6 << 13 {
        let (mut block, mut inputs, bits) = (tame_block(&mut random), any_inputs(&mut random), random.bits());
        let has = |cause: usize| turn >> cause & 1 == 1;
        // The external input is in the filter, so that the core is not idle and no frozen point is taken.
        block[8] |= 8;
        inputs.levels = [0.0, resting(), resting()];
        inputs.voices = [0; 3].map(|_| voice(between(&mut random, -0.3, 0.8), between(&mut random, 0.0, 1.0), 1, PURE));
        let reads = places(&beside.lent, &block, &inputs);
        let own = reads.len() - 10;
        let pick = |from: usize, count: usize, shift: u32| reads[from + (bits >> shift) as usize % count];
        let entries = [(6, pick(0, own, 0)), (8, pick(own, 6, 8)), (10, pick(own + 6, 2, 16)), (11, pick(own + 8, 2, 24))];
        let entries = entries.map(|(cause, (buffer, place))| (cause, (buffer, place, DAMAGES[4 + (bits >> 32) as usize % 8])));
        let damages: Vec<Damage> = entries.iter().filter(|&&(cause, _)| has(cause)).map(|&(_, damage)| damage).collect();
        if has(7) {
            inputs.levels[1] = 2.0e19;
        }
        if has(9) {
            put_float(&mut block, BAND, f32::MAX);
        }
        if has(12) {
            put_float(&mut block, FAST, 3.0e38);
            put_float(&mut block, SLOW, 3.0e38);
        }
        let mut bytes = inputs.bytes();
        let length = if has(3) && bits >> 40 & 1 == 0 { 15 + 2 * (bits >> 41 & 1) as usize } else { 16 };
        block[[11, 65][(bits >> 41) as usize % 2]] = u8::from(has(3) && length == 16);
        bytes.decays[3 + 4 * ((bits >> 42) as usize % 6)] |= 0x40 * u8::from(has(4));
        match bits >> 48 & 1 {
            0 => bytes.voices[11 + 12 * ((bits >> 49) as usize % 3)] = has(5).into(),
            _ if has(5) => {
                bytes.levels[4 * ((bits >> 49) as usize % 3)..][..4].copy_from_slice(&WORDS[(bits >> 51) as usize % 5].to_le_bytes())
            }
            _ => {}
        }
        let header = (bits >> 52) as usize % 56;
        let Beside { lent, seen } = &mut *beside;
        let told = lent.with_damages(&damages, |lent| {
            lent.bundle[header] ^= 0x40 * u8::from(has(1));
            let buffers = [&lent.bundle[..BUNDLE_LENGTH - usize::from(has(0))], &lent.curves[..CURVES_LENGTH - usize::from(has(2))]];
            let told = on_any(seen, &mut tally, buffers, &block, bytes.lent(), length);
            lent.bundle[header] ^= 0x40 * u8::from(has(1));
            told
        });
        let placed = |cause: usize| entries.iter().find(|entry| entry.0 == cause).map(|&(_, (buffer, place, _))| (3, buffer, place as u32));
        let first = match (0..13).find(|&cause| has(cause)) {
            None => (0, 0, 0),
            Some(1) => (2, 0, header as u32),
            Some(cause) => placed(cause).unwrap_or((CAUSES[cause], 0, 0)),
        };
        tally.same(told, first);
    }
    tally
}

/// Words at which a float or a decay is no longer taken, five that no float may be first, and neighbours.
const WORDS: [u32; 14] = [
    0x7f80_0000, // the infinities
    0xff80_0000,
    0x7f80_0001, // NaNs
    0x7fc0_0000,
    0xffff_ffff,
    0x7f7f_ffff, // the largest floats
    0xff7f_ffff,
    0x0000_0000,
    0x8000_0000,
    0x0000_0001,
    0x8000_0001,
    0x3f7f_ffff,
    0x3f80_0000, // 1
    0x3f80_0001,
];

/// Every byte of the state, the decays, the levels and the voices with every value, and every word with those above; every length of each and
/// of the output.
fn bytes_and_lengths(beside: &mut Beside) -> Tally {
    let (mut tally, mut random) = (Tally::default(), Random(158));
    let Beside { lent: Lent { bundle, curves, .. }, seen } = beside;
    for start in [[0; 68], tame_block(&mut random), any_block(&mut random)] {
        let inputs = any_inputs(&mut random).bytes();
        let whole = [&start[..], &inputs.decays, &inputs.levels, &inputs.voices].map(<[u8]>::to_vec);
        let mut agree = |[state, decays, levels, voices]: &[Vec<u8>; 4], length: usize| {
            on_any(seen, &mut tally, [&bundle[..], curves], state, TickLent { decays, levels, voices }, length);
        };
        for part in 0..4 {
            let mut parts = whole.clone();
            for place in 0..parts[part].len() {
                for value in 0..=255 {
                    parts[part][place] = value;
                    agree(&parts, 16);
                }
                parts[part][place] = whole[part][place];
            }
            for place in (0..whole[part].len()).step_by(4) {
                for word in WORDS {
                    parts[part][place..place + 4].copy_from_slice(&word.to_le_bytes());
                    agree(&parts, 16);
                }
                parts[part].clone_from(&whole[part]);
            }
            for length in 0..2 * whole[part].len() + 4 {
                parts[part] = whole[part].iter().copied().cycle().take(length).collect();
                agree(&parts, 16);
                agree(&parts, 15);
            }
        }
        (0..40).for_each(|length| agree(&whole, length));
    }
    tally
}

/// Every value of every header byte, alone and with another one wrong, and wrong lengths of bundle and curves, with all else right and not.
fn wrong_buffers(beside: &mut Beside) -> Tally {
    let (mut tally, mut random) = (Tally::default(), Random(159));
    let (mut bundle, mut curves) = (beside.lent.bundle.clone(), beside.lent.curves.clone());
    let mut agree = |bundle: &[u8], curves: &[u8]| {
        let (mut block, mut inputs, bits) = (some_block(&mut random), any_inputs(&mut random).bytes(), random.bits());
        block[11] = u8::from(bits % 4 == 0);
        inputs.decays[3] |= u8::from(bits >> 2 & 3 == 0) << 6;
        inputs.voices[11] = u8::from(bits >> 4 & 3 == 0);
        on_any(&mut beside.seen, &mut tally, [bundle, curves], &block, inputs.lent(), 16);
    };
    for place in 0..56 {
        let byte = bundle[place];
        for value in 0..=255 {
            bundle[place] = value;
            agree(&bundle, &curves[..CURVES_LENGTH - usize::from(value % 2)]);
            bundle[55 - place] ^= 1;
            agree(&bundle, &curves);
            bundle[55 - place] ^= 1;
        }
        bundle[place] = byte;
    }
    bundle.extend([0; 9]);
    curves.extend([0; 9]);
    for bundle_length in [0, 1, 8, 55, 56, 57, 6_127_732, 6_127_735, BUNDLE_LENGTH, 6_127_737, 6_127_740, 6_127_745] {
        for curves_length in [0, 1, 4, 8_196, 254_072, 254_075, CURVES_LENGTH, 254_077, 254_080, 254_085] {
            agree(&bundle[..bundle_length], &curves[..curves_length]);
        }
    }
    tally
}

// ---- other curves

/// Sets every entry of some curves.
fn set_curves(lent: &mut Lent, curves: std::ops::Range<usize>, mut entry: impl FnMut(usize) -> f32) {
    for curve in curves {
        for index in 0..2049 {
            lent.set(1, 4 * (2049 * curve + index), entry(index).to_bits());
        }
    }
}

/// The mixer's output is a local of `clock`: on these curves the stage's argument tells where the volume was read, index and fraction, to a
/// rounding or two. The first ruler is halved, so that its entries are usable.
fn on_rulers(beside: &mut Beside) -> Tally {
    let (mut tally, mut random) = (Tally::default(), Random(160));
    let [whole, even, odd] = rulers();
    for ruler in [whole.map(|entry| entry / 2.0), even, odd] {
        set_curves(&mut beside.lent, 15..31, |index| ruler[index]);
        for _ in 0..200_000 {
            let (block, inputs) = (tame_block(&mut random), any_inputs(&mut random));
            beside.tick_from(&mut tally, &block, &inputs);
        }
    }
    tally
}

/// Curves that no bundle has: zeros of either sign and ones, the smallest entries, any up to 1,024. Every other time the volume is 0, where
/// the stage's argument may be a zero of either sign.
fn on_any_curves(beside: &mut Beside) -> Tally {
    let (mut tally, mut random) = (Tally::default(), Random(161));
    for kind in 0..4 {
        set_curves(&mut beside.lent, 0..31, |_| match kind {
            0 => of(&mut random, &[0.0, -0.0, 1.0, -1.0, 0.5]),
            1 => of(&mut random, &[0.0, -0.0, 1.0e-45, -1.0e-45, 1.0e-40]),
            2 => between(&mut random, -1.0, 1.0),
            _ => finite(&mut random).clamp(-1024.0, 1024.0),
        });
        for turn in 0..200_000_u32 {
            let (mut block, inputs) = (some_block(&mut random), any_inputs(&mut random));
            block[10] *= (turn % 2) as u8;
            beside.tick_from(&mut tally, &block, &inputs);
        }
    }
    tally
}
