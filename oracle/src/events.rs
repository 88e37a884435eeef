//! The core, event after event, each on the core that the last one handed back. Beside it stands the Rust's filter, put in the same state and fed the
//! same events by its own methods; after each event the answer, the outputs, the state and every kept field are compared by their bits. What
//! is refused is checked against an independent reading of the table of refusals (docs/FORMATS.md), and leaves the Rust's filter as it was.

use crate::charges::{any_decays, fill};
use crate::constants::*;
use crate::control::{ControlCache, FilterRegisters};
use crate::direct::{bundle_refused, curve_places, entries_refused, lent, resting_places, summer_average, unless, Told};
use crate::filter::Filter;
use crate::integrator::IntegratorState;
use crate::kept::{block, control_words, filter_block, play, put, put_transients, set, set_transients, transient_floats};
use crate::mixing::MixingTopology;
use crate::numbers::{Random, Tally};
use crate::plain::check_decays;
use crate::response::operating_position;
use crate::state::proved::{Controls, FilterControls, OutputControls};
use crate::surface::{curves_of, data, CURVES_LENGTH};
use crate::transients::TransientState;

mod proved {
    use crate::direct::proved::Topology;
    use crate::state::proved::Controls;

    #[repr(C)]
    #[derive(Clone, Copy)]
    pub struct Registers {
        pub cutoff: u16,
        pub displacement: u16,
        pub write_base: u16,
        pub pending: bool,
        pub nibbles: [u8; 4],
    }

    /// The ten floats in the block's order.
    #[repr(C)]
    #[derive(Clone, Copy)]
    pub struct Transients {
        pub floats: [f32; 10],
        pub pulse_pending: bool,
    }

    #[repr(C)]
    #[derive(Clone, Copy)]
    pub struct Core {
        pub registers: Registers,
        pub floats: [f32; 3],
        pub transients: Transients,
        pub topology: Topology,
        pub controls: Controls,
    }

    #[repr(C)]
    pub struct Given {
        pub number: u32,
        pub buffer: u32,
        pub place: u32,
        pub outputs: [f32; 4],
        pub core: Core,
    }

    #[link(name = "probe", kind = "static")]
    unsafe extern "C" {
        fn probe_feed(
            bundle: *const u8,
            bundle_len: usize,
            curves: *const u8,
            curves_len: usize,
            decays: *const u8,
            decays_len: usize,
            core: Core,
            event: *const u8,
            event_len: usize,
        ) -> Given;
    }

    #[link(name = "probe_lists", kind = "static")]
    unsafe extern "C" {
        fn probe_cores(
            bundle: *const u8,
            bundle_len: usize,
            curves: *const u8,
            curves_len: usize,
            decays: *const u8,
            decays_len: usize,
            block: *const u8,
            block_len: usize,
            script: *const u8,
            script_len: usize,
            out: *mut u8,
            out_len: usize,
        );
    }

    pub fn feed([bundle, curves, decays]: [&[u8]; 3], core: Core, event: &[u8]) -> Given {
        unsafe {
            probe_feed(
                bundle.as_ptr(),
                bundle.len(),
                curves.as_ptr(),
                curves.len(),
                decays.as_ptr(),
                decays.len(),
                core,
                event.as_ptr(),
                event.len(),
            )
        }
    }

    /// The words of the rows: that of the start, then one for each event.
    pub fn cores([bundle, curves, decays]: [&[u8]; 3], block: &[u8], script: &[u8], rows: usize) -> Vec<[u32; 108]> {
        let mut out = vec![0xa5; 432 * rows + 3];
        unsafe {
            probe_cores(
                bundle.as_ptr(),
                bundle.len(),
                curves.as_ptr(),
                curves.len(),
                decays.as_ptr(),
                decays.len(),
                block.as_ptr(),
                block.len(),
                script.as_ptr(),
                script.len(),
                out.as_mut_ptr(),
                out.len(),
            )
        }
        assert_eq!(out[432 * rows..], [0xa5; 3]);
        let row = |bytes: &[u8]| std::array::from_fn(|i| u32::from_le_bytes(bytes[4 * i..4 * i + 4].try_into().unwrap()));
        out.chunks_exact(432).map(row).collect()
    }
}

pub fn compare() -> Vec<(&'static str, Tally)> {
    let filter = Filter::new();
    let mut lent = Lent { bundle: data("bundle"), curves: curves_of(&filter), decays: [0; 24], filter };
    vec![
        told("core, lists of events", lists(&mut lent)),
        told("core, lists over damaged entries", damaged(&mut lent)),
        told("core, events on cores as handed in", handed_in(&mut lent)),
        told("core, every set of causes", causes(&mut lent)),
    ]
}

/// The three buffers, and the Rust's filter.
struct Lent {
    bundle: Vec<u8>,
    curves: Vec<u8>,
    decays: [u8; 24],
    filter: Filter,
}

/// The tally of a subject, with how often each kind of event and each number of an answer came up.
#[derive(Default)]
struct Reached {
    tally: Tally,
    kinds: [u64; 6],
    starts: [u64; 13],
    writes: [u64; 13],
    resets: [u64; 13],
    samples: [u64; 13],
}

impl Reached {
    fn event(&mut self, event: Event, told: Told) {
        self.kinds[usize::from(event.kind)] += 1;
        match event.kind {
            4 => self.samples[told.0 as usize] += 1,
            5 => self.resets[told.0 as usize] += 1,
            _ => self.writes[told.0 as usize] += 1,
        }
    }
}

/// Prints what was reached.
fn told(name: &'static str, reached: Reached) -> (&'static str, Tally) {
    let numbers = |counts: [u64; 13]| {
        let met = (0..13).filter(|&number| counts[number] > 0);
        met.map(|number| format!("{number}: {}", counts[number])).collect::<Vec<_>>().join(", ")
    };
    let [low, high, routing, mode, sample, reset] = reached.kinds;
    println!("{name}: low {low}, high {high}, routing {routing}, mode {mode}, sample {sample}, reset {reset}");
    let answers = [("starts", reached.starts), ("writes", reached.writes), ("resets", reached.resets), ("samples", reached.samples)];
    for (events, counts) in answers.into_iter().filter(|(_, counts)| counts.iter().any(|&count| count > 0)) {
        println!("  answers of {events}: {}", numbers(counts));
    }
    (name, reached.tally)
}

// ---- events

#[derive(Clone, Copy)]
struct Event {
    kind: u8,
    value: u8,
    sum: f32,
    energy: f32,
}

impl Event {
    fn bytes(self) -> [u8; 12] {
        let mut bytes = [self.kind, self.value, 0, 0, 0, 0, 0, 0, 0, 0, 0, 0];
        bytes[4..8].copy_from_slice(&self.sum.to_le_bytes());
        bytes[8..].copy_from_slice(&self.energy.to_le_bytes());
        bytes
    }
}

fn script(events: &[Event]) -> Vec<u8> {
    let mut bytes = (events.len() as u32).to_le_bytes().to_vec();
    bytes.extend(8u32.to_le_bytes());
    bytes.extend(events.iter().flat_map(|event| event.bytes()));
    bytes
}

/// What a filter meets, 0 to `top`.
fn tame(random: &mut Random, top: f32) -> f32 {
    random.bits() as u32 as f32 / 4_294_967_296.0 * top
}

const WILD: [f32; 12] =
    [0.0, -0.0, -0.005, f32::MAX, f32::MIN, 1.0e-45, f32::NAN, f32::INFINITY, f32::NEG_INFINITY, 3.0e38, -1.0, 1.844_674_4e19];

fn wild(random: &mut Random) -> f32 {
    match random.bits() {
        bits if bits % 4 == 0 => WILD[(bits >> 8) as usize % 12],
        _ => random.float(),
    }
}

/// An event of any kind; a sample as often as the writes together. Of 64 samples `wildness` have floats that a filter does not meet.
fn event(random: &mut Random, wildness: u64, resets: u64) -> Event {
    let bits = random.bits();
    let kind = match bits % 128 {
        x if x < resets => 5,
        x if x % 2 == 0 => 4,
        x => (x / 2 % 4) as u8,
    };
    let (sum, energy) = if bits >> 8 & 63 < wildness { (wild(random), wild(random)) } else { (tame(random, 4.0), tame(random, 2.0)) };
    let value = (bits >> 16) as u8;
    // Routing 0 is the one that may idle; cutoff 2,047, resonance 0 and routing 3 the one with the frozen DAC's bias.
    let value = match (kind, bits >> 24 & 15) {
        (0 | 1, 0) => 255,
        (2, 0..2) => value & 0xf0,
        (2, 2) => 3,
        _ => value,
    };
    Event { kind, value, sum, energy }
}

/// A valid state's block.
fn valid_block(random: &mut Random) -> [u8; 68] {
    let bits = random.bits();
    let nibble = |shift: u32| (bits >> shift & 15) as u8;
    let code = |code: u64| if code % 16 == 0 { 2047 * (code >> 11 & 1) as u16 } else { code as u16 & 2047 };
    let registers = FilterRegisters {
        cutoff: code(bits & 4095),
        cutoff_dac_displacement_codes: (random.bits() % 115) as i16 - 57,
        cutoff_write_base: code(bits >> 12 & 4095),
        cutoff_low_pending: bits >> 63 == 1,
        resonance: nibble(24),
        routing: if bits >> 60 & 3 == 0 { 0 } else { nibble(28) },
        mode: nibble(32),
        volume: nibble(36),
    };
    let zero = |shift: u32| if bits >> shift & 1 == 0 { 0.0 } else { -0.0 };
    let near = |random: &mut Random| if random.bits() % 2 == 0 { f32::MAX } else { f32::MIN } * tame(random, 1.0);
    let floats = match bits >> 40 & 15 {
        0 => [random.float(), random.float(), random.float()],
        1..=3 => [zero(44), zero(45), zero(46)],
        4 => [tame(random, 2.0) - 1.0, tame(random, 2.0) - 1.0, -0.005],
        5 => [near(random), near(random), tame(random, 2.0)],
        6 => [tame(random, 2.0) - 1.0, tame(random, 2.0) - 1.0, near(random)],
        _ => [tame(random, 2.0) - 1.0, tame(random, 2.0) - 1.0, tame(random, 1.0)],
    };
    let mut block = block(&registers, floats.map(|x| if x.is_finite() { x.to_bits() } else { 0 }));
    fill(&mut block, random);
    block
}

// ---- the Rust's side

/// A value of plain numbers, of a type that is not `Copy`.
fn copied<T>(x: &T) -> T {
    assert!(!std::mem::needs_drop::<T>());
    unsafe { std::ptr::read(x) }
}

/// What a core has.
struct Parts(FilterRegisters, IntegratorState, TransientState, MixingTopology, ControlCache);

fn parts(filter: &mut Filter) -> Parts {
    let (registers, state, transients, topology, control) = filter.parts();
    Parts(copied(registers), copied(state), copied(transients), *topology, copied(control))
}

fn put_back(filter: &mut Filter, kept: Parts) {
    let (registers, state, transients, topology, control) = filter.parts();
    (*registers, *state, *transients, *topology, *control) = (kept.0, kept.1, kept.2, kept.3, kept.4);
}

fn floats(state: &IntegratorState) -> [f32; 3] {
    [state.band_state, state.low_state, state.filter_source_energy]
}

fn topology_words(t: &MixingTopology) -> [u32; 17] {
    let flags = t.filter_membership.iter().chain(&t.bypass_membership).map(|&flag| u32::from(flag));
    let counts = [t.filter_input_count, t.bypass_input_count, t.filter_output_count, t.mixer_input_count];
    let reciprocals = [t.filter_input_reciprocal, t.summer_input_reciprocal, t.mixer_input_reciprocal];
    let masks = [t.filter_internal_mask, t.bypass_internal_mask];
    let counted = flags.chain(counts.map(|count| count as u32)).chain(reciprocals.map(f32::to_bits));
    counted.chain(masks.map(u32::from)).collect::<Vec<_>>().try_into().unwrap()
}

/// The entries of the bundle that the refresh calls after a write read, in the Rust's order.
fn write_places(r: &FilterRegisters, kind: u8) -> Vec<usize> {
    let (cutoff, resonance) = (usize::from(r.cutoff), usize::from(r.resonance));
    let displacement = i32::from(r.cutoff_dac_displacement_codes);
    let effective = (i32::from(r.cutoff) + displacement).clamp(0, 2047) as usize;
    let mut places = vec![];
    if kind != 3 {
        places.extend((0..16).map(|bin| 56 + 4 * ((effective * 16 + resonance) * 16 + bin)));
        places.extend([DAMPING + 4 * resonance, 2_097_272 + 4 * effective]);
    }
    let power = |row: usize| 3_301_496 + 4 * ((row * 2048 + cutoff) * 115 + (displacement + 57) as usize);
    match r.mode & 7 {
        1 => places.push(power(0)),
        2 => places.push(power(1)),
        4 => places.extend([3_293_304 + 4 * effective, power(2)]),
        _ => {}
    }
    places
}

fn is_idle(t: &MixingTopology, s: &IntegratorState) -> bool {
    t.filter_input_count == 0 && floats(s).iter().all(|&x| x == 0.0)
}

/// The entries that a sample reads: two of the curves, then four of the bundle.
fn sample_places(filter: &mut Filter, event: Event) -> ([usize; 2], [usize; 4]) {
    let t = filter.topology();
    let inputs = 2 + t.filter_input_count;
    (curve_places(inputs, summer_average(t, event.sum)), resting_places(inputs))
}

/// Whether what is kept is whole: indexes within their tables, numbers finite.
fn is_whole(t: &MixingTopology, c: &ControlCache) -> bool {
    let tables = [c.integrator_gain, c.input_drive, c.feedback_drive];
    let numbers = [
        t.filter_input_reciprocal,
        t.summer_input_reciprocal,
        t.mixer_input_reciprocal,
        c.damping,
        c.source_gain_modulation,
        c.high_pass_low_coupling,
        c.band_pass_low_coupling,
        c.resonance_position,
        c.resonance_feedback_scale,
        c.source_modulation_resonance_scale,
        c.resonance_output_gain,
        c.mode_output_gain,
        c.filter_common_mode,
        c.volume_fraction,
        c.two_voice_volume_gain_offset,
        c.combined_common_mode_gain,
        c.pure_bypass_common_mode_gain,
        c.scaled_filter_common_mode,
    ];
    let finite = tables.as_flattened().iter().chain(&numbers).all(|x| x.is_finite());
    let indexed = c.effective_cutoff_index <= 2047 && c.resonance_index <= 15;
    finite && indexed && t.filter_input_count <= 4 && t.filter_output_count <= 3 && t.mixer_input_count <= 7
}

fn is_finite(transients: &TransientState) -> bool {
    transient_floats(transients).iter().all(|x| x.is_finite())
}

fn is_valid(r: &FilterRegisters, s: &IntegratorState, transients: &TransientState) -> bool {
    r.cutoff <= 2047
        && (-57..=57).contains(&r.cutoff_dac_displacement_codes)
        && r.cutoff_write_base <= 2047
        && [r.resonance, r.routing, r.mode, r.volume].iter().all(|&nibble| nibble <= 15)
        && floats(s).iter().all(|x| x.is_finite())
        && is_finite(transients)
}

/// What is refused before any event: 1, 2, 4, 10, 12.
fn refused_before(filter: &mut Filter, [bundle, curves, decays]: [&[u8]; 3]) -> Option<Told> {
    let (registers, state, transients, topology, control) = filter.parts();
    bundle_refused(bundle)
        .or_else(|| unless(curves.len() == CURVES_LENGTH, 4))
        .or_else(|| unless(is_valid(registers, state, transients) && is_whole(topology, control), 10))
        .or_else(|| check_decays(decays).err())
}

/// What a sample is refused with before it is taken: 5, 3.
fn sample_refused(filter: &mut Filter, [bundle, curves, _]: [&[u8]; 3], event: Event) -> Option<Told> {
    let (_, state, _, topology, _) = filter.parts();
    let idle = is_idle(topology, state);
    unless(event.sum.is_finite() && event.energy.is_finite(), 5).or_else(|| {
        let (curve, resting) = sample_places(filter, event);
        let read = || entries_refused(curves, 1, &curve).or_else(|| entries_refused(bundle, 0, &resting));
        (!idle).then(read).flatten()
    })
}

/// `advance_filter_core` with its four substeps one by one: the outputs and the state after them, if every number after each is finite.
fn substeps(filter: &mut Filter, event: Event) -> Option<[f32; 6]> {
    let summed = filter.summer(event.sum) * FILTER_INPUT_GAIN;
    let (_, state, _, t, c) = filter.parts();
    let mut state = copied(state);
    if is_idle(t, &state) {
        let [band, low, energy] = floats(&state);
        return Some([0.0, 0.0, 0.0, band, low, energy]);
    }
    let energy = if t.filter_input_count > 0 { event.energy * t.filter_input_reciprocal } else { event.energy };
    state.filter_source_energy += FILTER_SOURCE_ENERGY_TRACKING * (energy - state.filter_source_energy);
    let (lower, upper, fraction) = operating_position(summed, state.band_state, state.low_state);
    let between = |values: &[f32; 16]| values[lower] + (values[upper] - values[lower]) * fraction;
    let feedback_drive = between(&c.feedback_drive) * c.resonance_feedback_scale;
    let drive = state.filter_source_energy / (state.filter_source_energy + FILTER_SOURCE_ENERGY_KNEE);
    let g = between(&c.integrator_gain) + c.source_gain_modulation * drive * c.source_modulation_resonance_scale;
    let a1 = 1.0 / (1.0 + g * (g + c.damping));
    let driven = IntegratorState::saturate(summed, between(&c.input_drive));
    let mut last = [0.0; 6];
    for _ in 0..FILTER_SUBSTEPS {
        let o = state.advance(driven, c.damping, feedback_drive, a1, g * a1, g * g * a1);
        let [band, low, energy] = floats(&state);
        last = [o.high_pass, o.band_pass, o.low_pass, band, low, energy];
        if last.iter().any(|x| !x.is_finite()) {
            return None;
        }
    }
    Some(last)
}

const DAMPING: usize = 2_097_208;
const DONE: Told = (0, 0, 0);

/// Feeds an event to the Rust's filter, which stays as it was where the event is refused. The outputs are a sample's, else zeros.
fn feed(tally: &mut Tally, filter: &mut Filter, lent: [&[u8]; 3], event: Event) -> (Told, [f32; 4]) {
    let refused = refused_before(filter, lent);
    let refused = refused.or_else(|| if event.kind == 4 { sample_refused(filter, lent, event) } else { None });
    if let Some(told) = refused {
        return (told, [0.0; 4]);
    }
    let before = parts(filter);
    let mut outputs = [0.0; 4];
    let mut stepped = None;
    match event.kind {
        0 => filter.write_cutoff_low(event.value),
        1 => filter.write_cutoff_high(event.value),
        2 => filter.write_signal_routing(event.value),
        3 => filter.write_mode_and_volume(event.value),
        4 => {
            stepped = substeps(filter, event);
            outputs = filter.sample(event.sum, event.energy);
        }
        _ => filter.reset(),
    }
    let refused = if event.kind != 4 {
        let entries = entries_refused(lent[0], 0, &write_places(filter.registers(), event.kind));
        entries.or_else(|| unless(is_finite(filter.transients()), 6))
    } else if let Some(last) = stepped {
        let [band, low, energy] = floats(filter.state());
        let theirs = [outputs[0], outputs[1], outputs[2], band, low, energy];
        tally.same(last.map(f32::to_bits), theirs.map(f32::to_bits));
        unless(outputs[3].is_finite(), 6)
    } else {
        Some((6, 0, 0))
    };
    match refused {
        Some(told) => {
            put_back(filter, before);
            (told, [0.0; 4])
        }
        None => (DONE, outputs),
    }
}

// ---- lists

/// The rows of a list beside the Rust's filter after each event.
fn same_list(reached: &mut Reached, lent: &mut Lent, from: &[u8; 68], events: &[Event]) {
    let Lent { bundle, curves, decays, filter } = lent;
    let rows = proved::cores([bundle, curves, decays], from, &script(events), events.len() + 1);
    put(filter, from);
    let refused = check_decays(decays).err().or_else(|| entries_refused(bundle, 0, &write_places(filter.registers(), 0)));
    let start = refused.unwrap_or(DONE);
    reached.starts[start.0 as usize] += 1;
    reached.tally.same((rows[0][0], rows[0][1], rows[0][2]), start);
    if start != DONE {
        return;
    }
    same_core(&mut reached.tally, &rows[0], filter);
    for (&event, row) in events.iter().zip(&rows[1..]) {
        let (told, outputs) = feed(&mut reached.tally, filter, [bundle, curves, decays], event);
        reached.event(event, told);
        reached.tally.same((row[0], row[1], row[2]), told);
        reached.tally.same(&row[4..8], &outputs.map(f32::to_bits)[..]);
        same_core(&mut reached.tally, row, filter);
    }
}

/// State, topology and controls of a row.
fn same_core(tally: &mut Tally, row: &[u32; 108], filter: &mut Filter) {
    let state: Vec<u8> = row[8..25].iter().flat_map(|word| word.to_le_bytes()).collect();
    tally.same(&state[..], &filter_block(filter)[..]);
    tally.same(&row[25..42], &topology_words(filter.topology())[..]);
    for (ours, theirs) in row[42..].iter().zip(control_words(filter.control())) {
        tally.same(*ours, theirs);
    }
}

/// Many short lists, twenty of 10,000 events and one of the largest, from random valid states.
fn lists(lent: &mut Lent) -> Reached {
    let (mut reached, mut random) = (Reached::default(), Random(41));
    for turn in 0..150_000 {
        let count = match turn {
            0 => 65_536,
            1..=20 => 10_000,
            _ => random.bits() as usize % 40,
        };
        let (wildness, resets) = ([0, 1, 8, 32][turn % 4], [0, 1, 4][turn % 3]);
        let from = if turn % 16 == 0 { [0; 68] } else { valid_block(&mut random) };
        lent.decays = any_decays(&mut random);
        let events: Vec<Event> = (0..count).map(|_| event(&mut random, wildness, resets)).collect();
        same_list(&mut reached, lent, &from, &events);
    }
    reached
}

const UNUSABLE: [u32; 8] = [
    0x4480_0001, // just above 1,024
    0xc480_0001,
    0x4480_0008, // 1,024.001
    0x7f80_0000, // the infinities
    0xff80_0000,
    0x7fc0_0000, // NaNs
    0xff80_0001,
    0x7f7f_ffff, // the largest float
];

/// Makes the entry at a place unusable, and gives what stood there.
fn spoil(bytes: &mut [u8], place: usize, random: &mut Random) -> [u8; 4] {
    let entry = &mut bytes[place..place + 4];
    let before = [entry[0], entry[1], entry[2], entry[3]];
    entry.copy_from_slice(&UNUSABLE[(random.bits() % 8) as usize].to_le_bytes());
    before
}

/// Each entry that a list reads, by its buffer and place.
fn reads(lent: &mut Lent, from: &[u8; 68], events: &[Event]) -> Vec<(u32, usize)> {
    let Lent { bundle, curves, filter, .. } = lent;
    put(filter, from);
    let of_write = |filter: &mut Filter, kind| write_places(filter.registers(), kind).into_iter().map(|place| (0, place));
    let mut all: Vec<_> = of_write(filter, 0).collect();
    for &event in events {
        if event.kind == 4 {
            let (curve, resting) = sample_places(filter, event);
            all.extend(curve.map(|place| (1, place)).into_iter().chain(resting.map(|place| (0, place))));
        }
        feed(&mut Tally::default(), filter, [bundle, curves, &[0; 24]], event);
        if event.kind != 4 {
            all.extend(of_write(filter, event.kind));
        }
    }
    all
}

/// Any decays, now and then with another bit, which mostly makes them wrong.
fn some_decays(random: &mut Random) -> [u8; 24] {
    let (mut decays, bits) = (any_decays(random), random.bits());
    if bits % 32 == 0 {
        decays[(bits >> 8) as usize % 24] ^= 1 << (bits >> 16 & 7);
    }
    decays
}

/// Lists over buffers of which one to four entries that the list reads, and one that it may not, are unusable.
fn damaged(lent: &mut Lent) -> Reached {
    let (mut reached, mut random) = (Reached::default(), Random(42));
    for turn in 0..100_000 {
        let from = valid_block(&mut random);
        lent.decays = some_decays(&mut random);
        let count = if turn % 5000 == 0 { 10_000 } else { 1 + random.bits() as usize % 40 };
        let events: Vec<Event> = (0..count).map(|_| event(&mut random, [0, 4][turn % 2], 2)).collect();
        let read = reads(lent, &from, &events);
        let any = (random.bits() % 2, 56 + 4 * (random.bits() as usize % 63_000));
        let mut places = vec![(any.0 as u32, any.1)];
        places.extend((0..1 + turn % 4).map(|_| read[random.bits() as usize % read.len()]));
        let mut whole = vec![];
        for (buffer, place) in places {
            let bytes = if buffer == 0 { &mut lent.bundle } else { &mut lent.curves };
            whole.push((buffer, place, spoil(bytes, place, &mut random)));
        }
        same_list(&mut reached, lent, &from, &events);
        for (buffer, place, entry) in whole.into_iter().rev() {
            let bytes = if buffer == 0 { &mut lent.bundle } else { &mut lent.curves };
            bytes[place..place + 4].copy_from_slice(&entry);
        }
    }
    reached
}

// ---- cores as they are handed in

/// The Rust's parts as a core.
fn core_of(filter: &mut Filter) -> proved::Core {
    let (r, s, transients, t, c) = filter.parts();
    proved::Core {
        registers: proved::Registers {
            cutoff: r.cutoff,
            displacement: r.cutoff_dac_displacement_codes as u16,
            write_base: r.cutoff_write_base,
            pending: r.cutoff_low_pending,
            nibbles: [r.resonance, r.routing, r.mode, r.volume],
        },
        floats: floats(s),
        transients: proved::Transients { floats: transient_floats(transients), pulse_pending: transients.pulse_gate_pending },
        topology: lent(t),
        controls: Controls {
            filter: FilterControls {
                effective_cutoff_index: c.effective_cutoff_index,
                integrator_gain: c.integrator_gain,
                input_drive: c.input_drive,
                feedback_drive: c.feedback_drive,
                damping: c.damping,
                source_gain_modulation: c.source_gain_modulation,
                high_pass_low_coupling: c.high_pass_low_coupling,
                band_pass_low_coupling: c.band_pass_low_coupling,
                resonance_position: c.resonance_position,
                resonance_index: c.resonance_index,
                resonance_feedback_scale: c.resonance_feedback_scale,
                source_modulation_resonance_scale: c.source_modulation_resonance_scale,
                resonance_output_gain: c.resonance_output_gain,
            },
            mode_output_gain: c.mode_output_gain,
            output: OutputControls {
                filter_common_mode: c.filter_common_mode,
                volume_fraction: c.volume_fraction,
                two_voice_volume_gain_offset: c.two_voice_volume_gain_offset,
                combined_common_mode_gain: c.combined_common_mode_gain,
                pure_bypass_common_mode_gain: c.pure_bypass_common_mode_gain,
                scaled_filter_common_mode: c.scaled_filter_common_mode,
                frozen_dac_bias_mode: c.frozen_dac_bias_mode,
            },
        },
    }
}

/// Every field of a core as words, a float by its bits.
fn core_words(core: &proved::Core) -> Vec<u32> {
    let (r, t, f, o) = (&core.registers, &core.topology, &core.controls.filter, &core.controls.output);
    let mut words = vec![u32::from(r.cutoff), u32::from(r.displacement), u32::from(r.write_base), u32::from(r.pending)];
    words.extend(r.nibbles.map(u32::from));
    words.extend(core.floats.iter().chain(&core.transients.floats).map(|x| x.to_bits()));
    words.push(u32::from(core.transients.pulse_pending));
    words.extend(t.filter_membership.iter().chain(&t.bypass_membership).map(|&flag| u32::from(flag)));
    let indices = [f.effective_cutoff_index, f.resonance_index];
    words.extend(t.counts.iter().chain(&indices).flat_map(|&count| [count as u32, (count as u64 >> 32) as u32]));
    words.extend(t.reciprocals.map(f32::to_bits));
    words.extend(t.masks.map(u32::from));
    words.extend([f.integrator_gain, f.input_drive, f.feedback_drive].as_flattened().iter().map(|x| x.to_bits()));
    let numbers = [
        f.damping,
        f.source_gain_modulation,
        f.high_pass_low_coupling,
        f.band_pass_low_coupling,
        f.resonance_position,
        f.resonance_feedback_scale,
        f.source_modulation_resonance_scale,
        f.resonance_output_gain,
        core.controls.mode_output_gain,
        o.filter_common_mode,
        o.volume_fraction,
        o.two_voice_volume_gain_offset,
        o.combined_common_mode_gain,
        o.pure_bypass_common_mode_gain,
        o.scaled_filter_common_mode,
    ];
    words.extend(numbers.map(f32::to_bits));
    words.push(u32::from(o.frozen_dac_bias_mode));
    words
}

/// Sets one of the ten floats, by its number in the block's order.
fn set_transient(transients: &mut TransientState, index: usize, float: f32) {
    let mut block = [0; 68];
    put_transients(&mut block, transients);
    block[24 + 4 * index..28 + 4 * index].copy_from_slice(&float.to_le_bytes());
    set_transients(transients, &block);
}

/// Something about the Rust's parts that no write of its own leaves: an invalid state, a count past its table, a number that is not finite,
/// or one that no sample reads.
fn distort(filter: &mut Filter, random: &mut Random) {
    let bits = random.bits();
    let odd = [f32::NAN, f32::INFINITY, f32::NEG_INFINITY][(bits >> 8) as usize % 3];
    let bin = (bits >> 16) as usize % 16;
    let count = if bits >> 24 & 7 == 7 { usize::MAX >> (bits >> 32 & 31) } else { 5 + (bits >> 32) as usize % 4 };
    let nibble = 16 + (bits >> 40) as u8 % 240;
    let (r, s, transients, t, c) = filter.parts();
    match bits % 50 {
        0 => r.cutoff = 2048 + (bits >> 32) as u16 % 63_488,
        1 => r.cutoff_dac_displacement_codes = 58 + ((bits >> 32) as i16 & 0x3fff),
        2 => r.cutoff_dac_displacement_codes = -58 - ((bits >> 32) as i16 & 0x3fff),
        3 => r.cutoff_write_base = 2048 + (bits >> 32) as u16 % 63_488,
        4 => r.resonance = nibble,
        5 => r.routing = nibble,
        6 => r.mode = nibble,
        7 => r.volume = nibble,
        8 => s.band_state = odd,
        9 => s.low_state = odd,
        10 => s.filter_source_energy = odd,
        11 => t.filter_input_count = count,
        12 => t.filter_input_count = (bits >> 32) as usize % 5,
        13 => t.filter_output_count = count - 1,
        14 => t.filter_output_count = (bits >> 32) as usize % 4,
        15 => t.mixer_input_count = count + 3,
        16 => t.mixer_input_count = (bits >> 32) as usize % 8,
        17 => t.bypass_input_count = count,
        18 => t.filter_input_reciprocal = odd,
        19 => t.summer_input_reciprocal = odd,
        20 => t.mixer_input_reciprocal = odd,
        21 => (t.filter_input_reciprocal, t.summer_input_reciprocal) = (0.3, -0.7),
        22 => (t.filter_internal_mask, t.bypass_internal_mask) = (nibble, nibble ^ 5),
        23 => (t.filter_membership, t.bypass_membership) = ([true; 4], [true; 4]),
        24 => c.effective_cutoff_index = 2048 + count,
        25 => c.resonance_index = 16 + count,
        26 => c.integrator_gain[bin] = odd,
        27 => c.input_drive[bin] = odd,
        28 => c.feedback_drive[bin] = odd,
        29 => c.damping = odd,
        30 => c.source_gain_modulation = odd,
        31 => c.high_pass_low_coupling = odd,
        32 => c.band_pass_low_coupling = odd,
        33 => c.resonance_position = odd,
        34 => c.resonance_feedback_scale = odd,
        35 => c.source_modulation_resonance_scale = odd,
        36 => c.resonance_output_gain = odd,
        37 => c.mode_output_gain = odd,
        38 => (c.filter_common_mode, c.volume_fraction) = (odd, odd),
        39 => (c.two_voice_volume_gain_offset, c.combined_common_mode_gain) = (odd, odd),
        40 => (c.pure_bypass_common_mode_gain, c.scaled_filter_common_mode) = (odd, odd),
        41 => c.frozen_dac_bias_mode = !c.frozen_dac_bias_mode,
        42 => c.mode_output_gain = f32::MAX,
        43..=46 => set_transient(transients, (bits >> 32) as usize % 10, odd),
        // A feedback that does not saturate: the high-pass leaves the finite domain in an early substep, and may be back in it after the last.
        _ => {
            (c.integrator_gain, c.source_gain_modulation, c.resonance_feedback_scale) = ([0.01; 16], 0.0, 1.0e-39);
            (c.damping, s.band_state) = (20.0 + tame(random, 60.0), tame(random, 1.2e37));
        }
    }
}

/// What an event hands back beside the Rust's parts after it.
fn same_given(reached: &mut Reached, event: Event, ours: &proved::Given, filter: &mut Filter, told: Told, outputs: [f32; 4]) {
    reached.event(event, told);
    reached.tally.same((ours.number, ours.buffer, ours.place), told);
    reached.tally.same(ours.outputs.map(f32::to_bits), outputs.map(f32::to_bits));
    for (ours, theirs) in core_words(&ours.core).into_iter().zip(core_words(&core_of(filter))) {
        reached.tally.same(ours, theirs);
    }
}

/// Registers of one state, topology of a second, controls of a third, and now and then a distortion, a wrong buffer or an unusable entry: a write
/// alters what the Rust's write alters and takes the rest as it is.
fn handed_in(lent: &mut Lent) -> Reached {
    let (mut reached, mut random) = (Reached::default(), Random(43));
    let Lent { bundle, curves, filter, .. } = lent;
    for _ in 0..150_000 {
        let bits = random.bits();
        put(filter, &valid_block(&mut random));
        let topology = *filter.topology();
        put(filter, &valid_block(&mut random));
        if bits % 4 != 0 {
            *filter.topology() = topology;
        }
        if bits >> 2 & 3 != 0 {
            set(filter, &valid_block(&mut random));
        }
        for _ in 0..[0, 0, 1, 2][(bits >> 4) as usize % 4] {
            distort(filter, &mut random);
        }
        let mut core = core_of(filter);
        for _ in 0..bits >> 6 & 15 {
            let event = event(&mut random, 12, 4);
            let bits = random.bits();
            // Of a write the damping's entry is spoilt, which a mode write does not read, and of a sample one of the curve's two.
            let place = match event.kind {
                4 if filter.topology().filter_input_count <= 4 => sample_places(filter, event).0[(bits >> 13) as usize % 2],
                4 => 0,
                5 => DAMPING,
                2 => DAMPING + 4 * usize::from(event.value >> 4),
                _ => DAMPING + 4 * usize::from(filter.registers().resonance & 15),
            };
            let spoilt = if event.kind == 4 { &mut *curves } else { &mut *bundle };
            let whole = (bits >> 8 & 7 == 0).then(|| spoil(spoilt, place, &mut random));
            let header_byte = (bits >> 16) as usize % 56;
            let header = bundle[header_byte];
            let (mut bundle_len, mut curves_len) = (bundle.len(), curves.len());
            match bits & 63 {
                0..=1 => bundle_len -= 1,
                2..=4 => bundle[header_byte] ^= 1 << (bits >> 24 & 7),
                _ => {}
            }
            if bits >> 27 & 15 == 0 {
                curves_len = (bits >> 32) as usize % CURVES_LENGTH;
            }
            let decays_len = if bits >> 58 & 31 == 0 { (bits >> 48) as usize % 24 } else { 24 };
            let lent = [&bundle[..bundle_len], &curves[..curves_len], &some_decays(&mut random)[..decays_len]];
            let ours = proved::feed(lent, core, &event.bytes());
            let (told, outputs) = feed(&mut reached.tally, filter, lent, event);
            bundle[header_byte] = header;
            if let Some(entry) = whole {
                let spoilt = if event.kind == 4 { &mut *curves } else { &mut *bundle };
                spoilt[place..place + 4].copy_from_slice(&entry);
            }
            same_given(&mut reached, event, &ours, filter, told, outputs);
            core = ours.core;
        }
    }
    reached
}

/// The order of the causes that an event on a core may have (docs/FORMATS.md).
const ORDER: [u32; 8] = [1, 2, 4, 10, 12, 5, 3, 6];

/// Every set of causes, on every kind of event: the first cause that the kind looks for is answered. A write or a reset has no look at sum, energy
/// and what a sample reads, and of the writes the mode's alone may leave a charge that is not finite.
fn causes(lent: &mut Lent) -> Reached {
    let (mut reached, mut random) = (Reached::default(), Random(44));
    let Lent { bundle, curves, filter, .. } = lent;
    for turn in 0..256 * 6 * 40 {
        let (set, kind, bits) = (turn % 256, (turn / 256 % 6) as u8, random.bits());
        let has = |cause: u32| ORDER.iter().zip(0..).any(|(&number, bit)| number == cause && set >> bit & 1 == 1);
        let looks_for: &[u32] = match kind {
            3 => &[1, 2, 4, 10, 12, 3, 6],
            4 => &ORDER,
            _ => &[1, 2, 4, 10, 12, 3],
        };
        put(filter, &valid_block(&mut random));
        *filter.state() = IntegratorState { band_state: 0.5, low_state: -0.25, filter_source_energy: 0.125 };
        if has(6) {
            (filter.state().band_state, filter.state().low_state) = (f32::MAX, f32::MIN);
        }
        filter.transients().volume_conductance_code = if has(6) { f32::MAX } else { tame(&mut random, 16.0) };
        // The mode's value selects the low-pass alone, so that its write reads an entry.
        let value = if kind == 3 { 0x10 | bits as u8 & 0x8f } else { bits as u8 };
        let sum = if has(5) && bits >> 8 & 1 == 0 { f32::NAN } else { tame(&mut random, 4.0) };
        let energy = if has(5) && bits >> 8 & 1 == 1 { f32::INFINITY } else { tame(&mut random, 2.0) };
        let event = Event { kind, value, sum, energy };
        let before = parts(filter);
        let outputs = play(filter, &event.bytes()).unwrap_or_default();
        let after = parts(filter);
        let place = if kind == 4 { 0 } else { write_places(&after.0, kind)[0] };
        put_back(filter, before);
        let place = if kind == 4 { sample_places(filter, event).0[0] } else { place };
        let (_, _, transients, topology, control) = filter.parts();
        match if has(10) { bits >> 16 & 7 } else { 8 } {
            1 => topology.filter_input_count = 5,
            2 => topology.filter_output_count = 4,
            3 => topology.mixer_input_count = 8,
            4 => topology.mixer_input_count = usize::MAX,
            5 => topology.summer_input_reciprocal = f32::NAN,
            6 => control.damping = f32::NAN,
            7 => set_transient(transients, (bits >> 32) as usize % 10, f32::NAN),
            8 => {}
            _ => filter.registers().cutoff = 2048,
        }
        let spoilt = if kind == 4 { &mut *curves } else { &mut *bundle };
        let whole = has(3).then(|| spoil(spoilt, place, &mut random));
        let header_byte = (bits >> 24) as usize % 56;
        if has(2) {
            bundle[header_byte] ^= 0x40;
        }
        let bundle_len = bundle.len() - usize::from(has(1));
        let curves_len = curves.len() - usize::from(has(4));
        let mut decays = any_decays(&mut random);
        if has(12) {
            decays[3 + 4 * ((bits >> 40) as usize % 6)] = 0x7f;
        }
        let lent = [&bundle[..bundle_len], &curves[..curves_len], &decays];
        let ours = proved::feed(lent, core_of(filter), &event.bytes());
        if has(2) {
            bundle[header_byte] ^= 0x40;
        }
        if let Some(entry) = whole {
            let spoilt = if kind == 4 { &mut *curves } else { &mut *bundle };
            spoilt[place..place + 4].copy_from_slice(&entry);
        }
        let told = match looks_for.iter().copied().find(|&cause| has(cause)) {
            Some(2) => (2, 0, header_byte as u32),
            Some(3) => (3, u32::from(kind == 4), place as u32),
            Some(number) => (number, 0, 0),
            None => DONE,
        };
        if told == DONE {
            put_back(filter, after);
        }
        same_given(&mut reached, event, &ours, filter, told, if told == DONE { outputs } else { [0.0; 4] });
    }
    reached
}
