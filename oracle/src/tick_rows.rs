//! The smallest ticks that show each way that a tick can go, with what each answers: for `dump` and `compare`.

use crate::clocked::{clocked, floats_of, Damage, InputBytes, Inputs, Lent};
use crate::filter::Filter;
use crate::kept::{decays, put};
use crate::plain::{Machine, Refusal};
use crate::response::filter_mode_quiescent_level;
use crate::transients::TransientState;
use crate::voices::{not_finite_alone, resting, voice, Sources, COMBINED, FLAGS, PURE};

/// A tick, what is damaged for it, and number, buffer and place that it answers.
pub struct Row {
    pub block: [u8; 68],
    pub inputs: InputBytes,
    pub damages: Vec<Damage>,
    pub told: Refusal,
}

// ---- how a row is made

/// Where a block has its floats, and the flag behind them.
pub const BAND: usize = 12;
pub const LOW: usize = 16;
pub const ENERGY: usize = 20;
pub const FAST: usize = 24;
pub const SLOW: usize = 28;
pub const ATTACK: usize = 32;
pub const PULSE_FAST: usize = 36;
pub const PULSE_SLOW: usize = 40;
pub const PREVIOUS: usize = 48;
pub const BLENDS: [usize; 3] = [52, 56, 60];
pub const PENDING: usize = 64;

const FROZEN: [bool; 2] = [false, true];

/// The Rust's own six decays.
pub fn own_decays() -> [f32; 6] {
    floats_of(&decays(&TransientState::new()))
}

/// A valid block and valid inputs, as they are put together.
#[derive(Clone, Copy)]
pub struct Case {
    pub block: [u8; 68],
    pub inputs: Inputs,
}

/// The starting value with the Rust's own decays, levels at rest and silent voices.
pub fn start() -> Case {
    let inputs = Inputs { decays: own_decays(), levels: [0.0, resting(), resting()], voices: [voice(0.0, 0.0, 0, PURE); 3] };
    Case { block: [0; 68], inputs }
}

impl Case {
    pub fn registers(mut self, routing: u8, mode: u8, volume: u8) -> Self {
        self.block[8..11].copy_from_slice(&[routing, mode, volume]);
        self
    }

    /// Written cutoff 2,047, resonance 0 and routing 3.
    fn bias_mode(mut self, mode: u8, volume: u8) -> Self {
        self.block[..2].copy_from_slice(&2047u16.to_le_bytes());
        self.registers(3, mode, volume)
    }

    pub fn float(mut self, place: usize, float: f32) -> Self {
        self.block[place..place + 4].copy_from_slice(&float.to_le_bytes());
        self
    }

    fn charges(self, [fast, slow, pulse_fast, pulse_slow]: [f32; 4]) -> Self {
        self.float(FAST, fast).float(SLOW, slow).float(PULSE_FAST, pulse_fast).float(PULSE_SLOW, pulse_slow)
    }

    pub fn pending(mut self) -> Self {
        self.block[PENDING] = 1;
        self
    }

    pub fn voice(mut self, index: usize, waveform: f32, envelope: f32, selection: u8, flags: [bool; 2]) -> Self {
        self.inputs.voices[index] = voice(waveform, envelope, selection, flags);
        self
    }

    /// All three voices at one envelope.
    fn voices(self, envelope: f32, selection: u8, flags: [bool; 2]) -> Self {
        (0..3).fold(self, |case, index| case.voice(index, 0.25, envelope, selection, flags))
    }

    pub fn levels(mut self, levels: [f32; 3]) -> Self {
        self.inputs.levels = levels;
        self
    }

    fn raw(mut self, raw: f32) -> Self {
        self.inputs.levels[0] = raw;
        self
    }

    fn decays(mut self, decays: [f32; 5]) -> Self {
        self.inputs.decays[..5].copy_from_slice(&decays);
        self
    }

    fn tracking(mut self, tracking: f32) -> Self {
        self.inputs.decays[5] = tracking;
        self
    }

    /// On tables as they are, it answers a number alone.
    pub fn row(self, number: u32) -> Row {
        Row { block: self.block, inputs: self.inputs.bytes(), damages: vec![], told: (number, 0, 0) }
    }
}

/// Rows that are done.
fn done(cases: impl IntoIterator<Item = Case>) -> Vec<Row> {
    cases.into_iter().map(|case| case.row(0)).collect()
}

/// Every row that needs no damaged table. The filter finds where a number overflows.
pub fn rows(filter: &mut Filter) -> Vec<Row> {
    let steps = [blends(), combined(), collecting(filter), core(), mixer(), frozen(), rises(), pulses(), common_modes(), charges()];
    steps.into_iter().chain([refused(filter), invalid()]).flatten().collect()
}

// ---- step by step

/// A float, and its neighbours.
fn about(x: f32) -> [f32; 3] {
    [x.next_down(), x, x.next_up()]
}

/// Towards 1 for a saw above 0.02, of any flags and wherever it is routed; -0.0 becomes +0.0 but for a tracking of -0.0; a blend is used in
/// its tick.
fn blends() -> Vec<Row> {
    let blended = start().float(BLENDS[0], 0.25).float(BLENDS[1], 0.5).float(BLENDS[2], 1.0).registers(0, 0, 15);
    let mut cases = vec![];
    for selection in [1, 2, 3, 6] {
        let envelopes = about(0.02).into_iter().chain([0.0, -0.0, -1.0, 1.0]);
        cases.extend(envelopes.map(|envelope| blended.voices(envelope, selection, PURE)));
    }
    cases.extend(FLAGS.map(|flags| blended.voices(0.75, 2, flags)));
    for (routing, mode) in [(7, 0), (0, 8), (4, 8), (7, 15)] {
        cases.push(blended.registers(routing, mode, 15).voices(0.75, 2, PURE));
    }
    for tracking in [0.0, -0.0, own_decays()[5], 1.0] {
        let zeros = start().float(BLENDS[0], -0.0).float(BLENDS[1], 0.0).float(BLENDS[2], 1.0).tracking(tracking);
        cases.extend([zeros, zeros.voices(0.75, 2, PURE), blended.tracking(tracking).voices(0.75, 2, PURE)]);
        for blend in [3.0e38, -3.0e38] {
            cases.push(start().registers(0, 0, 15).float(BLENDS[0], blend).tracking(tracking).voice(0, 0.5, 0.75, 2, PURE));
        }
    }
    done(cases)
}

/// Combined voices count wherever they are, voice 3 that is off too. Their sum is none of the eight: where it is infinite the stage's
/// argument is not finite.
fn combined() -> Vec<Row> {
    let mut cases = vec![];
    for set in 0..8 {
        for (routing, mode) in [(0, 0), (0, 8), (7, 1), (1, 9)] {
            let flags = |index: usize| if set >> index & 1 == 1 { COMBINED } else { PURE };
            let voiced = |case: Case, index: usize| case.voice(index, 0.25, 0.5, 3, flags(index));
            cases.push((0..3).fold(start().registers(routing, mode, 15), voiced));
        }
    }
    let mut rows = done(cases);
    let huge = |volume, flags| start().registers(1, 1, volume).voice(0, 0.0, 2.0e38, 3, COMBINED).voice(1, 0.0, 2.0e38, 3, flags);
    rows.extend([huge(15, COMBINED).row(6), huge(0, COMBINED).row(6), huge(15, FROZEN).row(6), huge(0, FROZEN).row(0)]);
    rows
}

/// Sources in a mode and at a volume, with blends that stay 0.
fn sourced(sources: &Sources, mode: u8, volume: u8) -> Case {
    let [raw, filter_level, mixer_level, ..] = sources.numbers;
    let mut case = start().registers(sources.routing, mode, volume).levels([raw, filter_level, mixer_level]).tracking(0.0);
    case.inputs.voices = sources.voices;
    case
}

/// Sums that alone are not finite, in low-pass at volume 0 too, where no other number need be; and a saw whose bend overflows, refused up to
/// 0.02 and not above.
fn collecting(filter: &mut Filter) -> Vec<Row> {
    let mut rows = vec![];
    for (_, sources) in not_finite_alone() {
        rows.extend([sourced(&sources, sources.mode, 15).row(6), sourced(&sources, 1, 0).row(6)]);
    }
    let saw = |waveform, envelope| start().voice(0, waveform, envelope, 2, PURE);
    rows.extend(border(filter, |waveform| saw(waveform, 0.02)));
    rows.extend(done([saw(4.0e19, 0.02_f32.next_up()), saw(4.0e19, 0.0), saw(-4.0e19, 0.75)]));
    rows.push(saw(-4.0e19, 0.02).row(6));
    rows
}

/// Idle where nothing is routed in and three numbers are zeros of either sign, as they were before; and cores that overflow.
fn core() -> Vec<Row> {
    let zero = |bits: usize, bit: usize| if bits >> bit & 1 == 1 { -0.0 } else { 0.0 };
    let mut cases = vec![];
    for bits in 0..8 {
        let zeros = start().float(BAND, zero(bits, 0)).float(LOW, zero(bits, 1)).float(ENERGY, zero(bits, 2));
        cases.extend([zeros, zeros.registers(0, bits as u8, 15), zeros.registers(1, bits as u8, 15).voice(0, 0.5, 1.0, 1, PURE)]);
    }
    let smallest = f32::from_bits(1);
    for place in [BAND, LOW, ENERGY] {
        cases.extend([smallest, -smallest, 0.5, -0.5].map(|float| start().registers(0, 7, 15).float(place, float)));
    }
    for routing in 0..16 {
        cases.push(start().registers(routing, 1 + routing % 7, 15).float(BAND, 0.5).float(LOW, -0.25).voices(0.75, 1, PURE));
    }
    let mut rows = done(cases);
    for (routing, mode) in [(0, 0), (1, 1), (15, 7)] {
        let case = start().registers(routing, mode, 15);
        rows.push(case.float(ENERGY, 3.0e38).float(BAND, 3.0e38).row(6));
        rows.extend([BAND, LOW].map(|place| case.float(place, 3.0e38).row(6)));
    }
    rows
}

/// With no input the curve is read at rest. The output is the curve's own where no voice is beside the filter and the raw level is a zero.
fn mixer() -> Vec<Row> {
    let mut cases = vec![];
    for (routing, mode) in [(15, 0), (15, 8), (11, 8), (7, 0), (3, 8), (7, 1), (15, 7), (14, 0)] {
        let case = start().registers(routing, mode, 15).levels([0.0, 0.5, 0.6]).voices(0.75, 1, PURE);
        cases.extend([0.0, -0.0, f32::from_bits(1), -f32::from_bits(1), 0.5, -0.5, 2.5, 1.0e10].map(|raw| case.raw(raw)));
    }
    for volume in [0, 1, 9, 15] {
        for mode in [0, 1, 8, 15] {
            let case = start().registers(0, mode, volume);
            let activities = [0.0, -1.0, 0.5, 1.0, 1.0_f32.next_up(), 1.5, 2.0, 2.5, 3.0, 3.5, 1.0e10];
            cases.extend(activities.map(|activity| case.voice(1, 0.25, activity, 3, FROZEN)));
            cases.extend([0.4, 0.8, 1.0].map(|envelope| case.voices(envelope, 1, PURE)));
        }
    }
    // A level that no sample has: the average is past the end of the curve.
    cases.extend([3.4e38, -3.4e38, f32::MAX].map(|level| start().registers(0, 0, 15).levels([0.0, 0.0, level])));
    done(cases)
}

/// Bias mode with all three voices frozen and above 0.99, in every mode and volume; and each time one thing that is not so.
fn frozen() -> Vec<Row> {
    let mut cases: Vec<Case> = (0..=255).map(|pair| start().bias_mode(pair >> 4, pair & 15).voices(1.0, 5, FROZEN)).collect();
    let point = start().bias_mode(5, 12);
    cases.extend(about(0.99).map(|envelope| point.voices(envelope, 5, FROZEN)));
    for index in 0..3 {
        let frozen = point.voices(1.0, 5, FROZEN);
        cases.extend(about(0.99).map(|envelope| frozen.voice(index, 0.25, envelope, 5, FROZEN)));
        cases.extend(FLAGS.map(|flags| frozen.voice(index, 0.25, 1.0, 5, flags)));
        cases.extend([2.5, -1.0, 0.0].map(|envelope| frozen.voice(index, 0.25, envelope, 5, FROZEN)));
    }
    for (cutoff, resonance, routing) in [(2046, 0, 3), (2047, 1, 3), (2047, 0, 2), (2047, 0, 7), (2047, 0, 11), (0, 0, 3), (2047, 8, 3)] {
        let mut other = point.registers(routing, 5, 12).voices(1.0, 5, FROZEN);
        other.block[..2].copy_from_slice(&u16::to_le_bytes(cutoff));
        other.block[7] = resonance;
        cases.push(other);
    }
    // The written cutoff counts, not the effective one.
    for (cutoff, displacement) in [(2047, -57), (1990, 57)] {
        let mut displaced = point.voices(1.0, 5, FROZEN);
        displaced.block[..2].copy_from_slice(&u16::to_le_bytes(cutoff));
        displaced.block[2..4].copy_from_slice(&i16::to_le_bytes(displacement));
        cases.push(displaced);
    }
    done(cases)
}

/// The common mode of every mode, at written cutoffs that are displaced.
fn common_modes() -> Vec<Row> {
    let mut cases = vec![];
    for (cutoff, displacement) in [(0, 0), (1000, 57), (2047, -57)] {
        for mode in 0..16 {
            let mut case = start().registers(0, mode, 1 + mode % 15);
            case.block[..2].copy_from_slice(&u16::to_le_bytes(cutoff));
            case.block[2..4].copy_from_slice(&i16::to_le_bytes(displacement));
            cases.push(case);
        }
    }
    done(cases)
}

/// The pure activity about the previous one; the charge becomes that of the rise; no voice beside the filter makes the activity 0. Every
/// selection has its scale.
fn rises() -> Vec<Row> {
    let charged = start().registers(0, 1, 15).float(ATTACK, 0.125).float(PREVIOUS, 0.5);
    let mut cases = vec![];
    cases.extend(about(0.5).map(|envelope| charged.voice(0, 0.25, envelope, 1, PURE)));
    cases.extend(about(0.5).map(|envelope| charged.registers(1, 1, 15).voice(1, 0.25, envelope, 1, PURE)));
    cases.extend(FLAGS.map(|flags| charged.voice(0, 0.25, 0.75, 1, flags)));
    cases.extend((0..16).map(|selection| charged.voice(0, 0.25, 0.75, selection, PURE)));
    for waveform in [-1.0, -8.0, 8.0, 1.0, 7.69, 7.7] {
        cases.push(charged.voice(0, waveform, 0.75, 4, PURE));
    }
    for activity in [0.75, 1.0, 1.5, 2.0, 2.25, 2.5, 3.0, 3.5, 1.0e6] {
        cases.push(charged.voice(0, 0.25, activity, 1, PURE));
        cases.push(charged.voice(0, 0.25, activity, 2, PURE));
    }
    for previous in [0.0, -0.0, 1.0, -1.0, 3.0e38, -3.0e38] {
        for (routing, mode) in [(7, 0), (3, 8), (3, 0), (0, 0)] {
            let case = start().registers(routing, mode, 15).float(ATTACK, -0.125).float(PREVIOUS, previous);
            cases.extend([case, case.voice(2, 0.25, 0.5, 1, PURE)]);
        }
    }
    done(cases)
}

/// A pending pulse is used up by a pure voice of selection 4 beside the filter, at a volume above 0.
fn pulses() -> Vec<Row> {
    let charged = start().pending().charges([1.0, 2.0, 3.0, 4.0]);
    let mut cases: Vec<Case> =
        (0..16).map(|volume| charged.registers(0, 0, volume).voice(volume as usize % 3, 0.25, 0.5, 4, PURE)).collect();
    let heard = charged.registers(0, 0, 15);
    cases.extend(FLAGS.map(|flags| heard.voice(0, 0.25, 0.5, 4, flags)));
    cases.extend((0..16).map(|selection| heard.voice(0, 0.25, 0.5, selection, PURE)));
    cases.extend([0.0, -0.0, -0.5, f32::from_bits(1)].map(|envelope| heard.voice(0, 0.25, envelope, 4, PURE)));
    cases.push(heard.voice(0, 0.25, 0.5, 4, PURE).voice(1, 0.25, -0.5, 4, PURE));
    cases.push(charged.registers(1, 0, 15).voice(0, 0.25, 0.5, 4, PURE));
    cases.extend([(0, 8), (4, 8), (4, 0)].map(|(routing, mode)| charged.registers(routing, mode, 15).voice(2, 0.25, 0.5, 4, PURE)));
    let mut not_pending = heard.voice(0, 0.25, 0.5, 4, PURE);
    not_pending.block[PENDING] = 0;
    cases.push(not_pending);
    done(cases)
}

/// The charges' sum from the left, from no zero; decays of either zero, and charges that are stuck.
fn charges() -> Vec<Row> {
    let (large, zeros) = (3.0e38, [0.0, -0.0]);
    let mut rows = vec![
        start().charges([large, -large, large, large]).row(0),
        start().charges([large, large, -large, large]).row(6),
        start().charges([large, -large, large, -large]).row(6),
        start().charges([large, 0.0, -large, -large]).row(0),
        start().charges([2.0e38, 2.0e38, 0.0, 0.0]).row(6),
        start().charges([2.0e38, 0.0, 0.0, -2.0e38]).row(6),
        start().charges([1.6e7, 1.0, 1.0, 1.0]).row(0),
        start().charges([1.0, 1.6777216e7, 1.0, -1.0]).row(0),
    ];
    for bits in 0..16 {
        let signed = start().charges(std::array::from_fn(|index| zeros[bits >> index & 1]));
        rows.extend(done([signed, signed.float(ATTACK, zeros[bits & 1])]));
        rows.extend(done([signed.decays([-0.0; 5]).float(ATTACK, -0.0), signed.decays([0.0; 5]).float(ATTACK, -0.0)]));
    }
    let charged = start().registers(0, 0, 15).charges([-3152.0623, -2777.7222, 300.0, 200.0]).float(ATTACK, 0.5);
    let decays = [own_decays()[..5].try_into().expect("five"), [0.0; 5], [-0.0; 5], [1.0; 5], [0.5, 0.25, 0.125, 1.0, 0.0], [1.0e-45; 5]];
    rows.extend(done(decays.map(|decays| charged.decays(decays))));
    // Subnormal charges that the Rust's decays leave as they are.
    let stuck = |bits: u32| f32::from_bits(bits);
    rows.extend(done(
        [0x8000_0388, 0x8000_0389, 1, 0x8000_0001, 0x007f_ffff].map(|bits| start().charges([stuck(bits); 4]).float(ATTACK, stuck(bits))),
    ));
    rows
}

// ---- where a tick is refused

/// Whether the Rust's numbers are all finite.
fn goes(filter: &mut Filter, case: &Case) -> bool {
    put(filter, &case.block);
    clocked(filter, &case.inputs).is_finite()
}

/// The largest float with which a tick goes, by halving from 0 to the largest: it, done, and the next one, refused with 6. Where no float is
/// refused, the largest alone.
fn border(filter: &mut Filter, at: impl Fn(f32) -> Case) -> Vec<Row> {
    let (mut low, mut high) = (0, f32::MAX.to_bits());
    if goes(filter, &at(f32::MAX)) {
        return vec![at(f32::MAX).row(0)];
    }
    while high - low > 1 {
        let middle = low + (high - low) / 2;
        *if goes(filter, &at(f32::from_bits(middle))) { &mut low } else { &mut high } = middle;
    }
    vec![at(f32::from_bits(low)).row(0), at(f32::from_bits(high)).row(6)]
}

/// The rest: the quadratic gain of one voice or of the raw level; the attack charge; the volume's charges. And what is never refused.
fn refused(filter: &mut Filter) -> Vec<Row> {
    let mut rows = vec![];
    for sign in [1.0, -1.0] {
        for (mode, volume) in [(0, 15), (0, 1), (0, 0), (1, 15), (1, 1)] {
            for flags in FLAGS {
                let case = start().registers(0, mode, volume);
                rows.extend(border(filter, |envelope| case.voice(0, 0.0, sign * envelope, 0, flags)));
            }
        }
        for volume in [15, 1] {
            let case = start().registers(0, 0, volume);
            rows.extend(border(filter, |charge| case.float(ATTACK, sign * charge)));
            rows.extend(border(filter, |envelope| start().registers(1, 1, volume).voice(0, 0.0, sign * envelope, 0, PURE)));
        }
        for volume in [15, 0] {
            rows.extend(border(filter, |raw| start().registers(0, 0, volume).raw(sign * raw)));
            rows.extend(border(filter, |charge| start().registers(0, 0, volume).float(FAST, sign * charge).float(SLOW, sign * 2.0e38)));
        }
        let largest = sign * f32::MAX;
        rows.extend(done([
            start().float(ATTACK, largest),
            start().registers(0, 1, 0).voice(0, 0.0, largest, 2, PURE),
            start().registers(0, 1, 15).raw(largest),
            start().levels([0.0, 0.0, largest]),
            start().registers(0, 0, 15).float(PREVIOUS, largest).voice(0, 0.25, 0.5, 1, PURE),
        ]));
        rows.extend(BLENDS.map(|place| start().registers(0, 0, 15).float(place, largest).voices(0.75, 2, PURE).row(0)));
    }
    rows
}

/// A byte of the voices, a level, a decay or a byte of the state that is not valid: 11, 12 and 10, whatever else overflows.
fn invalid() -> Vec<Row> {
    let overflows = start().registers(3, 1, 15).voice(0, 0.0, 2.0e38, 0, PURE).voice(1, 0.0, 2.0e38, 0, PURE);
    let mut rows = vec![];
    let mut changed = |number: u32, change: &dyn Fn(&mut [u8; 68], &mut InputBytes)| {
        for case in [start(), overflows] {
            let mut row = case.row(number);
            change(&mut row.block, &mut row.inputs);
            rows.push(row);
        }
    };
    for voice in 0..3 {
        for (byte, value) in [(8, 16), (8, 255), (9, 2), (10, 2), (11, 1)] {
            changed(11, &|_, inputs| inputs.voices[12 * voice + byte] = value);
        }
        for odd in [f32::NAN, f32::INFINITY, f32::NEG_INFINITY] {
            changed(11, &|_, inputs| inputs.voices[12 * voice..][..4].copy_from_slice(&odd.to_le_bytes()));
            changed(11, &|_, inputs| inputs.voices[12 * voice + 4..][..4].copy_from_slice(&odd.to_le_bytes()));
            changed(11, &|_, inputs| inputs.levels[4 * voice..][..4].copy_from_slice(&odd.to_le_bytes()));
        }
    }
    for decay in 0..6 {
        for float in [1.0_f32.next_up(), -f32::from_bits(1), f32::NAN] {
            changed(12, &|_, inputs| inputs.decays[4 * decay..][..4].copy_from_slice(&float.to_le_bytes()));
        }
    }
    // 10 before 12 before 11.
    changed(12, &|_, inputs| (inputs.decays[3], inputs.voices[8]) = (0x7f, 16));
    changed(10, &|block, inputs| (block[11], inputs.decays[3], inputs.voices[8]) = (1, 0x7f, 16));
    changed(10, &|block, _| block[65] = 1);
    rows
}

// ---- rows with damaged entries

/// What no entry may be.
const UNUSABLE: u32 = 0x7fc0_0000;

/// A place of an entry: buffer and byte.
type Place = (u32, usize);

/// Entry `index` of a curve, 0 to 30.
fn curve_entry(curve: usize, index: usize) -> Place {
    (1, 4 * (2049 * curve + index))
}

/// Every place that a tick reads, in order.
pub fn places(lent: &Lent, block: &[u8; 68], inputs: &Inputs) -> Vec<Place> {
    let mut machine = Machine::new(&lent.bundle, &lent.curves);
    machine.read = Some(vec![]);
    machine.tick(&mut block.clone(), inputs.bytes().lent(), &mut [0; 16]);
    machine.read.unwrap_or_default()
}

/// What a tick reads that is not idle and takes no frozen point: the controls' entries, the summer's two and four of the surface, the
/// mixer's two, the volume's two.
struct Reads {
    controls: Vec<Place>,
    summer: Vec<Place>,
    mixer: Vec<Place>,
    volume: Vec<Place>,
}

impl Reads {
    fn of(lent: &Lent, case: &Case) -> Self {
        let mut controls = places(lent, &case.block, &case.inputs);
        let mut own = controls.split_off(controls.len() - 10);
        let volume = own.split_off(8);
        let mixer = own.split_off(6);
        Reads { controls, summer: own, mixer, volume }
    }

    /// All but the controls', in order.
    fn own(&self) -> Vec<Place> {
        [&self.summer[..], &self.mixer, &self.volume].concat()
    }
}

/// A row with unusable entries that answers a number.
fn unusable(case: Case, damaged: &[Place], number: u32) -> Row {
    let damages = damaged.iter().map(|&(buffer, place)| (buffer, place, UNUSABLE)).collect();
    Row { damages, ..case.row(number) }
}

/// A row with unusable entries that answers 3 and the first of them.
fn first_of(case: Case, damaged: &[Place]) -> Row {
    let (buffer, place) = damaged[0];
    Row { told: (3, buffer, place as u32), ..unusable(case, damaged, 3) }
}

/// Every row that needs damaged tables.
pub fn damaged_rows(lent: &Lent) -> Vec<Row> {
    [read_alone(lent), stages(lent), not_read(lent), zero_signs(lent), past_the_end(lent)].into_iter().flatten().collect()
}

/// Low-pass at volume 15, with one voice in the filter and two beside it.
fn heard() -> Case {
    start().registers(1, 1, 15).voice(0, 0.5, 1.0, 1, PURE).voice(1, 0.25, 0.75, 4, PURE).voice(2, -0.25, 0.5, 2, PURE)
}

/// Each entry that a tick reads alone, each with the one that is read next, and the ends together.
fn read_alone(lent: &Lent) -> Vec<Row> {
    let mut rows = vec![];
    for mode in [0, 1, 4, 7] {
        let case = heard().registers(1, mode, 15);
        let reads = places(lent, &case.block, &case.inputs);
        rows.extend(reads.iter().map(|&place| first_of(case, &[place])));
        rows.extend(reads.windows(2).map(|pair| first_of(case, pair)));
        rows.push(first_of(case, &[reads[0], reads[reads.len() - 1]]));
    }
    rows
}

/// The order of the stages.
fn stages(lent: &Lent) -> Vec<Row> {
    let case = heard();
    let reads = Reads::of(lent, &case);
    let (summer, mixer, volume) = (reads.summer[0], reads.mixer[0], reads.volume[0]);
    let mut rows = vec![first_of(case, &[summer, mixer, volume]), first_of(case, &[mixer, volume])];
    rows.extend(reads.summer.iter().map(|&place| first_of(case, &[place, mixer, volume])));

    // Collecting overflows: two envelopes in the filter, on the same rail as half of them.
    let filtered = |envelope| start().registers(3, 1, 15).voice(0, 0.0, envelope, 0, PURE).voice(1, 0.0, envelope, 0, PURE);
    let rail = Reads::of(lent, &filtered(1.0e38));
    rows.extend(rail.own().iter().map(|&place| unusable(filtered(2.0e38), &[place], 6)));
    rows.push(first_of(filtered(2.0e38), &[rail.controls[0], rail.summer[0]]));

    // Each sum that alone is not finite.
    for (_, sources) in not_finite_alone() {
        let count = sources.routing.count_ones() as usize;
        let average = (sources.sums()[0] + 2.0 * filter_mode_quiescent_level()) / (2 + count) as f32;
        let entry = curve_entry(2 + count, (average.clamp(0.0, 1.0) * 2047.0) as usize);
        let awake = sourced(&sources, 1, 0).float(ENERGY, 0.5);
        rows.push(unusable(awake, &[entry], 6));
    }

    // The core overflows: what comes before it is read, and nothing behind. In mode 0 the filter's output is a number all the same.
    for mode in [0, 1] {
        let case = case.registers(1, mode, 15);
        let overflows = case.float(ENERGY, 3.0e38).float(BAND, 3.0e38);
        let reads = Reads::of(lent, &case);
        rows.extend([unusable(overflows, &reads.mixer, 6), unusable(overflows, &reads.volume, 6), overflows.row(6)]);
        let curve = 7 + 3 + usize::from(mode);
        rows.push(unusable(overflows, &[curve_entry(curve, 0), curve_entry(curve, 1)], 6));
        rows.extend(reads.summer.iter().map(|&place| first_of(overflows, &[place, reads.mixer[0]])));
    }

    // The rest overflows: every entry comes before it.
    let charged = case.float(FAST, 3.0e38).float(SLOW, 3.0e38);
    rows.extend(reads.own().iter().map(|&place| first_of(charged, &[place])));
    for volume in [15, 0] {
        let combined = start().registers(1, 1, volume).voice(0, 0.0, 2.0e38, 3, COMBINED).voice(1, 0.0, 2.0e38, 3, COMBINED);
        rows.push(combined.row(6));
        rows.extend(Reads::of(lent, &combined).own().iter().map(|&place| first_of(combined, &[place])));
    }

    // A bad voice comes before all entries, bad decays and a bad block before it.
    for (number, change) in [(11, [0, 0, 1]), (12, [0, 1, 1]), (10, [1, 1, 1])] {
        let mut row = unusable(charged, &[reads.controls[0], summer, mixer], number);
        row.block[11] = change[0];
        row.inputs.decays[3] |= 0x40 * change[1];
        row.inputs.voices[11] = change[2];
        rows.push(row);
    }
    rows
}

/// Entries that a tick leaves alone: the summer's where the core is idle, the volume's at the frozen point. And the mixer with no input
/// reads its curve.
fn not_read(lent: &Lent) -> Vec<Row> {
    let mut rows = vec![];
    let (idle, awake) = (start().registers(0, 1, 15), start().registers(0, 1, 15).float(ENERGY, f32::from_bits(1)));
    for (place, index) in Reads::of(lent, &awake).summer.into_iter().zip(0..) {
        rows.extend([unusable(idle, &[place], 0), first_of(awake, &[place])]);
        rows.push(unusable(idle.float([BAND, LOW, ENERGY][index % 3], -0.0), &[place], 0));
    }
    let frozen = start().bias_mode(5, 12).voices(1.0, 5, FROZEN);
    let thawed = frozen.voice(0, 0.25, 1.0, 5, PURE);
    let reads = Reads::of(lent, &thawed);
    for &place in &reads.volume {
        rows.extend([unusable(frozen, &[place], 0), first_of(thawed, &[place]), first_of(frozen, &[reads.mixer[0], place])]);
        rows.extend([frozen.float(FAST, 3.0e38).float(SLOW, 3.0e38)].map(|case| unusable(case, &[place], 6)));
    }
    for (routing, mode) in [(15, 0), (15, 8), (11, 8)] {
        let case = start().registers(routing, mode, 15).voices(0.75, 1, PURE);
        rows.extend([770, 771].map(|index| first_of(case, &[curve_entry(7, index)])));
        rows.extend([769, 772].map(|index| unusable(case, &[curve_entry(7, index)], 0)));
    }
    rows
}

/// At volume 0 the stage's zero tells the sign of the combined sum, where the volume's curve has -0.0: none combined leaves the sum at -0.0,
/// a silent combined voice makes it +0.0. A mixer's entry that is low puts the volume at its first entry.
fn zero_signs(lent: &Lent) -> Vec<Row> {
    let case = start().registers(1, 1, 0).float(ATTACK, -1.0).voice(0, 0.0, -0.5, 0, PURE).voice(1, 0.0, -0.5, 0, PURE);
    let (_, mixer) = Reads::of(lent, &case).mixer[0];
    let entry = |(buffer, place): Place, entry: f32| (buffer, place, entry.to_bits());
    let mut rows = vec![];
    for first in [-0.0, 0.0] {
        let damages = vec![entry((1, mixer), -1024.0), entry(curve_entry(15, 0), first), entry(curve_entry(15, 1), -1.0)];
        for silent in [PURE, COMBINED, FROZEN] {
            rows.push(Row { damages: damages.clone(), ..case.voice(2, 0.0, 0.0, 0, silent).row(0) });
            rows.push(Row { damages: damages.clone(), ..case.voice(2, 0.0, -0.0, 0, silent).row(0) });
        }
    }
    rows
}

/// A core that stands still at a low of 1.7e38, as its gain is 0: with a mixer level of 3.4e38 the mixer's sum is infinite, and its curve is
/// read at its end.
fn past_the_end(lent: &Lent) -> Vec<Row> {
    let still = (0, 56 + 4 * 15, 0);
    let mut rows = vec![];
    for (sign, end) in [(1.0, 2047), (-1.0, 0)] {
        let case = start().registers(0, 1, 15).float(LOW, sign * 1.7e38).levels([0.0, 0.0, sign * 3.4e38]);
        let row = |damages: &[Place]| Row {
            damages: [still].into_iter().chain(damages.iter().map(|&(buffer, place)| (buffer, place, UNUSABLE))).collect(),
            ..case.row(0)
        };
        rows.push(row(&[]));
        for index in [end, end + 1] {
            let (buffer, place) = curve_entry(7 + 5, index);
            rows.push(Row { told: (3, buffer, place as u32), ..row(&[(buffer, place)]) });
        }
    }
    assert!(places(lent, &start().block, &start().inputs).contains(&(still.0, still.1)), "the last gain of cutoff 0");
    rows
}
