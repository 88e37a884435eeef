//! The direct calls of the filter's parts: values beside the Rust's, refusals beside an independent reading of the table of refusals (docs/FORMATS.md).

use crate::filter::Filter;
use crate::integrator::IntegratorState;
use crate::mixing::MixingTopology;
use crate::numbers::{word, Random, Tally, DAMAGES};
use crate::points;
use crate::response::*;
use crate::ruler::{rulers, told, Ruled};
use crate::surface::{curves_of, data, surface_of, CURVES_LENGTH};
use crate::tables::AnalogueTransferSurface;

/// The calls under C names, and their structs as `#[repr(C)]` lays them out.
pub mod proved {
    #[repr(C)]
    pub struct Reply {
        pub number: u32,
        pub buffer: u32,
        pub place: u32,
        pub value: f32,
    }

    #[repr(C)]
    pub struct PointReply {
        reply: Reply,
        index: u32,
        fraction: f32,
    }

    impl PointReply {
        fn pointed(self) -> super::Pointed {
            let Reply { number, buffer, place, value } = self.reply;
            ((number, buffer, place), [value.to_bits(), self.index, self.fraction.to_bits()])
        }
    }

    #[repr(C)]
    #[derive(Clone, Copy)]
    pub struct Topology {
        pub filter_membership: [bool; 4],
        pub bypass_membership: [bool; 4],
        pub counts: [usize; 4],
        pub reciprocals: [f32; 3],
        pub masks: [u8; 2],
    }

    #[repr(C)]
    pub struct RouteReply {
        pub number: u32,
        pub topology: Topology,
    }

    /// high, band and low, then the state's band, low and energy.
    #[repr(C)]
    pub struct StepReply {
        pub number: u32,
        pub advanced: [f32; 6],
    }

    #[repr(C)]
    pub struct BinReply {
        pub number: u32,
        pub lower: usize,
        pub upper: usize,
        pub fraction: f32,
    }

    #[repr(C)]
    #[derive(Clone, Copy)]
    pub struct State(pub f32, pub f32, pub f32);

    /// damping, feedback drive, a1, a2, a3.
    #[repr(C)]
    #[derive(Clone, Copy)]
    pub struct Coefficients(pub f32, pub f32, pub f32, pub f32, pub f32);

    #[link(name = "probe", kind = "static")]
    unsafe extern "C" {
        fn probe_direct_summer(
            bundle: *const u8,
            bundle_len: usize,
            curves: *const u8,
            curves_len: usize,
            t: Topology,
            sum: f32,
        ) -> PointReply;
        fn probe_direct_mixer(curves: *const u8, curves_len: usize, t: Topology, sum: f32) -> PointReply;
        fn probe_any_summer(bundle: *const u8, bundle_len: usize, curves: *const u8, curves_len: usize, t: Topology, sum: f32) -> f32;
        fn probe_any_mixer(curves: *const u8, curves_len: usize, t: Topology, sum: f32) -> f32;
        fn probe_any_volume(curves: *const u8, curves_len: usize, volume: u8, value: f32) -> f32;
        fn probe_direct_mode_gain(bundle: *const u8, bundle_len: usize, mode: u8, resonance: u8, cutoff: u16) -> Reply;
        pub safe fn probe_direct_saturate(value: f32, drive: f32) -> Reply;
        pub safe fn probe_direct_advance(state: State, driven_input: f32, k: Coefficients) -> StepReply;
        pub safe fn probe_direct_topology(routing: u8, mode: u8) -> RouteReply;
        pub safe fn probe_direct_quiescent_level() -> f32;
        pub safe fn probe_direct_voltage(voltage: f32) -> Reply;
        pub safe fn probe_direct_position(input: f32, band: f32, low: f32) -> BinReply;
        pub safe fn probe_direct_conductance(volume: u8) -> Reply;
        pub safe fn probe_direct_common_mode(mode: u8, cutoff: u16) -> Reply;
    }

    pub fn summer(bundle: &[u8], curves: &[u8], t: Topology, sum: f32) -> super::Pointed {
        unsafe { probe_direct_summer(bundle.as_ptr(), bundle.len(), curves.as_ptr(), curves.len(), t, sum) }.pointed()
    }

    pub fn mixer(curves: &[u8], t: Topology, sum: f32) -> super::Pointed {
        unsafe { probe_direct_mixer(curves.as_ptr(), curves.len(), t, sum) }.pointed()
    }

    pub fn any_summer(bundle: &[u8], curves: &[u8], t: Topology, sum: f32) -> f32 {
        unsafe { probe_any_summer(bundle.as_ptr(), bundle.len(), curves.as_ptr(), curves.len(), t, sum) }
    }

    pub fn any_mixer(curves: &[u8], t: Topology, sum: f32) -> f32 {
        unsafe { probe_any_mixer(curves.as_ptr(), curves.len(), t, sum) }
    }

    pub fn any_volume(curves: &[u8], volume: u8, value: f32) -> f32 {
        unsafe { probe_any_volume(curves.as_ptr(), curves.len(), volume, value) }
    }

    pub fn mode_gain(bundle: &[u8], mode: u8, resonance: u8, cutoff: u16) -> Reply {
        unsafe { probe_direct_mode_gain(bundle.as_ptr(), bundle.len(), mode, resonance, cutoff) }
    }
}

pub fn compare() -> Vec<(&'static str, Tally)> {
    let bundle = data("bundle");
    let mut filter = Filter::new();
    let mut ruled = Ruled::new();
    let curves = curves_of(&filter);
    vec![
        ("direct summer_transfer", summer(&bundle, &curves, &mut filter, &mut ruled)),
        ("direct mixer_transfer", mixer(&curves, &mut filter, &mut ruled)),
        ("direct volume_transfer", volume(&curves, &mut filter, &mut ruled)),
        ("direct transfers on damaged entries", damaged(&bundle, &curves)),
        ("direct calls on wrong buffers", wrong_buffers(&bundle, &curves, &mut filter, &mut ruled)),
        ("direct saturate", saturate()),
        ("direct advance", advance()),
        ("direct mixing_topology", topology()),
        ("direct levels and positions", response()),
        ("direct filter_mode_output_gain", mode_gain(bundle)),
    ]
}

// ---- inputs

const EDGES: [f32; 16] = [
    0.0,
    -0.0,
    1.0,
    -1.0,
    0.5,
    f32::NAN,
    f32::INFINITY,
    f32::NEG_INFINITY,
    f32::MAX,
    f32::MIN,
    f32::MIN_POSITIVE,
    1.0e-45,
    -1.0e-45,
    1.844_674_4e19, // its square overflows
    3.0e38,
    2047.0,
];

/// Mostly any number, else an edge.
pub fn float(random: &mut Random) -> f32 {
    match random.bits() {
        bits if bits % 8 == 0 => EDGES[(bits >> 8) as usize % 16],
        _ => random.float(),
    }
}

/// The topology of two nibbles, of which now and then a count is 0 to 9 or far larger, or a reciprocal any float.
fn any_topology(random: &mut Random) -> MixingTopology {
    let mut t = MixingTopology::new();
    let bits = random.bits();
    t.update(bits as u8 & 15, (bits >> 4) as u8 & 15);
    let count = |bits: u64| if bits % 16 == 15 { usize::MAX >> (bits >> 8 & 31) } else { bits as usize % 10 };
    match bits >> 8 & 7 {
        0 => t.filter_input_count = count(bits >> 16),
        1 => t.mixer_input_count = count(bits >> 16),
        2 => t.summer_input_reciprocal = float(random),
        3 => t.mixer_input_reciprocal = float(random),
        4 => {
            (t.filter_input_count, t.mixer_input_count) = (count(bits >> 16), count(bits >> 32));
            (t.summer_input_reciprocal, t.mixer_input_reciprocal) = (float(random), float(random));
        }
        _ => {}
    }
    t
}

pub fn lent(t: &MixingTopology) -> proved::Topology {
    proved::Topology {
        filter_membership: t.filter_membership,
        bypass_membership: t.bypass_membership,
        counts: [t.filter_input_count, t.bypass_input_count, t.filter_output_count, t.mixer_input_count],
        reciprocals: [t.filter_input_reciprocal, t.summer_input_reciprocal, t.mixer_input_reciprocal],
        masks: [t.filter_internal_mask, t.bypass_internal_mask],
    }
}

// ---- the table of refusals

/// Number, buffer and place.
pub type Told = (u32, u32, u32);

pub fn unless(ok: bool, number: u32) -> Option<Told> {
    (!ok).then_some((number, 0, 0))
}

const HEADER: [u32; 14] =
    [6_127_736, 6, 56, 524_288, 2_097_208, 16, 2_097_272, 2_048, 2_105_464, 296_960, 3_293_304, 2_048, 3_301_496, 706_560];

pub fn bundle_refused(bundle: &[u8]) -> Option<Told> {
    let header = HEADER.iter().flat_map(|word| word.to_le_bytes());
    unless(bundle.len() == 6_127_736, 1).or_else(|| {
        let place = bundle.iter().zip(header).position(|(&ours, fixed)| ours != fixed);
        place.map(|place| (2, 0, place as u32))
    })
}

pub fn entries_refused(bytes: &[u8], buffer: u32, places: &[usize]) -> Option<Told> {
    let usable = |place: usize| f32::from_le_bytes(bytes[place..place + 4].try_into().unwrap()).abs() <= 1024.0;
    places.iter().find(|&&place| !usable(place)).map(|&place| (3, buffer, place as u32))
}

pub fn curve_places(curve: usize, input: f32) -> [usize; 2] {
    let lower = (input.clamp(0.0, 1.0) * 2047.0) as usize;
    [lower, lower + 1].map(|index| 4 * (2049 * curve + index))
}

/// What the resting output of a count reads: the surface has 16 loads to each unit of conductance.
pub fn resting_places(count: usize) -> [usize; 4] {
    let column = (filter_mode_quiescent_level() * 2047.0) as usize;
    let entry = |row: usize, column: usize| 2_105_464 + 4 * (2048 * row + column);
    let row = 16 * count;
    [entry(row, column), entry(row, column + 1), entry(row + 1, column), entry(row + 1, column + 1)]
}

pub fn summer_average(t: &MixingTopology, sum: f32) -> f32 {
    (sum + 2.0 * filter_mode_quiescent_level()) * t.summer_input_reciprocal
}

pub fn summer_refused(bundle: &[u8], curves: &[u8], t: &MixingTopology, sum: f32) -> Option<Told> {
    let count = t.filter_input_count;
    bundle_refused(bundle)
        .or_else(|| unless(curves.len() == CURVES_LENGTH, 4))
        .or_else(|| unless(count < 5 && t.summer_input_reciprocal.is_finite(), 10))
        .or_else(|| unless(sum.is_finite(), 5))
        .or_else(|| entries_refused(curves, 1, &curve_places(2 + count, summer_average(t, sum))))
        .or_else(|| entries_refused(bundle, 0, &resting_places(2 + count)))
}

fn mixer_average(t: &MixingTopology, sum: f32) -> f32 {
    if t.mixer_input_count == 0 {
        filter_mode_quiescent_level()
    } else {
        sum * t.mixer_input_reciprocal
    }
}

pub fn mixer_refused(curves: &[u8], t: &MixingTopology, sum: f32) -> Option<Told> {
    unless(curves.len() == CURVES_LENGTH, 4)
        .or_else(|| unless(t.mixer_input_count < 8 && t.mixer_input_reciprocal.is_finite() && sum.is_finite(), 10))
        .or_else(|| entries_refused(curves, 1, &curve_places(7 + t.mixer_input_count, mixer_average(t, sum))))
}

pub fn volume_refused(curves: &[u8], volume: u8, value: f32) -> Option<Told> {
    unless(curves.len() == CURVES_LENGTH, 4)
        .or_else(|| unless(volume < 16 && value.is_finite(), 10))
        .or_else(|| entries_refused(curves, 1, &curve_places(15 + usize::from(volume), value)))
}

fn gain_refused(bundle: &[u8], mode: u8, resonance: u8, cutoff: u16) -> Option<Told> {
    let place = [3_293_304 + 4 * usize::from(cutoff)];
    bundle_refused(bundle)
        .or_else(|| unless(mode < 16 && resonance < 16 && cutoff < 2048, 10))
        .or_else(|| entries_refused(bundle, 0, if mode & 7 == 4 { &place } else { &[] }))
}

/// A refusal with the value 0, or the Rust's value, and 6 where that is not finite.
fn same(tally: &mut Tally, ours: proved::Reply, refused: Option<Told>, theirs: impl FnOnce() -> f32) {
    let (told, value) = match refused {
        Some(told) => (told, 0.0),
        None => match theirs() {
            value if value.is_finite() => ((0, 0, 0), value),
            _ => ((6, 0, 0), 0.0),
        },
    };
    tally.same((ours.number, ours.buffer, ours.place), told);
    tally.same(ours.value.to_bits(), value.to_bits());
}

/// Number, buffer and place of a point; its value, index and fraction.
pub type Pointed = (Told, [u32; 3]);

/// The same for a point: the Rust's value, and index and fraction at which it read the curve.
pub fn same_point(tally: &mut Tally, ours: Pointed, refused: Option<Told>, theirs: impl FnOnce() -> (f32, (u32, f32))) {
    let theirs = match refused {
        Some(told) => (told, [0; 3]),
        None => match theirs() {
            (value, (index, fraction)) if value.is_finite() => ((0, 0, 0), [value.to_bits(), index, fraction.to_bits()]),
            _ => ((6, 0, 0), [0; 3]),
        },
    };
    tally.same(ours.0, theirs.0);
    tally.same(ours.1, theirs.1);
}

// ---- summer, mixer and volume

/// The Rust's summer and mixer on a topology.
fn summer_of(filter: &mut Filter, t: &MixingTopology, sum: f32) -> f32 {
    *filter.topology() = *t;
    filter.summer(sum)
}

fn mixer_of(filter: &mut Filter, t: &MixingTopology, sum: f32) -> f32 {
    *filter.topology() = *t;
    filter.mixer(sum)
}

/// The Rust's volume DAC.
pub fn volume_of(filter: &mut Filter, volume: u8, value: f32) -> f32 {
    filter.registers().volume = volume;
    filter.volume(value)
}

fn summer(bundle: &[u8], curves: &[u8], filter: &mut Filter, ruled: &mut Ruled) -> Tally {
    let (mut tally, mut random) = (Tally::default(), Random(30));
    for _ in 0..1_000_000 {
        let (t, sum) = (any_topology(&mut random), float(&mut random));
        if t.filter_input_count < 5 {
            tally.same_float(proved::any_summer(bundle, curves, lent(&t), sum), summer_of(filter, &t, sum));
        }
        let refused = summer_refused(bundle, curves, &t, sum);
        same_point(&mut tally, proved::summer(bundle, curves, lent(&t), sum), refused, || {
            (summer_of(filter, &t, sum), ruled.told(|filter| summer_of(filter, &t, sum)))
        });
    }
    tally
}

fn mixer(curves: &[u8], filter: &mut Filter, ruled: &mut Ruled) -> Tally {
    let (mut tally, mut random) = (Tally::default(), Random(31));
    for _ in 0..1_000_000 {
        let (t, sum) = (any_topology(&mut random), float(&mut random));
        // There is no curve for more than seven inputs, and none is read.
        let theirs = if t.mixer_input_count < 8 { mixer_of(filter, &t, sum) } else { 0.0 };
        tally.same_float(proved::any_mixer(curves, lent(&t), sum), theirs);
        same_point(&mut tally, proved::mixer(curves, lent(&t), sum), mixer_refused(curves, &t, sum), || {
            (mixer_of(filter, &t, sum), ruled.told(|filter| mixer_of(filter, &t, sum)))
        });
    }
    tally
}

fn volume(curves: &[u8], filter: &mut Filter, ruled: &mut Ruled) -> Tally {
    let (mut tally, mut random) = (Tally::default(), Random(32));
    for turn in 0..1_000_000 {
        let (volume, value) = (if turn % 64 == 0 { random.bits() as u8 } else { turn as u8 % 18 }, float(&mut random));
        if volume < 16 {
            tally.same_float(proved::any_volume(curves, volume, value), volume_of(filter, volume, value));
        }
        same_point(&mut tally, points::proved::volume(curves, volume, value), volume_refused(curves, volume, value), || {
            (volume_of(filter, volume, value), ruled.told(|filter| volume_of(filter, volume, value)))
        });
    }
    tally
}

pub fn damage(bytes: &mut [u8], place: usize, random: &mut Random) {
    bytes[place..place + 4].copy_from_slice(&DAMAGES[(random.bits() % 10) as usize].to_le_bytes());
}

fn curve(curves: &[u8], number: usize) -> [f32; 2049] {
    let from = 4 * 2049 * number;
    std::array::from_fn(|index| f32::from_le_bytes(curves[from + 4 * index..from + 4 * index + 4].try_into().unwrap()))
}

/// Entries about what a transfer reads, by turns the summer's, the mixer's and the volume's: one or two of its curve, now and then one
/// of the four of the resting output, alone or beside them. A reciprocal of 1 puts the average where the damage is.
fn damaged(bundle: &[u8], curves: &[u8]) -> Tally {
    let (mut tally, mut random) = (Tally::default(), Random(33));
    let (mut bundle, mut curves) = (bundle.to_vec(), curves.to_vec());
    let (whole_bundle, whole_curves, surface, rulers) = (bundle.clone(), curves.clone(), surface_of(&bundle), rulers());
    for turn in 0..90_000 {
        let count = (random.bits() % 16) as usize;
        let mut t = MixingTopology::new();
        (t.summer_input_reciprocal, t.mixer_input_reciprocal) = (1.0, 1.0);
        (t.filter_input_count, t.mixer_input_count) = (count % 5, count % 8);
        let number = [2 + count % 5, 7 + count % 8, 15 + count][turn % 3];
        let index = if turn % 3 == 1 && count % 8 == 0 {
            (filter_mode_quiescent_level() * 2047.0) as usize
        } else {
            (random.bits() % 2048) as usize
        };
        let entries = [4 * (2049 * number + index), 4 * (2049 * number + index + 1)];
        let places = if turn % 60 == 0 { &entries[..0] } else { &entries[..1 + turn % 2] };
        for &place in places {
            damage(&mut curves, place, &mut random);
        }
        let corner = matches!(turn % 60, 0 | 3).then(|| resting_places(2 + count % 5)[(random.bits() % 4) as usize]);
        if let Some(place) = corner {
            damage(&mut bundle, place, &mut random);
        }
        let other = corner.map(|_| surface_of(&bundle));
        for shift in [-0.5, 0.0, 0.5] {
            let input = (index as f32 + shift) / 2047.0;
            let sampled = |average: f32| AnalogueTransferSurface::sample_curve(&curve(&curves, number), average);
            let place = |average: f32| told(|ruler| AnalogueTransferSurface::sample_curve(&rulers[ruler], average));
            match turn % 3 {
                0 => {
                    let sum = input - 2.0 * filter_mode_quiescent_level();
                    let refused = summer_refused(&bundle, &curves, &t, sum);
                    same_point(&mut tally, proved::summer(&bundle, &curves, lent(&t), sum), refused, || {
                        let surface = other.as_ref().unwrap_or(&surface);
                        let resting = surface.sample((2 + t.filter_input_count) as f32, filter_mode_quiescent_level());
                        let average = summer_average(&t, sum);
                        (sampled(average) - resting, place(average))
                    });
                }
                1 => {
                    let refused = mixer_refused(&curves, &t, input);
                    let average = mixer_average(&t, input);
                    same_point(&mut tally, proved::mixer(&curves, lent(&t), input), refused, || (sampled(average), place(average)));
                }
                _ => {
                    let refused = volume_refused(&curves, count as u8, input);
                    let ours = points::proved::volume(&curves, count as u8, input);
                    same_point(&mut tally, ours, refused, || (sampled(input), place(input)));
                }
            }
        }
        for &place in places {
            curves[place..place + 4].copy_from_slice(&whole_curves[place..place + 4]);
        }
        if let Some(place) = corner {
            bundle[place..place + 4].copy_from_slice(&whole_bundle[place..place + 4]);
        }
    }
    tally
}

/// Every other value of a header byte, and lengths beside the right ones, with arguments that are refused and with others.
fn wrong_buffers(bundle: &[u8], curves: &[u8], filter: &mut Filter, ruled: &mut Ruled) -> Tally {
    let (mut tally, mut random) = (Tally::default(), Random(34));
    let (mut bundle, mut curves) = (bundle.to_vec(), curves.to_vec());
    let mut all = |bundle: &[u8], curves: &[u8], random: &mut Random| {
        let (t, x, bits) = (any_topology(random), float(random), random.bits());
        let (mode, resonance, cutoff) = (bits as u8 % 18, (bits >> 8) as u8 % 18, (bits >> 16) as u16 % 2100);
        same_point(&mut tally, proved::summer(bundle, curves, lent(&t), x), summer_refused(bundle, curves, &t, x), || {
            (summer_of(filter, &t, x), ruled.told(|filter| summer_of(filter, &t, x)))
        });
        same_point(&mut tally, proved::mixer(curves, lent(&t), x), mixer_refused(curves, &t, x), || {
            (mixer_of(filter, &t, x), ruled.told(|filter| mixer_of(filter, &t, x)))
        });
        same_point(&mut tally, points::proved::volume(curves, mode, x), volume_refused(curves, mode, x), || {
            (volume_of(filter, mode, x), ruled.told(|filter| volume_of(filter, mode, x)))
        });
        same(&mut tally, proved::mode_gain(bundle, mode, resonance, cutoff), gain_refused(bundle, mode, resonance, cutoff), || {
            filter_mode_output_gain(mode, usize::from(resonance), cutoff)
        });
    };
    let lengths = [0, 1, 3, 8_196, CURVES_LENGTH - 4, CURVES_LENGTH - 1, CURVES_LENGTH, CURVES_LENGTH];
    for place in 0..56 {
        for flip in 1..=255 {
            bundle[place] ^= flip;
            all(&bundle, &curves[..lengths[usize::from(flip) % 8]], &mut random);
            bundle[place] ^= flip;
        }
    }
    for length in [0, 1, 55, 56, 57, 6_127_732, 6_127_735] {
        for cut in lengths {
            all(&bundle[..length], &curves[..cut], &mut random);
        }
    }
    for _ in 0..1_000 {
        for cut in lengths {
            all(&bundle, &curves[..cut], &mut random);
        }
    }
    bundle.push(0);
    curves.push(0);
    all(&bundle, &curves, &mut random);
    all(&bundle[..6_127_736], &curves, &mut random);
    tally
}

// ---- integrator and topology

fn saturate() -> Tally {
    let (mut tally, mut random) = (Tally::default(), Random(35));
    for _ in 0..1_000_000 {
        let (value, drive) = (float(&mut random), float(&mut random));
        let refused = unless(value.is_finite() && drive.is_finite(), 10);
        same(&mut tally, proved::probe_direct_saturate(value, drive), refused, || IntegratorState::saturate(value, drive));
    }
    tally
}

/// Steps from numbers of the filter's size, of which now and then one is an edge, and steps from any.
fn advance() -> Tally {
    let (mut tally, mut random) = (Tally::default(), Random(36));
    for turn in 0..1_000_000 {
        let mut x: [f32; 9] = std::array::from_fn(|_| if turn % 4 == 0 { float(&mut random) } else { random.bits() as i32 as f32 / 1.0e9 });
        if turn % 4 == 1 {
            x[random.bits() as usize % 9] = EDGES[random.bits() as usize % 16];
        }
        let [band_state, low_state, filter_source_energy, driven, damping, drive, a1, a2, a3] = x;
        let k = proved::Coefficients(damping, drive, a1, a2, a3);
        let ours = proved::probe_direct_advance(proved::State(band_state, low_state, filter_source_energy), driven, k);
        let mut state = IntegratorState { band_state, low_state, filter_source_energy };
        let o = state.advance(driven, damping, drive, a1, a2, a3);
        let theirs = [o.high_pass, o.band_pass, o.low_pass, state.band_state, state.low_state, state.filter_source_energy];
        let finite = |x: &[f32]| x.iter().all(|x| x.is_finite());
        let (number, advanced) = match (finite(&x), finite(&theirs)) {
            (false, _) => (10, [0.0; 6]),
            (true, false) => (6, [0.0; 6]),
            (true, true) => (0, theirs),
        };
        tally.same(ours.number, number);
        for (ours, theirs) in ours.advanced.into_iter().zip(advanced) {
            tally.same(ours.to_bits(), theirs.to_bits());
        }
    }
    tally
}

/// All pairs of bytes.
fn topology() -> Tally {
    let (mut tally, mut theirs) = (Tally::default(), MixingTopology::new());
    for bytes in 0..=u16::MAX {
        let [routing, mode] = bytes.to_le_bytes();
        let ours = proved::probe_direct_topology(routing, mode);
        let taken = routing < 16 && mode < 16;
        theirs.update(routing, mode);
        let zeros = proved::Topology {
            filter_membership: [false; 4],
            bypass_membership: [false; 4],
            counts: [0; 4],
            reciprocals: [0.0; 3],
            masks: [0; 2],
        };
        let theirs = if taken { lent(&theirs) } else { zeros };
        tally.same(ours.number, if taken { 0 } else { 10 });
        let ours = ours.topology;
        tally.same((ours.filter_membership, ours.bypass_membership), (theirs.filter_membership, theirs.bypass_membership));
        tally.same((ours.counts, ours.masks), (theirs.counts, theirs.masks));
        tally.same(ours.reciprocals.map(f32::to_bits), theirs.reciprocals.map(f32::to_bits));
    }
    tally
}

// ---- response

fn response() -> Tally {
    let (mut tally, mut random) = (Tally::default(), Random(37));
    tally.same_float(proved::probe_direct_quiescent_level(), filter_mode_quiescent_level());
    for _ in 0..1_000_000 {
        let (input, band, low) = (float(&mut random), float(&mut random), float(&mut random));
        same(&mut tally, proved::probe_direct_voltage(input), unless(input.is_finite(), 10), || normalise_voltage(input));
        let ours = proved::probe_direct_position(input, band, low);
        let taken = input.is_finite() && band.is_finite() && low.is_finite();
        let (lower, upper, fraction) = if taken { operating_position(input, band, low) } else { (0, 0, 0.0) };
        tally.same((ours.number, ours.lower, ours.upper), (if taken { 0 } else { 10 }, lower, upper));
        tally.same(word(ours.fraction), word(fraction));
    }
    for volume in 0..=255 {
        let refused = unless(volume < 16, 10);
        same(&mut tally, proved::probe_direct_conductance(volume), refused, || volume_dac_conductance_code(volume));
    }
    for mode in (0..20).chain([128, 255]) {
        for cutoff in 0..=u16::MAX {
            let refused = unless(mode < 16 && cutoff < 2048, 10);
            same(&mut tally, proved::probe_direct_common_mode(mode, cutoff), refused, || filter_output_common_mode(mode, cutoff));
        }
    }
    tally
}

/// Every mode, resonance and cutoff and some past their ends, then damaged entries of `highpass_loading`. Where such an entry stays
/// usable the Rust has no value for mode 4, which works its own out.
fn mode_gain(mut bundle: Vec<u8>) -> Tally {
    let (mut tally, mut random) = (Tally::default(), Random(38));
    for mode in (0..18).chain([20, 132, 255]) {
        for resonance in (0..18).chain([255]) {
            for cutoff in (0..2050).chain([2304, 65535]) {
                let refused = gain_refused(&bundle, mode, resonance, cutoff);
                same(&mut tally, proved::mode_gain(&bundle, mode, resonance, cutoff), refused, || {
                    filter_mode_output_gain(mode, usize::from(resonance), cutoff)
                });
            }
        }
    }
    for cutoff in 0..2048 {
        let place = 3_293_304 + 4 * usize::from(cutoff);
        let whole: [u8; 4] = bundle[place..place + 4].try_into().unwrap();
        for _ in 0..8 {
            damage(&mut bundle, place, &mut random);
            for mode in 0..16 {
                let refused = gain_refused(&bundle, mode, 7, cutoff);
                let ours = proved::mode_gain(&bundle, mode, 7, cutoff);
                if refused.is_none() && mode & 7 == 4 {
                    tally.same((ours.number, ours.buffer, ours.place), (0, 0, 0));
                } else {
                    same(&mut tally, ours, refused, || filter_mode_output_gain(mode, 7, cutoff));
                }
            }
        }
        bundle[place..place + 4].copy_from_slice(&whole);
    }
    tally
}
