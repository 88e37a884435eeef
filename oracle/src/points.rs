//! Where on a curve, through the C interface: values beside the Rust's, index and fraction beside what its rulers tell, refusals beside an
//! independent reading of the table of refusals (docs/FORMATS.md), and what is lent as it was.

use crate::direct::{curve_places, damage, entries_refused, float, mixer_refused, same_point, summer_refused, unless, volume_of, Told};
use crate::filter::Filter;
use crate::mixing::MixingTopology;
use crate::numbers::{Random, Tally};
use crate::plain::{decode, topology_of, Machine, BUNDLE_LENGTH, CURVES_LENGTH};
use crate::ruler::{rulers, told, Ruled};
use crate::run::any_block;
use crate::surface::{curves_of, data};
use crate::tables::AnalogueTransferSurface;

pub mod proved {
    use crate::direct::Pointed;
    use crate::surface::proved::Answer;

    /// The header's `sid_filter_point`.
    #[repr(C)]
    struct Point {
        answer: Answer,
        value: f32,
        index: u32,
        fraction: f32,
    }

    impl Point {
        fn pointed(self) -> Pointed {
            let Answer { number, events, samples, buffer, place } = self.answer;
            assert_eq!((events, samples), (0, 0), "a call that runs nothing counts nothing");
            ((number, buffer, place), [self.value.to_bits(), self.index, self.fraction.to_bits()])
        }
    }

    #[link(name = "sid_filter", kind = "static")]
    unsafe extern "C" {
        fn sid_filter_sample_curve(curves: *const u8, curves_len: usize, curve: u32, input: f32) -> Point;
        fn sid_filter_summer(bundle: *const u8, bundle_len: usize, curves: *const u8, curves_len: usize, routing: u8, sum: f32) -> Point;
        fn sid_filter_mixer(curves: *const u8, curves_len: usize, routing: u8, mode: u8, sum: f32) -> Point;
        fn sid_filter_volume(curves: *const u8, curves_len: usize, volume: u8, value: f32) -> Point;
        fn sid_filter_sample_point(
            bundle: *const u8,
            bundle_len: usize,
            curves: *const u8,
            curves_len: usize,
            state: *const u8,
            state_len: usize,
            sum: f32,
            energy: f32,
        ) -> Point;
    }

    pub fn sample_curve(curves: &[u8], curve: u32, input: f32) -> Pointed {
        unsafe { sid_filter_sample_curve(curves.as_ptr(), curves.len(), curve, input) }.pointed()
    }

    pub fn summer([bundle, curves]: [&[u8]; 2], routing: u8, sum: f32) -> Pointed {
        unsafe { sid_filter_summer(bundle.as_ptr(), bundle.len(), curves.as_ptr(), curves.len(), routing, sum) }.pointed()
    }

    pub fn mixer(curves: &[u8], routing: u8, mode: u8, sum: f32) -> Pointed {
        unsafe { sid_filter_mixer(curves.as_ptr(), curves.len(), routing, mode, sum) }.pointed()
    }

    pub fn volume(curves: &[u8], volume: u8, value: f32) -> Pointed {
        unsafe { sid_filter_volume(curves.as_ptr(), curves.len(), volume, value) }.pointed()
    }

    pub fn sample_point([bundle, curves]: [&[u8]; 2], state: &[u8], sum: f32, energy: f32) -> Pointed {
        let ((bundle, bundle_len), (curves, curves_len)) = ((bundle.as_ptr(), bundle.len()), (curves.as_ptr(), curves.len()));
        unsafe { sid_filter_sample_point(bundle, bundle_len, curves, curves_len, state.as_ptr(), state.len(), sum, energy) }.pointed()
    }
}

pub fn compare() -> Vec<(&'static str, Tally)> {
    let (bundle, filter) = (data("bundle"), Filter::new());
    let curves = curves_of(&filter);
    let mut beside = Beside { bundle, curves, filter, ruled: Ruled::new(), rulers: rulers() };
    vec![
        ("points, a curve at steps and edges", steps(&beside)),
        ("points, a curve at random", random_inputs(&beside)),
        ("points, damaged curves", damaged_curves(&beside)),
        ("points, summer, mixer and volume", transfers(&mut beside)),
        ("points, samples", samples(&mut beside)),
        ("points, samples on damaged and wrong buffers", flawed_samples(&mut beside)),
    ]
}

/// What is lent, and the Rust.
struct Beside {
    bundle: Vec<u8>,
    curves: Vec<u8>,
    filter: Filter,
    ruled: Ruled,
    rulers: [[f32; 2049]; 3],
}

fn nothing() -> (f32, (u32, f32)) {
    unreachable!("what is refused asks the Rust nothing")
}

// ---- a curve

impl Beside {
    /// Curve 0 to 30 of the Rust at an input.
    fn curve(&self, curve: u32, input: f32) -> (f32, (u32, f32)) {
        let curves = self.filter.curves();
        let entries = curves.summer.iter().chain(&curves.mixer).chain(&curves.volume).nth(curve as usize).expect("a curve");
        let place = told(|ruler| AnalogueTransferSurface::sample_curve(&self.rulers[ruler], input));
        (AnalogueTransferSurface::sample_curve(entries, input), place)
    }

    fn curve_agrees(&self, tally: &mut Tally, curve: u32, input: f32) {
        let refused = unless(curve <= 30 && input.is_finite(), 10);
        same_point(tally, proved::sample_curve(&self.curves, curve, input), refused, || self.curve(curve, input));
    }
}

/// Every curve at every step of the input, just before and just after it; at the ends and beyond them; and the refused.
fn steps(beside: &Beside) -> Tally {
    let mut tally = Tally::default();
    for curve in 0..31 {
        for step in 0..=2047 {
            let at = step as f32 / 2047.0;
            for input in [at.next_down(), at, at.next_up()] {
                beside.curve_agrees(&mut tally, curve, input);
            }
        }
        for input in [-0.0, 1.0e-45, -1.0e-45, f32::MIN_POSITIVE, -1.0, 2.0, f32::MAX, f32::MIN, f32::INFINITY, f32::NEG_INFINITY, f32::NAN]
        {
            beside.curve_agrees(&mut tally, curve, input);
        }
    }
    for shift in 0..32 {
        for curve in 0..64 {
            beside.curve_agrees(&mut tally, (1 << shift) + curve, 0.5);
        }
    }
    tally
}

fn random_inputs(beside: &Beside) -> Tally {
    let (mut tally, mut random) = (Tally::default(), Random(23));
    for turn in 0..1_000_000 {
        beside.curve_agrees(&mut tally, turn % 33, random.float());
    }
    tally
}

/// Entries of a curve about an input, and buffers of other lengths.
fn damaged_curves(beside: &Beside) -> Tally {
    let (mut tally, mut random) = (Tally::default(), Random(25));
    let mut curves = beside.curves.clone();
    for _ in 0..200_000 {
        let (curve, index) = ((random.bits() % 31) as usize, (random.bits() % 2049) as usize);
        let place = 4 * (2049 * curve + index);
        damage(&mut curves, place, &mut random);
        for shift in [-1.0, -0.5, 0.0, 0.5] {
            let input = (index as f32 + shift) / 2047.0;
            let ours = proved::sample_curve(&curves, curve as u32, input);
            match entries_refused(&curves, 1, &curve_places(curve, input)) {
                refused @ Some(_) => same_point(&mut tally, ours, refused, nothing),
                None => tally.same((ours.0, ours.1[1]), ((0, 0, 0), beside.curve(0, input).1 .0)),
            }
        }
        curves[place..place + 4].copy_from_slice(&beside.curves[place..place + 4]);
    }
    for length in [0, 1, 254_072, 254_075] {
        for (curve, input) in [(0, 0.5), (31, f32::NAN)] {
            same_point(&mut tally, proved::sample_curve(&curves[..length], curve, input), unless(false, 4), nothing);
        }
    }
    tally
}

// ---- summer, mixer and volume by nibbles

/// The table's order: 10 for what is no nibble comes right after the buffers.
fn nibbles(known: bool, buffers: Option<Told>, others: impl FnOnce() -> Option<Told>) -> Option<Told> {
    buffers.or_else(|| unless(known, 10)).or_else(others)
}

/// A nibble mostly, else any byte; every eighth time a buffer of another length.
fn transfers(beside: &mut Beside) -> Tally {
    let (mut tally, mut random) = (Tally::default(), Random(26));
    let Beside { bundle, curves, filter, ruled, .. } = beside;
    for _ in 0..1_000_000 {
        let bits = random.bits();
        let byte = |bits: u64| if bits % 32 == 31 { (bits >> 8) as u8 } else { (bits >> 8) as u8 & 15 };
        let (first, second, input) = (byte(bits), byte(bits >> 16), float(&mut random));
        let lent = [
            &bundle[..if bits >> 32 & 31 == 0 { bundle.len() - 4 } else { bundle.len() }],
            &curves[..if bits >> 40 & 31 == 0 { curves.len() - 4 } else { curves.len() }],
        ];
        let mut t = MixingTopology::new();
        t.update(first, second);

        let before = unless(lent[0].len() == BUNDLE_LENGTH, 1).or_else(|| unless(lent[1].len() == CURVES_LENGTH, 4));
        let refused = nibbles(first < 16, before, || summer_refused(lent[0], lent[1], &t, input));
        same_point(&mut tally, proved::summer(lent, first, input), refused, || {
            let ask = |filter: &mut Filter| {
                filter.write_signal_routing(first);
                filter.summer(input)
            };
            (ask(filter), ruled.told(ask))
        });

        let before = unless(lent[1].len() == CURVES_LENGTH, 4);
        let refused = nibbles(first < 16 && second < 16, before, || mixer_refused(lent[1], &t, input));
        same_point(&mut tally, proved::mixer(lent[1], first, second, input), refused, || {
            let ask = |filter: &mut Filter| {
                filter.write_signal_routing(first);
                filter.write_mode_and_volume(second << 4);
                filter.mixer(input)
            };
            (ask(filter), ruled.told(ask))
        });

        let refused = nibbles(first < 16, before, || crate::direct::volume_refused(lent[1], first, input));
        same_point(&mut tally, proved::volume(lent[1], first, input), refused, || {
            let ask = |filter: &mut Filter| volume_of(filter, first, input);
            (ask(filter), ruled.told(ask))
        });
    }
    tally
}

// ---- samples

impl Beside {
    /// A sample of a block's state: what the plain machine feeds the filter, and where the Rust's summer reads its curve for that. Where the
    /// block is valid and the numbers finite, whether the Rust reads a curve is asked too.
    fn sample_agrees(&mut self, tally: &mut Tally, lent: [&[u8]; 2], block: &[u8], sum: f32, energy: f32) {
        let ours = proved::sample_point(lent, block, sum, energy);
        let fed = match Machine::new(lent[0], lent[1]).fed(block, sum, energy) {
            Err(refused) => return same_point(tally, ours, Some(refused), nothing),
            Ok(fed) => fed,
        };
        let state = decode(block).expect("what is not refused is valid");
        let set = |filter: &mut Filter| {
            *filter.topology() = topology_of(&state);
            let kept = filter.state();
            [kept.band_state, kept.low_state, kept.filter_source_energy] = state.floats;
        };
        let reads = self.ruled.reads(|filter| {
            set(filter);
            filter.sample(sum, energy)[0]
        });
        tally.same(reads, fed.is_some());
        same_point(tally, ours, None, || match fed {
            None => (0.0, (0, 0.0)),
            Some(value) => {
                let place = self.ruled.told(|filter| {
                    set(filter);
                    filter.summer(sum)
                });
                (value, place)
            }
        });
    }
}

fn inputs(random: &mut Random, turn: usize) -> (f32, f32) {
    match turn % 4 {
        0 => (float(random), float(random)),
        _ => ((random.bits() as u32 as f32) / 1_073_741_824.0, (random.bits() as u32 as f32) / 2_147_483_648.0),
    }
}

/// Any valid block; every fourth time any numbers.
fn samples(beside: &mut Beside) -> Tally {
    let (mut tally, mut random) = (Tally::default(), Random(27));
    let (bundle, curves) = (beside.bundle.clone(), beside.curves.clone());
    for turn in 0..500_000 {
        let block = any_block(&mut random);
        let (sum, energy) = inputs(&mut random, turn);
        let before = block;
        beside.sample_agrees(&mut tally, [&bundle, &curves], &block, sum, energy);
        tally.same(block, before);
    }
    tally
}

/// One or two of the entries damaged that a sample reads, another byte of the block, wrong lengths and headers, in any company.
fn flawed_samples(beside: &mut Beside) -> Tally {
    let (mut tally, mut random) = (Tally::default(), Random(28));
    let (mut bundle, mut curves) = (beside.bundle.clone(), beside.curves.clone());
    for turn in 0..100_000 {
        let mut block = any_block(&mut random);
        let (sum, energy) = inputs(&mut random, turn);
        let mut machine = Machine::new(&bundle, &curves);
        machine.read = Some(vec![]);
        let _ = machine.fed(&block, sum, energy);
        let places = machine.read.unwrap_or_default();
        let mut damaged = vec![];
        for _ in 0..random.bits() % 3 {
            if let Some(&(buffer, place)) = places.get(random.bits() as usize % places.len().max(1)) {
                damage(if buffer == 0 { &mut bundle } else { &mut curves }, place, &mut random);
                damaged.push((buffer, place));
            }
        }
        let bits = random.bits();
        if bits % 16 == 0 {
            block[(bits >> 8) as usize % 68] = (bits >> 16) as u8;
        }
        let header = (bits >> 24) as usize % 56;
        bundle[header] ^= u8::from(bits >> 32 & 15 == 0);
        let cut = |length: usize, bits: u64| if bits & 15 == 0 { length - 1 - (bits >> 4) as usize % 8 } else { length };
        let lent = [&bundle[..cut(BUNDLE_LENGTH, bits >> 40)], &curves[..cut(CURVES_LENGTH, bits >> 48)]];
        let length = if turn % 64 == 0 { 24 } else { cut(68, bits >> 56) };
        beside.sample_agrees(&mut tally, lent, &block[..length], sum, energy);
        bundle[header] = beside.bundle[header];
        for (buffer, place) in damaged {
            let (damaged, whole) = if buffer == 0 { (&mut bundle, &beside.bundle) } else { (&mut curves, &beside.curves) };
            damaged[place..place + 4].copy_from_slice(&whole[place..place + 4]);
        }
    }
    tally.same(&bundle, &beside.bundle);
    tally.same(&curves, &beside.curves);
    tally
}
