//! The package on the repository's bundle: opening, building, running, cutting, and each refusal that its calls can reach.
use sid_filter::*;
use std::sync::OnceLock;

const BUNDLE: &str = concat!(env!("CARGO_MANIFEST_DIR"), "/../../data/bundle.bin");
const CURVES: &str = concat!(env!("CARGO_MANIFEST_DIR"), "/../../crates/vectors_surface/data/curves.bin");
/// Where the surface's first entry begins in the bundle.
const SURFACE: usize = 2_105_464;
/// What every run is lent.
const DECAYS: &Decays = &Decays::EMULATOR;

fn bytes() -> &'static [u8] {
    static BYTES: OnceLock<Vec<u8>> = OnceLock::new();
    BYTES.get_or_init(|| file(BUNDLE))
}

fn file(path: &str) -> Vec<u8> {
    std::fs::read(path).expect("a file of the repository")
}

fn bundle() -> Bundle<'static> {
    Bundle::open(bytes()).expect("a whole bundle")
}

fn curves() -> &'static Curves {
    static CURVES: OnceLock<Curves> = OnceLock::new();
    CURVES.get_or_init(|| Curves::build(&bundle()).expect("curves of an opened bundle"))
}

fn sample(input_sum: f32, source_energy: f32) -> Event {
    Event::Sample { input_sum, source_energy }
}

/// Writes of every kind with a reset among them, and a sample or more after each.
fn song() -> Vec<Event> {
    vec![
        Event::Routing(0xf3),
        Event::Mode(0x1f),
        sample(0.9, 0.0),
        Event::CutoffLow(7),
        sample(1.1, 0.02),
        Event::CutoffHigh(60),
        sample(0.8, 0.01),
        sample(1.0, 0.01),
        Event::CutoffLow(3),
        Event::CutoffLow(5),
        Event::CutoffHigh(200),
        sample(0.7, 0.04),
        Event::Mode(0x6f),
        sample(1.2, 0.04),
        Event::Routing(0x81),
        sample(0.5, 0.0),
        Event::Reset,
        sample(0.0, 0.0),
        Event::Routing(0x24),
        Event::Mode(0xc8),
        sample(0.6, 0.03),
        sample(0.3, 0.03),
    ]
}

/// Runs one script from a state: what it answers, the state after it, and the output.
fn run_from(mut state: State, script: &Script) -> (Result<Done, Stop>, State, Vec<u8>) {
    let mut output = vec![0xaa; script.output_bytes()];
    let answer = run(&bundle(), curves(), &mut state, DECAYS, script, &mut output);
    (answer, state, output)
}

/// The state after these events, all of which are done.
fn after(state: State, events: &[Event]) -> State {
    let (answer, state, _) = run_from(state, &Script::of(events).unwrap());
    assert_eq!(answer.map(|done| done.events), Ok(events.len()));
    state
}

/// A state whose bytes from a place on are others.
fn with(state: State, place: usize, bytes: &[u8]) -> State {
    let mut block = *state.as_bytes();
    block[place..place + bytes.len()].copy_from_slice(bytes);
    State::from_bytes(block)
}

/// Such a state that else is the starting value.
fn state_with(place: usize, bytes: &[u8]) -> State {
    with(State::start(), place, bytes)
}

#[test]
fn the_bundle_opens() {
    assert_eq!(bytes().len(), BUNDLE_BYTES);
    assert_eq!(bundle().as_bytes(), bytes());
}

/// What an engine holds.
struct Engine {
    bundle: Bundle<'static>,
    curves: Curves,
}

fn engine() -> Engine {
    let bundle = Bundle::open(file(BUNDLE)).expect("a whole bundle");
    let curves = Curves::build(&bundle).expect("curves of an opened bundle");
    Engine { bundle, curves }
}

#[test]
fn an_engine_owns_its_bundle_and_threads_share_it() {
    let engine = engine();
    assert_eq!(engine.bundle.as_bytes(), bytes());
    let script = Script::of(&song()).unwrap();
    let play = || {
        let mut state = State::start();
        let mut output = vec![0xaa; script.output_bytes()];
        let answer = run(&engine.bundle, &engine.curves, &mut state, DECAYS, &script, &mut output);
        (answer, state, output)
    };
    let played = std::thread::scope(|scope| [scope.spawn(play), scope.spawn(play)].map(|thread| thread.join().unwrap()));
    assert_eq!(played[0], played[1]);
    assert_eq!(played[0], run_from(State::start(), &script));
}

#[test]
fn a_bundle_that_borrows_its_bytes_copies_none() {
    assert_eq!(bundle().as_bytes().as_ptr(), bytes().as_ptr());
    let owned = file(BUNDLE);
    let place = owned.as_ptr();
    assert_eq!(Bundle::open(owned).unwrap().as_bytes().as_ptr(), place);
}

#[test]
fn a_damaged_bundle_is_refused() {
    assert_eq!(Bundle::open(&[]).err(), Some(Refusal::BundleLength));
    assert_eq!(Bundle::open(&bytes()[1..]).err(), Some(Refusal::BundleLength));
    let mut damaged = bytes().to_vec();
    damaged[SURFACE + 40..SURFACE + 44].copy_from_slice(&1024.5_f32.to_le_bytes());
    let entry = Refusal::Entry { buffer: Buffer::Bundle, place: SURFACE as u32 + 40 };
    assert_eq!(Bundle::open(&damaged).err(), Some(entry));
    damaged[60..64].copy_from_slice(&f32::NAN.to_le_bytes());
    assert_eq!(Bundle::open(&damaged).err(), Some(Refusal::Entry { buffer: Buffer::Bundle, place: 60 }));
    damaged[5] = 1;
    assert_eq!(Bundle::open(&damaged).err(), Some(Refusal::Header { place: 5 }));
}

#[test]
fn the_curves_are_built() {
    assert_eq!(curves().as_bytes().len(), CURVES_BYTES);
    for index in 0..Curves::COUNT {
        let curve: Vec<f32> = curves().curve(index).collect();
        assert_eq!(curve.len(), Curves::ENTRIES);
        assert_eq!(curve[2_048], curve[2_047], "curve {index}");
        assert!(curve.iter().all(|entry| entry.abs() <= 1_024.0), "curve {index}");
    }
    assert_eq!(curves().curve(Curves::COUNT).count(), 0);
}

/// The file has a record for each entry: its number and its bits, as the Rust of which the library is a port gave them.
#[test]
fn the_curves_are_those_of_the_file() {
    let entries =
        curves().as_bytes().chunks_exact(4).enumerate().flat_map(|(number, entry)| [&(number as u32).to_le_bytes()[..], entry].concat());
    assert!(entries.eq(file(CURVES)));
}

#[test]
fn no_event_leaves_everything() {
    for state in [State::start(), run_from(State::start(), &Script::of(&song()).unwrap()).1] {
        let mut after = state;
        let mut output = [0xaa; 32];
        let done = run(&bundle(), curves(), &mut after, DECAYS, &Script::new(), &mut output);
        assert_eq!(done, Ok(Done { events: 0, samples: 0 }));
        assert_eq!((after, output), (state, [0xaa; 32]));
    }
}

#[test]
fn the_writes_are_those_of_the_cases() {
    let start = State::start();
    let state = after(start, &[Event::CutoffLow(7), Event::CutoffHigh(1)]);
    assert_eq!((state.cutoff(), state.displacement(), state.pending()), (15, 13, false));
    let state = after(start, &[Event::CutoffLow(7), Event::CutoffLow(3), Event::CutoffHigh(1)]);
    assert_eq!((state.cutoff(), state.displacement(), state.write_base()), (11, 3, 7));
    let state = after(start, &[Event::CutoffLow(7), Event::Routing(0xf5), Event::Mode(0x9c)]);
    assert_eq!((state.pending(), state.resonance(), state.routing(), state.mode(), state.volume()), (true, 15, 5, 9, 12));
    assert_eq!(after(charged(), &[Event::CutoffHigh(9), Event::Mode(0xff), Event::Reset]), start);
}

/// The indented blocks of the example in docs/FORMATS.md, as bytes: header, script, sample and state.
fn example() -> Vec<Vec<u8>> {
    let page = include_str!("../../../docs/FORMATS.md").split("## An example").nth(1).expect("a page with an example");
    let blocks = page.split("\n\n").filter(|block| block.starts_with("    "));
    blocks.map(|block| block.split_whitespace().map(|byte| u8::from_str_radix(byte, 16).expect("a byte")).collect()).collect()
}

#[test]
fn the_example_of_the_formats() {
    let example = example();
    let [header, script, sample, block] = &example[..] else { panic!("{} blocks", example.len()) };
    assert_eq!(header[..], bytes()[..56]);
    let (mut state, mut output) = (State::start(), [0xaa; 20]);
    let done = run_bytes(&bundle(), curves(), &mut state, DECAYS, script, &mut output).expect("a run to the end");
    assert_eq!((done.events, done.samples), (5, 1));
    assert_eq!((&output[..16], &output[16..]), (&sample[..], &[0xaa; 4][..]));
    assert_eq!(state.as_bytes()[..], block[..]);

    let (mut script, mut state, mut output) = (script.clone(), State::start(), [0xaa; 20]);
    script[60..64].copy_from_slice(&f32::INFINITY.to_le_bytes());
    let stop = run_bytes(&bundle(), curves(), &mut state, DECAYS, &script, &mut output).expect_err("a stop");
    assert_eq!((stop.refusal.number(), stop.events, stop.samples), (5, 4, 0));
    assert_eq!(output, [0xaa; 20]);
    assert_eq!(state.as_bytes()[..], [&block[..12], &[0; 12], &block[24..]].concat());
}

#[test]
fn samples_are_the_bytes() {
    const LATER: Sample = Sample { high: 1.0, band: 2.0, low: 3.0, selected: 4.0 };
    let script = Script::of(&song()).unwrap();
    let (answer, after, output) = run_from(State::start(), &script);
    let mut state = State::start();
    let mut written = [LATER; 13];
    assert_eq!(run_samples(&bundle(), curves(), &mut state, DECAYS, &script, &mut written), answer);
    assert_eq!(state, after);
    assert!(samples(&output).eq(written[..10].iter().copied()));
    assert_eq!(written[10..], [LATER; 3]);

    // Bit for bit: the sign of zero counts.
    let bits = |sample: Sample| [sample.high, sample.band, sample.low, sample.selected].map(f32::to_bits);
    assert!(samples(&output).map(bits).eq(written[..10].iter().copied().map(bits)));

    let (mut state, mut few) = (State::start(), [LATER; 9]);
    let stop = run_samples(&bundle(), curves(), &mut state, DECAYS, &script, &mut few).unwrap_err();
    assert_eq!(stop, Stop { refusal: Refusal::OutputLength, events: 0, samples: 0 });
    assert_eq!((state, few), (State::start(), [LATER; 9]));
}

#[test]
fn a_stopped_run_keeps_the_later_samples() {
    let script = Script::of(&[sample(0.0, 0.0), sample(f32::NAN, 0.0), sample(0.0, 0.0)]).unwrap();
    let mut written = [Sample { selected: 5.0, ..Sample::default() }; 3];
    let stop = run_samples(&bundle(), curves(), &mut State::start(), DECAYS, &script, &mut written).unwrap_err();
    assert_eq!((stop.refusal, stop.samples), (Refusal::InputNotFinite, 1));
    assert_eq!(written.map(|sample| sample.selected), [0.0, 5.0, 5.0]);
}

/// Numbers without a pattern, the same in each run.
struct Numbers(u32);

impl Numbers {
    fn next(&mut self) -> u32 {
        self.0 = self.0.wrapping_mul(1_664_525).wrapping_add(1_013_904_223);
        self.0 >> 8
    }

    /// From 0 to 1.
    fn part(&mut self) -> f32 {
        self.next() as f32 / 16_777_215.0
    }

    fn event(&mut self) -> Event {
        let value = self.next() as u8;
        match self.next() % 16 {
            0 => Event::CutoffLow(value),
            1 => Event::CutoffHigh(value),
            2 => Event::Routing(value),
            3 | 4 => Event::Mode(value),
            5 if value < 16 => Event::Reset,
            _ => sample(4.0 * self.part(), 0.1 * self.part()),
        }
    }
}

/// The volume and voice 3 off act behind the filter.
#[test]
fn volume_and_voice_3_off_change_no_sample() {
    let mut numbers = Numbers(1);
    let (mut changed, mut heard) = (0, 0);
    for round in 0..200 {
        let events: Vec<Event> = (0..200).map(|_| numbers.event()).collect();
        let others = events.iter().map(|event| match event {
            Event::Mode(value) => Event::Mode(value ^ (numbers.next() as u8 & 0x8f)),
            event => *event,
        });
        let others: Vec<Event> = others.collect();
        let (answer, state, output) = run_from(State::start(), &Script::of(&events).unwrap());
        let (other_answer, other_state, other_output) = run_from(State::start(), &Script::of(&others).unwrap());
        assert!(answer.is_ok());
        assert_eq!(answer, other_answer, "round {round}");
        assert!(output == other_output, "round {round}");
        // The states differ in volume and voice 3 off alone, and in what the volume charges.
        let [block, other_block] = [state, other_state].map(|state| {
            let mut block = *state.as_bytes();
            (block[9], block[10]) = (block[9] & 7, 0);
            block[24..32].fill(0);
            block[44..48].fill(0);
            block
        });
        assert_eq!(block, other_block, "round {round}");
        changed += usize::from(state != other_state);
        heard += samples(&output).filter(|sample| sample.selected != 0.0).count();
    }
    assert!(changed > 100 && heard > 10_000, "{changed} rounds with another end state, {heard} samples that are not 0");
}

/// What the section Units of the package says of rest: after 5,000 samples of silent inputs at the highest cutoff.
#[test]
fn the_levels_at_rest() {
    for (routing, inputs, low) in [(0, 0, 0.0), (1, 1, -0.046), (3, 2, -0.083), (7, 3, -0.112), (15, 4, -0.136)] {
        for mode in 0..8_u8 {
            let mut events = vec![Event::Routing(routing), Event::Mode(mode << 4), Event::CutoffHigh(255), Event::CutoffHigh(255)];
            events.resize(5_004, sample(inputs as f32 * VOICE_REST, 0.0));
            let (_, _, output) = run_from(State::start(), &Script::of(&events).unwrap());
            let rest = samples(&output).last().unwrap();
            assert!((rest.low - low).abs() < 5e-4 && rest.band.abs() < 1e-6 && rest.high.abs() < 1e-6, "{inputs} inputs: {rest:?}");
            if inputs == 0 || mode == 0 {
                assert_eq!(rest.selected, MODE_REST * mode.count_ones() as f32, "mode {mode}, {inputs} inputs");
            }
        }
    }
}

#[test]
fn cut_equals_uncut() {
    let events = song();
    let whole = Script::of(&events).unwrap();
    let (answer, state, output) = run_from(State::start(), &whole);
    assert_eq!(answer, Ok(Done { events: 22, samples: 10 }));
    assert!(samples(&output).all(|s| s.high.is_finite() && s.selected.is_finite()));
    for first in 0..=events.len() {
        for second in first..=events.len() {
            let mut piece_state = State::start();
            let mut joined = Vec::new();
            for piece in [&events[..first], &events[first..second], &events[second..]] {
                let (answer, after, output) = run_from(piece_state, &Script::of(piece).unwrap());
                assert_eq!(answer.map(|done| done.events), Ok(piece.len()));
                piece_state = after;
                joined.extend(output);
            }
            assert!(joined == output && piece_state == state, "cut at {first} and {second}");
        }
    }
}

#[test]
fn a_long_list_goes_in_pieces() {
    let events =
        || (0..150_000).map(|i| if i % 1_000 == 0 { Event::CutoffHigh((i / 1_000) as u8) } else { sample((i % 7) as f32 / 7.0, 0.01) });
    let mut state = State::start();
    let (mut done_events, mut done_samples) = (0, 0);
    for script in pieces(events()) {
        assert!(script.len() <= EVENTS_MAX);
        let (answer, after, _) = run_from(state, &script);
        let done = answer.unwrap();
        (done_events, done_samples) = (done_events + done.events, done_samples + done.samples);
        state = after;
    }
    assert_eq!((done_events, done_samples), (150_000, 149_850));
    assert_eq!(state.cutoff(), 149 * 8);
}

#[test]
fn a_script_holds_65_536_events() {
    let mut script = Script::new();
    for _ in 0..EVENTS_MAX {
        script.push(Event::CutoffLow(1)).unwrap();
    }
    assert_eq!(script.push(Event::Reset), Err(Full));
    assert_eq!((script.len(), script.as_bytes().len()), (EVENTS_MAX, SCRIPT_HEADER_BYTES + EVENTS_MAX * EVENT_BYTES));
    assert_eq!(run_from(State::start(), &script).0, Ok(Done { events: EVENTS_MAX, samples: 0 }));
    script.clear();
    assert_eq!(script, Script::new());
}

#[test]
fn an_event_has_its_bytes() {
    assert_eq!(Event::CutoffHigh(0x80).to_bytes(), [1, 0x80, 0, 0, 0, 0, 0, 0, 0, 0, 0, 0]);
    assert_eq!(sample(1.0, -2.0).to_bytes(), [4, 0, 0, 0, 0, 0, 0x80, 0x3f, 0, 0, 0, 0xc0]);
    assert_eq!(Event::Reset.to_bytes(), [5, 0, 0, 0, 0, 0, 0, 0, 0, 0, 0, 0]);
}

#[test]
fn refusal_3_of_the_curves() {
    let mut damaged = curves().as_bytes().to_vec();
    for entry in damaged.chunks_exact_mut(4) {
        entry.copy_from_slice(&f32::INFINITY.to_le_bytes());
    }
    let mut state = State::start();
    let mut output = [0xaa; 32];
    let script = Script::of(&[Event::Mode(0x1f), sample(0.0, 0.0), Event::Routing(0x01), sample(0.0, 0.0)]).unwrap();
    let stop = run(&bundle(), &Curves::from_bytes(damaged), &mut state, DECAYS, &script, &mut output).unwrap_err();
    assert_eq!((stop.events, stop.samples), (3, 1));
    let Refusal::Entry { buffer: Buffer::Curves, place } = stop.refusal else { panic!("{stop}") };
    assert_eq!(place as usize / (4 * Curves::ENTRIES), 3, "curve 3 is the summer's with one voice");
}

#[test]
fn refusal_4() {
    let short = Curves::from_bytes(&curves().as_bytes()[4..]);
    let stop = run(&bundle(), &short, &mut State::start(), DECAYS, &Script::new(), &mut []).unwrap_err();
    assert_eq!(stop, Stop { refusal: Refusal::CurvesLength, events: 0, samples: 0 });
}

#[test]
fn refusal_5_stops_at_its_event() {
    let mut events = song();
    events[7] = sample(f32::INFINITY, 0.0);
    let (answer, state, output) = run_from(State::start(), &Script::of(&events).unwrap());
    assert_eq!(answer, Err(Stop { refusal: Refusal::InputNotFinite, events: 7, samples: 3 }));
    let (_, before, written) = run_from(State::start(), &Script::of(&events[..7]).unwrap());
    assert_eq!(state, before);
    assert_eq!(output[..48], written[..]);
    assert!(output[48..].iter().all(|byte| *byte == 0xaa));
    events[7] = sample(0.0, f32::NAN);
    assert_eq!(run_from(State::start(), &Script::of(&events).unwrap()).0.unwrap_err().refusal.number(), 5);
}

#[test]
fn refusal_6() {
    let state = state_with(12, &f32::MAX.to_le_bytes());
    let (answer, after, _) = run_from(state, &Script::of(&[Event::Routing(1), sample(0.5, 0.0)]).unwrap());
    assert_eq!(answer, Err(Stop { refusal: Refusal::Domain, events: 1, samples: 0 }));
    assert_eq!(after.band(), f32::MAX);
}

#[test]
fn refusal_7() {
    let whole = Script::of(&song()).unwrap();
    let refused = |script: &[u8]| {
        let mut state = State::start();
        let stop = run_bytes(&bundle(), curves(), &mut state, DECAYS, script, &mut [0; 160]).unwrap_err();
        assert_eq!((stop.refusal, stop.events, stop.samples, state), (Refusal::Script, 0, 0, State::start()));
    };
    refused(&[]);
    refused(&whole.as_bytes()[..whole.as_bytes().len() - 1]);
    for (place, byte) in [(0, 21), (4, 9), (8, 6), (10, 1)] {
        let mut damaged = whole.as_bytes().to_vec();
        damaged[place] = byte;
        refused(&damaged);
    }
}

#[test]
fn refusal_8() {
    let script = Script::of(&song()).unwrap();
    let mut state = State::start();
    let mut output = vec![0xaa; script.output_bytes() - 1];
    let stop = run(&bundle(), curves(), &mut state, DECAYS, &script, &mut output).unwrap_err();
    assert_eq!(stop, Stop { refusal: Refusal::OutputLength, events: 0, samples: 0 });
    assert_eq!(state, State::start());
    assert!(output.iter().all(|byte| *byte == 0xaa));
}

/// Places of a block's first 24 bytes, and what is invalid there.
const INVALID: [(usize, &[u8]); 8] =
    [(0, &[0, 8]), (2, &[58, 0]), (4, &[0, 8]), (6, &[2]), (7, &[16]), (11, &[1]), (16, &[0, 0, 0x80, 0x7f]), (20, &[0, 0, 0xc0, 0x7f])];

#[test]
fn refusal_10() {
    let floats = (24..64).step_by(4).flat_map(|place| [(place, &[0, 0, 0x80, 0xff][..]), (place, &[0, 0, 0xc0, 0x7f])]);
    let last: [(usize, &[u8]); 4] = [(64, &[2]), (65, &[1]), (66, &[1]), (67, &[1])];
    for (place, bytes) in INVALID.into_iter().chain(floats).chain(last) {
        let state = state_with(place, bytes);
        let (answer, after, _) = run_from(state, &Script::of(&song()).unwrap());
        assert_eq!(answer, Err(Stop { refusal: Refusal::Argument, events: 0, samples: 0 }), "byte {place}");
        assert_eq!(after, state);
    }
}

#[test]
fn a_stop_says_what_was_done() {
    let script = Script::of(&[sample(0.0, 0.0), sample(f32::NAN, 0.0)]).unwrap();
    let stop = run_from(State::start(), &script).0.unwrap_err();
    assert_eq!(stop.to_string(), "stopped after 1 events, 1 samples: 5, the input sum or the source energy is not finite");
    assert!(std::error::Error::source(&stop).is_some());
}

#[test]
fn a_state_is_its_bytes() {
    let state = after(State::start(), &song()[..12]);
    let again = State::from_bytes(*state.as_bytes());
    assert_eq!(again, state);
    assert_ne!(again, State::start());
    assert_eq!(State::default().as_bytes(), &[0; STATE_BYTES]);
    assert_eq!((state.cutoff(), state.resonance(), state.routing(), state.mode(), state.volume()), (1_605, 15, 3, 1, 15));
    assert!(state.low() != 0.0 && state.source_energy() > 0.0);
}

/// A state with something in each of the last 44 bytes that may have it: ten floats, and a pulse's gate that rose.
fn charged() -> State {
    let mut state = State::start();
    for (number, place) in (24..64).step_by(4).enumerate() {
        state = with(state, place, &(0.5 - number as f32).to_le_bytes());
    }
    state.mark_pure_pulse_gate_rise();
    state
}

/// The volume's charges and its conductance, as bits: the sign of zero counts.
fn volume_bits(state: State) -> [u32; 3] {
    let Charges { volume_fast, volume_slow, .. } = state.charges();
    [volume_fast, volume_slow, state.conductance()].map(f32::to_bits)
}

#[test]
fn a_state_has_its_fields() {
    let mut state = charged();
    let charges = Charges { volume_fast: 0.5, volume_slow: -0.5, bypass_attack: -1.5, pulse_gate_fast: -2.5, pulse_gate_slow: -3.5 };
    assert_eq!((state.charges(), state.conductance(), state.bypass_activity()), (charges, -4.5, -5.5));
    assert_eq!((state.blends(), state.pulse_pending()), ([-6.5, -7.5, -8.5], true));
    state.mark_pure_saw_gate_rise(1);
    assert_eq!(state.blends(), [-6.5, 0.0, -8.5]);
    assert_eq!(state, with(charged(), 56, &[0; 4]));
    assert!(!State::start().pulse_pending());
}

/// A mode write steps from the conductance in the block to the volume's own, and charges the output node by the step.
#[test]
fn a_mode_write_charges() {
    let [silent, full] = [0x00, 0x0f].map(|value| after(State::start(), &[Event::Mode(value)]));
    assert_eq!(silent, State::start());
    assert_eq!(full.charges(), Charges { volume_fast: -3152.0623, volume_slow: -2777.7222, ..Charges::default() });
    assert_eq!(volume_bits(after(full, &[Event::Mode(0)])), [0; 3]);

    // At the same volume the step is +0.0: the charges stay, but for -0.0, which becomes +0.0.
    assert_eq!(after(full, &[Event::Mode(0x0f)]), full);
    let negative = (-0.0_f32).to_le_bytes();
    let state = with(with(full, 24, &negative), 28, &negative);
    assert_eq!(volume_bits(after(state, &[Event::Mode(0x0f)])), [0, 0, full.conductance().to_bits()]);

    // The step is from the block's conductance, whatever its volume: here volume 15 at the conductance of 0.
    assert_eq!(after(state_with(10, &[15]), &[Event::Mode(0x0f)]), full);
}

/// The least conductance, of either sign, from which a write of volume 0 would leave an infinite charge. The float before it goes through.
#[test]
fn a_charge_that_is_not_finite_is_refused_with_6() {
    for least in [1.6549131e36_f32, -1.6549131e36] {
        let before = f32::from_bits(least.to_bits() - 1);
        assert!(after(state_with(44, &before.to_le_bytes()), &[Event::Mode(0)]).charges().volume_fast.is_finite());
        let state = state_with(44, &least.to_le_bytes());
        let (answer, left, output) = run_from(state, &Script::of(&[sample(0.0, 0.0), Event::Mode(0), sample(0.0, 0.0)]).unwrap());
        assert_eq!(answer, Err(Stop { refusal: Refusal::Domain, events: 1, samples: 1 }));
        assert_eq!((left, &output[16..]), (state, &[0xaa; 16][..]));
    }
}

/// Only a mode write and a reset change the last 44 bytes.
#[test]
fn other_events_keep_the_charges() {
    let mut events = song();
    events.retain(|event| !matches!(event, Event::Mode(_) | Event::Reset));
    let state = after(charged(), &events);
    assert_eq!(state.as_bytes()[24..], charged().as_bytes()[24..]);
    assert_ne!(state.as_bytes()[..24], charged().as_bytes()[..24]);
    // Of these a mode write changes the volume's.
    let written = after(state, &[Event::Mode(0x1f)]);
    let kept = |state: State| [&state.as_bytes()[32..44], &state.as_bytes()[48..]].concat();
    assert_eq!(kept(written), kept(state));
}

/// No event reads the decays.
#[test]
fn other_decays_give_the_same_bytes() {
    let script = Script::of(&song()).unwrap();
    let (mut state, mut output) = (charged(), vec![0xaa; script.output_bytes()]);
    let answer = run(&bundle(), curves(), &mut state, &Decays::new([0.0; 6]).unwrap(), &script, &mut output);
    assert_eq!((answer, state, output), run_from(charged(), &script));
}

/// The first 24 bytes of a block, widened, have no charges, and the conductance that a write of their volume leaves.
#[test]
fn a_block_of_24_bytes_is_widened() {
    for volume in 0..16 {
        let state = after(charged(), &[Event::Routing(0xf3), Event::CutoffLow(5), sample(0.9, 0.1), Event::Mode(0x50 | volume)]);
        let wide = State::widen(&state.as_bytes()[..NARROW_STATE_BYTES]).unwrap();
        let conductance = state.conductance().to_le_bytes();
        assert_eq!(wide.as_bytes()[..], [&state.as_bytes()[..24], &[0; 20], &conductance, &[0; 20]].concat());
        // The next write at this volume then charges nothing.
        assert_eq!(after(wide, &[Event::Mode(0x50 | volume)]), wide);
    }
}

#[test]
fn an_invalid_block_is_not_widened() {
    for (place, bytes) in INVALID {
        assert_eq!(State::widen(&state_with(place, bytes).as_bytes()[..NARROW_STATE_BYTES]), Err(Refusal::Argument), "byte {place}");
    }
    for length in [0, 23, 25, STATE_BYTES] {
        assert_eq!(State::widen(&vec![0; length]), Err(Refusal::Argument), "{length} bytes");
    }
}

/// Number and bits of a point, zeros beside a refusal.
fn point_words(point: Result<Point, Refusal>) -> [u32; 4] {
    match point {
        Ok(Point { value, index, fraction }) => [0, value.to_bits(), index, fraction.to_bits()],
        Err(refusal) => [refusal.number(), 0, 0, 0],
    }
}

/// The records of a file of a program, so many words each.
fn records<const N: usize>(program: &str, name: &str) -> Vec<[u32; N]> {
    let bytes = file(&format!(concat!(env!("CARGO_MANIFEST_DIR"), "/../../crates/{}/data/{}.bin"), program, name));
    let words: Vec<u32> = bytes.chunks_exact(4).map(|word| u32::from_le_bytes(word.try_into().unwrap())).collect();
    words.chunks_exact(N).map(|record| record.try_into().unwrap()).collect()
}

/// The points are those that the oracle told.
#[test]
fn points_are_those_of_the_vectors() {
    let (bundle, curves) = (bundle(), curves());
    for [curve, input, told @ ..] in records::<6>("vectors_surface", "sample_curve") {
        assert_eq!(point_words(sample_curve(curves, curve, f32::from_bits(input))), told, "curve {curve} at {input:x}");
    }
    for [transfer, first, second, input, told @ ..] in records::<8>("vectors_surface", "transfers") {
        let (first, second, input) = (first as u8, second as u8, f32::from_bits(input));
        let ours = match transfer {
            0 => summer(&bundle, curves, first, input),
            1 => mixer(curves, first, second, input),
            _ => volume(curves, first, input),
        };
        assert_eq!(point_words(ours), told, "transfer {transfer}, {first}, {second} at {input}");
    }
    for record in records::<23>("vectors_surface", "sample_point") {
        let block: Vec<u8> = record[..17].iter().flat_map(|word| word.to_le_bytes()).collect();
        let state = State::from_bytes(block.try_into().unwrap());
        let [sum, energy] = [record[17], record[18]].map(f32::from_bits);
        assert_eq!(point_words(sample_point(&bundle, curves, &state, sum, energy)), record[19..], "{record:x?}");
    }
}

/// An empty filter is fed 0, whatever the sign of the sum.
#[test]
fn the_summer_rests() {
    for sum in [0.0, -0.0] {
        assert_eq!(summer(&bundle(), curves(), 0, sum).unwrap().value, 0.0);
    }
}

/// What a point refuses that the vectors do not reach: lengths, an invalid state, an entry, a sample that leaves the domain.
#[test]
fn points_refuse_by_the_table() {
    let (bundle, state) = (bundle(), State::start());
    let short = Curves::from_bytes(vec![0; CURVES_BYTES - 1]);
    assert_eq!(sample_curve(&short, 99, f32::NAN).err(), Some(Refusal::CurvesLength));
    assert_eq!(sample_point(&bundle, &short, &state, f32::NAN, 0.0).err(), Some(Refusal::CurvesLength));
    let mut damaged = curves().as_bytes().to_vec();
    damaged[4..8].copy_from_slice(&f32::INFINITY.to_le_bytes());
    let damaged = Curves::from_bytes(damaged);
    assert_eq!(sample_curve(&damaged, 0, 0.0).err(), Some(Refusal::Entry { buffer: Buffer::Curves, place: 4 }));
    for place in [11, 67] {
        assert_eq!(sample_point(&bundle, curves(), &state_with(place, &[1]), f32::NAN, 0.0).err(), Some(Refusal::Argument));
    }
    let large = state_with(12, &3.0e38_f32.to_le_bytes());
    assert_eq!(sample_point(&bundle, curves(), &large, 0.0, f32::NAN).err(), Some(Refusal::InputNotFinite));
    assert_eq!(sample_point(&bundle, curves(), &large, 0.0, 0.0).err(), Some(Refusal::Domain));
}

/// Number and bits of the sums, zeros beside a refusal.
fn sum_words(sums: Result<Sums, Refusal>) -> [u32; 9] {
    match sums {
        Ok(sums) => {
            let Sums { filter_input, source_energy, filter_activity, bypass_input, .. } = sums;
            let Sums { bypass_activity, pure_activity, attack_drive, pulse_activity, .. } = sums;
            let [a, b, c, d] = [filter_input, source_energy, filter_activity, bypass_input].map(f32::to_bits);
            let [e, f, g, h] = [bypass_activity, pure_activity, attack_drive, pulse_activity].map(f32::to_bits);
            [0, a, b, c, d, e, f, g, h]
        }
        Err(refusal) => [refusal.number(), 0, 0, 0, 0, 0, 0, 0, 0],
    }
}

/// The sums are those of the Rust, as the oracle told them.
#[test]
fn sums_are_those_of_the_vectors() {
    for record in records::<26>("vectors_voices", "collect") {
        let float = |place: usize| f32::from_bits(record[place]);
        let voices = [2, 5, 8].map(|at| {
            let [selection, combined, frozen, _] = record[at + 2].to_le_bytes();
            Voice { waveform: float(at), envelope: float(at + 1), selection, combined: combined == 1, frozen: frozen == 1 }
        });
        let levels = Levels { raw: float(11), filter: float(12), mixer: float(13) };
        let ours = collect(record[0] as u8, record[1] as u8, &voices, &levels, &[float(14), float(15), float(16)]);
        assert_eq!(sum_words(ours), record[17..], "{record:x?}");
    }
}

/// Three voices that sound.
fn voices() -> [Voice; 3] {
    [1, 2, 4].map(|selection| Voice { waveform: 0.3, envelope: 0.5, selection, ..Voice::default() })
}

/// A voice whose envelope goes to 0 leaves its rest in its sum; the other voices keep what they add, to the last bit.
#[test]
fn a_silent_voice_leaves_its_rest() {
    for envelope in [0.0, -0.0] {
        let [one, two, three] = voices();
        let silent = Voice { envelope, ..one };
        let sums = collect(3, 8, &[silent, two, three], &Levels::rest(), &[0.0; 3]).unwrap();
        let without = collect(2, 8, &[silent, two, three], &Levels::rest(), &[0.0; 3]).unwrap();
        assert_eq!(sums.filter_input, VOICE_REST + without.filter_input);
        assert_eq!((sums.source_energy, sums.filter_activity), (without.source_energy, without.filter_activity));
        // Voice 3 is off, so the external input is alone beside the filter.
        assert_eq!((sums.bypass_input, sums.bypass_activity, sums.pulse_activity), (VOICE_REST, 0.0, 0.0));
    }
}

/// Every voice and every number is judged, also one that is not read: with all routed no blend is, and voice 3 that is off is heard nowhere.
#[test]
fn refusal_11() {
    let (levels, blends) = (Levels::rest(), [0.0; 3]);
    assert!(collect(15, 0, &voices(), &levels, &blends).is_ok());
    assert_eq!(collect(15, 0, &voices(), &levels, &[0.0, f32::NAN, 0.0]), Err(Refusal::Sources));
    assert_eq!(collect(15, 0, &voices(), &Levels { mixer: f32::INFINITY, ..levels }, &blends), Err(Refusal::Sources));
    let flaws: [fn(&mut Voice); 3] =
        [|voice| voice.selection = 16, |voice| voice.waveform = f32::NAN, |voice| voice.envelope = f32::NEG_INFINITY];
    for flaw in flaws {
        let mut flawed = voices();
        flaw(&mut flawed[2]);
        assert_eq!(collect(0, 8, &flawed, &levels, &blends), Err(Refusal::Sources));
        assert_eq!(collect(16, 8, &flawed, &levels, &blends), Err(Refusal::Argument));
    }
}

/// A sum that leaves the domain.
#[test]
fn collecting_refuses_with_6() {
    let mut loud = voices();
    loud[0].envelope = 3.0e38;
    loud[1].envelope = 3.0e38;
    assert_eq!(collect(3, 0, &loud, &Levels::rest(), &[0.0; 3]), Err(Refusal::Domain));
}
