//! The vector files of ticks: the smallest of every way (tick_rows.rs), then each number at its edges, then any. What is done is `clock`'s;
//! what is refused is told by the plain machine.

use crate::clocked::{clocked, Damage, InputBytes, Inputs, Lent};
use crate::kept::{filter_block, put};
use crate::mixing::ExternalInputState;
use crate::numbers::DAMAGES;
use crate::plain::{Machine, Refusal};
use crate::tick_rows::*;
use crate::voices::{resting, voice, FLAGS, PURE};
use crate::{charge_any, joined, set_integrator, write_any, Random};

/// The words of some bytes.
fn words_of<const N: usize>(bytes: &[u8]) -> [u32; N] {
    std::array::from_fn(|index| u32::from_le_bytes(bytes[4 * index..][..4].try_into().expect("four bytes")))
}

/// What goes in: a block, decays, levels and voices.
fn input_words(block: &[u8; 68], inputs: &InputBytes) -> [u32; 35] {
    words_of(&[&block[..], &inputs.decays, &inputs.levels, &inputs.voices].concat())
}

/// One tick: what it answers, and the four numbers, which are zeros where it is refused, with the block after it. What the plain machine
/// does is what `clock` does.
fn told(lent: &mut Lent, block: &[u8; 68], inputs: &InputBytes) -> (Refusal, [u32; 21]) {
    let (mut after, mut output) = (*block, [0; 16]);
    let told = Machine::new(&lent.bundle, &lent.curves).tick(&mut after, inputs.lent(), &mut output);
    if told.0 == 0 {
        put(&mut lent.filter, block);
        let theirs = clocked(&mut lent.filter, &inputs.read());
        assert_eq!(
            (theirs.numbers.map(f32::to_le_bytes).as_flattened(), theirs.after),
            (&output[..], after),
            "the plain machine is not clock"
        );
    }
    (told, joined([&words_of::<4>(&output), &words_of::<17>(&after)]))
}

// ---- inputs

/// One that a song has, mostly; else at an edge or any.
fn any_voice(random: &mut Random) -> crate::dac::VoiceSignal {
    const ENVELOPES: [f32; 14] = [0.0, -0.0, 0.02, 0.99, 0.989_999_95, 1.0, 2.0, 2.5, 3.5, -0.5, 1.0e-40, 1.16e12, 2.0e38, -2.0e38];
    let [waveform, envelope] = match random.below(8) {
        0 => [random.between(-1.0, 1.0), random.pick(&ENVELOPES)],
        1 => [random.finite(), random.between(-1.0, 3.5)],
        2 => [random.between(-1.0, 1.0), random.between(-1.0, 3.5)],
        _ => [random.between(-0.3, 0.8), random.between(0.0, 1.0)],
    };
    let selection = if random.below(2) == 0 { [1, 2, 4, 4][random.below(4) as usize] } else { random.below(16) as u8 };
    let flags = if random.below(2) == 0 { PURE } else { FLAGS[random.below(4) as usize] };
    voice(waveform, envelope, selection, flags)
}

/// At rest, of a sample or any.
fn any_levels(random: &mut Random) -> [f32; 3] {
    match random.below(4) {
        0 => [random.pick(&[0.0, -0.0, 1.0, -1.0, 2.5, 4.9e17]), random.finite(), random.finite()],
        1 | 2 => {
            let mut external = ExternalInputState::new();
            external.set_sample(random.bits() as i16);
            [external.raw, external.filter_signal, external.mixer_signal]
        }
        _ => [0.0, resting(), resting()],
    }
}

/// The Rust's own decays, or any.
fn any_inputs(random: &mut Random) -> Inputs {
    let decays = match random.below(2) {
        0 => own_decays(),
        _ => [0; 6].map(|_| if random.below(4) == 0 { random.pick(&[0.0, -0.0, 1.0, 1.0e-45]) } else { random.between(0.0, 1.0) }),
    };
    Inputs { decays, levels: any_levels(random), voices: [0; 3].map(|_| any_voice(random)) }
}

/// Any registers, by writes; numbers of a usual size, and every other time charges of any.
fn any_block(lent: &mut Lent, random: &mut Random) -> [u8; 68] {
    let filter = &mut lent.filter;
    write_any(filter, random);
    set_integrator(filter, [random.between(-1.5, 1.5), random.between(-1.5, 1.5), random.between(0.0, 1.0)]);
    charge_any(filter, random);
    let mut block = filter_block(filter);
    if random.below(2) == 0 {
        for place in (FAST..PENDING).step_by(4) {
            block[place..][..4].copy_from_slice(&random.between(-1.0, 1.0).to_le_bytes());
        }
    }
    if random.below(8) == 0 {
        block[BAND..FAST].fill(0);
        block[8] = 0;
    }
    block
}

/// Each number of a block, the voices and the levels at edges, all others as a song has them.
fn edges() -> Vec<Case> {
    const EDGES: [f32; 6] = [0.0, f32::from_bits(1), 1.0, 2.0, 1.0e12, 3.0e38];
    let base =
        start().registers(9, 3, 15).voice(0, 0.5, 0.75, 1, PURE).voice(1, -0.25, 0.5, 2, PURE).voice(2, 0.25, 1.0, 4, PURE).pending();
    let mut cases = vec![];
    for edge in EDGES.iter().flat_map(|&edge| [edge, -edge]) {
        cases.extend((BAND..PENDING).step_by(4).map(|place| base.float(place, edge)));
        for (index, at) in base.inputs.voices.into_iter().enumerate() {
            cases.push(base.voice(index, edge, at.envelope, at.waveform_selection, PURE));
            cases.push(base.voice(index, at.waveform, edge, at.waveform_selection, PURE));
        }
        for (index, routing) in [(0, 1), (1, 9), (2, 1)] {
            let mut case = base.registers(routing, 3, 15);
            case.inputs.levels[index] = edge;
            cases.push(case);
        }
    }
    cases
}

// ---- the files

/// A state's block, decays, levels and voices; number of the refusal, the four numbers, the block after it.
pub fn ticks(lent: &mut Lent) -> Vec<[u32; 57]> {
    let mut random = Random::of("ticks");
    let mut records = vec![];
    let mut record = |lent: &mut Lent, block: &[u8; 68], inputs: &InputBytes| {
        let ((number, _, _), given) = told(lent, block, inputs);
        records.push(joined([&input_words(block, inputs), &[number], &given]));
        number
    };
    for row in rows(&mut lent.filter) {
        assert_eq!(record(lent, &row.block, &row.inputs), row.told.0, "a row's number");
    }
    for case in edges() {
        record(lent, &case.block, &case.inputs.bytes());
    }
    for _ in 0..768 {
        let (block, inputs) = (any_block(lent, &mut random), any_inputs(&mut random));
        record(lent, &block, &inputs.bytes());
    }
    records
}

/// One to three entries that a tick reads, set to other bits. What the filter works out anew is made unusable: nothing comes of it.
fn any_damages(lent: &Lent, block: &[u8; 68], inputs: &Inputs, random: &mut Random) -> Vec<Damage> {
    let reads = places(lent, block, inputs);
    let own = reads.len().saturating_sub(10);
    let any = |random: &mut Random| {
        let from = if random.below(8) == 0 { 0 } else { own };
        let (buffer, place) = reads[from + random.below((reads.len() - from) as u32) as usize];
        let usable = Lent::follows(buffer, place) && random.below(2) == 0;
        (buffer, place, DAMAGES[if usable { random.below(4) } else { 4 + random.below(8) } as usize])
    };
    (0..1 + random.below(3)).map(|_| any(random)).collect()
}

/// Up to three damaged entries, each buffer, byte and word, zeros where there is none; then as above, with buffer and place behind the number.
pub fn ticks_damaged(lent: &mut Lent) -> Vec<[u32; 68]> {
    let mut random = Random::of("ticks_damaged");
    let mut records = vec![];
    let mut record = |lent: &mut Lent, block: &[u8; 68], inputs: &InputBytes, damages: &[Damage]| {
        let mut damaged = [[0; 3]; 3];
        for (words, &(buffer, place, bits)) in damaged.iter_mut().zip(damages) {
            *words = [buffer, place as u32, bits];
        }
        let (refusal, given) = lent.with_damages(damages, |lent| told(lent, block, inputs));
        let (number, buffer, place) = refusal;
        records.push(joined([damaged.as_flattened(), &input_words(block, inputs), &[number, buffer, place], &given]));
        refusal
    };
    for Row { block, inputs, damages, told } in damaged_rows(lent) {
        assert_eq!(record(lent, &block, &inputs, &damages), told, "what a row answers");
    }
    for _ in 0..256 {
        let (block, inputs) = (any_block(lent, &mut random), any_inputs(&mut random));
        let damages = any_damages(lent, &block, &inputs, &mut random);
        record(lent, &block, &inputs.bytes(), &damages);
    }
    records
}
