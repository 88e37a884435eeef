//! `sid_filter_collect` beside the Rust's `collect`: the sums, the refusals beside an independent reading of the table (docs/FORMATS.md), and every lent byte.

use crate::numbers::{word, Random, Tally};
use crate::surface::number as alone_of;
use crate::surface::proved::{self, Answer};
use crate::voices::{not_finite_alone, voice, Sources, ENVELOPES, FLAGS, WAVEFORMS};

pub fn compare() -> Vec<(&'static str, Tally)> {
    let subjects: [(&str, fn(&mut Seen)); 5] = [
        ("collecting, every routing, selection and flag", every_voice),
        ("collecting, sums that alone are not finite", alone),
        ("collecting at random", at_random),
        ("collecting, a voice at envelope 0", at_envelope_zero),
        ("collecting, damaged bytes and wrong lengths", damaged),
    ];
    subjects.map(|(name, subject)| told(name, subject)).into()
}

/// What was compared, and how many calls answered each number.
#[derive(Default)]
struct Seen {
    tally: Tally,
    answers: [u64; 12],
}

/// Compares a subject, and prints what its calls answered.
fn told(name: &'static str, subject: fn(&mut Seen)) -> (&'static str, Tally) {
    let mut seen = Seen::default();
    subject(&mut seen);
    let met = seen.answers.iter().enumerate().filter(|(_, &count)| count > 0);
    println!("{name}: answers {}", met.map(|(number, count)| format!("{number}: {count}")).collect::<Vec<_>>().join(", "));
    (name, seen.tally)
}

/// What the lent sums hold before a call.
const BEFORE: [u8; 32] = [0xa5; 32];

/// The bytes of the sums where each is finite, else 6 and what was there.
fn left_by(sums: [f32; 8]) -> (Answer, [u8; 32]) {
    if sums.iter().all(|sum| sum.is_finite()) {
        (alone_of(0), sums.map(f32::to_le_bytes).as_flattened().try_into().expect("eight sums"))
    } else {
        (alone_of(6), BEFORE)
    }
}

/// The call on valid sources: the answer and, one by one, the sums.
fn same_sums(seen: &mut Seen, sources: &Sources) -> [f32; 8] {
    let theirs = sources.sums();
    let mut sums = BEFORE;
    let answer = proved::collect(sources.routing, sources.mode, &sources.voice_bytes(), &sources.number_bytes(), &mut sums);
    let (number, left) = left_by(theirs);
    seen.answers[answer.number as usize] += 1;
    seen.tally.same(answer, number);
    for (ours, theirs) in sums.chunks_exact(4).zip(left.chunks_exact(4)) {
        seen.tally.same(ours, theirs);
    }
    theirs
}

/// A number among those that a list has or any finite one.
fn any(random: &mut Random, list: &[f32]) -> f32 {
    let bits = random.bits();
    let number = random.float();
    if bits % 2 == 0 || !number.is_finite() {
        list[(bits >> 8) as usize % list.len()]
    } else {
        number
    }
}

fn any_sources(random: &mut Random) -> Sources {
    Sources::any(random.bits(), |list| any(random, list))
}

/// Sixteen routings, voice 3 on and off; in turn each voice with every selection, both flags, every envelope and waveform of the lists and three blends; the
/// other two and the external levels at random.
fn every_voice(seen: &mut Seen) {
    let mut random = Random(130);
    for number in 0..16 * 2 * 3 * 16 * 4 * 3 {
        let (routing, off, index) = (number % 16, number / 16 % 2, number / 32 % 3);
        let (selection, flags, blend) = (number / 96 % 16, FLAGS[number / 1_536 % 4], [0.0, 0.4, 1.0][number / 6_144]);
        for waveform in WAVEFORMS {
            for envelope in ENVELOPES {
                let mut sources = any_sources(&mut random);
                sources.routing = routing as u8;
                sources.mode = (8 * off) as u8 + sources.mode % 8;
                sources.voices[index] = voice(waveform, envelope, selection as u8, flags);
                sources.numbers[3 + index] = blend;
                same_sums(seen, &sources);
            }
        }
    }
}

/// In the Rust just this sum is not finite, and the call refuses.
fn alone(seen: &mut Seen) {
    for (index, sources) in not_finite_alone() {
        let sums = same_sums(seen, &sources);
        seen.tally.same(sums.map(f32::is_finite), std::array::from_fn(|sum| sum != index));
    }
}

fn at_random(seen: &mut Seen) {
    let mut random = Random(131);
    for _ in 0..2_000_000 {
        let sums = same_sums(seen, &any_sources(&mut random));
        seen.tally.same(sums.map(word).contains(&0x8000_0000), false);
    }
}

/// A routed voice at envelope 0 of either sign: beside the Rust; and in the Rust all sums but its own are those of the topology without it.
fn at_envelope_zero(seen: &mut Seen) {
    let mut random = Random(132);
    for _ in 0..500_000 {
        let mut sources = any_sources(&mut random);
        let (index, bits) = (random.bits() as usize % 3, random.bits());
        sources.voices[index].envelope = if bits % 2 == 0 { 0.0 } else { -0.0 };
        let sums = same_sums(seen, &sources).map(word);
        let mut without = sources.topology();
        let own = if without.filter_internal_mask >> index & 1 == 1 { 0 } else { 3 };
        without.filter_internal_mask &= !(1 << index);
        without.bypass_internal_mask &= !(1 << index);
        let mut others = sources.sums_on(&without).map(word);
        others[own] = sums[own];
        seen.tally.same(sums, others);
    }
}

/// Which number a call refuses with before it sums, read from the table: nibbles and room, then voices and numbers.
fn refused(routing: u8, mode: u8, voices: &[u8], numbers: &[u8], room: usize) -> u32 {
    let finite = |bytes: &[u8]| f32::from_le_bytes(bytes.try_into().expect("four bytes")).is_finite();
    let fine =
        |voice: &[u8]| finite(&voice[..4]) && finite(&voice[4..8]) && voice[8] < 16 && voice[9] < 2 && voice[10] < 2 && voice[11] == 0;
    if routing > 15 || mode > 15 || room != 32 {
        10
    } else if voices.len() != 36 || numbers.len() != 24 || !voices.chunks(12).all(fine) || !numbers.chunks(4).all(finite) {
        11
    } else {
        0
    }
}

/// Valid sources with up to three flaws: a byte of the voices or of the numbers, a length, a nibble.
fn damaged(seen: &mut Seen) {
    let mut random = Random(133);
    for _ in 0..1_000_000 {
        let sources = any_sources(&mut random);
        let (mut routing, mut mode) = (sources.routing, sources.mode);
        let (mut voices, mut numbers) = (sources.voice_bytes().to_vec(), sources.number_bytes().to_vec());
        let mut room = 32;
        for _ in 0..random.bits() % 4 {
            let bits = random.bits();
            let (byte, at) = ((bits >> 8) as u8, (bits >> 16) as usize);
            match bits % 8 {
                0 => routing = byte,
                1 => mode = byte,
                2 => room = at % 65,
                3 => voices.resize(at % 49, byte),
                4 => numbers.resize(at % 37, byte),
                5 if !numbers.is_empty() => {
                    let at = at % numbers.len();
                    numbers[at] = byte;
                }
                _ if !voices.is_empty() => {
                    let at = at % voices.len();
                    voices[at] = [0, 1, 2, 16, 0x7f, 0x80, 0xff, byte][(bits >> 48) as usize % 8];
                }
                _ => {}
            }
        }
        let before = vec![0xa5; room];
        let (mut sums, lent) = (before.clone(), (voices.clone(), numbers.clone()));
        let answer = proved::collect(routing, mode, &voices, &numbers, &mut sums);
        let (number, left) = match refused(routing, mode, &voices, &numbers, room) {
            0 => {
                let lent = (voices[..].try_into().expect("36 bytes"), numbers[..].try_into().expect("24 bytes"));
                let (number, left) = left_by(Sources::read(routing, mode, lent.0, lent.1).sums());
                (number, left.to_vec())
            }
            number => (alone_of(number), before),
        };
        seen.answers[answer.number as usize] += 1;
        seen.tally.same(answer, number);
        seen.tally.same(sums, left);
        seen.tally.same((voices, numbers), lent);
    }
}
