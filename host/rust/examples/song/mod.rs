//! The demo song: three voices at the chip's clock, 48 bars of half a second.
//!
//! Voice 1 is a saw bass, voice 2 a pulse arpeggio, voice 3 a triangle lead; their oscillators are plain and not band-limited. The bars are
//! short so that a bounce takes seconds: 492,624 samples each. A bar has 24 frames, and as in a player on the machine each frame writes
//! the cutoff, low then high; six frames are a step, the shortest note. [`PARTS`] says what happens when.
//!
//! In one bar the volume plays a drum as well, by 396 writes of register 24 a step: a sample of four bits each, as digi tunes do. They change no
//! sample of the filter. What each step of the volume charges stands in the state.
//!
//! Every event follows from its bar, frame and sample alone, so a bar is the same bar wherever a bounce begins.
#![allow(dead_code)] // Each example uses some of it.
use sid_filter::{voice_level, Event, CLOCK_HZ, MODE_REST, VOICE_REST};

/// The bars, counted from 1.
pub const BARS: u32 = 48;
/// Samples a bar.
pub const BAR: u32 = CLOCK_HZ / 2;
/// Frames a bar, and samples a frame.
const FRAMES: u32 = 24;
const FRAME: u32 = BAR / FRAMES;
/// Frames a step, samples a step, and steps a bar.
const STEP_FRAMES: u32 = 6;
const STEP: u32 = STEP_FRAMES * FRAME;
const STEPS: usize = 4;
/// The bar in which the volume plays a drum, its writes, and the samples from one to the next: 3,168 writes a second.
pub const DIGI_BAR: u32 = 46;
pub const DIGI_WRITES: u32 = BAR / DIGI;
const DIGI: u32 = 311;
const _: () = assert!(FRAME % DIGI == 0);

/// A part of the song.
pub struct Part {
    /// Its first bar; it lasts until the next part.
    pub first: u32,
    /// What is written to register 23: the resonance, and which voices are in the filter.
    routing: u8,
    /// What is written to register 24: the mode at full volume.
    mode: u8,
    /// The cutoff at its begin and at its end.
    cutoff: (u32, u32),
    /// The voices that play, bit 0 voice 1; the others are muted.
    plays: u8,
    /// What it is.
    pub says: &'static str,
}

const fn part(first: u32, routing: u8, mode: u8, cutoff: (u32, u32), plays: u8, says: &'static str) -> Part {
    Part { first, routing, mode, cutoff, plays, says }
}

/// The song.
pub const PARTS: [Part; 15] = [
    part(1, 0x87, 0x1f, (150, 1000), 0b001, "the bass alone, a low-pass that opens"),
    part(5, 0xc3, 0x1f, (1000, 400), 0b011, "the arpeggio joins, the low-pass closes"),
    part(9, 0xc3, 0x1f, (400, 1200), 0b111, "the lead joins, beside the filter"),
    part(17, 0xc1, 0x1f, (1200, 900), 0b111, "voice 2 out of the filter"),
    part(19, 0xc3, 0x1f, (900, 700), 0b111, "voice 2 back in the filter"),
    part(21, 0xf3, 0x2f, (300, 1300), 0b111, "a band-pass at full resonance"),
    part(27, 0x47, 0x4f, (500, 50), 0b111, "a high-pass, all three voices in it"),
    part(31, 0x47, 0x4f, (50, 50), 0b000, "all muted"),
    part(32, 0xa7, 0x5f, (500, 1300), 0b111, "low and high together, a notch"),
    part(38, 0xf3, 0x1f, (500, 1300), 0b111, "a low-pass at full resonance, the lead beside it"),
    part(42, 0xf1, 0x1f, (1300, 1000), 0b111, "voice 2 out of the filter"),
    part(44, 0xf3, 0x1f, (1000, 800), 0b111, "voice 2 back in the filter"),
    part(DIGI_BAR, 0xf3, 0x1f, (800, 600), 0b111, "the volume plays a drum"),
    part(47, 0xf3, 0x1f, (600, 200), 0b011, "voice 3 muted, the low-pass closes"),
    part(48, 0xf3, 0x1f, (200, 200), 0b000, "all muted"),
];

/// What the composer does at the desk, on top of the song: bit 0 is voice 1.
#[derive(Clone, Copy, Default)]
pub struct Desk {
    /// Voices that are muted.
    pub muted: u8,
    /// Voices that are pulled out of the filter.
    pub out: u8,
}

/// An event of the song, and what a mix adds to its selected output: the voices beside the filter, less the level at which the outputs rest.
#[derive(Clone, Copy)]
pub struct Tick {
    pub event: Event,
    pub beside: f32,
}

/// The events of a bar.
pub fn bar(number: u32, desk: Desk) -> impl Iterator<Item = Tick> {
    (0..FRAMES).flat_map(move |frame| {
        let frame = Frame::new(number, frame, desk);
        let clocks = (0..FRAME).flat_map(move |sample| [frame.digi(sample), Some(frame.sample(sample))]);
        frame.writes().into_iter().chain(clocks).flatten()
    })
}

/// The bars in which nobody plays.
pub fn silent_bars() -> impl Iterator<Item = u32> {
    (1..=BARS).filter(|bar| part_of(*bar).0.plays == 0)
}

/// The part that a bar lies in, and the first bar after it.
fn part_of(bar: u32) -> (&'static Part, u32) {
    let after = PARTS.iter().position(|part| part.first > bar).unwrap_or(PARTS.len());
    (&PARTS[after - 1], PARTS.get(after).map_or(BARS + 1, |part| part.first))
}

/// A frame: its registers, and what each voice plays in it.
#[derive(Clone, Copy)]
struct Frame {
    /// Whether the routing and the mode are written: in a bar's first frame.
    opens: bool,
    /// How many samples before the frame the drum began, in the bar that has it.
    drum: Option<u32>,
    cutoff: u32,
    routing: u8,
    mode: u8,
    voices: [Tone; 3],
    rest: f32,
}

impl Frame {
    fn new(bar: u32, frame: u32, desk: Desk) -> Frame {
        let (part, end) = part_of(bar);
        let (done, all) = ((bar - part.first) * FRAMES + frame, (end - part.first) * FRAMES);
        let swept = (part.cutoff.0 * (all - done) + part.cutoff.1 * done) / all;
        // Each step begins brighter. Where nobody plays the cutoff rests: the filter's level at rest moves with it.
        let accent = if part.plays == 0 { 0 } else { 30 * (STEP_FRAMES - 1 - frame % STEP_FRAMES) };
        let plays = part.plays & !desk.muted;
        let voice = |index: u8, tone: Tone| if plays & 1 << index == 0 { tone.muted() } else { tone };
        Frame {
            opens: frame == 0,
            drum: (bar == DIGI_BAR).then_some(frame % STEP_FRAMES * FRAME),
            cutoff: swept + accent,
            routing: part.routing & !desk.out,
            mode: part.mode,
            voices: [voice(0, bass(bar, frame)), voice(1, arpeggio(bar, frame)), voice(2, lead(bar, frame))],
            rest: MODE_REST * (part.mode >> 4 & 7).count_ones() as f32,
        }
    }

    /// The register writes at its begin.
    fn writes(&self) -> [Option<Tick>; 4] {
        [
            self.opens.then_some(write(Event::Routing(self.routing))),
            self.opens.then_some(write(Event::Mode(self.mode))),
            Some(write(Event::CutoffLow((self.cutoff % 8) as u8))),
            Some(write(Event::CutoffHigh((self.cutoff / 8) as u8))),
        ]
    }

    /// The write before one of its samples by which the volume plays the drum, where there is one.
    fn digi(&self, sample: u32) -> Option<Tick> {
        let drum = self.drum.filter(|_| sample % DIGI == 0)?;
        Some(write(Event::Mode(self.mode & 0xf0 | drum_volume(drum + sample))))
    }

    /// One of its samples: each voice goes into the filter's sum or beside it.
    fn sample(&self, sample: u32) -> Tick {
        let (mut input_sum, mut source_energy, mut beside) = (0.0, 0.0, -self.rest);
        for (index, tone) in self.voices.iter().enumerate() {
            let level = tone.level(sample);
            let swing = level - VOICE_REST;
            if self.routing & 1 << index != 0 {
                input_sum += level;
                source_energy += swing * swing;
            } else {
                beside += swing;
            }
        }
        Tick { event: Event::Sample { input_sum, source_energy }, beside }
    }
}

/// A register write, beside which nothing sounds.
fn write(event: Event) -> Tick {
    Tick { event, beside: 0.0 }
}

/// The drum of a step in four bits: a triangle whose pitch falls from 240 Hz to 60 Hz, and whose swing goes from all to nothing.
fn drum_volume(at: u32) -> u8 {
    let at = at as f32 / STEP as f32;
    let phase = 30.0 * at - 11.25 * at * at;
    let triangle = 1.0 - 4.0 * (phase.fract() - 0.5).abs();
    (7.5 + 7.5 * (1.0 - at) * triangle).round() as u8
}

#[derive(Clone, Copy)]
enum Wave {
    Saw,
    Pulse { width: u32 },
    Triangle,
}

/// What a voice plays in a frame.
#[derive(Clone, Copy)]
struct Tone {
    wave: Wave,
    /// What a sample adds to the phase, of 2^32 for a period.
    increment: u32,
    /// How many samples before the frame its note began, and how many it lasts.
    age: u32,
    length: u32,
    /// The loudest that it gets.
    peak: f32,
}

impl Tone {
    fn muted(self) -> Tone {
        Tone { peak: 0.0, ..self }
    }

    /// The level of the voice.
    fn level(&self, sample: u32) -> f32 {
        if self.peak == 0.0 {
            return VOICE_REST;
        }
        let at = self.age + sample;
        let phase = at.wrapping_mul(self.increment);
        let saw = phase as i32 as f32 / 2_147_483_648.0;
        let wave = match self.wave {
            Wave::Saw => saw,
            Wave::Pulse { width } => [-1.0, 1.0][usize::from(phase < width)],
            Wave::Triangle => 1.0 - 2.0 * saw.abs(),
        };
        voice_level(wave, self.peak * self.envelope(at))
    }

    /// A plain envelope: straight up in 3 ms, straight down to six tenths over the note, straight to nothing in its last 10 ms.
    fn envelope(&self, at: u32) -> f32 {
        let rise = at as f32 * (1.0 / (0.003 * CLOCK_HZ as f32));
        let fall = (self.length - at) as f32 * (1.0 / (0.010 * CLOCK_HZ as f32));
        let body = 1.0 - 0.4 * at as f32 / self.length as f32;
        body.min(rise).min(fall)
    }
}

/// The frequencies of C to B in the eighth octave, in Hz.
const OCTAVE_8: [f64; 12] = [4186.01, 4434.92, 4698.64, 4978.03, 5274.04, 5587.65, 5919.91, 6271.93, 6644.88, 7040.0, 7458.62, 7902.13];

/// The increment of a note: semitones above the C of octave 0.
fn increment(note: u32) -> u32 {
    let top = (OCTAVE_8[note as usize % 12] * 4_294_967_296.0 / f64::from(CLOCK_HZ)) as u32;
    top >> (8 - note / 12)
}

/// The chord of a bar: A minor, F, C, G, two bars each.
fn chord(bar: u32) -> [u32; 3] {
    [[9, 12, 16], [5, 9, 12], [0, 4, 7], [7, 11, 14]][(bar - 1) as usize / 2 % 4]
}

/// A bar's notes: a step without one holds the one before it. Each bar begins with a note.
type Row = [Option<u32>; STEPS];

/// The note of a row that sounds in a frame, how many samples before the frame it began, and how many it lasts.
fn sounding(row: &Row, frame: u32) -> (u32, u32, u32) {
    let step = (frame / STEP_FRAMES) as usize;
    let first = (0..=step).rev().find(|at| row[*at].is_some()).unwrap_or(0);
    let next = (step + 1..STEPS).find(|at| row[*at].is_some()).unwrap_or(STEPS);
    (row[first].unwrap_or(0), frame * FRAME - first as u32 * STEP, (next - first) as u32 * STEP)
}

/// Voice 1: the chord's root in the second octave, and the octave above it.
fn bass(bar: u32, frame: u32) -> Tone {
    const ROWS: [Row; 2] = [[Some(0), None, Some(0), Some(12)], [Some(0), Some(0), Some(12), Some(0)]];
    let (note, age, length) = sounding(&ROWS[(bar - 1) as usize % 2], frame);
    Tone { wave: Wave::Saw, increment: increment(24 + chord(bar)[0] + note), age, length, peak: 1.0 }
}

/// Voice 2: a step is the chord's three notes, two frames each; the pulse narrows and widens over four bars.
fn arpeggio(bar: u32, frame: u32) -> Tone {
    let note = 48 + chord(bar)[(frame / 2 % 3) as usize];
    let width = (16 + ((bar - 1) % 4 * FRAMES + frame).abs_diff(2 * FRAMES)) << 25;
    Tone { wave: Wave::Pulse { width }, increment: increment(note), age: frame % STEP_FRAMES * FRAME, length: STEP, peak: 0.8 }
}

/// Voice 3: a tune of eight bars in the fifth octave.
fn lead(bar: u32, frame: u32) -> Tone {
    const TUNE: [Row; 8] = [
        [Some(9), None, None, Some(4)],
        [Some(7), None, Some(9), None],
        [Some(12), None, None, Some(9)],
        [Some(9), None, Some(5), None],
        [Some(7), None, Some(4), None],
        [Some(7), None, Some(12), None],
        [Some(11), None, None, None],
        [Some(7), None, Some(2), None],
    ];
    let (note, age, length) = sounding(&TUNE[(bar - 1) as usize % 8], frame);
    Tone { wave: Wave::Triangle, increment: increment(60 + note), age, length, peak: 1.0 }
}
