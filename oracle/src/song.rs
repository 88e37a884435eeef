//! A song as a script, played on the Rust's filter while it is written: 64 bars of 16 steps, four samples a step. What a sample takes is what
//! the Rust's `RoutedSignals::collect` sums for three voices and EXT IN on the routing of the moment.

use crate::constants::SID_VOICE_BASE_VOLTS;
use crate::dac::VoiceSignal;
use crate::filter::Filter;
use crate::kept::{filter_block, play};
use crate::mixing::{ExternalInputState, RoutedSignals};
use crate::response::normalise_voltage;

/// An event, what the filter gave for it and the block that it left.
struct Played {
    event: [u8; 12],
    sample: Option<[f32; 4]>,
    block: [u8; 68],
}

/// One voice: where in its wave it is, how far it goes in a sample, and its envelope.
#[derive(Clone, Copy, Default)]
struct Voice {
    phase: f32,
    pitch: f32,
    envelope: f32,
}

impl Voice {
    fn gate(&mut self, pitch: f32) {
        (self.pitch, self.envelope) = (pitch, 1.0);
    }

    /// Selection 1 a triangle, 2 a saw, 4 a pulse.
    fn signal(&mut self, selection: u8) -> VoiceSignal {
        self.phase += self.pitch;
        self.phase -= if self.phase >= 1.0 { 1.0 } else { 0.0 };
        let waveform = match selection {
            1 => (2.0 * self.phase - 1.0).abs() - 0.5,
            2 => self.phase - 0.5,
            _ if self.phase < 0.375 => 0.5,
            _ => -0.5,
        };
        VoiceSignal { waveform, envelope: self.envelope, waveform_selection: selection, combined: false, frozen: false }
    }
}

struct Song<'a> {
    filter: &'a mut Filter,
    voices: [Voice; 3],
    external: ExternalInputState,
    played: Vec<Played>,
}

impl Song<'_> {
    fn add(&mut self, event: [u8; 12]) {
        let sample = play(self.filter, &event);
        self.played.push(Played { event, sample, block: filter_block(self.filter) });
    }

    fn write(&mut self, kind: u8, value: u8) {
        self.add([kind, value, 0, 0, 0, 0, 0, 0, 0, 0, 0, 0]);
    }

    /// The three low bits, then the eight high ones.
    fn cutoff(&mut self, code: usize) {
        self.write(0, (code % 8) as u8);
        self.write(1, (code / 8) as u8);
    }

    fn routing(&mut self, resonance: usize, inputs: usize) {
        self.write(2, (16 * resonance + inputs) as u8);
    }

    fn mode(&mut self, mode: usize, volume: usize) {
        self.write(3, (16 * mode + volume) as u8);
    }

    fn sample(&mut self) {
        let [bass, lead, arpeggio] = &mut self.voices;
        let voices = [bass.signal(4), lead.signal(2), arpeggio.signal(1)];
        let ExternalInputState { raw, filter_signal, mixer_signal } = self.external;
        let resting = normalise_voltage(SID_VOICE_BASE_VOLTS);
        let signals = RoutedSignals::collect(self.filter.topology(), &voices, &[1.0; 3], filter_signal, mixer_signal, raw, resting);
        let mut event = [4, 0, 0, 0, 0, 0, 0, 0, 0, 0, 0, 0];
        event[4..8].copy_from_slice(&signals.filter_input_sum.to_le_bytes());
        event[8..].copy_from_slice(&signals.filter_source_energy.to_le_bytes());
        self.add(event);
    }

    /// The bass on the beat, the lead every third step, the arpeggio on every other one.
    fn notes(&mut self, bar: usize, step: usize) {
        const SCALE: [f32; 8] = [0.0625, 0.0703125, 0.078125, 0.08203125, 0.09375, 0.10546875, 0.1171875, 0.125];
        for voice in &mut self.voices {
            voice.envelope *= 0.875;
        }
        if step % 4 == 0 {
            self.voices[0].gate(SCALE[bar / 2 % 4] * 0.25);
        }
        if step % 3 == 0 {
            self.voices[1].gate(SCALE[(bar + step) % 8]);
        }
        if step % 2 == 0 {
            self.voices[2].gate(SCALE[2 * step % 8] * 2.0);
        }
        self.external.set_sample((16_384 * (step as i32 % 3 - 1)) as i16);
    }

    /// The registers of one step, in eight parts of eight bars.
    fn registers(&mut self, bar: usize, step: usize) {
        let (part, at) = (bar / 8, bar % 8 * 16 + step);
        match part {
            // Low-pass: the bass in the filter, the cutoff opens.
            0 => {
                if at == 0 {
                    self.routing(4, 1);
                    self.mode(1, 15);
                }
                self.cutoff(120 + 15 * at);
            }
            // The lead goes in and out of the filter, the cutoff closes.
            1 => {
                if step % 4 == 0 {
                    self.routing(9, 1 + step / 4 % 2 * 2);
                }
                self.cutoff(2_040 - 14 * at);
            }
            // Band-pass at full resonance: voice 3 in the filter in odd bars, in even ones off.
            2 => {
                if step == 0 {
                    self.routing(15, 3 + bar % 2 * 4);
                    self.mode(if bar % 2 == 0 { 10 } else { 2 }, 14);
                }
                self.cutoff(400 + 37 * (at * at % 29));
            }
            // High-pass: the cutoff jumps, and the low bits are written alone between.
            3 => {
                if at == 0 {
                    self.mode(4, 12);
                }
                match step % 4 {
                    0 => self.write(1, if step % 8 == 0 { 240 } else { 20 }),
                    2 => self.write(0, (bar + step) as u8),
                    _ => {}
                }
            }
            // Outputs together, a mode a bar; the volume trembles.
            4 => {
                if step % 2 == 0 {
                    self.mode([3, 5, 6, 7][bar % 4], 15 - step / 2);
                }
                if step == 8 {
                    self.routing(8, bar);
                }
            }
            // From the restart: nothing in the filter, then a voice more every second bar.
            5 => {
                if step == 0 {
                    self.routing(10, [0, 1, 3, 7][bar % 8 / 2]);
                    self.mode(1, 15);
                }
                if at >= 32 {
                    self.cutoff(300 + 13 * at);
                }
            }
            // All four inputs; the resonance falls, the low bits shake the cutoff.
            6 => {
                if step == 0 {
                    self.routing(15 - 2 * (bar % 8), 15);
                    self.mode(7, 15);
                }
                self.write(0, (3 * at) as u8);
            }
            // The voices leave the filter, the volume fades.
            _ => {
                if step == 0 {
                    self.routing(6, 15 >> (bar % 8));
                }
                if step % 8 == 0 {
                    self.mode(3, 15 - at / 8);
                }
            }
        }
        // A mute at the end of every fourth bar.
        if bar % 4 == 3 && step % 3 == 0 && step >= 12 {
            let mode = self.filter.registers().mode.into();
            self.mode(mode, if step == 15 { 15 } else { 0 });
        }
    }

    fn bar(&mut self, bar: usize) {
        if bar == 40 {
            self.write(5, 0);
        }
        for step in 0..16 {
            self.notes(bar, step);
            self.registers(bar, step);
            (0..4).for_each(|_| self.sample());
        }
    }
}

/// Pieces of the song, each from the starting value or going on from the block that the last one left: whether it goes on, the bytes of its
/// script, its samples; script, samples and the block that is left.
fn pieces(played: &[Played], ends: &[usize]) -> Vec<u8> {
    let mut file = (ends.len() as u32).to_le_bytes().to_vec();
    let mut from = 0;
    for (number, &end) in ends.iter().enumerate() {
        let piece = &played[from..end];
        let samples: Vec<[f32; 4]> = piece.iter().filter_map(|played| played.sample).collect();
        let words = [u32::from(number > 0), 8 + 12 * piece.len() as u32, samples.len() as u32, piece.len() as u32, 8];
        file.extend(words.iter().flat_map(|word| word.to_le_bytes()));
        file.extend(piece.iter().flat_map(|played| played.event));
        file.extend(samples.as_flattened().iter().flat_map(|value| value.to_le_bytes()));
        file.extend(if end == 0 { [0; 68] } else { played[end - 1].block });
        from = end;
    }
    file
}

/// The files of the song, by name: whole; cut between the two cutoff writes of a step in bar 20 and at bar 40, with an empty piece there; in
/// pieces of one event; and a script of no events.
pub fn files(filter: &mut Filter) -> [(&'static str, Vec<u8>); 4] {
    filter.reset();
    let mut song = Song { filter, voices: [Voice::default(); 3], external: ExternalInputState::new(), played: vec![] };
    let starts: Vec<usize> = (0..64)
        .map(|bar| {
            let start = song.played.len();
            song.bar(bar);
            start
        })
        .collect();
    let played = song.played;
    let all = played.len();
    let high = |played: &Played| played.event[0] == 1;
    let pending = starts[20] + played[starts[20]..].iter().position(high).expect("a cutoff write in bar 20");
    let samples = played.iter().filter(|played| played.sample.is_some()).count();
    println!("song: {all} events, {samples} samples, bar 40 at event {}", starts[40]);
    [
        ("song", pieces(&played, &[all])),
        ("song_cut", pieces(&played, &[pending, starts[40], starts[40], all])),
        ("song_events", pieces(&played, &(1..=all).collect::<Vec<_>>())),
        ("song_empty", pieces(&played, &[0])),
    ]
}
