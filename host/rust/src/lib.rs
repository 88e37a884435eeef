//! The proved filter of the MOS 6581, from Rust.
//!
//! A [`Bundle`] is opened from its bytes, its [`Curves`] are built once, and [`run`] takes a [`Script`] of register writes and samples from
//! and into a [`State`] of 68 bytes. The state is all that a filter remembers: keep it at bar 40, and a run from there gives the bytes that
//! a run from the top has there. A script may be cut between any two events; each piece goes on from the state that the last one left, with
//! the same [`Decays`].
//!
//! What is refused is a [`Refusal`], with a number and a sentence.
//!
//! ```
//! use sid_filter::{run_samples, voice_level, Bundle, Curves, Decays, Event, Sample, Script, State, VOICE_REST};
//!
//! # fn main() -> Result<(), Box<dyn std::error::Error>> {
//! # let path = concat!(env!("CARGO_MANIFEST_DIR"), "/../../data/bundle.bin");
//! let bundle = Bundle::open(std::fs::read(path)?)?;
//! let curves = Curves::build(&bundle)?;
//!
//! // Voice 1 in a low-pass filter at resonance 8, the cutoff at 1,607.
//! let mut script = Script::of(&[Event::Routing(0x81), Event::Mode(0x1f), Event::CutoffLow(7), Event::CutoffHigh(200)])?;
//! // 1,000 samples of a pulse of 2 kHz at full envelope.
//! for clock in 0..1_000 {
//!     let wave = if clock % 500 < 250 { 1.0 } else { -1.0 };
//!     let level = voice_level(wave, 1.0);
//!     script.push(Event::Sample { input_sum: level, source_energy: (level - VOICE_REST).powi(2) })?;
//! }
//! let mut state = State::start();
//! let mut output = vec![Sample::default(); script.samples()];
//! let done = run_samples(&bundle, &curves, &mut state, &Decays::EMULATOR, &script, &mut output)?;
//! assert_eq!((done.events, done.samples), (1_004, 1_000));
//! assert_eq!(state.cutoff(), 1607);
//! for sample in &output {
//!     println!("{}", sample.selected);
//! }
//! # Ok(())
//! # }
//! ```
//!
//! # Units
//!
//! **Time.** One sample is one clock of the chip: [`CLOCK_HZ`], 985,248, are a second. 65,536 events, the most that a script has, are 66 ms
//! of sound.
//!
//! **Levels.** A level is a voltage of the chip, 0 to 1: level = (volts − 0.8228) / 9.5895, and no level is below 0 or above 1.
//! [`voice_level`] gives the level of a voice from its wave, −1 to 1, and its envelope, 0 to 1. A voice rests at [`VOICE_REST`], 0.451;
//! at full envelope it swings by [`VOICE_SWING`], 0.150, to either side and rises by [`VOICE_RISE`], 0.021. (The emulator's table of the
//! waveform DAC goes from −0.222 to 0.770.) The external input rests at the same level and has no envelope, so it does not rise.
//!
//! **In.** `input_sum` is the sum of the levels of what is routed into the filter, by bits 0 to 3 of [`Event::Routing`]: a voice that is
//! silent still adds its rest. `source_energy` is the sum of (level − [`VOICE_REST`])² over the same inputs. With nothing routed both
//! are 0.
//!
//! **Out.** `high`, `band` and `low` of a [`Sample`] are the filter's outputs. `selected` adds those that the mode selects, band with its
//! sign turned, times the mode's gain, each about [`MODE_REST`], 0.376. With none selected it is 0.
//!
//! **At rest.** With nothing routed, `high`, `band` and `low` come to rest at 0 and `selected` at [`MODE_REST`] for each selected mode bit.
//! A routed input rests above the level of the filter, so with one to four silent inputs `low` rests at −0.046, −0.083, −0.112 and −0.136,
//! and `selected` moves with it, by an amount that depends on mode, cutoff and resonance. `high` and `band` still rest at 0. The sound is
//! what swings about this; take the direct voltage out before you play it.
//!
//! **Behind the filter.** The volume and voice 3 off, bits 0 to 3 and 7 of [`Event::Mode`], change no sample: they act in the mixer and the
//! volume DAC, which [`mixer`] and [`volume`] ask by themselves.
//!
//! **Charges.** A step of the volume charges the output node, by 3152.0623 and 2777.7222 in the units of the emulator's output for one from
//! 15 to 0. That is the click of the volume, by which digi tunes play. The [`Charges`] stand in the state; no sample reads them.
//!
//! **From voices.** [`collect`] works `input_sum` and `source_energy` out from three [`Voice`]s and the external input's [`Levels`], with the
//! six other [`Sums`] of a clock: what goes into the filter, and what goes beside it.
//!
//! **On the curves.** [`sample_point`] says where on its curve the summer stands for a sample, and [`sample_curve`], [`summer`], [`mixer`]
//! and [`volume`] answer such a [`Point`] too. None of them changes anything.
#![deny(missing_docs)]
#![deny(missing_debug_implementations)]
#![deny(unsafe_code)]

mod bundle;
mod bytes;
mod decays;
#[cfg(test)]
mod header;
mod level;
#[allow(unsafe_code)]
mod library;
mod point;
mod refusal;
mod run;
mod script;
mod state;
mod voice;

pub use bundle::{Bundle, Curves, BUNDLE_BYTES, CURVES_BYTES};
pub use decays::{Decays, DECAYS_BYTES};
pub use level::{voice_level, CLOCK_HZ, MODE_REST, VOICE_REST, VOICE_RISE, VOICE_SWING};
pub use point::{mixer, sample_curve, sample_point, summer, volume, Point};
pub use refusal::{Buffer, Refusal};
pub use run::{run, run_bytes, run_samples, samples, Done, Sample, Stop, SAMPLE_BYTES};
pub use script::{pieces, Event, Full, Pieces, Script, EVENTS_MAX, EVENT_BYTES, SCRIPT_HEADER_BYTES};
pub use state::{Charges, State, NARROW_STATE_BYTES, STATE_BYTES};
pub use voice::{collect, Levels, Sums, Voice, NUMBERS_BYTES, SUMS_BYTES, VOICE_BYTES};
