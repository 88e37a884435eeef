//! Opens a bundle and runs one sample of a voice through a low-pass filter.
//!
//! usage: one_sample BUNDLE
use sid_filter::{run_samples, voice_level, Bundle, Curves, Decays, Event, Sample, Script, State, VOICE_REST};
use std::error::Error;

fn main() -> Result<(), Box<dyn Error>> {
    let path = std::env::args_os().nth(1).ok_or("usage: one_sample BUNDLE")?;
    let bundle = Bundle::open(std::fs::read(path)?)?;
    let curves = Curves::build(&bundle)?;
    let level = voice_level(0.5, 1.0);
    let script = Script::of(&[
        Event::Routing(0x81), // voice 1 in the filter, resonance 8
        Event::Mode(0x1f),    // low-pass
        Event::CutoffHigh(200),
        Event::Sample { input_sum: level, source_energy: (level - VOICE_REST).powi(2) },
    ])?;
    let mut output = [Sample::default()];
    let done = run_samples(&bundle, &curves, &mut State::start(), &Decays::EMULATOR, &script, &mut output)?;
    println!("{} events, {} sample: {:?}", done.events, done.samples, output[0]);
    Ok(())
}
