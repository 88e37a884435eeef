//! Measures what a run costs: one voice, a sine of 440 Hz, in a low-pass.
//!
//! The same 65,536 samples are played in blocks of several lengths, each block a call from the state that the last one left. The scripts
//! are built before. A round plays them all; the best of the rounds counts, so that other work on the machine is left out.
mod show;

use show::{bundle_bytes, grouped, progress, progress_done};
use sid_filter::{run, run_samples, voice_level, Bundle, Curves, Decays, Event, Sample, Script, State, Stop, CLOCK_HZ, VOICE_REST};
use std::error::Error;
use std::f32::consts::TAU;
use std::process::ExitCode;
use std::time::{Duration, Instant};

const SAMPLES: usize = 65_536;
const BLOCKS: [usize; 5] = [1, 16, 64, 1_024, SAMPLES];
const ROUNDS: usize = 200;

fn main() -> ExitCode {
    match measure() {
        Ok(()) => ExitCode::SUCCESS,
        Err(error) => {
            eprintln!("cost: {error}");
            ExitCode::FAILURE
        }
    }
}

fn measure() -> Result<(), Box<dyn Error>> {
    let bundle = Bundle::open(bundle_bytes()?)?;
    let curves = Curves::build(&bundle)?;
    let mut start = State::start();
    let decays = &Decays::EMULATOR;
    run(&bundle, &curves, &mut start, decays, &registers()?, &mut [])?;
    let mut rows = BLOCKS.map(Row::new);
    let mut output = vec![0; SAMPLES * sid_filter::SAMPLE_BYTES];
    let mut samples = vec![Sample::default(); SAMPLES];
    for round in 1..=ROUNDS {
        progress(&format!("cost: round {round} of {ROUNDS}"));
        for row in &mut rows {
            let mut state = start;
            row.bytes = row.bytes.min(timed(&row.scripts, |script| run(&bundle, &curves, &mut state, decays, script, &mut output))?);
            let mut state = start;
            row.samples =
                row.samples.min(timed(&row.scripts, |script| run_samples(&bundle, &curves, &mut state, decays, script, &mut samples))?);
        }
    }
    progress_done();
    println!("One voice, a sine in a low-pass: ns, the best of {ROUNDS} rounds of {} samples", grouped(SAMPLES));
    println!("{:>16} {:>12} {:>12} {:>12} {:>12}", "", "run", "run", "run_samples", "run_samples");
    println!("{:>16} {:>12} {:>12} {:>12} {:>12}", "samples a call", "a call", "a sample", "a call", "a sample");
    for row in &rows {
        let call = |time: Duration| time.as_nanos() as f64 / row.scripts.len() as f64;
        let sample = |time: Duration| time.as_nanos() as f64 / SAMPLES as f64;
        println!(
            "{:>16} {:>12.0} {:>12.1} {:>12.0} {:>12.1}",
            grouped(row.block),
            call(row.bytes),
            sample(row.bytes),
            call(row.samples),
            sample(row.samples)
        );
    }
    Ok(())
}

/// The time of a call for each script.
fn timed(scripts: &[Script], mut call: impl FnMut(&Script) -> Result<sid_filter::Done, Stop>) -> Result<Duration, Stop> {
    let begun = Instant::now();
    for script in scripts {
        call(script)?;
    }
    Ok(begun.elapsed())
}

/// The blocks of one length, and their best times.
struct Row {
    block: usize,
    scripts: Vec<Script>,
    bytes: Duration,
    samples: Duration,
}

impl Row {
    fn new(block: usize) -> Row {
        let scripts = (0..SAMPLES).step_by(block).map(|first| sine(first, block)).collect();
        Row { block, scripts, bytes: Duration::MAX, samples: Duration::MAX }
    }
}

/// Voice 1 in a low-pass at resonance 8 and cutoff 600.
fn registers() -> Result<Script, sid_filter::Full> {
    Script::of(&[Event::Routing(0x81), Event::Mode(0x1f), Event::CutoffLow(0), Event::CutoffHigh(75)])
}

/// A sine at full envelope, from one of its samples on.
fn sine(first: usize, count: usize) -> Script {
    let mut script = Script::new();
    for at in first..first + count {
        let level = voice_level((TAU * 440.0 * at as f32 / CLOCK_HZ as f32).sin(), 1.0);
        let source_energy = (level - VOICE_REST).powi(2);
        script.push(Event::Sample { input_sum: level, source_energy }).expect("a block fits a script");
    }
    script
}
