//! Renders the demo song as a WAV file: 16 bit, mono, 48,000 Hz.
//!
//! usage: render FILE
//!
//! The mix is the filter's selected output plus the voices beside the filter. The chip's mixer, its volume DAC and the board behind it are no
//! part of a run, so none of them is in it, and neither is the drum that the volume plays: its charges are in the state alone.
//!
//! - Its direct voltage is taken out by a one-pole high-pass at 16 Hz, which is about what the board's coupling capacitor does.
//! - It is brought down from 985,248 Hz to 48,000 Hz in one step: a sinc of 677 taps under a Blackman window, half as high at 24 kHz, taken
//!   at each output's exact place. The ratio is 10,263 to 500, so there are 500 sets of taps. It is flat to 20 kHz, and what would fold
//!   to below 20 kHz is 73 dB down.
//! - It is rounded to 16 bit without dither, so that silence is silence.
mod show;
mod song;

use show::{bundle_bytes, grouped, progress, progress_done};
use sid_filter::{pieces, run_samples, Bundle, Curves, Decays, Sample, State, CLOCK_HZ};
use song::{Desk, Tick, BAR, BARS, DIGI_BAR, DIGI_WRITES};
use std::error::Error;
use std::f64::consts::PI;
use std::process::ExitCode;
use std::time::Instant;

/// The file's rate in Hz, and its samples a bar.
const OUT_RATE: u32 = 48_000;
const OUT_BAR: usize = OUT_RATE as usize / 2;
/// Full scale of the file for 1 of the mix.
const GAIN: f64 = 1.5;
/// The samples of a silent bar that must be silent: from 200 ms on, up to where the taps reach into the next bar.
const SETTLED: std::ops::Range<usize> = OUT_RATE as usize / 5..OUT_BAR - SIDE * PHASES / RATE_STEP - 1;

fn main() -> ExitCode {
    let Some(path) = std::env::args().nth(1) else {
        eprintln!("usage: render FILE");
        return ExitCode::FAILURE;
    };
    match render(&path) {
        Ok(true) => ExitCode::SUCCESS,
        Ok(false) => {
            eprintln!("render: the file clips, or a silent bar is not silent");
            ExitCode::FAILURE
        }
        Err(error) => {
            eprintln!("render: {error}");
            ExitCode::FAILURE
        }
    }
}

/// Writes the file, prints what is in it, and says whether it is right: nothing clips and the silent bars are silent.
fn render(path: &str) -> Result<bool, Box<dyn Error>> {
    let begun = Instant::now();
    let bundle = Bundle::open(bundle_bytes()?)?;
    let curves = Curves::build(&bundle)?;
    let mut state = State::start();
    let mut coupling = None;
    let mut down = Down::new();
    for bar in 1..=BARS {
        progress(&format!("render: bar {bar} of {BARS}"));
        let ticks: Vec<Tick> = song::bar(bar, Desk::default()).collect();
        let mut beside = ticks.iter().filter(|tick| tick.event.is_sample()).map(|tick| tick.beside);
        for script in pieces(ticks.iter().map(|tick| tick.event)) {
            let mut output = vec![Sample::default(); script.samples()];
            run_samples(&bundle, &curves, &mut state, &Decays::EMULATOR, &script, &mut output)?;
            for (sample, beside) in output.iter().zip(&mut beside) {
                let mix = f64::from(sample.selected) + f64::from(beside);
                let coupling = coupling.get_or_insert(mix);
                *coupling += 2.0 * PI * 16.0 / f64::from(CLOCK_HZ) * (mix - *coupling);
                down.feed(mix - *coupling);
            }
        }
        down.bring();
    }
    progress_done();
    let (wave, clipped) = to_16_bit(&down.finish());
    std::fs::write(path, wav(&wave)).map_err(|error| format!("{path}: {error}"))?;

    let rate = grouped(OUT_RATE as usize);
    println!("{path}: {BARS} bars, {} samples, 16 bit, mono, {rate} Hz", grouped(wave.len()));
    println!("   the filter's selected output and the voices beside it, direct voltage taken out at 16 Hz");
    println!("   brought down from {} Hz by a sinc of {TAPS} taps under a Blackman window", grouped(CLOCK_HZ as usize));
    println!("   not heard: the drum of bar {DIGI_BAR}, {} writes of the volume", grouped(DIGI_WRITES as usize));
    println!("   peak {:.1} dB, RMS {:.1} dB of full scale, {} samples clipped", decibels(peak(&wave)), decibels(rms(&wave)), clipped);
    let mut right = clipped == 0;
    for bar in song::silent_bars() {
        let settled = &wave[(bar as usize - 1) * OUT_BAR..][SETTLED];
        println!(
            "   bar {bar}, all muted: the highest of {} samples from 200 ms on is {}",
            grouped(settled.len()),
            peak(settled) * 32_768.0
        );
        right &= settled.iter().all(|sample| *sample == 0);
    }
    println!("Rendered in {:.1} s.", begun.elapsed().as_secs_f64());
    Ok(right)
}

/// Taps to each side of the middle one, and all.
const SIDE: usize = 338;
const TAPS: usize = 2 * SIDE + 1;
/// An output lies `RATE_STEP / PHASES` inputs after the one before it.
const RATE_STEP: usize = 10_263;
const PHASES: usize = 500;
const _: () = assert!(CLOCK_HZ as usize * PHASES == OUT_RATE as usize * RATE_STEP && BAR as usize * PHASES == OUT_BAR * RATE_STEP);

/// Brings the chip's rate down to the file's.
struct Down {
    /// A set of taps for each place of an output between two inputs.
    taps: Vec<[f64; TAPS]>,
    /// The inputs that are still needed: the first belongs to the next output's first tap.
    inputs: Vec<f64>,
    phase: usize,
    outputs: Vec<f64>,
}

impl Down {
    fn new() -> Down {
        let taps = (0..PHASES).map(|phase| taps(phase as f64 / PHASES as f64)).collect();
        Down { taps, inputs: vec![0.0; SIDE], phase: 0, outputs: Vec::new() }
    }

    fn feed(&mut self, input: f64) {
        self.inputs.push(input);
    }

    /// Works out the outputs that the inputs reach.
    fn bring(&mut self) {
        let mut first = 0;
        while let Some(inputs) = self.inputs.get(first..first + TAPS) {
            self.outputs.push(inputs.iter().zip(&self.taps[self.phase]).map(|(input, tap)| input * tap).sum());
            self.phase += RATE_STEP;
            first += self.phase / PHASES;
            self.phase %= PHASES;
        }
        self.inputs.drain(..first.min(self.inputs.len()));
    }

    /// The outputs, with silence after the last input.
    fn finish(mut self) -> Vec<f64> {
        self.inputs.extend([0.0; SIDE]);
        self.bring();
        self.outputs
    }
}

/// The taps for an output so far after an input: a sinc of 24 kHz under a Blackman window, with the sum 1.
fn taps(after: f64) -> [f64; TAPS] {
    let mut taps: [f64; TAPS] = std::array::from_fn(|tap| {
        let distance = tap as f64 - SIDE as f64 - after;
        let turn = PI * distance / (SIDE + 1) as f64;
        let window = 0.42 + 0.5 * turn.cos() + 0.08 * (2.0 * turn).cos();
        let x = PI * distance * f64::from(OUT_RATE) / f64::from(CLOCK_HZ);
        let sinc = if x == 0.0 { 1.0 } else { x.sin() / x };
        window * sinc
    });
    let sum: f64 = taps.iter().sum();
    for tap in &mut taps {
        *tap /= sum;
    }
    taps
}

/// The wave in 16 bit, and how many samples did not fit.
fn to_16_bit(wave: &[f64]) -> (Vec<i16>, usize) {
    let scaled = || wave.iter().map(|sample| (sample * GAIN * 32_768.0).round());
    let clipped = scaled().filter(|sample| *sample < f64::from(i16::MIN) || *sample > f64::from(i16::MAX)).count();
    (scaled().map(|sample| sample as i16).collect(), clipped)
}

/// The bytes of a WAV file.
fn wav(wave: &[i16]) -> Vec<u8> {
    let length = 2 * wave.len() as u32;
    let mut bytes = Vec::new();
    bytes.extend(b"RIFF");
    bytes.extend((36 + length).to_le_bytes());
    bytes.extend(b"WAVEfmt ");
    bytes.extend(16_u32.to_le_bytes());
    // PCM, one channel, the rate, bytes a second, bytes a sample, bits a sample.
    bytes.extend([1_u16.to_le_bytes(), 1_u16.to_le_bytes()].concat());
    bytes.extend([OUT_RATE.to_le_bytes(), (2 * OUT_RATE).to_le_bytes()].concat());
    bytes.extend([2_u16.to_le_bytes(), 16_u16.to_le_bytes()].concat());
    bytes.extend(b"data");
    bytes.extend(length.to_le_bytes());
    bytes.extend(wave.iter().flat_map(|sample| sample.to_le_bytes()));
    bytes
}

/// The highest magnitude, 1 being full scale.
fn peak(wave: &[i16]) -> f64 {
    f64::from(wave.iter().map(|sample| sample.unsigned_abs()).max().unwrap_or(0)) / 32_768.0
}

fn rms(wave: &[i16]) -> f64 {
    let squares: f64 = wave.iter().map(|sample| f64::from(*sample).powi(2)).sum();
    (squares / wave.len() as f64).sqrt() / 32_768.0
}

fn decibels(level: f64) -> f64 {
    20.0 * level.log10()
}
