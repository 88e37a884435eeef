//! Draws the library's pictures as SVG, each from what the library answers when it is run.
//!
//! usage: pictures FOLDER
//!
//! - curves.svg: the 31 transfer curves, as built from the bundle.
//! - points.svg: where on its curve the summer stands in a bar of the demo song.
//! - cutoff.svg: the filter's frequency over the cutoff code. Quiet sines are run through the filter as one voice.
//! - response.svg: the three modes over the frequency, at several cutoffs and resonances, by sines too.
//! - displacement.svg: what a step of the cutoff leaves behind, in the state and in the sound.
mod chart;
mod show;
mod song;

use chart::{between, Axis, Panel, Pen, Picture};
use show::{bundle_bytes, grouped, progress, progress_done};
use sid_filter::{run_samples, sample_point, Bundle, Curves, Decays, Event, Sample, Script, State, CLOCK_HZ, VOICE_REST, VOICE_SWING};
use std::error::Error;
use std::f64::consts::TAU;
use std::path::Path;
use std::process::ExitCode;

/// Samples a second.
const RATE: f64 = CLOCK_HZ as f64;
/// The swing of the sines: a third of a voice's, and for the cutoff a tenth, so that their own energy hardly moves it.
const SWING: f64 = VOICE_SWING as f64 / 3.0;
const QUIET: f64 = VOICE_SWING as f64 / 10.0;

const BLUE: &str = "#0b5394";
const ORANGE: &str = "#d9700b";
const GREEN: &str = "#2a7f3f";
const PURPLE: &str = "#7b2d8b";
const RED: &str = "#b3141b";

fn main() -> ExitCode {
    let Some(folder) = std::env::args().nth(1) else {
        eprintln!("usage: pictures FOLDER");
        return ExitCode::FAILURE;
    };
    match draw_all(Path::new(&folder)) {
        Ok(()) => ExitCode::SUCCESS,
        Err(error) => {
            eprintln!("pictures: {error}");
            ExitCode::FAILURE
        }
    }
}

fn draw_all(folder: &Path) -> Result<(), Box<dyn Error>> {
    let bundle = Bundle::open(bundle_bytes()?)?;
    let filter = Filter { curves: Curves::build(&bundle)?, bundle };
    for (name, drawn) in [
        ("curves.svg", curves(&filter.curves)),
        ("points.svg", points(&filter)?),
        ("cutoff.svg", cutoff_in_hertz(&filter)?),
        ("response.svg", response(&filter)?),
        ("displacement.svg", displacement(&filter)?),
    ] {
        let path = folder.join(name);
        std::fs::write(&path, &drawn).map_err(|error| format!("{}: {error}", path.display()))?;
        println!("{}: {} bytes", path.display(), drawn.len());
    }
    Ok(())
}

/// The running library.
struct Filter {
    bundle: Bundle<'static>,
    curves: Curves,
}

impl Filter {
    /// Runs events from a state.
    fn run(&self, state: &mut State, events: &[Event]) -> Result<Vec<Sample>, Box<dyn Error>> {
        let script = Script::of(events)?;
        let mut output = vec![Sample::default(); script.samples()];
        run_samples(&self.bundle, &self.curves, state, &Decays::EMULATOR, &script, &mut output)?;
        Ok(output)
    }

    /// Plays a sine after these writes, and keeps what comes after 30 ms. The frequency is taken to the nearest at which some whole
    /// periods last a whole number of samples.
    fn sine(&self, writes: &[Event], frequency: f64, swing: f64) -> Result<Sine, Box<dyn Error>> {
        const SETTLING: usize = 30_000;
        let periods = (frequency / 100.0).ceil();
        let length = (periods * RATE / frequency).round() as usize;
        let turns: Vec<f64> = (0..length).map(|at| TAU * ((at * periods as usize) % length) as f64 / length as f64).collect();
        let mut events = writes.to_vec();
        events.extend((0..SETTLING + length).map(|at| voice(swing * turns[(at + length - SETTLING % length) % length].sin())));
        let samples = self.run(&mut State::start(), &events)?.split_off(SETTLING);
        Ok(Sine { frequency: periods * RATE / length as f64, turns, samples })
    }

    /// How much stronger sines leave the filter than they enter it, in dB, from 50 Hz to 20 kHz.
    fn gains(&self, writes: &[Event]) -> Result<Vec<(f64, f64)>, Box<dyn Error>> {
        const POINTS: i32 = 96;
        let gain = |point: i32| {
            let sine = self.sine(writes, 50.0 * 400_f64.powf(f64::from(point) / f64::from(POINTS)), SWING)?;
            Ok((sine.frequency, 20.0 * (sine.strength(|sample| sample.selected) / SWING).log10()))
        };
        (0..=POINTS).map(gain).collect()
    }

    /// The filter's frequency in Hz after these writes: where the low-pass and the band-pass output are equally strong. Their ratio falls
    /// as the frequency rises, so a sine near it leads to it.
    fn frequency(&self, writes: &[Event], near: f64) -> Result<f64, Box<dyn Error>> {
        let mut frequency = near;
        for _ in 0..2 {
            let sine = self.sine(writes, frequency, QUIET)?;
            frequency = sine.frequency * sine.strength(|sample| sample.low) / sine.strength(|sample| sample.band);
        }
        Ok(frequency)
    }
}

/// Some whole periods of a sine in the settled filter: the phase that goes in and what comes out.
struct Sine {
    frequency: f64,
    turns: Vec<f64>,
    samples: Vec<Sample>,
}

impl Sine {
    /// How far an output swings at the sine's frequency.
    fn strength(&self, output: impl Fn(&Sample) -> f32) -> f64 {
        let (mut across, mut along) = (0.0, 0.0);
        for (sample, turn) in self.samples.iter().zip(&self.turns) {
            across += f64::from(output(sample)) * turn.cos();
            along += f64::from(output(sample)) * turn.sin();
        }
        across.hypot(along) * 2.0 / self.turns.len() as f64
    }
}

/// A sample of one voice in the filter that is so far from rest.
fn voice(swing: f64) -> Event {
    Event::Sample { input_sum: (f64::from(VOICE_REST) + swing) as f32, source_energy: (swing * swing) as f32 }
}

/// Writes a cutoff as a player does, low then high.
fn cutoff(code: u16) -> [Event; 2] {
    [Event::CutoffLow((code % 8) as u8), Event::CutoffHigh((code / 8) as u8)]
}

/// Writes a cutoff and then its high register again, which leaves no displacement.
fn settled(code: u16) -> [Event; 3] {
    let [low, high] = cutoff(code);
    [low, high, high]
}

/// The frequencies from one to 20 kHz.
fn hertz(from: f64) -> Axis {
    let marks = [20.0, 50.0, 100.0, 200.0, 500.0].map(|at| (at, at.to_string()));
    let thousands = [1, 2, 5, 10, 20].map(|k| (1_000.0 * f64::from(k), format!("{k}k")));
    let marks = marks.into_iter().chain(thousands).filter(|(at, _)| *at >= from).collect();
    Axis { label: "frequency in Hz", from, to: 20_000.0, logarithmic: true, marks }
}

/// The 31 curves, in their three groups.
fn curves(curves: &Curves) -> String {
    let mut picture = Picture::new(
        1080,
        430,
        "The 31 transfer curves",
        "Each amplifier's output over the mean of its inputs, built from the bundle by the library.",
    );
    let groups = [
        ("Summer, curves 0 to 6", "inputs", 0, 7, [158, 202, 225], [8, 48, 107], (0.0, 1.0)),
        ("Mixer, curves 7 to 14", "inputs", 7, 8, [253, 174, 107], [127, 39, 4], (0.0, 1.0)),
        ("Volume, curves 15 to 30", "volume", 15, 16, [161, 217, 155], [0, 68, 27], (-0.6, 0.2)),
    ];
    for (place, (title, counted, first, count, light, dark, (from, to))) in groups.into_iter().enumerate() {
        let panel = Panel {
            title,
            left: 76.0 + 345.0 * place as f64,
            top: 100.0,
            width: 230.0,
            height: 270.0,
            across: Axis::straight("input", 0.0, 1.0, 0.2, 1),
            up: Axis::straight("output", from, to, 0.2, 1),
        };
        picture.panel(&panel);
        picture.note(panel.left + panel.width + 12.0, panel.top - 10.0, counted);
        for index in 0..count {
            let pen = Pen::new(&between(light, dark, index as f64 / (count - 1) as f64), 1.6, "");
            let curve: Vec<f32> = curves.curve(first + index).collect();
            let points: Vec<(f64, f64)> =
                (0..2_048).step_by(23).map(|at| (f64::from(at) / 2_047.0, f64::from(curve[at as usize]))).collect();
            picture.line(&panel, &pen, &points);
            picture.key(panel.left + panel.width + 12.0, panel.top + 10.0 + 17.0 * index as f64, 20.0, &pen, &index.to_string());
        }
    }
    picture.finish()
}

/// The bar of the song whose points are drawn, one for so many events, and the summer's curve in it: two voices, and the two inputs that are
/// always there.
const BAR: u32 = 40;
const POINT_EVERY: usize = 1_999;
const CURVE: usize = 4;

/// Where the summer stands in a bar, on the whole curve and on the part of it that the bar uses.
fn points(filter: &Filter) -> Result<String, Box<dyn Error>> {
    let curve: Vec<f64> = filter.curves.curve(CURVE).map(f64::from).collect();
    let mut state = State::start();
    let mut dots = Vec::new();
    for events in song::bar(BAR, song::Desk::default()).map(|tick| tick.event).collect::<Vec<_>>().chunks(POINT_EVERY) {
        if let Event::Sample { input_sum, source_energy } = events[0] {
            let point = sample_point(&filter.bundle, &filter.curves, &state, input_sum, source_energy)?;
            let (from, to) = (curve[point.index as usize], curve[point.index as usize + 1]);
            dots.push((point.input(), from + (to - from) * f64::from(point.fraction)));
        }
        filter.run(&mut state, events)?;
    }

    let mut picture = Picture::new(
        1080,
        460,
        "Where the summer stands in a bar of the demo song",
        &format!(
            "Bar {BAR}, voices 1 and 2 in the filter: curve {CURVE}. A dot is what sample_point answers for a sample, one in {}: darker where more stand.",
            grouped(POINT_EVERY)
        ),
    );
    let line: Vec<(f64, f64)> = (0..2_048).step_by(8).map(|at| (at as f64 / 2_047.0, curve[at])).collect();
    let panels = [
        ("The whole curve", 86.0, Axis::straight("mean of the inputs", 0.0, 1.0, 0.2, 1), Axis::straight("output", 0.0, 1.0, 0.2, 1)),
        (
            "The part that the bar uses",
            616.0,
            Axis::straight("mean of the inputs", 0.3, 0.5, 0.05, 2),
            Axis::straight("output", 0.1, 0.6, 0.1, 1),
        ),
    ];
    for (title, left, across, up) in panels {
        let panel = Panel { title, left, top: 100.0, width: 420.0, height: 310.0, across, up };
        picture.panel(&panel);
        picture.line(&panel, &Pen::new(BLUE, 1.8, ""), &line);
        picture.dots(&panel, ORANGE, &dots);
    }
    Ok(picture.finish())
}

/// The filter's frequency over the cutoff code, on two scales.
fn cutoff_in_hertz(filter: &Filter) -> Result<String, Box<dyn Error>> {
    let mut measured: Vec<(f64, f64)> = Vec::new();
    // Each 16th code and the one before it: the frequency jumps where many bits of the code turn.
    for code in (0..2_048).filter(|code| code % 16 == 0 || code % 16 == 15) {
        progress(&format!("pictures: the frequency at cutoff {code}"));
        let mut writes = vec![Event::Routing(0x01), Event::Mode(0x2f)];
        writes.extend(settled(code));
        let near = measured.last().map_or(200.0, |(_, frequency)| *frequency);
        measured.push((f64::from(code), filter.frequency(&writes, near)?));
    }
    progress_done();
    let sheet: Vec<(f64, f64)> = (0..=89).map(|at| f64::from(23 * at)).map(|code| (code, 30.0 + 11_970.0 * code / 2_047.0)).collect();

    let mut picture = Picture::new(
        1080,
        480,
        "The cutoff code in Hz",
        "Where the low-pass and the band-pass output are equally strong, by quiet sines run through the library. Resonance 0, displacement 0.",
    );
    let scales = [
        (
            "On a straight scale",
            Axis::marked("frequency in Hz", 0.0, 20_000.0, &[(0.0, "0"), (5e3, "5k"), (1e4, "10k"), (1.5e4, "15k"), (2e4, "20k")]),
        ),
        ("On a logarithmic scale", hertz(20.0)),
    ];
    let (bold, plain) = (Pen::new(BLUE, 2.2, ""), Pen::new("#1a1a1a", 1.4, "5 3"));
    for ((title, up), left) in scales.into_iter().zip([86.0, 616.0]) {
        let across = Axis::straight("cutoff code", 0.0, 2_048.0, 256.0, 0);
        let panel = Panel { title, left, top: 100.0, width: 420.0, height: 310.0, across, up };
        picture.panel(&panel);
        picture.line(&panel, &plain, &sheet);
        picture.line(&panel, &bold, &measured);
        picture.key(panel.left + 210.0, panel.top + 258.0, 30.0, &bold, "this filter");
        picture.key(panel.left + 210.0, panel.top + 278.0, 30.0, &plain, "data sheet, 30 Hz to 12 kHz");
    }
    Ok(picture.finish())
}

/// The three modes over the frequency.
fn response(filter: &Filter) -> Result<String, Box<dyn Error>> {
    const CUTOFFS: [(u16, &str); 5] = [(0, BLUE), (400, GREEN), (700, ORANGE), (1_000, PURPLE), (2_047, RED)];
    const RESONANCES: [(u8, &str); 3] = [(0, "2 3"), (8, "7 4"), (15, "")];
    let mut picture = Picture::new(
        1080,
        500,
        "The filter over the frequency",
        "Sines of a third of a voice's swing run through the library: the selected output over the input, in dB. Displacement 0.",
    );
    for (place, (title, mode)) in [("Low-pass", 0x1f), ("Band-pass", 0x2f), ("High-pass", 0x4f)].into_iter().enumerate() {
        let panel = Panel {
            title,
            left: 76.0 + 342.0 * place as f64,
            top: 100.0,
            width: 268.0,
            height: 290.0,
            across: hertz(50.0),
            up: Axis::straight("gain in dB", -50.0, 10.0, 10.0, 0),
        };
        picture.panel(&panel);
        for (code, colour) in CUTOFFS {
            for (resonance, dashes) in RESONANCES {
                progress(&format!("pictures: {title}, cutoff {code}, resonance {resonance}"));
                let mut writes = vec![Event::Routing(resonance << 4 | 1), Event::Mode(mode)];
                writes.extend(settled(code));
                picture.line(&panel, &Pen::new(colour, 1.6, dashes), &filter.gains(&writes)?);
            }
        }
    }
    progress_done();
    picture.note(76.0, 470.0, "cutoff");
    for (place, (code, colour)) in CUTOFFS.into_iter().enumerate() {
        picture.key(130.0 + 90.0 * place as f64, 470.0, 34.0, &Pen::new(colour, 2.5, ""), &code.to_string());
    }
    picture.note(660.0, 470.0, "resonance");
    for (place, (resonance, dashes)) in RESONANCES.into_iter().enumerate() {
        picture.key(740.0 + 90.0 * place as f64, 470.0, 34.0, &Pen::new("#1a1a1a", 1.8, dashes), &resonance.to_string());
    }
    Ok(picture.finish())
}

/// What a step of the cutoff leaves.
fn displacement(filter: &Filter) -> Result<String, Box<dyn Error>> {
    let mut picture = Picture::new(
        1080,
        840,
        "What a cutoff step leaves behind",
        "The displacement stays until the next high write: the same written cutoff sounds otherwise after a step up and after a step down.",
    );
    left_by_a_step(filter, &mut picture)?;
    ahead_of_a_sweep(filter, &mut picture)?;
    heard_over_the_frequency(filter, &mut picture)?;
    heard_over_the_time(filter, &mut picture)?;
    Ok(picture.finish())
}

const PLACES: [(f64, f64); 2] = [(86.0, 616.0), (100.0, 484.0)];

/// The displacement over the step, as the state has it after the writes.
fn left_by_a_step(filter: &Filter, picture: &mut Picture) -> Result<(), Box<dyn Error>> {
    const FROM: u16 = 1_000;
    let panel = Panel {
        title: "Left by a step, low then high write",
        left: PLACES[0].0,
        top: PLACES[1].0,
        width: 420.0,
        height: 280.0,
        across: Axis::straight("step in codes", -120.0, 120.0, 40.0, 0),
        up: Axis::straight("displacement in codes", -60.0, 60.0, 20.0, 0),
    };
    picture.panel(&panel);
    let mut points = Vec::new();
    for step in -120_i16..=120 {
        let mut state = State::start();
        filter.run(&mut state, &settled(FROM))?;
        filter.run(&mut state, &cutoff(FROM.wrapping_add_signed(step)))?;
        points.push((f64::from(step), f64::from(state.displacement())));
    }
    picture.line(&panel, &Pen::new(BLUE, 2.2, ""), &points);
    Ok(())
}

/// A sweep of 24 codes a frame, up and down: the written and the effective cutoff.
fn ahead_of_a_sweep(filter: &Filter, picture: &mut Picture) -> Result<(), Box<dyn Error>> {
    let panel = Panel {
        title: "A sweep up and down, 24 codes a frame",
        left: PLACES[0].1,
        top: PLACES[1].0,
        width: 420.0,
        height: 280.0,
        across: Axis::straight("frame", 0.0, 40.0, 5.0, 0),
        up: Axis::straight("cutoff code", 300.0, 900.0, 100.0, 0),
    };
    picture.panel(&panel);
    let mut state = State::start();
    filter.run(&mut state, &settled(400))?;
    let (mut written, mut effective) = (Vec::new(), Vec::new());
    for frame in 0..=40_u16 {
        let up = 16 - 16_u16.abs_diff(frame.saturating_sub(4)).min(16);
        filter.run(&mut state, &cutoff(400 + 24 * up))?;
        for at in [frame, frame + 1].map(f64::from) {
            written.push((at, f64::from(state.cutoff())));
            effective.push((at, f64::from(state.cutoff()) + f64::from(state.displacement())));
        }
    }
    let (plain, bold) = (Pen::new("#1a1a1a", 1.4, "5 3"), Pen::new(ORANGE, 2.2, ""));
    picture.line(&panel, &plain, &written);
    picture.line(&panel, &bold, &effective);
    picture.key(panel.left + 300.0, panel.top + 22.0, 30.0, &plain, "written");
    picture.key(panel.left + 300.0, panel.top + 42.0, 30.0, &bold, "effective");
    Ok(())
}

/// The cutoff at which the sound is looked at, and the steps from which it is reached.
const WRITTEN: u16 = 600;
const STEP: u16 = 100;

/// The low-pass at one written cutoff that was reached in three ways.
fn heard_over_the_frequency(filter: &Filter, picture: &mut Picture) -> Result<(), Box<dyn Error>> {
    let panel = Panel {
        title: "A low-pass at cutoff 600, resonance 12",
        left: PLACES[0].0,
        top: PLACES[1].1,
        width: 420.0,
        height: 280.0,
        across: hertz(50.0),
        up: Axis::straight("gain in dB", -50.0, 10.0, 10.0, 0),
    };
    picture.panel(&panel);
    let ways = [
        (WRITTEN - STEP, false, Pen::new(ORANGE, 2.0, ""), "from 500: displacement 57"),
        (WRITTEN, true, Pen::new("#1a1a1a", 1.6, "5 3"), "written again: displacement 0"),
        (WRITTEN + STEP, false, Pen::new(BLUE, 2.0, "9 2 2 2"), "from 700: displacement \u{2212}57"),
    ];
    for (place, (from, again, pen, text)) in ways.into_iter().enumerate() {
        progress(&format!("pictures: cutoff {WRITTEN}, {text}"));
        let mut writes = vec![Event::Routing(0xc1), Event::Mode(0x1f)];
        writes.extend(settled(from));
        writes.extend(if again { settled(WRITTEN).to_vec() } else { cutoff(WRITTEN).to_vec() });
        picture.line(&panel, &pen, &filter.gains(&writes)?);
        picture.key(panel.left + 16.0, panel.top + 210.0 + 20.0 * place as f64, 30.0, &pen, text);
    }
    progress_done();
    Ok(())
}

/// A pulse through the low-pass while the cutoff steps, with the displacement and with the high register written again at once.
fn heard_over_the_time(filter: &Filter, picture: &mut Picture) -> Result<(), Box<dyn Error>> {
    const BEFORE: usize = 1_970;
    const AFTER: usize = 5_912;
    const PERIOD: usize = 1_970;
    let panel = Panel {
        title: "A pulse of 500 Hz, cutoff 500 to 600 at 0 ms",
        left: PLACES[0].1,
        top: PLACES[1].1,
        width: 420.0,
        height: 280.0,
        across: Axis::straight("time in ms", -2.0, 6.0, 1.0, 0),
        up: Axis::straight("selected output", 0.1, 0.6, 0.1, 1),
    };
    picture.panel(&panel);
    let swing = f64::from(VOICE_SWING);
    let pulse = |at: usize| voice(if at % PERIOD < PERIOD / 2 { swing } else { -swing });
    let ways = [
        (false, Pen::new(ORANGE, 2.0, ""), "written once: displacement 57"),
        (true, Pen::new("#1a1a1a", 1.6, "5 3"), "high written again: displacement 0"),
    ];
    for (place, (again, pen, text)) in ways.into_iter().enumerate() {
        let mut state = State::start();
        let mut first = vec![Event::Routing(0xc1), Event::Mode(0x1f)];
        first.extend(settled(WRITTEN - STEP));
        first.extend((0..10 * PERIOD).map(pulse));
        let mut wave = filter.run(&mut state, &first)?.split_off(10 * PERIOD - BEFORE);
        let mut then = if again { settled(WRITTEN).to_vec() } else { cutoff(WRITTEN).to_vec() };
        then.extend((0..AFTER).map(pulse));
        wave.extend(filter.run(&mut state, &then)?);
        let milliseconds = |at: usize| (at as f64 - BEFORE as f64) * 1_000.0 / RATE;
        let points: Vec<(f64, f64)> =
            wave.iter().enumerate().step_by(16).map(|(at, sample)| (milliseconds(at), f64::from(sample.selected))).collect();
        picture.line(&panel, &pen, &points);
        picture.key(panel.left + 16.0, panel.top + 20.0 + 20.0 * place as f64, 30.0, &pen, text);
    }
    Ok(())
}
