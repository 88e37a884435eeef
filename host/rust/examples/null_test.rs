//! The null test: bounces the demo song from the top and from bar 40, subtracts, and prints how many bytes differ.
//!
//! 1. From the top, twice side by side: in pieces of 65,536 events, and in pieces of unlike lengths with a cut after every register write.
//!    The state at bar 40, 68 bytes, is kept.
//! 2. As a composer works: two bars are played from the kept state with voice 1 muted and voice 2 pulled out of the filter. They are played
//!    again from there in pieces of unlike lengths.
//! 3. The restart: from the kept state, bar 40 to the end. On the way the song pulls voice 2 out of the filter and puts it back, and plays a
//!    drum through the volume.
//! 4. That the test can fail: the restart with one bit of the kept state changed, and with nothing kept. No sample reads a charge, so where
//!    one is changed the end states tell.
//!
//! Bytes are compared: all four outputs of each sample, and the 68 of the end states. The exit status is 0 only if none differ in 1, 2 and
//! 3, and some in each case of 4.
mod show;
mod song;

use show::{bundle_bytes, grouped, progress, progress_done};
use sid_filter::{run, Bundle, Curves, Decays, Event, Script, State, Stop, CLOCK_HZ, EVENTS_MAX, NARROW_STATE_BYTES, SAMPLE_BYTES};
use song::{Desk, BAR, BARS, PARTS};
use std::error::Error;
use std::process::ExitCode;
use std::time::Instant;

/// The bar at which the composer starts again.
const RESTART: u32 = 40;
/// The desk as the song has it.
const AS_WRITTEN: Desk = Desk { muted: 0, out: 0 };
/// Another desk: voice 1 muted, voice 2 pulled out of the filter.
const ANOTHER: Desk = Desk { muted: 0b001, out: 0b010 };

fn main() -> ExitCode {
    match null_test() {
        Ok(true) => ExitCode::SUCCESS,
        Ok(false) => ExitCode::FAILURE,
        Err(error) => {
            eprintln!("null_test: {error}");
            ExitCode::FAILURE
        }
    }
}

fn null_test() -> Result<bool, Box<dyn Error>> {
    let begun = Instant::now();
    let bundle = Bundle::open(bundle_bytes()?)?;
    let player = Player { curves: Curves::build(&bundle)?, bundle };
    let samples = grouped((BARS * BAR) as usize);
    println!("The demo song: {BARS} bars, {samples} samples at {} Hz, {SAMPLE_BYTES} bytes each.", grouped(CLOCK_HZ as usize));

    // 1. From the top, cut in two ways.
    let (mut whole, mut other) = (State::start(), State::start());
    let (mut kept, mut kept_bytes) = (State::start(), Vec::new());
    let mut unlike = Unlike { number: 1, left: 1 };
    let mut from_top = Difference::default();
    for bar in 1..=BARS {
        progress(&format!("from the top, cut in two ways: bar {bar} of {BARS}"));
        if bar == RESTART {
            kept = whole;
        }
        let first = player.bounce(&mut whole, bar, AS_WRITTEN, &mut Longest)?;
        from_top.add(&first, &player.bounce(&mut other, bar, AS_WRITTEN, &mut unlike)?);
        if bar >= RESTART {
            kept_bytes.push(first);
        }
    }
    progress_done();
    println!("1. From the top in pieces of {} events, less the same in unlike pieces of 1 to {}", grouped(EVENTS_MAX), grouped(UNLIKE_MAX));
    println!("   {from_top}; end states {}", same(whole == other));
    let (first, last) = kept.as_bytes().split_at(NARROW_STATE_BYTES);
    println!("   the state at bar {RESTART} is kept, 68 bytes: {}", hexadecimal(first));
    println!("   with what is charged: {}", hexadecimal(last));

    // 2. Something else in between, from the kept state too, and again.
    let (mut elsewhere, mut again) = (kept, kept);
    let mut another = Difference::default();
    for bar in [RESTART - 2, RESTART - 1] {
        progress(&format!("another desk, cut in two ways: bar {bar}"));
        let first = player.bounce(&mut elsewhere, bar, ANOTHER, &mut Longest)?;
        another.add(&first, &player.bounce(&mut again, bar, ANOTHER, &mut unlike)?);
    }
    progress_done();
    println!("2. Bars {} and {} from that state with voice 1 muted and voice 2 pulled out of the filter,", RESTART - 2, RESTART - 1);
    println!("   less the same in unlike pieces");
    println!("   {another}; end states {}", same(elsewhere == again));

    // 3. The restart, and 4. what it would be otherwise.
    let (restart, end) = player.restart(kept, &kept_bytes)?;
    let (changed, _) = player.restart(flipped(&kept, 16, 1), &kept_bytes)?;
    let (unheard, charged) = player.restart(flipped(&kept, 27, 0x80), &kept_bytes)?;
    let (fresh, _) = player.restart(State::start(), &kept_bytes)?;
    println!("3. From the state kept at bar {RESTART} to the end, less the bounce from the top");
    for part in PARTS.iter().filter(|part| part.first > RESTART) {
        println!("   (bar {}: {})", part.first, part.says);
    }
    println!("   {restart}; end states {}", same(end == whole));
    println!("4. That the test can fail: the same");
    println!("   with one bit of the state changed, the lowest of the low-pass capacitor: {changed}");
    println!("   with the sign of the volume's fast charge changed: {unheard}; end states {}", same(charged == whole));
    println!("   with nothing kept, the starting value: {fresh}");

    let none_differ = [&from_top, &another, &restart].iter().all(|difference| difference.bytes == 0);
    let cancels = none_differ && whole == other && elsewhere == again && whole == end;
    let can_fail = changed.bytes > 0 && charged != whole && fresh.bytes > 0;
    let verdict = if cancels && can_fail { "The bounces cancel to the last bit" } else { "NOT AS PROMISED" };
    println!("{verdict} ({:.1} s).", begun.elapsed().as_secs_f64());
    Ok(cancels && can_fail)
}

/// What every bounce reads.
struct Player {
    bundle: Bundle<'static>,
    curves: Curves,
}

impl Player {
    /// Bounces a bar from and into a state.
    fn bounce(&self, state: &mut State, bar: u32, desk: Desk, cutter: &mut dyn Cutter) -> Result<Vec<u8>, Stop> {
        let mut output = vec![0; BAR as usize * SAMPLE_BYTES];
        let mut written = 0;
        let mut script = Script::new();
        let mut ticks = song::bar(bar, desk).peekable();
        while let Some(tick) = ticks.next() {
            script.push(tick.event).expect("a piece is cut where it is full");
            if ticks.peek().is_none() || cutter.cuts_after(tick.event, script.len()) {
                written +=
                    run(&self.bundle, &self.curves, state, &Decays::EMULATOR, &script, &mut output[written * SAMPLE_BYTES..])?.samples;
                script.clear();
            }
        }
        assert_eq!(written, BAR as usize);
        Ok(output)
    }

    /// Bounces from bar 40 to the end: what differs from the bars given, and the end state.
    fn restart(&self, mut state: State, bars: &[Vec<u8>]) -> Result<(Difference, State), Stop> {
        let mut difference = Difference::default();
        for (bar, first) in (RESTART..).zip(bars) {
            progress(&format!("from bar {RESTART}: bar {bar} of {BARS}"));
            difference.add(first, &self.bounce(&mut state, bar, AS_WRITTEN, &mut Longest)?);
        }
        progress_done();
        Ok((difference, state))
    }
}

/// Says where a script is cut.
trait Cutter {
    /// Whether a piece ends with this event, which makes it so long.
    fn cuts_after(&mut self, event: Event, length: usize) -> bool;
}

/// Pieces as long as they can be.
struct Longest;

impl Cutter for Longest {
    fn cuts_after(&mut self, _: Event, length: usize) -> bool {
        length == EVENTS_MAX
    }
}

/// The longest of the unlike pieces.
const UNLIKE_MAX: usize = 4_096;

/// Pieces of 1 to 4,096 events, by a generator of numbers, and a cut after every register write, so between a low and its high write too.
struct Unlike {
    number: u32,
    left: usize,
}

impl Cutter for Unlike {
    fn cuts_after(&mut self, event: Event, _: usize) -> bool {
        self.left -= 1;
        if event.is_sample() && self.left > 0 {
            return false;
        }
        self.number = self.number.wrapping_mul(1_664_525).wrapping_add(1_013_904_223);
        self.left = 1 + self.number as usize / 65_536 % UNLIKE_MAX;
        true
    }
}

/// How two bounces differ.
#[derive(Default)]
struct Difference {
    compared: usize,
    bytes: usize,
}

impl Difference {
    fn add(&mut self, one: &[u8], other: &[u8]) {
        assert_eq!(one.len(), other.len());
        self.compared += one.len();
        self.bytes += one.iter().zip(other).filter(|(one, other)| one != other).count();
    }
}

impl std::fmt::Display for Difference {
    fn fmt(&self, f: &mut std::fmt::Formatter) -> std::fmt::Result {
        write!(f, "{} of {} bytes differ", grouped(self.bytes), grouped(self.compared))
    }
}

fn same(equal: bool) -> &'static str {
    if equal {
        "equal"
    } else {
        "DIFFER"
    }
}

fn hexadecimal(bytes: &[u8]) -> String {
    bytes.iter().map(|byte| format!("{byte:02x}")).collect()
}

/// A state with some bits of one of its bytes changed.
fn flipped(state: &State, place: usize, bits: u8) -> State {
    let mut bytes = *state.as_bytes();
    bytes[place] ^= bits;
    State::from_bytes(bytes)
}
