use crate::library::{self, PointAnswer};
use crate::{Bundle, Curves, Refusal, State};

/// Where on a curve an amplifier stands.
#[repr(C)]
#[derive(Clone, Copy, Debug, Default, PartialEq)]
pub struct Point {
    /// What the amplifier gives: the curve there, and for the summer what it is above its output at rest.
    pub value: f32,
    /// The lower of the two entries of the curve that the input lies between, 0 to 2,047; the other is the next one.
    pub index: u32,
    /// How far it lies from that entry towards the next: 0 or more and below 1. An input of −0.0 has −0.0 here.
    pub fraction: f32,
}

impl Point {
    /// The input that stands there, 0 to 1: the curve's entries are 1 / 2,047 apart.
    pub fn input(&self) -> f64 {
        (f64::from(self.index) + f64::from(self.fraction)) / 2_047.0
    }

    /// The point of an answer, or its refusal.
    fn of(answered: PointAnswer) -> Result<Point, Refusal> {
        Refusal::check(answered.answer)?;
        Ok(answered.point)
    }
}

/// A curve, 0 to 30, at an input. Refused are curves of another length (4), a number that is no curve's or an input that is not finite
/// (10), and an entry (3).
pub fn sample_curve(curves: &Curves, curve: u32, input: f32) -> Result<Point, Refusal> {
    Point::of(library::sample_curve(curves.as_bytes(), curve, input))
}

/// The summer of a routing nibble, for the sum of the inputs that are routed into the filter. With none routed and a sum of 0 its value
/// is 0, on every bundle, with the curves built from it. Refused are curves of another length (4), a routing above 15 (10), a sum that is
/// not finite (5), and an entry (3).
pub fn summer(bundle: &Bundle, curves: &Curves, routing: u8, input_sum: f32) -> Result<Point, Refusal> {
    Point::of(library::summer(bundle.as_bytes(), curves.as_bytes(), routing, input_sum))
}

/// The mixer of a routing and a mode nibble, for the sum of its inputs: those beside the filter, and the outputs that the mode selects. One
/// without an input stands at rest, whatever the sum. Refused are curves of another length (4), a nibble above 15 or a sum that is not
/// finite (10), and an entry (3).
pub fn mixer(curves: &Curves, routing: u8, mode: u8, input_sum: f32) -> Result<Point, Refusal> {
    Point::of(library::mixer(curves.as_bytes(), routing, mode, input_sum))
}

/// The volume DAC at a volume, for the mixer's output. Refused are curves of another length (4), a volume above 15 or a value that is not
/// finite (10), and an entry (3).
pub fn volume(curves: &Curves, volume: u8, value: f32) -> Result<Point, Refusal> {
    Point::of(library::volume(curves.as_bytes(), volume, value))
}

/// Where the summer stands for a sample of a state; zeros where the sample is idle, which reads no curve. It changes nothing, and it is
/// refused as that sample is: 4, 10, 5, 3 or 6.
///
/// ```
/// use sid_filter::{run, sample_point, Bundle, Curves, Decays, Event, Script, State, VOICE_REST};
///
/// # fn main() -> Result<(), Box<dyn std::error::Error>> {
/// # let path = concat!(env!("CARGO_MANIFEST_DIR"), "/../../data/bundle.bin");
/// let bundle = Bundle::open(std::fs::read(path)?)?;
/// let curves = Curves::build(&bundle)?;
/// let mut state = State::start();
/// run(&bundle, &curves, &mut state, &Decays::EMULATOR, &Script::of(&[Event::Routing(1)])?, &mut [])?;
/// let point = sample_point(&bundle, &curves, &state, VOICE_REST, 0.0)?;
/// assert_eq!(point.index, 821); // of curve 3: voice 1, and the two inputs that are always there
/// # Ok(())
/// # }
/// ```
pub fn sample_point(bundle: &Bundle, curves: &Curves, state: &State, input_sum: f32, source_energy: f32) -> Result<Point, Refusal> {
    Point::of(library::sample_point(bundle.as_bytes(), curves.as_bytes(), state.as_bytes(), input_sum, source_energy))
}
