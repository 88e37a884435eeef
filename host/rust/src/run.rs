use crate::bytes::float_at;
use crate::library;
use crate::{Bundle, Curves, Decays, Refusal, Script, State};
use std::fmt;

/// The length of a sample's output in bytes.
pub const SAMPLE_BYTES: usize = 16;

/// A run that did all its events.
#[derive(Clone, Copy, Debug, PartialEq, Eq)]
pub struct Done {
    /// The events done: all.
    pub events: usize,
    /// The samples written.
    pub samples: usize,
}

/// A run that was refused at its start or stopped at an event. The samples before the stop are written, the state is the one before the
/// stopped event, and later output bytes are as they were.
#[derive(Clone, Copy, Debug, PartialEq, Eq)]
pub struct Stop {
    /// The cause.
    pub refusal: Refusal,
    /// The events done before it, which is also the place of the stopped event.
    pub events: usize,
    /// The samples written before it.
    pub samples: usize,
}

impl fmt::Display for Stop {
    fn fmt(&self, f: &mut fmt::Formatter) -> fmt::Result {
        let Stop { refusal, events, samples } = self;
        write!(f, "stopped after {events} events, {samples} samples: {}, {refusal}", refusal.number())
    }
}

impl std::error::Error for Stop {
    fn source(&self) -> Option<&(dyn std::error::Error + 'static)> {
        Some(&self.refusal)
    }
}

/// What a sample gives. [Units](crate#units) has more about the numbers.
#[repr(C)]
#[derive(Clone, Copy, Debug, Default, PartialEq)]
pub struct Sample {
    /// The high-pass output; it rests at 0.
    pub high: f32,
    /// The band-pass output; it rests at 0.
    pub band: f32,
    /// The low-pass output. It rests at 0 with nothing routed, and at −0.046 to −0.136 with one to four silent inputs.
    pub low: f32,
    /// The outputs that the mode selects, added up about [`MODE_REST`](crate::MODE_REST) each, band with its sign turned, with the mode's
    /// gain. 0 with none selected.
    pub selected: f32,
}

impl Sample {
    /// Reads a sample of an output.
    pub fn from_bytes(bytes: &[u8; SAMPLE_BYTES]) -> Sample {
        Sample { high: float_at(bytes, 0), band: float_at(bytes, 4), low: float_at(bytes, 8), selected: float_at(bytes, 12) }
    }
}

/// The samples of an output, one for each 16 bytes.
pub fn samples(output: &[u8]) -> impl ExactSizeIterator<Item = Sample> + '_ {
    output.chunks_exact(SAMPLE_BYTES).map(|chunk| {
        let mut bytes = [0; SAMPLE_BYTES];
        bytes.copy_from_slice(chunk);
        Sample::from_bytes(&bytes)
    })
}

/// Runs a script from and into a state, and writes 16 bytes a sample to the front of the output. Later bytes stay as they were.
///
/// Refused before the first event are curves of another length (4), an invalid state (10), an output shorter than
/// [`Script::output_bytes`] (8), and entries (3) or controls (6) that the state leads to; at an event a sum or energy that is not finite
/// (5), an entry (3) and a number that would not be finite (6), a charge of a mode write among them. Pieces of a script go with the same
/// decays.
///
/// A call of one sample takes 190 to 215 ns. A sample takes 80 ns in blocks of 16, 75 ns in blocks of 64, and 73 ns in blocks of 1,024 or
/// more. This is one voice, a sine in a low-pass, with the scripts built before: the best of 200 rounds of the example `cost`, in five
/// sittings on an AMD EPYC that others used at the same time.
pub fn run(bundle: &Bundle, curves: &Curves, state: &mut State, decays: &Decays, script: &Script, output: &mut [u8]) -> Result<Done, Stop> {
    run_bytes(bundle, curves, state, decays, script.as_bytes(), output)
}

/// Runs a script as [`run`] does, and writes samples in place of bytes. Nothing is copied or allocated. Fewer samples than
/// [`Script::samples`] are refused with 8.
pub fn run_samples(
    bundle: &Bundle,
    curves: &Curves,
    state: &mut State,
    decays: &Decays,
    script: &Script,
    samples: &mut [Sample],
) -> Result<Done, Stop> {
    run(bundle, curves, state, decays, script, library::bytes_of(samples))
}

/// Runs a script that was kept as bytes. Bytes that are no script are refused with 7, after the state and before the output.
pub fn run_bytes(
    bundle: &Bundle,
    curves: &Curves,
    state: &mut State,
    decays: &Decays,
    script: &[u8],
    output: &mut [u8],
) -> Result<Done, Stop> {
    let answer = library::run(bundle.as_bytes(), curves.as_bytes(), state.bytes_mut(), &decays.to_bytes(), script, output);
    let (events, samples) = (answer.events as usize, answer.samples as usize);
    match Refusal::check(answer) {
        Ok(()) => Ok(Done { events, samples }),
        Err(refusal) => Err(Stop { refusal, events, samples }),
    }
}
