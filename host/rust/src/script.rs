use std::fmt;

/// The length of a script's header in bytes.
pub const SCRIPT_HEADER_BYTES: usize = 8;
/// The length of an event in bytes.
pub const EVENT_BYTES: usize = 12;
/// The most events of a script.
pub const EVENTS_MAX: usize = 65_536;

/// What happens to the filter: a register write, a sample or a reset.
#[derive(Clone, Copy, Debug, PartialEq)]
pub enum Event {
    /// Register 21: bits 0 to 2 become the cutoff's lowest three.
    CutoffLow(u8),
    /// Register 22: the cutoff's upper eight bits.
    CutoffHigh(u8),
    /// Register 23: resonance in the high nibble, routing in the low one: bits 0 to 2 voices 1 to 3, bit 3 the external input.
    Routing(u8),
    /// Register 24: mode in the high nibble, volume in the low one. The volume and bit 7, voice 3 off, change no sample: they act behind
    /// the filter. A step of the volume changes the state's [`Charges`](crate::Charges).
    Mode(u8),
    /// One sample, which is one clock of the chip.
    Sample {
        /// The sum of the levels of the inputs that are routed into the filter; 0 with none. A silent voice adds its
        /// [`VOICE_REST`](crate::VOICE_REST).
        input_sum: f32,
        /// The sum of (level − [`VOICE_REST`](crate::VOICE_REST)) squared over the same inputs.
        source_energy: f32,
    },
    /// The state becomes the starting value.
    Reset,
}

impl Event {
    /// The event as a script has it.
    pub fn to_bytes(self) -> [u8; EVENT_BYTES] {
        let mut bytes = [0; EVENT_BYTES];
        (bytes[0], bytes[1]) = match self {
            Event::CutoffLow(value) => (0, value),
            Event::CutoffHigh(value) => (1, value),
            Event::Routing(value) => (2, value),
            Event::Mode(value) => (3, value),
            Event::Sample { .. } => (4, 0),
            Event::Reset => (5, 0),
        };
        if let Event::Sample { input_sum, source_energy } = self {
            bytes[4..8].copy_from_slice(&input_sum.to_le_bytes());
            bytes[8..].copy_from_slice(&source_energy.to_le_bytes());
        }
        bytes
    }

    /// Whether the event is a sample.
    pub fn is_sample(self) -> bool {
        matches!(self, Event::Sample { .. })
    }
}

/// The script has 65,536 events already; the event was not added.
#[derive(Clone, Copy, Debug, PartialEq, Eq)]
pub struct Full;

impl fmt::Display for Full {
    fn fmt(&self, f: &mut fmt::Formatter) -> fmt::Result {
        f.write_str("a script has at most 65,536 events")
    }
}

impl std::error::Error for Full {}

/// Events as a run reads them: always well-formed, at most 65,536. Longer lists go in [`pieces`].
#[derive(Clone, Debug, PartialEq, Eq)]
pub struct Script {
    bytes: Vec<u8>,
    events: usize,
    samples: usize,
}

impl Script {
    /// A script of no event.
    pub fn new() -> Script {
        let mut script = Script { bytes: Vec::new(), events: 0, samples: 0 };
        script.clear();
        script
    }

    /// A script of these events, if they are not too many.
    pub fn of(events: &[Event]) -> Result<Script, Full> {
        let mut script = Script::new();
        for event in events {
            script.push(*event)?;
        }
        Ok(script)
    }

    /// Adds an event at the end.
    pub fn push(&mut self, event: Event) -> Result<(), Full> {
        if self.events == EVENTS_MAX {
            return Err(Full);
        }
        self.bytes.extend_from_slice(&event.to_bytes());
        self.events += 1;
        self.samples += usize::from(event.is_sample());
        self.bytes[..4].copy_from_slice(&(self.events as u32).to_le_bytes());
        Ok(())
    }

    /// Takes all events out, and keeps the room.
    pub fn clear(&mut self) {
        self.bytes.clear();
        self.bytes.extend_from_slice(&[0, 0, 0, 0, SCRIPT_HEADER_BYTES as u8, 0, 0, 0]);
        self.events = 0;
        self.samples = 0;
    }

    /// How many events it has.
    pub fn len(&self) -> usize {
        self.events
    }

    /// Whether it has none.
    pub fn is_empty(&self) -> bool {
        self.events == 0
    }

    /// How many of its events are samples.
    pub fn samples(&self) -> usize {
        self.samples
    }

    /// The output that a run of it needs, in bytes.
    pub fn output_bytes(&self) -> usize {
        self.samples * crate::SAMPLE_BYTES
    }

    /// The bytes: the count, the offset 8, then the events.
    pub fn as_bytes(&self) -> &[u8] {
        &self.bytes
    }
}

impl Default for Script {
    /// A script of no event.
    fn default() -> Script {
        Script::new()
    }
}

/// Cuts a list of events into scripts of at most 65,536 events.
///
/// ```
/// use sid_filter::{pieces, Event};
/// let events = std::iter::repeat(Event::Sample { input_sum: 0.45, source_energy: 0.0 }).take(100_000);
/// let lengths: Vec<usize> = pieces(events).map(|script| script.len()).collect();
/// assert_eq!(lengths, [65_536, 34_464]);
/// ```
pub fn pieces<I: IntoIterator<Item = Event>>(events: I) -> Pieces<I::IntoIter> {
    Pieces { events: events.into_iter() }
}

/// The scripts that [`pieces`] gives.
#[derive(Clone, Debug)]
pub struct Pieces<I> {
    events: I,
}

impl<I: Iterator<Item = Event>> Iterator for Pieces<I> {
    type Item = Script;

    fn next(&mut self) -> Option<Script> {
        let mut script = Script::new();
        for event in self.events.by_ref().take(EVENTS_MAX) {
            script.push(event).expect("no more events are taken than a script has room for");
        }
        (!script.is_empty()).then_some(script)
    }
}
