use crate::bytes::float_at;
use crate::library;
use crate::Refusal;
use std::fmt;

/// The length of a state block in bytes.
pub const STATE_BYTES: usize = 68;
/// The length in bytes of a state block without charges, which [`State::widen`] takes.
pub const NARROW_STATE_BYTES: usize = 24;

/// Where the blends of voices 1 to 3 stand, and the flag of a pulse's gate.
const BLENDS: [usize; 3] = [52, 56, 60];
const PULSE_PENDING: usize = 64;

/// All that a filter remembers between two events, 68 bytes. Two states are the same when their bytes are.
#[derive(Clone, Copy, PartialEq, Eq, Hash)]
pub struct State {
    bytes: [u8; STATE_BYTES],
}

/// What the output node still carries of earlier events, in the units of the emulator's output. A mode write moves the first two; no event
/// moves the others.
#[derive(Clone, Copy, Debug, Default, PartialEq)]
pub struct Charges {
    /// The fast charge that steps of the volume left: 3152.0623 for one from 15 to 0, as much below 0 for one from 0 to 15.
    pub volume_fast: f32,
    /// The slow one, 2777.7222 for the same step.
    pub volume_slow: f32,
    /// The charge of an attack beside the filter.
    pub bypass_attack: f32,
    /// The fast charge of a pulse's gate.
    pub pulse_gate_fast: f32,
    /// The slow one.
    pub pulse_gate_slow: f32,
}

impl State {
    /// The starting value, which a reset gives too: 68 zero bytes.
    pub const fn start() -> State {
        State { bytes: [0; STATE_BYTES] }
    }

    /// A state that was kept as bytes. A run judges it: an invalid block is refused with 10.
    pub const fn from_bytes(bytes: [u8; STATE_BYTES]) -> State {
        State { bytes }
    }

    /// The state of a block of 24 bytes, the first 24 of the 68, as versions before 0.7.0 kept it: nothing is charged, and the conductance
    /// is that of the volume. Anything but 24 bytes with valid fields is refused with 10.
    ///
    /// ```
    /// use sid_filter::{Refusal, State};
    /// assert_eq!(State::widen(&[0; 24]), Ok(State::start()));
    /// assert_eq!(State::widen(&[0; 68]), Err(Refusal::Argument));
    /// ```
    pub fn widen(block: &[u8]) -> Result<State, Refusal> {
        let mut wide = State::start();
        Refusal::check(library::widen_state(block, wide.bytes_mut()))?;
        Ok(wide)
    }

    /// The bytes, to be kept.
    pub const fn as_bytes(&self) -> &[u8; STATE_BYTES] {
        &self.bytes
    }

    pub(crate) fn bytes_mut(&mut self) -> &mut [u8] {
        &mut self.bytes
    }

    /// The written cutoff, 0 to 2,047.
    pub fn cutoff(&self) -> u16 {
        self.half(0)
    }

    /// The displacement that the last high write left, −57 to 57 codes.
    pub fn displacement(&self) -> i16 {
        i16::from_le_bytes([self.bytes[2], self.bytes[3]])
    }

    /// The cutoff before the last low write.
    pub fn write_base(&self) -> u16 {
        self.half(4)
    }

    /// Whether a low write waits for its high write.
    pub fn pending(&self) -> bool {
        self.bytes[6] != 0
    }

    /// The resonance, 0 to 15.
    pub fn resonance(&self) -> u8 {
        self.bytes[7]
    }

    /// The routing: bits 0 to 2 the voices, bit 3 the external input.
    pub fn routing(&self) -> u8 {
        self.bytes[8]
    }

    /// The mode: bit 0 low, bit 1 band, bit 2 high, bit 3 takes voice 3 off the direct path.
    pub fn mode(&self) -> u8 {
        self.bytes[9]
    }

    /// The volume, 0 to 15.
    pub fn volume(&self) -> u8 {
        self.bytes[10]
    }

    /// The band-pass capacitor.
    pub fn band(&self) -> f32 {
        self.float(12)
    }

    /// The low-pass capacitor.
    pub fn low(&self) -> f32 {
        self.float(16)
    }

    /// The energy of the sources, as tracked.
    pub fn source_energy(&self) -> f32 {
        self.float(20)
    }

    /// What earlier events charged.
    pub fn charges(&self) -> Charges {
        Charges {
            volume_fast: self.float(24),
            volume_slow: self.float(28),
            bypass_attack: self.float(32),
            pulse_gate_fast: self.float(36),
            pulse_gate_slow: self.float(40),
        }
    }

    /// The conductance code from which the next mode write steps: that of the volume which the last one wrote.
    pub fn conductance(&self) -> f32 {
        self.float(44)
    }

    /// The activity beside the filter in the clock before.
    pub fn bypass_activity(&self) -> f32 {
        self.float(48)
    }

    /// How far the saw of each voice is bent at the mixer, 0 to 1: what [`collect`](crate::collect) takes.
    pub fn blends(&self) -> [f32; 3] {
        BLENDS.map(|place| self.float(place))
    }

    /// Whether the gate of a pulse has risen.
    pub fn pulse_pending(&self) -> bool {
        self.bytes[PULSE_PENDING] != 0
    }

    /// The gate of a voice rises whose waveform is the pulse alone.
    pub fn mark_pure_pulse_gate_rise(&mut self) {
        self.bytes[PULSE_PENDING] = 1;
    }

    /// The gate of a voice, 0 to 2, rises whose waveform is the saw alone: its blend becomes 0. Panics where there is no such voice.
    pub fn mark_pure_saw_gate_rise(&mut self, voice: usize) {
        self.bytes[BLENDS[voice]..][..4].fill(0);
    }

    fn half(&self, place: usize) -> u16 {
        u16::from_le_bytes([self.bytes[place], self.bytes[place + 1]])
    }

    fn float(&self, place: usize) -> f32 {
        float_at(&self.bytes, place)
    }
}

impl Default for State {
    /// The starting value.
    fn default() -> State {
        State::start()
    }
}

impl fmt::Debug for State {
    fn fmt(&self, f: &mut fmt::Formatter) -> fmt::Result {
        f.debug_struct("State")
            .field("cutoff", &self.cutoff())
            .field("displacement", &self.displacement())
            .field("write_base", &self.write_base())
            .field("pending", &self.pending())
            .field("resonance", &self.resonance())
            .field("routing", &self.routing())
            .field("mode", &self.mode())
            .field("volume", &self.volume())
            .field("band", &self.band())
            .field("low", &self.low())
            .field("source_energy", &self.source_energy())
            .field("charges", &self.charges())
            .field("conductance", &self.conductance())
            .field("bypass_activity", &self.bypass_activity())
            .field("blends", &self.blends())
            .field("pulse_pending", &self.pulse_pending())
            .finish()
    }
}
