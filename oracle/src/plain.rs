//! The plain machine and the table of refusals of docs/FORMATS.md, with the Rust's operations: it holds a state block and nothing
//! more, reads what the Rust has in tables from the bytes that are lent, and works topology and controls out afresh in every event.

use crate::answer::Answer;
use crate::constants::*;
use crate::control::FilterRegisters;
use crate::dac::VoiceSignal;
use crate::integrator::IntegratorState;
use crate::kept::block;
use crate::mixing::MixingTopology;
use crate::response::*;
use crate::tables::AnalogueTransferSurface;
use crate::voices::voices_of;

pub const BUNDLE_LENGTH: usize = 6_127_736;
pub const CURVES_LENGTH: usize = 254_076;

/// Byte offset and entry count of the six sections.
const SECTIONS: [(u32, u32); 6] =
    [(56, 524_288), (2_097_208, 16), (2_097_272, 2_048), (2_105_464, 296_960), (3_293_304, 2_048), (3_301_496, 706_560)];

/// Number, buffer and place of a refusal.
pub type Refusal = (u32, u32, u32);

fn number(number: u32) -> Refusal {
    (number, 0, 0)
}

fn f32_at(bytes: &[u8], place: usize) -> f32 {
    f32::from_le_bytes(bytes[place..place + 4].try_into().unwrap())
}

fn u32_at(bytes: &[u8], place: usize) -> u32 {
    u32::from_le_bytes(bytes[place..place + 4].try_into().unwrap())
}

// ---- what is judged before the start

/// 1 and 2.
fn check_bundle(bundle: &[u8]) -> Result<(), Refusal> {
    if bundle.len() != BUNDLE_LENGTH {
        return Err(number(1));
    }
    let words = [BUNDLE_LENGTH as u32, 6].into_iter().chain(SECTIONS.into_iter().flat_map(|(offset, count)| [offset, count]));
    let header: Vec<u8> = words.flat_map(u32::to_le_bytes).collect();
    match (0..56).find(|&place| bundle[place] != header[place]) {
        Some(place) => Err((2, 0, place as u32)),
        None => Ok(()),
    }
}

/// The registers of a block; 10 where one is out of its range.
fn registers_of(block: &[u8; 68]) -> Result<FilterRegisters, Refusal> {
    let [c0, c1, d0, d1, b0, b1, pending, resonance, routing, mode, volume, zero, ..] = *block;
    if pending > 1 || zero != 0 || [resonance, routing, mode, volume].iter().any(|&nibble| nibble > 15) {
        return Err(number(10));
    }
    let registers = FilterRegisters {
        cutoff: u16::from_le_bytes([c0, c1]),
        cutoff_dac_displacement_codes: i16::from_le_bytes([d0, d1]),
        cutoff_write_base: u16::from_le_bytes([b0, b1]),
        cutoff_low_pending: pending == 1,
        resonance,
        routing,
        mode,
        volume,
    };
    let codes = registers.cutoff.max(registers.cutoff_write_base);
    if codes > 2047 || !(-57..=57).contains(&registers.cutoff_dac_displacement_codes) {
        return Err(number(10));
    }
    Ok(registers)
}

/// The state of a valid block; 10 for any other.
pub fn decode(block: &[u8]) -> Result<State, Refusal> {
    let Ok(block) = <&[u8; 68]>::try_from(block) else { return Err(number(10)) };
    let registers = registers_of(block)?;
    let floats = [12, 16, 20].map(|place| f32_at(block, place));
    let transients = std::array::from_fn(|index| f32_at(block, 24 + 4 * index));
    let pulse_pending = match block[64..] {
        [pending @ 0..=1, 0, 0, 0] => pending == 1,
        _ => return Err(number(10)),
    };
    if floats.iter().chain(&transients).all(|x| x.is_finite()) {
        Ok(State { registers, floats, transients, pulse_pending })
    } else {
        Err(number(10))
    }
}

/// Six numbers from 0 to 1, -0.0 among them; 12 for anything else.
pub fn check_decays(decays: &[u8]) -> Result<(), Refusal> {
    if decays.len() == 24 && decays.chunks_exact(4).all(|bits| (0.0..=1.0).contains(&f32_at(bits, 0))) {
        Ok(())
    } else {
        Err(number(12))
    }
}

/// Raw, filter and mixer level of the external input, three finite numbers; 11 for anything else.
pub fn check_levels(levels: &[u8]) -> Result<[f32; 3], Refusal> {
    let Ok(bytes) = <&[u8; 12]>::try_from(levels) else { return Err(number(11)) };
    let levels = [0, 4, 8].map(|place| f32_at(bytes, place));
    if levels.iter().all(|x| x.is_finite()) {
        Ok(levels)
    } else {
        Err(number(11))
    }
}

/// Three valid voices; 11 for anything else.
pub fn check_voices(voices: &[u8]) -> Result<[VoiceSignal; 3], Refusal> {
    let Ok(bytes) = <&[u8; 36]>::try_from(voices) else { return Err(number(11)) };
    let valid = |voice: &[u8]| {
        let finite = f32_at(voice, 0).is_finite() && f32_at(voice, 4).is_finite();
        finite && voice[8] <= 15 && voice[9] <= 1 && voice[10] <= 1 && voice[11] == 0
    };
    if bytes.chunks_exact(12).all(valid) {
        Ok(voices_of(bytes))
    } else {
        Err(number(11))
    }
}

/// The events of a readable script, 12 bytes each; 7 for any other.
pub fn check_script(script: &[u8]) -> Result<std::slice::ChunksExact<'_, u8>, Refusal> {
    if script.len() < 8 || u32_at(script, 4) != 8 || u32_at(script, 0) > 65_536 || script.len() != 8 + 12 * u32_at(script, 0) as usize {
        return Err(number(7));
    }
    let events = script[8..].chunks_exact(12);
    if events.clone().any(|event| event[0] > 5 || event[2] != 0 || event[3] != 0) {
        return Err(number(7));
    }
    Ok(events)
}

// ---- the machine

/// The transients are the ten floats of the block from byte 24 on.
pub struct State {
    pub registers: FilterRegisters,
    pub floats: [f32; 3],
    pub transients: [f32; 10],
    pub pulse_pending: bool,
}

impl State {
    fn start() -> Self {
        State { registers: FilterRegisters::new(), floats: [0.0; 3], transients: [0.0; 10], pulse_pending: false }
    }

    fn encode(&self) -> [u8; 68] {
        let mut bytes = block(&self.registers, self.floats.map(f32::to_bits));
        bytes[24..64].copy_from_slice(self.transients.map(f32::to_le_bytes).as_flattened());
        bytes[64] = self.pulse_pending.into();
        bytes
    }

    /// The part of `write_mode_and_volume` that charges: the step of the conductance goes onto fast and slow, and the new code is kept.
    fn charge(&mut self, volume: u8) {
        let [fast, slow, _, _, _, code, ..] = &mut self.transients;
        let next = volume_dac_conductance_code(volume);
        let step = (*code - next) / volume_dac_conductance_code(15);
        *fast += step * SID_VOLUME_TRANSITION_FAST_CHARGE_FULL_SCALE;
        *slow += step * SID_VOLUME_TRANSITION_SLOW_CHARGE_FULL_SCALE;
        *code = next;
    }
}

pub fn topology_of(state: &State) -> MixingTopology {
    let mut topology = MixingTopology::new();
    topology.update(state.registers.routing, state.registers.mode);
    topology
}

/// Nothing is routed, and the three numbers are zeros of either sign.
fn is_idle(topology: &MixingTopology, state: &State) -> bool {
    topology.filter_input_count == 0 && state.floats == [0.0; 3]
}

/// What is lent to be read, and every place that was, in order: buffer and byte.
pub struct Machine<'a> {
    bundle: &'a [u8],
    curves: &'a [u8],
    pub read: Option<Vec<(u32, usize)>>,
}

/// What of the control cache a sample reads.
struct Controls {
    gain: [f32; 16],
    damping: f32,
    modulation: f32,
    high_coupling: f32,
    band_coupling: f32,
    feedback_scale: f32,
    modulation_scale: f32,
    resonance_gain: f32,
    mode_gain: f32,
}

impl<'a> Machine<'a> {
    pub fn new(bundle: &'a [u8], curves: &'a [u8]) -> Self {
        Machine { bundle, curves, read: None }
    }

    /// An entry that is read: 3 where it is not usable.
    fn entry(&mut self, buffer: u32, place: usize) -> Result<f32, Refusal> {
        if let Some(read) = &mut self.read {
            read.push((buffer, place));
        }
        let value = f32_at(if buffer == 0 { self.bundle } else { self.curves }, place);
        if value.is_finite() && value.abs() <= 1024.0 {
            Ok(value)
        } else {
            Err((3, buffer, place as u32))
        }
    }

    fn section(&mut self, section: usize, index: usize) -> Result<f32, Refusal> {
        self.entry(0, SECTIONS[section].0 as usize + 4 * index)
    }

    /// `refresh_filter_controls` and `refresh_mode_output_gain`. What `refresh_register_output_state` works out is finite for every state;
    /// no sample reads it, and a tick works it out where it does.
    fn controls(&mut self, registers: &FilterRegisters) -> Result<Controls, Refusal> {
        let effective = (i32::from(registers.cutoff) + i32::from(registers.cutoff_dac_displacement_codes)).clamp(0, 2047) as u16;
        let (code, resonance) = (usize::from(effective), usize::from(registers.resonance));
        let mut gain = [0.0; 16];
        for (bin, gain) in gain.iter_mut().enumerate() {
            *gain = self.section(0, (code * 16 + resonance) * 16 + bin)?;
        }
        let damping = self.section(1, resonance)?;
        let modulation = self.section(2, code)?;
        let mode_gain = self.mode_gain(registers, effective)?;

        let position = f32::from(effective);
        let square = position * position;
        let resonance_position = resonance as f32 / 15.0;
        let lift_position = ((resonance_position - 8.0 / 15.0) / (7.0 / 15.0)).clamp(0.0, 1.0);
        let controls = Controls {
            gain,
            damping,
            modulation,
            high_coupling: FILTER_HIGHPASS_LOW_COUPLING_ZERO / (1.0 + position / FILTER_HIGHPASS_LOW_COUPLING_DECAY),
            band_coupling: FILTER_BANDPASS_LOW_COUPLING_MAX * square
                / (square + FILTER_BANDPASS_LOW_COUPLING_KNEE * FILTER_BANDPASS_LOW_COUPLING_KNEE),
            feedback_scale: 0.78 + 0.30 * resonance_position,
            modulation_scale: FILTER_SOURCE_RESONANCE_FLOOR
                + (1.0 - FILTER_SOURCE_RESONANCE_FLOOR) * resonance_position * resonance_position,
            resonance_gain: 1.0 + SID_RESONANCE_OUTPUT_LIFT * lift_position * lift_position,
            mode_gain,
        };
        let numbers = [controls.high_coupling, controls.band_coupling, controls.resonance_gain, controls.mode_gain];
        if numbers.iter().all(|x| x.is_finite()) {
            Ok(controls)
        } else {
            Err(number(6))
        }
    }

    fn mode_gain(&mut self, registers: &FilterRegisters, effective: u16) -> Result<f32, Refusal> {
        let (mode, resonance) = (registers.mode & 7, usize::from(registers.resonance));
        let base = match mode {
            4 => highpass_gain(resonance, effective, self.section(4, usize::from(effective))?),
            _ => filter_mode_output_gain(mode, resonance, effective),
        };
        let index = match mode {
            1 => 0,
            2 => 1,
            4 => 2,
            _ => return Ok(base),
        };
        let (cutoff, displacement) = (registers.cutoff, registers.cutoff_dac_displacement_codes);
        let power = self.section(5, (index * 2048 + usize::from(cutoff)) * 115 + (displacement + 57) as usize)?;
        Ok(base * (at_cutoff(&FILTER_SYMMETRIC_LOADING_GAIN[index], cutoff) * power))
    }

    /// `sample_curve` of a curve in the buffer.
    fn curve(&mut self, curve: usize, input: f32) -> Result<f32, Refusal> {
        let position = input.clamp(0.0, 1.0) * 2047.0;
        let lower = position as usize;
        let left = self.entry(1, 4 * (2049 * curve + lower))?;
        let right = self.entry(1, 4 * (2049 * curve + lower + 1))?;
        Ok(left + (right - left) * (position - lower as f32))
    }

    /// `summer_resting_output` by `sample` on the surface.
    fn resting(&mut self, count: usize) -> Result<f32, Refusal> {
        let (lower_base, upper_base, load) = AnalogueTransferSurface::load_position(count as f32).parts();
        let position = filter_mode_quiescent_level().clamp(0.0, 1.0) * 2047.0;
        let lower = position as usize;
        let (upper, fraction) = ((lower + 1).min(2047), position - lower as f32);
        let lower_left = self.section(3, lower_base + lower)?;
        let lower_right = self.section(3, lower_base + upper)?;
        let upper_left = self.section(3, upper_base + lower)?;
        let upper_right = self.section(3, upper_base + upper)?;
        let lower_value = lower_left + (lower_right - lower_left) * fraction;
        let upper_value = upper_left + (upper_right - upper_left) * fraction;
        Ok(lower_value + (upper_value - lower_value) * load)
    }

    /// `summer_transfer`.
    fn summer(&mut self, topology: &MixingTopology, sum: f32) -> Result<f32, Refusal> {
        let count = 2 + topology.filter_input_count;
        let average = (sum + 2.0 * filter_mode_quiescent_level()) * topology.summer_input_reciprocal;
        Ok(self.curve(count, average)? - self.resting(count)?)
    }

    /// A sample: the four outputs and the floats after them.
    fn sample(&mut self, state: &State, sum: f32, energy: f32) -> Result<([f32; 4], [f32; 3]), Refusal> {
        if !(sum.is_finite() && energy.is_finite()) {
            return Err(number(5));
        }
        let controls = self.controls(&state.registers)?;
        self.core(state, &controls, sum, energy)
    }

    /// `advance_filter_core`, then `select_filter_output`.
    fn core(&mut self, state: &State, controls: &Controls, sum: f32, energy: f32) -> Result<([f32; 4], [f32; 3]), Refusal> {
        let (registers, topology) = (&state.registers, topology_of(state));
        let [band_state, low_state, tracked] = state.floats;
        if is_idle(&topology, state) {
            let selected = select(controls, &topology, registers.mode, [0.0; 3]);
            return if selected.is_finite() { Ok(([0.0, 0.0, 0.0, selected], state.floats)) } else { Err(number(6)) };
        }
        let fed = if topology.filter_input_count > 0 { energy * topology.filter_input_reciprocal } else { energy };
        let tracked = tracked + FILTER_SOURCE_ENERGY_TRACKING * (fed - tracked);

        let input = self.summer(&topology, sum)? * FILTER_INPUT_GAIN;
        let (lower, upper, fraction) = operating_position(input, band_state, low_state);
        let between = |at: &dyn Fn(usize) -> f32| at(lower) + (at(upper) - at(lower)) * fraction;
        let feedback_drive = between(&|bin| 0.48 + 1.62 * (bin as f32 / 15.0)) * controls.feedback_scale;
        let input_drive = between(&|bin| 0.72 + 0.88 * (bin as f32 / 15.0));
        let shift = controls.modulation * (tracked / (tracked + FILTER_SOURCE_ENERGY_KNEE)) * controls.modulation_scale;
        let g = between(&|bin| controls.gain[bin]) + shift;
        let a1 = 1.0 / (1.0 + g * (g + controls.damping));
        let (a2, a3) = (g * a1, g * g * a1);
        let driven = IntegratorState::saturate(input, input_drive);

        let mut integrator = IntegratorState { band_state, low_state, filter_source_energy: tracked };
        let mut outputs = [0.0; 3];
        for _ in 0..4 {
            let step = integrator.advance(driven, controls.damping, feedback_drive, a1, a2, a3);
            outputs = [step.high_pass, step.band_pass, step.low_pass];
            let floats = [integrator.band_state, integrator.low_state, tracked];
            if !outputs.iter().chain(&floats).all(|x| x.is_finite()) {
                return Err(number(6));
            }
        }
        let selected = select(controls, &topology, registers.mode, outputs);
        if !selected.is_finite() {
            return Err(number(6));
        }
        let [high, band, low] = outputs;
        Ok(([high, band, low, selected], [integrator.band_state, integrator.low_state, tracked]))
    }

    /// What a sample of a block's state feeds the filter, and nothing where it is idle. The order is 1, 2, 4, 10, then as a sample.
    pub fn fed(&mut self, bytes: &[u8], sum: f32, energy: f32) -> Result<Option<f32>, Refusal> {
        check_bundle(self.bundle)?;
        if self.curves.len() != CURVES_LENGTH {
            return Err(number(4));
        }
        let state = decode(bytes)?;
        self.sample(&state, sum, energy)?;
        let topology = topology_of(&state);
        match is_idle(&topology, &state) {
            true => Ok(None),
            false => self.summer(&topology, sum).map(Some),
        }
    }

    /// One event, which alters the state or is refused: what it writes.
    fn step(&mut self, state: &mut State, event: &[u8]) -> Result<Option<[f32; 4]>, Refusal> {
        let (kind, value) = (event[0], event[1]);
        if kind == 4 {
            let (outputs, floats) = self.sample(state, f32_at(event, 4), f32_at(event, 8))?;
            state.floats = floats;
            return Ok(Some(outputs));
        }
        let mut next = State { registers: FilterRegisters { ..state.registers }, ..*state };
        let registers = &mut next.registers;
        match kind {
            0 => {
                registers.cutoff_write_base = registers.cutoff;
                registers.cutoff_low_pending = true;
                registers.cutoff = registers.cutoff / 8 * 8 + u16::from(value % 8);
            }
            1 => {
                let from = if registers.cutoff_low_pending { registers.cutoff_write_base } else { registers.cutoff };
                registers.cutoff = u16::from(value) * 8 + registers.cutoff % 8;
                let step = f32::from(registers.cutoff) - f32::from(from);
                registers.cutoff_dac_displacement_codes = ((step * 0.8592).round() as i16).clamp(-57, 57);
                registers.cutoff_low_pending = false;
            }
            2 => (registers.resonance, registers.routing) = (value / 16, value % 16),
            3 => {
                (registers.mode, registers.volume) = (value / 16, value % 16);
                next.charge(value % 16);
            }
            _ => next = State::start(),
        }
        self.controls(&next.registers)?;
        if !next.transients.iter().all(|x| x.is_finite()) {
            return Err(number(6));
        }
        *state = next;
        Ok(None)
    }

    /// A run: the order is 1, 2, 4, 10, 12, 7, 8, the start's controls, then event by event. No event reads the decays.
    pub fn run(&mut self, bytes: &mut [u8], decays: &[u8], script: &[u8], output: &mut [u8]) -> Answer {
        let answer = |(number, buffer, place): Refusal, events, samples| Answer { number, events, samples, buffer, place };
        let started = check_bundle(self.bundle).and_then(|()| {
            if self.curves.len() != CURVES_LENGTH {
                return Err(number(4));
            }
            let state = decode(bytes)?;
            check_decays(decays)?;
            let events = check_script(script)?;
            if output.len() < 16 * events.clone().filter(|event| event[0] == 4).count() {
                return Err(number(8));
            }
            self.controls(&state.registers)?;
            Ok((state, events))
        });
        let (mut state, events) = match started {
            Ok(started) => started,
            Err(refusal) => return answer(refusal, 0, 0),
        };
        let (mut done, mut samples, mut end) = (0, 0, number(0));
        for event in events {
            match self.step(&mut state, event) {
                Ok(None) => {}
                Ok(Some(outputs)) => {
                    let row = &mut output[16 * samples as usize..16 * samples as usize + 16];
                    row.copy_from_slice(outputs.map(f32::to_le_bytes).as_flattened());
                    samples += 1;
                }
                Err(refusal) => {
                    end = refusal;
                    break;
                }
            }
            done += 1;
        }
        bytes.copy_from_slice(&state.encode());
        answer(end, done, samples)
    }
}

// ---- a tick

/// What is lent to a tick beside bundle and curves, each as bytes.
#[derive(Clone, Copy)]
pub struct TickLent<'a> {
    pub decays: &'a [u8],
    pub levels: &'a [u8],
    pub voices: &'a [u8],
}

/// The same, judged. The first five decays are the charges', the last is the tracking of the blends.
struct Sources {
    decays: [f32; 6],
    levels: [f32; 3],
    voices: [VoiceSignal; 3],
}

impl Machine<'_> {
    /// One tick on a block, and the four numbers that it writes: the order is 1, 2, 4, 10, 12, 11, the controls, then stage by stage. What is
    /// refused leaves both as they were.
    pub fn tick(&mut self, bytes: &mut [u8], lent: TickLent, output: &mut [u8]) -> Refusal {
        match self.ticked(bytes, lent, output.len()) {
            Ok((numbers, state)) => {
                bytes.copy_from_slice(&state.encode());
                output.copy_from_slice(numbers.map(f32::to_le_bytes).as_flattened());
                number(0)
            }
            Err(refusal) => refusal,
        }
    }

    fn ticked(&mut self, bytes: &[u8], lent: TickLent, room: usize) -> Result<([f32; 4], State), Refusal> {
        check_bundle(self.bundle)?;
        if self.curves.len() != CURVES_LENGTH {
            return Err(number(4));
        }
        let mut state = decode(bytes)?;
        if room != 16 {
            return Err(number(10));
        }
        check_decays(lent.decays)?;
        let decays = std::array::from_fn(|index| f32_at(lent.decays, 4 * index));
        let sources = Sources { decays, levels: check_levels(lent.levels)?, voices: check_voices(lent.voices)? };
        let controls = self.controls(&state.registers)?;
        let numbers = self.clocked(&mut state, &controls, &sources)?;
        Ok((numbers, state))
    }

    /// `clock` up to the argument of the output stage: blends and sums; core and selection; the rest.
    fn clocked(&mut self, state: &mut State, controls: &Controls, sources: &Sources) -> Result<[f32; 4], Refusal> {
        blend(state, sources);
        let sums = collect(state, sources);
        if !sums.iter().all(|x| x.is_finite()) {
            return Err(number(6));
        }
        let ([.., selected], floats) = self.core(state, controls, sums[0], sums[1])?;
        state.floats = floats;
        let mixed = self.mixed(state, sources, &sums, selected)?;
        let volume_output = match frozen_point(&state.registers, &sources.voices) {
            Some(point) => point,
            None => self.curve(15 + usize::from(state.registers.volume), mixed)?,
        };
        attack(state, &sums);
        pulse(state, &sums);
        let stage = stage(state, sources, &sums, volume_output);
        let [fast, slow, _, pulse_fast, pulse_slow, ..] = state.transients;
        let numbers = [stage, fast + slow + pulse_fast - pulse_slow, mixed, selected];
        for (charge, decay) in state.transients.iter_mut().zip(&sources.decays[..5]) {
            *charge *= decay;
        }
        if numbers.iter().chain(&state.floats).chain(&state.transients).all(|x| x.is_finite()) {
            Ok(numbers)
        } else {
            Err(number(6))
        }
    }

    /// What leaves the mixer: its curve, which is read with no input too, and about the quiescent level the gain of what is beside the filter.
    fn mixed(&mut self, state: &State, sources: &Sources, sums: &[f32; 8], selected: f32) -> Result<f32, Refusal> {
        let (topology, quiescent) = (topology_of(state), filter_mode_quiescent_level());
        let average = match topology.mixer_input_count {
            0 => quiescent,
            count => (sums[3] + selected) * (1.0 / count as f32),
        };
        let raw = self.curve(7 + topology.mixer_input_count, average)?;
        let no_voice_beside = (0..3).all(|index| !is_beside(&state.registers, index));
        if no_voice_beside && sources.levels[0] == 0.0 {
            return Ok(raw);
        }
        let [two, three] = activities(sums[4]);
        let gain = 1.0 - SID_MIXER_TWO_VOICE_ACTIVITY_LOAD * two + SID_MIXER_THREE_VOICE_ACTIVITY_LIFT * three;
        let offset = SID_MIXER_TWO_VOICE_VOLUME_GAIN_AT_CODE_9 - 1.0
            + SID_MIXER_TWO_VOICE_VOLUME_GAIN_PER_CODE * (f32::from(state.registers.volume) - 9.0);
        Ok(quiescent + (raw - quiescent) * gain * (1.0 + two * offset))
    }
}

/// Each blend goes towards 1 where its voice is a saw above 0.02, else towards 0, wherever the voice is routed.
fn blend(state: &mut State, sources: &Sources) {
    for (blend, voice) in state.transients[7..].iter_mut().zip(&sources.voices) {
        let target = if voice.waveform_selection == 2 && voice.envelope > 0.02 { 1.0 } else { 0.0 };
        *blend += sources.decays[5] * (target - *blend);
    }
}

fn is_filtered(registers: &FilterRegisters, index: usize) -> bool {
    registers.routing >> index & 1 == 1
}

/// Beside the filter, and so at the mixer: what is not filtered, but for voice 3 that is off.
fn is_beside(registers: &FilterRegisters, index: usize) -> bool {
    !is_filtered(registers, index) && !(index == 2 && registers.mode >= 8)
}

/// The eight sums: voice 1, 2, 3 in turn, then the external input.
fn collect(state: &State, sources: &Sources) -> [f32; 8] {
    let rest = normalise_voltage(SID_VOICE_BASE_VOLTS);
    let mut sums = [0.0; 8];
    for (index, voice) in sources.voices.iter().enumerate() {
        if is_filtered(&state.registers, index) {
            add_filtered(&mut sums, voice, rest);
        } else if is_beside(&state.registers, index) {
            add_beside(&mut sums, voice, state.transients[7 + index], rest);
        }
    }
    let [raw, filter_level, mixer_level] = sources.levels;
    if is_filtered(&state.registers, 3) {
        sums[0] += filter_level;
        sums[1] += (filter_level - rest) * (filter_level - rest);
    } else {
        sums[3] += mixer_level;
        sums[4] += raw.abs();
    }
    sums
}

/// A voice into the filter: level, energy, activity.
fn add_filtered(sums: &mut [f32; 8], voice: &VoiceSignal, rest: f32) {
    let (wave, envelope) = (voice.waveform, voice.envelope);
    if envelope == 0.0 {
        sums[0] += rest;
        return;
    }
    let volts = SID_VOICE_BASE_VOLTS + wave * envelope * SID_VOICE_AC_VOLTS + envelope * SID_VOICE_ENVELOPE_BIAS_VOLTS;
    let level = normalise_voltage(volts);
    sums[0] += level;
    sums[1] += (level - rest) * (level - rest);
    sums[2] += envelope;
}

/// A voice beside it: level and activity; of a pure one also pure activity, attack drive and pulse activity.
fn add_beside(sums: &mut [f32; 8], voice: &VoiceSignal, blend: f32, rest: f32) {
    let (wave, envelope, selection) = (voice.waveform, voice.envelope, voice.waveform_selection);
    if envelope == 0.0 {
        sums[3] += rest;
        return;
    }
    let settled = PURE_SAW_MIXER_LINEAR * wave + PURE_SAW_MIXER_QUADRATIC * wave * wave;
    let bent = if selection == 2 { wave + blend * (settled - wave) } else { wave };
    let swing = bent * envelope * SID_VOICE_AC_VOLTS * SID_MIXER_VOICE_AC_GAIN;
    sums[3] += normalise_voltage(SID_VOICE_BASE_VOLTS + swing + envelope * SID_VOICE_ENVELOPE_BIAS_VOLTS);
    sums[4] += envelope;
    if voice.combined || voice.frozen {
        return;
    }
    let load = (1.0 + PURE_BYPASS_ATTACK_WAVEFORM_STATE_COUPLING * wave).clamp(0.5, 1.5);
    sums[5] += envelope;
    sums[6] += envelope * PURE_BYPASS_ATTACK_SCALE_BY_SELECTION[usize::from(selection)] * load;
    if selection == 4 {
        sums[7] += envelope;
    }
}

/// How far an activity is that of two voices, and that of three.
fn activities(activity: f32) -> [f32; 2] {
    let past = activity - 2.0;
    [(1.0 - past * past).clamp(0.0, 1.0), past.clamp(0.0, 1.0)]
}

/// The frozen operating point: in bias mode with all three voices frozen and above 0.99.
fn frozen_point(registers: &FilterRegisters, voices: &[VoiceSignal; 3]) -> Option<f32> {
    let bias_mode = registers.cutoff == 2047 && registers.resonance == 0 && registers.routing == 3;
    let all_frozen = voices.iter().all(|voice| voice.frozen && voice.envelope > 0.99);
    if !(bias_mode && all_frozen) {
        return None;
    }
    let x = (f32::from(registers.volume) - 7.5) / 7.5;
    let bit = |index: u8| f32::from(registers.mode >> index & 1);
    let pairs = [(0, 1), (0, 2), (0, 3), (1, 2), (1, 3), (2, 3)].map(|(first, second)| bit(first) * bit(second));
    let terms = [1.0].into_iter().chain((0..4).map(bit)).chain(pairs);
    let point = |sum: f32, (term, [r0, r1, r2]): (f32, [f32; 3])| sum + term * (r0 + x * (r1 + x * r2));
    Some(terms.zip(SID_FROZEN_DAC_POLYNOMIAL).fold(-0.0, point))
}

/// A rise of the pure activity sets the attack charge; the activity is kept, and 0 where no voice is beside the filter.
fn attack(state: &mut State, sums: &[f32; 8]) {
    let (pure, drive) = (sums[5], sums[6]);
    let beside = (0..3).any(|index| is_beside(&state.registers, index));
    let [_, _, charge, _, _, _, previous, ..] = &mut state.transients;
    if beside && pure > *previous {
        let [two, three] = activities(pure);
        let load = PURE_BYPASS_ATTACK_COMMON_MODE_ONE_VOICE
            + PURE_BYPASS_ATTACK_COMMON_MODE_TWO_VOICE_DELTA * two
            + PURE_BYPASS_ATTACK_COMMON_MODE_THREE_VOICE_DELTA * three;
        *charge = PURE_BYPASS_OUTPUT_COMMON_MODE * drive * load * PURE_BYPASS_ATTACK_COMMON_MODE_SCALE;
    }
    *previous = if beside { pure } else { 0.0 };
}

/// A pending pulse that is heard at a volume above 0 sets both pulse charges, and is used up.
fn pulse(state: &mut State, sums: &[f32; 8]) {
    if state.pulse_pending && sums[7] > 0.0 && state.registers.volume > 0 {
        let charge = PURE_PULSE_GATE_RELAXATION_CHARGE * (f32::from(state.registers.volume) / 15.0);
        (state.transients[3], state.transients[4]) = (charge, charge);
        state.pulse_pending = false;
    }
}

/// The argument of the output stage.
fn stage(state: &State, sources: &Sources, sums: &[f32; 8], volume_output: f32) -> f32 {
    let registers = &state.registers;
    let (filter_activity, activity, pure) = (sums[2], sums[4], sums[5]);
    let fraction = f32::from(registers.volume) / 15.0;
    let combined = sources.voices.iter().filter(|voice| voice.combined).fold(-0.0, |sum, voice| sum + voice.envelope);
    let displacement = COMBINED_OUTPUT_COMMON_MODE * fraction * combined
        + PURE_BYPASS_OUTPUT_COMMON_MODE * fraction * pure
        + FILTER_INPUT_COMMON_MODE_ONE_VOICE * filter_activity * fraction
        + filter_output_common_mode(registers.mode, registers.cutoff) * fraction
        + state.transients[2] * fraction;
    let gain = match registers.mode & 7 {
        0 => {
            let (linear, quadratic) = (FILTER_BYPASS_ACTIVITY_LINEAR_GAIN, FILTER_BYPASS_ACTIVITY_QUADRATIC_GAIN);
            1.0 + linear * activity - quadratic * activity * activity
        }
        _ => 1.0,
    };
    (volume_output - displacement) * gain * FILTER_OUTPUT_GAIN * SID_OUTPUT_SCALE
}

// ---- the Rust's formulas on what is read

/// A row of 32 gains at a written or effective cutoff.
fn at_cutoff(curve: &[f32; 32], cutoff: u16) -> f32 {
    let position = cutoff as f32 * 31.0 / 2047.0;
    let lower = position.floor() as usize;
    let upper = (lower + 1).min(31);
    curve[lower] + (curve[upper] - curve[lower]) * (position - lower as f32)
}

/// `filter_mode_output_gain` in mode 4, its loading given. The factors of the other modes are 1.
fn highpass_gain(resonance: usize, cutoff: u16, loading: f32) -> f32 {
    let resonance_position = ((resonance as f32 - 8.0) / 7.0).clamp(0.0, 1.0);
    let cutoff_position = cutoff as f32 / 2047.0;
    let base = FILTER_HIGHPASS_GAIN_ZERO
        - FILTER_HIGHPASS_GAIN_CUTOFF_SLOPE * cutoff_position
        - FILTER_HIGHPASS_GAIN_RESONANCE_DROP * resonance_position * resonance_position
        - FILTER_HIGHPASS_GAIN_CUTOFF_RESONANCE_DROP * cutoff_position * resonance_position * resonance_position;
    let centred = resonance as f32 / 15.0 - 0.5;
    let curve = FILTER_HIGHPASS_RESONANCE_TRIM_C0
        + centred
            * (FILTER_HIGHPASS_RESONANCE_TRIM_C1
                + centred * (FILTER_HIGHPASS_RESONANCE_TRIM_C2 + centred * FILTER_HIGHPASS_RESONANCE_TRIM_C3));
    let trim = 1.0 + cutoff_position * curve;
    let single = at_cutoff(&FILTER_SINGLE_MODE_CUTOFF_GAIN[2], cutoff) * FILTER_SINGLE_MODE_RESONANCE_GAIN[2][resonance];
    base * loading * trim * single
}

fn select(controls: &Controls, topology: &MixingTopology, mode: u8, [high, band, low]: [f32; 3]) -> f32 {
    let quiescent = filter_mode_quiescent_level();
    let high = quiescent + (high + controls.high_coupling * low) * FILTER_MODE_POLARITY[2];
    let band = quiescent + (band + controls.band_coupling * low) * FILTER_MODE_POLARITY[1];
    let low = quiescent + low * FILTER_MODE_POLARITY[0];
    let sum = match mode & 7 {
        0 => 0.0,
        1 => low,
        2 => band,
        3 => low + band,
        4 => high,
        5 => low + high,
        6 => band + high,
        _ => low + band + high,
    };
    let resting = quiescent * topology.filter_output_count as f32;
    resting + (sum - resting) * controls.mode_gain * controls.resonance_gain
}
