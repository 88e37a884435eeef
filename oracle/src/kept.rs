//! States that the filter is put in, by its own writes or from a block, and what it then keeps, as words and as a block.

use crate::control::{ControlCache, FilterRegisters};
use crate::filter::Filter;
use crate::integrator::IntegratorState;
use crate::transients::TransientState;

/// The block of a state without charges, the integrator's floats given by their bits.
pub fn block(registers: &FilterRegisters, floats: [u32; 3]) -> [u8; 68] {
    let mut bytes = [0; 68];
    bytes[0..2].copy_from_slice(&registers.cutoff.to_le_bytes());
    bytes[2..4].copy_from_slice(&registers.cutoff_dac_displacement_codes.to_le_bytes());
    bytes[4..6].copy_from_slice(&registers.cutoff_write_base.to_le_bytes());
    bytes[6] = u8::from(registers.cutoff_low_pending);
    bytes[7..11].copy_from_slice(&[registers.resonance, registers.routing, registers.mode, registers.volume]);
    for (bytes, bits) in bytes[12..24].chunks_exact_mut(4).zip(floats) {
        bytes.copy_from_slice(&bits.to_le_bytes());
    }
    bytes
}

/// Every field of the cache, in its order; a float is its bits.
pub fn control_words(control: &ControlCache) -> [u32; 66] {
    let mut words = vec![control.effective_cutoff_index as u32];
    let tables = [control.integrator_gain, control.input_drive, control.feedback_drive];
    words.extend(tables.as_flattened().iter().map(|entry| entry.to_bits()));
    let numbers = [
        control.damping,
        control.source_gain_modulation,
        control.high_pass_low_coupling,
        control.band_pass_low_coupling,
        control.resonance_position,
    ];
    words.extend(numbers.map(f32::to_bits));
    words.push(control.resonance_index as u32);
    let numbers = [
        control.resonance_feedback_scale,
        control.source_modulation_resonance_scale,
        control.resonance_output_gain,
        control.mode_output_gain,
        control.filter_common_mode,
        control.volume_fraction,
        control.two_voice_volume_gain_offset,
        control.combined_common_mode_gain,
        control.pure_bypass_common_mode_gain,
        control.scaled_filter_common_mode,
    ];
    words.extend(numbers.map(f32::to_bits));
    words.push(control.frozen_dac_bias_mode.into());
    words.try_into().expect("66 words")
}

/// Writes one cutoff and then another: the step between them leaves the displacement.
pub fn step_cutoff(filter: &mut Filter, from: u16, to: u16) {
    for code in [from, to] {
        filter.write_cutoff_low((code & 7) as u8);
        filter.write_cutoff_high((code >> 3) as u8);
    }
}

/// One event on the Rust's filter, and what a sample gives.
pub fn play(filter: &mut Filter, event: &[u8; 12]) -> Option<[f32; 4]> {
    let [kind, value, _, _, s0, s1, s2, s3, e0, e1, e2, e3] = *event;
    match kind {
        0 => filter.write_cutoff_low(value),
        1 => filter.write_cutoff_high(value),
        2 => filter.write_signal_routing(value),
        3 => filter.write_mode_and_volume(value),
        4 => return Some(filter.sample(f32::from_le_bytes([s0, s1, s2, s3]), f32::from_le_bytes([e0, e1, e2, e3]))),
        _ => filter.reset(),
    }
    None
}

/// The transients' ten floats, in the block's order.
pub fn transient_floats(transients: &TransientState) -> [f32; 10] {
    let [one, two, three] = transients.saw_mixer_blend;
    [
        transients.volume_fast_charge,
        transients.volume_slow_charge,
        transients.bypass_attack_charge,
        transients.pulse_gate_fast_charge,
        transients.pulse_gate_slow_charge,
        transients.volume_conductance_code,
        transients.previous_bypass_activity,
        one,
        two,
        three,
    ]
}

/// The five decays in the charges' order and the saw tracking, as the Rust works them out.
pub fn decays(transients: &TransientState) -> [u8; 24] {
    let numbers = [
        transients.volume_fast_decay,
        transients.volume_slow_decay,
        transients.bypass_attack_decay,
        transients.pulse_gate_fast_decay,
        transients.pulse_gate_slow_decay,
        transients.saw_mixer_tracking,
    ];
    numbers.map(f32::to_le_bytes).as_flattened().try_into().expect("24 bytes")
}

/// Writes the transients into a block.
pub fn put_transients(block: &mut [u8; 68], transients: &TransientState) {
    for (bytes, float) in block[24..64].chunks_exact_mut(4).zip(transient_floats(transients)) {
        bytes.copy_from_slice(&float.to_le_bytes());
    }
    block[64] = u8::from(transients.pulse_gate_pending);
}

fn float_at(block: &[u8; 68], place: usize) -> f32 {
    f32::from_le_bytes(block[place..place + 4].try_into().expect("4 bytes"))
}

/// Takes the transients over from a block.
pub fn set_transients(transients: &mut TransientState, block: &[u8; 68]) {
    let float = |place: usize| float_at(block, place);
    transients.volume_fast_charge = float(24);
    transients.volume_slow_charge = float(28);
    transients.bypass_attack_charge = float(32);
    transients.pulse_gate_fast_charge = float(36);
    transients.pulse_gate_slow_charge = float(40);
    transients.volume_conductance_code = float(44);
    transients.previous_bypass_activity = float(48);
    transients.saw_mixer_blend = [float(52), float(56), float(60)];
    transients.pulse_gate_pending = block[64] == 1;
}

/// The state of a valid block, and all else as it was.
pub fn set(filter: &mut Filter, block: &[u8; 68]) {
    let word = |at: usize| u16::from_le_bytes([block[at], block[at + 1]]);
    let float = |at: usize| float_at(block, at);
    *filter.registers() = FilterRegisters {
        cutoff: word(0),
        cutoff_dac_displacement_codes: word(2) as i16,
        cutoff_write_base: word(4),
        cutoff_low_pending: block[6] == 1,
        resonance: block[7],
        routing: block[8],
        mode: block[9],
        volume: block[10],
    };
    *filter.state() = IntegratorState { band_state: float(12), low_state: float(16), filter_source_energy: float(20) };
    set_transients(filter.transients(), block);
}

/// The state of a valid block, with all that is kept as the Rust's routing write works it out.
pub fn put(filter: &mut Filter, block: &[u8; 68]) {
    set(filter, block);
    filter.write_signal_routing(block[7] << 4 | block[8]);
}

/// The block of the state that the Rust's filter is in.
pub fn filter_block(filter: &mut Filter) -> [u8; 68] {
    let kept = filter.state();
    let floats = [kept.band_state, kept.low_state, kept.filter_source_energy].map(f32::to_bits);
    let mut bytes = block(filter.registers(), floats);
    put_transients(&mut bytes, filter.transients());
    bytes
}
