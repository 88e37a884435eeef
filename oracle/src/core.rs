//! The whole range of the registers: what the Rust keeps after its own writes beside the controls worked out from the state.

use crate::filter::Filter;
use crate::kept::{filter_block, step_cutoff};
use crate::numbers::Tally;
use crate::state::{controls_of, same_controls};
use crate::surface;

pub fn compare() -> Vec<(&'static str, Tally)> {
    vec![("controls, every cutoff, displacement, resonance and mode", controls())]
}

/// Writes that leave a code with the displacement of a step, where there are any: the step ends at the code, or at another one with the
/// same upper bits, which a low write then makes the code.
fn displace(filter: &mut Filter, code: u16, step: i32) -> bool {
    for end in (0..8).map(|low| code ^ low) {
        let from = i32::from(end) - step;
        if (0..2048).contains(&from) {
            step_cutoff(filter, from as u16, end);
            if end != code {
                filter.write_cutoff_low((code & 7) as u8);
            }
            return true;
        }
    }
    false
}

/// Every code with every displacement that writes can leave on it, 66 being the first step to the limit, and every resonance and mode.
/// Routing and volume run beside them: routing is 3 at code 2,047 and resonance 0.
fn controls() -> Tally {
    let (bundle, mut filter, mut tally) = (surface::data("bundle"), Filter::new(), Tally::default());
    for code in 0..2048 {
        for step in -66..=66 {
            if !displace(&mut filter, code, step) {
                continue;
            }
            for resonance in 0..16 {
                filter.write_signal_routing(resonance << 4 | (code as u8 % 16 + 4 + resonance) % 16);
                for mode in 0..16 {
                    filter.write_mode_and_volume(mode << 4 | (code as u8 % 16 + mode) % 16);
                    let ours = controls_of(&bundle, &filter_block(&mut filter));
                    same_controls(&mut tally, &ours, filter.control());
                }
            }
        }
    }
    tally
}
