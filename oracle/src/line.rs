//! The line of a topology (docs/FORMATS.md), and its four counts in the line's order.

use crate::mixing::MixingTopology;

pub fn counts(t: &MixingTopology) -> [usize; 4] {
    [t.filter_input_count, t.bypass_input_count, t.filter_output_count, t.mixer_input_count]
}

pub fn line(t: &MixingTopology) -> String {
    let flags = |flags: [bool; 4]| flags.map(|flag| if flag { '1' } else { '0' }).iter().collect::<String>();
    let [filter, bypass, output, mixer] = counts(t);
    format!("filter {} bypass {} counts {filter} {bypass} {output} {mixer}\n", flags(t.filter_membership), flags(t.bypass_membership))
}
