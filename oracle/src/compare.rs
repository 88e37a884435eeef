//! Sets the proved code beside the Rust on the same inputs, and prints for each subject how many values were compared and how many differ.
//! The proved code is linked as static libraries (oracle/compare builds them).

#![allow(dead_code)]

include!("sid.rs");

mod answer;
mod charges;
mod circuit;
mod clocked;
mod collecting;
mod core;
mod direct;
mod events;
mod kept;
mod line;
mod loads;
mod numbers;
mod plain;
mod points;
mod ruler;
mod run;
mod sample;
mod state;
mod surface;
mod tick_rows;
mod ticks;
mod voices;

fn main() {
    let mut subjects = circuit::compare();
    subjects.extend(state::compare());
    subjects.extend(surface::compare());
    subjects.extend(sample::compare());
    subjects.extend(direct::compare());
    subjects.extend(points::compare());
    subjects.extend(loads::compare());
    subjects.extend(collecting::compare());
    subjects.extend(core::compare());
    subjects.extend(run::compare());
    subjects.extend(charges::compare());
    subjects.extend(events::compare());
    subjects.extend(ticks::compare());
    let mut differences = 0;
    for (name, tally) in &subjects {
        println!("{name}: {} compared, {} differences", tally.compared, tally.differences);
        differences += tally.differences;
    }
    println!("{differences} differences");
    if differences > 0 {
        std::process::exit(1);
    }
}
