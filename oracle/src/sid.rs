// The Rust's src/sid, its eight files as they are, at the root of whatever program includes this file: there `pub(super)` reaches.
// SID_DIR, set by oracle/build, is their folder. What stands below an `include!` opens what that file keeps to itself.

mod constants {
    include!(concat!(env!("SID_DIR"), "/constants.rs"));
}

mod control {
    include!(concat!(env!("SID_DIR"), "/control.rs"));
}

mod integrator {
    include!(concat!(env!("SID_DIR"), "/integrator.rs"));
}

mod mixing {
    include!(concat!(env!("SID_DIR"), "/mixing.rs"));
}

mod response {
    include!(concat!(env!("SID_DIR"), "/response.rs"));
}

mod transients {
    include!(concat!(env!("SID_DIR"), "/transients.rs"));
}

mod tables {
    include!(concat!(env!("SID_DIR"), "/tables.rs"));

    /// The ladder's functions at the 12 nodes of the cutoff DAC.
    pub(super) fn twelve_solved([lower, diagonal, upper, rhs]: &[[f64; 12]; 4]) -> [f64; 12] {
        solve_tridiagonal(lower, diagonal, upper, rhs)
    }

    pub(super) fn twelve_weights(two_r_over_r: f64, terminated: bool) -> [f64; 12] {
        ladder_weights(two_r_over_r, terminated)
    }

    pub(super) fn twelve_value(code: usize, weights: &[f64; 12], leakage: f64) -> f64 {
        ladder_value(code, weights, leakage)
    }

    pub(super) fn control_positions() -> [f32; 2048] {
        build_cutoff_control_positions()
    }

    impl AnalogueTransferSurface {
        pub(super) fn entries(&self) -> &[f32] {
            &self.table
        }

        pub(super) fn entries_mut(&mut self) -> &mut [f32] {
            &mut self.table
        }

        /// A surface of other entries than `build_analogue_transfer_surface` works out.
        pub(super) fn of(entries: Vec<f32>) -> Self {
            Self { table: entries.into_boxed_slice() }
        }
    }

    impl AnalogueLoadPosition {
        pub(super) fn parts(self) -> (usize, usize, f32) {
            (self.lower_base, self.upper_base, self.fraction)
        }
    }
}

mod filter {
    include!(concat!(env!("SID_DIR"), "/filter.rs"));

    impl Filter {
        pub(super) fn registers(&mut self) -> &mut FilterRegisters {
            &mut self.registers
        }

        pub(super) fn control(&self) -> &ControlCache {
            &self.control
        }

        pub(super) fn curves(&self) -> &TransferCurves {
            &self.curves
        }

        pub(super) fn curves_mut(&mut self) -> &mut TransferCurves {
            &mut self.curves
        }

        pub(super) fn coefficients(&mut self) -> &mut [FilterCoefficients; 2048] {
            &mut self.coefficients
        }

        pub(super) fn state(&mut self) -> &mut IntegratorState {
            &mut self.state
        }

        pub(super) fn transients(&mut self) -> &mut TransientState {
            &mut self.transients
        }

        pub(super) fn topology(&mut self) -> &mut MixingTopology {
            &mut self.topology
        }

        pub(super) fn external(&mut self) -> &mut ExternalInputState {
            &mut self.external
        }

        /// What `clock` handed the output stage last.
        pub(super) fn stage_argument(&self) -> f32 {
            self.output_stage.argument
        }

        /// What a core has.
        pub(super) fn parts(
            &mut self,
        ) -> (&mut FilterRegisters, &mut IntegratorState, &mut TransientState, &mut MixingTopology, &mut ControlCache) {
            (&mut self.registers, &mut self.state, &mut self.transients, &mut self.topology, &mut self.control)
        }

        /// The three transfers on the topology and the volume that the filter has.
        pub(super) fn summer(&self, input_sum: f32) -> f32 {
            self.summer_transfer(input_sum)
        }

        pub(super) fn mixer(&self, input_sum: f32) -> f32 {
            self.mixer_transfer(input_sum)
        }

        pub(super) fn volume(&self, value: f32) -> f32 {
            self.volume_transfer(value)
        }

        /// One sample: high, band and low of the core, and what the mode selects.
        pub(super) fn sample(&mut self, filter_input_sum: f32, filter_source_energy: f32) -> [f32; 4] {
            let mut signals = RoutedSignals {
                filter_input_sum,
                filter_source_energy,
                filter_input_activity: 0.0,
                bypass_input_sum: 0.0,
                bypass_envelope_activity: 0.0,
                pure_bypass_envelope_activity: 0.0,
                pure_bypass_attack_drive: 0.0,
                pure_pulse_envelope_activity: 0.0,
            };
            let outputs = self.advance_filter_core(&mut signals);
            let FilterOutputs { high_pass, band_pass, low_pass } = outputs;
            [high_pass, band_pass, low_pass, self.select_filter_output(outputs)]
        }

        /// The sums that `clock` works out of three voices, with the blends as the filter has them.
        pub(super) fn collected(&self, voices: &[VoiceSignal; 3]) -> RoutedSignals {
            let ExternalInputState { raw, filter_signal, mixer_signal } = self.external;
            let resting = normalise_voltage(SID_VOICE_BASE_VOLTS);
            RoutedSignals::collect(&self.topology, voices, &self.transients.saw_mixer_blend, filter_signal, mixer_signal, raw, resting)
        }

        /// The filter's output on these sums. The core moves on.
        pub(super) fn filtered(&mut self, mut signals: RoutedSignals) -> f32 {
            let outputs = self.advance_filter_core(&mut signals);
            self.select_filter_output(outputs)
        }
    }
}

/// Stands for src/sid/dac.rs, which is not at hand: the fields that the filter reads.
mod dac {
    #[derive(Clone, Copy)]
    pub struct VoiceSignal {
        pub waveform: f32,
        pub envelope: f32,
        pub waveform_selection: u8,
        pub combined: bool,
        pub frozen: bool,
    }
}

/// Stands for src/sid/model.rs, which is not at hand: an output stage that returns its argument, and keeps it.
mod model {
    pub struct AudioOutStage {
        pub argument: f32,
    }

    impl AudioOutStage {
        pub fn new() -> Self {
            Self { argument: 0.0 }
        }

        pub fn reset(&mut self) {}

        pub fn process(&mut self, value: f32) -> f32 {
            self.argument = value;
            value
        }
    }
}
