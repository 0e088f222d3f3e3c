// Included behind preprocessor.rs, in its module: the state that has no getter, and the setting that has no setter.

/// Everything of the state that the snapshot holds besides the settings, and stop.
pub struct State<'a> {
    pub values_seen: &'a mut usize,
    pub internal_timestamp: &'a mut usize,
    pub statistics: &'a mut [Deviation],
    pub time_statistics: &'a mut [Deviation],
    pub last_shingled_input: &'a mut Vec<f32>,
    pub last_shingled_point: &'a mut Vec<f32>,
    pub previous_timestamps: &'a mut Vec<u64>,
    pub initial_values: &'a mut Vec<Vec<f32>>,
    pub initial_timestamps: &'a mut Vec<u64>,
    pub stop_normalization: &'a mut usize,
}

impl Preprocessor {
    pub fn state(&mut self) -> State<'_> {
        State {
            values_seen: &mut self.values_seen,
            internal_timestamp: &mut self.internal_timestamp,
            statistics: self.transformer.statistics_mut(),
            time_statistics: &mut self.timestamp_deviations,
            last_shingled_input: &mut self.last_shingled_input,
            last_shingled_point: &mut self.last_shingled_point,
            previous_timestamps: &mut self.previous_timestamps,
            initial_values: &mut self.initial_values,
            initial_timestamps: &mut self.initial_timestamps,
            stop_normalization: &mut self.stop_normalization,
        }
    }

    pub fn set_weight_time(&mut self, weight_time: f32) {
        self.weight_time = weight_time;
    }

    /// The settings as the built value holds them: stop, decay, weight_time and the weights.
    pub fn kept_settings(&self) -> (usize, f64, f32, &[f32]) {
        (self.stop_normalization, self.transform_decay, self.weight_time, self.transformer.given_weights())
    }

    /// Statistics of the channels, then of time, in the order of the `dev` lines.
    pub fn all_statistics(&self) -> impl Iterator<Item = &Deviation> {
        self.transformer.statistics().iter().chain(self.timestamp_deviations.iter())
    }

    pub fn shingled_input(&self) -> &[f32] {
        &self.last_shingled_input
    }

    pub fn kept_point(&self) -> &[f32] {
        &self.last_shingled_point
    }

    pub fn timestamps(&self) -> &[u64] {
        &self.previous_timestamps
    }

    pub fn initial(&self) -> (&[u64], &[Vec<f32>]) {
        (&self.initial_timestamps, &self.initial_values)
    }
}
