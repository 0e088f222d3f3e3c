//! The library's functions as include/veerycouch.h declares them. Nothing checks this text against the library: tests/ and differential/ do.
//! Each slice is a pointer and a length.
#![allow(clippy::too_many_arguments)]

extern "C" {
    pub fn veerycouch_build(
        forest_mode: u64, transform_method: u64, input_dimensions: usize, shingle_size: usize, start_normalization: usize, stop_normalization: usize,
        transform_decay: f64, weight_time: f32, weights: *const f32, weights_len: usize, codes: *const u16, codes_len: usize, head: *mut u64, head_len: usize,
        statistics: *mut f64, statistics_len: usize, last_shingled_input: *mut f32, last_shingled_input_len: usize,
        last_shingled_point: *mut f32, last_shingled_point_len: usize, previous_timestamps: *mut u64, previous_timestamps_len: usize,
        initial_values: *const f32, initial_values_len: usize, initial_timestamps: *const u64, initial_timestamps_len: usize,
    ) -> u64;
    pub fn veerycouch_drain(
        table: *const u8, table_len: usize, role: u64, head: *mut u64, head_len: usize, statistics: *mut f64, statistics_len: usize, last_shingled_input: *mut f32, last_shingled_input_len: usize,
        last_shingled_point: *mut f32, last_shingled_point_len: usize, previous_timestamps: *mut u64, previous_timestamps_len: usize,
        initial_values: *const f32, initial_values_len: usize, initial_timestamps: *const u64, initial_timestamps_len: usize,
    ) -> u64;
    pub fn veerycouch_shingled_point(
        table: *const u8, table_len: usize, role: u64, head: *mut u64, head_len: usize, statistics: *mut f64, statistics_len: usize, last_shingled_input: *mut f32, last_shingled_input_len: usize,
        last_shingled_point: *mut f32, last_shingled_point_len: usize, previous_timestamps: *mut u64, previous_timestamps_len: usize,
        initial_values: *const f32, initial_values_len: usize, initial_timestamps: *const u64, initial_timestamps_len: usize,
        input: *const f32, input_len: usize, timestamp: u64, given: *mut u64, output: *mut f32, output_len: usize,
    ) -> u64;
    pub fn veerycouch_post_process(
        table: *const u8, table_len: usize, role: u64, head: *mut u64, head_len: usize, statistics: *mut f64, statistics_len: usize, last_shingled_input: *mut f32, last_shingled_input_len: usize,
        last_shingled_point: *mut f32, last_shingled_point_len: usize, previous_timestamps: *mut u64, previous_timestamps_len: usize,
        initial_values: *mut f32, initial_values_len: usize, initial_timestamps: *mut u64, initial_timestamps_len: usize,
        input: *const f32, input_len: usize, timestamp: u64, has_y: u64, y: *const f32, y_len: usize, expects: u64, expected: *const f32, expected_len: usize,
        grade: f32, relative_index: i32, deviations_out: *mut f32, deviations_out_len: usize, past_out: *mut f32, past_out_len: usize,
        expected_out: *mut f32, expected_out_len: usize, written: *mut u64, has_anomaly: *mut u64, past_timestamp: *mut u64, likelihood: *mut f32,
    ) -> u64;
    pub fn veerycouch_transform(
        table: *const u8, table_len: usize, role: u64, head: *const u64, head_len: usize, statistics: *const f64, statistics_len: usize, last_shingled_input: *const f32, last_shingled_input_len: usize,
        last_shingled_point: *const f32, last_shingled_point_len: usize, previous_timestamps: *const u64, previous_timestamps_len: usize,
        initial_values: *const f32, initial_values_len: usize, initial_timestamps: *const u64, initial_timestamps_len: usize,
        input: *const f32, input_len: usize, timestamp: u64, output: *mut f32, output_len: usize,
    ) -> u64;
    pub fn veerycouch_scale(
        table: *const u8, table_len: usize, role: u64, head: *const u64, head_len: usize, statistics: *const f64, statistics_len: usize, last_shingled_input: *const f32, last_shingled_input_len: usize,
        last_shingled_point: *const f32, last_shingled_point_len: usize, previous_timestamps: *const u64, previous_timestamps_len: usize,
        initial_values: *const f32, initial_values_len: usize, initial_timestamps: *const u64, initial_timestamps_len: usize,
        output: *mut f32, output_len: usize,
    ) -> u64;
    pub fn veerycouch_shift(
        table: *const u8, table_len: usize, role: u64, head: *const u64, head_len: usize, statistics: *const f64, statistics_len: usize, last_shingled_input: *const f32, last_shingled_input_len: usize,
        last_shingled_point: *const f32, last_shingled_point_len: usize, previous_timestamps: *const u64, previous_timestamps_len: usize,
        initial_values: *const f32, initial_values_len: usize, initial_timestamps: *const u64, initial_timestamps_len: usize,
        output: *mut f32, output_len: usize,
    ) -> u64;
    pub fn veerycouch_difference_deviations(
        table: *const u8, table_len: usize, role: u64, head: *const u64, head_len: usize, statistics: *const f64, statistics_len: usize, last_shingled_input: *const f32, last_shingled_input_len: usize,
        last_shingled_point: *const f32, last_shingled_point_len: usize, previous_timestamps: *const u64, previous_timestamps_len: usize,
        initial_values: *const f32, initial_values_len: usize, initial_timestamps: *const u64, initial_timestamps_len: usize,
        output: *mut f32, output_len: usize,
    ) -> u64;
    pub fn veerycouch_invert_extrapolation(
        table: *const u8, table_len: usize, role: u64, head: *const u64, head_len: usize, statistics: *const f64, statistics_len: usize, last_shingled_input: *const f32, last_shingled_input_len: usize,
        previous_timestamps: *const u64, previous_timestamps_len: usize, values: *mut f32, values_len: usize, upper: *mut f32, upper_len: usize,
        lower: *mut f32, lower_len: usize, values_out: *mut f32, values_out_len: usize, upper_out: *mut f32, upper_out_len: usize,
        lower_out: *mut f32, lower_out_len: usize, times_out: *mut f64, times_out_len: usize, times_upper_out: *mut f64, times_upper_out_len: usize,
        times_lower_out: *mut f64, times_lower_out_len: usize,
    ) -> u64;
    pub fn veerycouch_save(
        table: *const u8, table_len: usize, role: u64, head: *const u64, head_len: usize, statistics: *const f64, statistics_len: usize, last_shingled_input: *const f32, last_shingled_input_len: usize,
        last_shingled_point: *const f32, last_shingled_point_len: usize, previous_timestamps: *const u64, previous_timestamps_len: usize,
        initial_values: *const f32, initial_values_len: usize, initial_timestamps: *const u64, initial_timestamps_len: usize,
        length: *mut u64, output: *mut u8, output_len: usize,
    ) -> u64;
    pub fn veerycouch_restore(
        table: *const u8, table_len: usize, role: u64, text: *const u8, text_len: usize, codes: *const u16, codes_len: usize, head: *mut u64, head_len: usize, statistics: *mut f64, statistics_len: usize,
        last_shingled_input: *mut f32, last_shingled_input_len: usize, last_shingled_point: *mut f32, last_shingled_point_len: usize,
        previous_timestamps: *mut u64, previous_timestamps_len: usize, initial_values: *mut f32, initial_values_len: usize,
        initial_timestamps: *mut u64, initial_timestamps_len: usize, line: *mut u64,
    ) -> u64;
    pub fn veerycouch_numbers(table: *const u8, table_len: usize, role: u64, head: *const u64, head_len: usize, output: *mut u64, output_len: usize) -> u64;
    pub fn veerycouch_codes(table: *const u8, table_len: usize, role: u64, head: *const u64, head_len: usize, output: *mut u16, output_len: usize) -> u64;
    pub fn veerycouch_impute(
        method: u64, d: u64, cells: *mut f32, cells_len: usize, marks: *const u8, marks_len: usize, fixed: *const f32, fixed_len: usize,
    ) -> u64;
    pub fn veerycouch_align(
        d: u64, left: *const f32, left_len: usize, left_times: *const u64, left_times_len: usize, right: *const f32, right_len: usize,
        right_times: *const u64, right_times_len: usize, tolerance: u64, left_out: *mut u64, left_out_len: usize, right_out: *mut u64,
        right_out_len: usize, gaps_out: *mut f32, gaps_out_len: usize, pairs: *mut u64,
    ) -> u64;
    pub fn veerycouch_strandings(start: u64, calls: u64, waiting: *mut u64, drained: *mut u64, stranded: *mut u64) -> u64;
    pub fn veerycouch_corrected(
        discount: f64, weight: f64, sum: f64, sum_squared: f64, count: u64, wrong: f32, right: f32, output: *mut f64, output_len: usize,
    ) -> u64;
    pub fn veerycouch_sqrt(x: f64) -> f64;
    pub fn veerycouch_sqrt_digits(x: f64) -> u64;
    pub fn veerycouch_to_f32(x: f64) -> f32;
}
