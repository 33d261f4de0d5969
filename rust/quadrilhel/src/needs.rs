//! How much machine stack the calls need.

/// Each call of the library and the bytes of machine stack that suffice for it, with
/// the arguments and the answer that its caller keeps there. A thread needs as much
/// and what its own frames take.
///
/// Measured, not proved: `cargo run --release -p stack` measures, on the deepest and
/// longest inputs there are, and a test there fails if one of these does not suffice.
pub const STACK_NEEDS: [(&str, usize); 13] = [
    ("qh_check_routine", 51_200),
    ("qh_check_base", 1_024),
    ("qh_check_relative", 1_024),
    ("qh_convert", 59_392),
    ("qh_to_relative", 1_024),
    ("qh_to_absolute", 1_024),
    ("qh_list", 198_656),
    ("qh_read_text", 16_384),
    ("qh_write_text", 13_312),
    ("qh_run_routine", 53_248),
    ("qh_run_base", 3_072),
    ("qh_step_routine", 54_272),
    ("qh_step_base", 3_072),
];
