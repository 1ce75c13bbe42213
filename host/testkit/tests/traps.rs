//! Directed files for each way to misread the paper about judging, by their
//! exact lines.

use testkit::compare::assert_lines;
use testkit::traps;

macro_rules! groups {
    ($($group:ident)*) => {
        $(
            #[test]
            fn $group() {
                assert_lines(traps::$group());
            }
        )*
    };
}

groups! {
    cut_headers
    unknown_tags
    tags_not_due
    wrong_lengths
    cut_bodies
    sizes_outside
    slice_numbers
    choices
    slicel_modes
    memory
    cascades
    shift_contents
    carry_starts
    drivers
    open_pins
    order_of_rules
    first_bad_record
    bytes_after
    read_at_the_edge
    table_pins
    outputs
    carry_data
    carry_start_ax
    carry_selects
    slice_below
    wide_loops
    mux_choices
    on_a_loop
}
