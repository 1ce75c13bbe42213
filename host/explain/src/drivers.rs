//! Pins driven by something that doesn't exist: refusal 7.

use model::layout::*;
use model::Rules;
use text::names;

use crate::fault::Fault;
use crate::slice::Slice;
use crate::words::below;

pub fn faults(rules: &Rules, slice: &Slice) -> Vec<Fault> {
    let fault = |pin: usize| {
        let code = pin_code(&slice.body, pin);
        let missing = (rules.driver)(code, slice.n, slice.m).is_none();
        missing.then(|| {
            let what = format!("pin {}", PIN_NAMES[pin]);
            let (stands, may) = (stands(code), may(slice.n, slice.m));
            slice.fault(7, &what, pin_bytes(pin), stands, may)
        })
    };
    (0..PIN_COUNT).filter_map(fault).collect()
}

/// A code, and what it would stand for in a larger column.
fn stands(code: u16) -> String {
    match (names::wire_of(code), code.checked_sub(OUTPUT_CODES)) {
        (Some(_), _) => format!("{code}, which would be {}", names::driver(code)),
        (None, Some(output)) => {
            let (slice, output) = (output / SLICE_CODES, output % SLICE_CODES);
            format!("{code}, which would be output {output} of slice {slice}")
        }
        (None, None) => format!("{code}, which stands for nothing"),
    }
}

/// The codes that exist in a column of n slices and m inputs.
fn may(n: usize, m: usize) -> String {
    let inputs = match m {
        0 => String::new(),
        1 => format!("{INPUT_CODES} (in 0); "),
        _ => {
            let last = usize::from(INPUT_CODES) + m - 1;
            format!("{INPUT_CODES} to {last} (in 0 to in {}); ", m - 1)
        }
    };
    let k = below(usize::from(SLICE_OUTPUTS));
    let outputs = format!("for output k ({k}: A.O6 to D.O6, AMUX to DMUX, AQ to DQ)");
    let outputs = match n {
        1 => format!("{OUTPUT_CODES} + k {outputs} of slice 0"),
        _ => {
            let slices = below(n);
            format!("{OUTPUT_CODES} + {SLICE_CODES}s + k {outputs} of slice s ({slices})")
        }
    };
    format!("0 or 1; {OPEN_CODE} (open); {inputs}{outputs}")
}
