//! Mistakes about what a pin left open is.

use model::design::{Design, Driver};
use model::layout::*;

use super::WrongDecoder;

pub fn all() -> Vec<WrongDecoder> {
    vec![
        ("open pins are 0", |design| ground(design, |_| true)),
        ("open table pins are 0", |design| {
            ground(design, |pin| pin < bypass_pin(A))
        }),
        ("open bypass pins are 0", |design| {
            ground(design, |pin| (bypass_pin(A)..CE).contains(&pin))
        }),
        ("an open CE is 0", |design| ground(design, |pin| pin == CE)),
        ("an open SR is 0", |design| ground(design, |pin| pin == SR)),
        ("an open WE is 0", |design| ground(design, |pin| pin == WE)),
        ("open pins are input 0", |design| {
            if design.m > 0 {
                drive(design, |_| true, Driver::Input(0));
            }
        }),
    ]
}

/// Makes the open pins that are meant the constant 0.
fn ground(design: &mut Design, is_meant: impl Fn(usize) -> bool) {
    drive(design, is_meant, Driver::Constant(false));
}

fn drive(design: &mut Design, is_meant: impl Fn(usize) -> bool, driver: Driver) {
    for slice in &mut design.slices {
        let pins = slice.pins.iter_mut().enumerate();
        let open = pins.filter(|(pin, old)| is_meant(*pin) && **old == Driver::Open);
        open.for_each(|(_, old)| *old = driver);
    }
}
