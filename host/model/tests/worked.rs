//! The verdicts of the paper's worked cases.

use model::{judge, Verdict};

/// The base file Z.
fn z() -> Vec<u8> {
    let mut file = vec![1, 2, 0, 1, 0, 2, 0x7c, 0];
    file.extend([0; 124]);
    file.extend([3, 0, 0]);
    file
}

/// Z with bytes of its slice body replaced.
fn z_with(bytes: &[(usize, u8)]) -> Vec<u8> {
    let mut file = z();
    for (at, byte) in bytes {
        file[8 + at] = *byte;
    }
    file
}

/// Z with the pin at an offset of the slice body driven by a code.
fn z_driven(at: usize, code: u16) -> Vec<u8> {
    let [low, high] = code.to_le_bytes();
    z_with(&[(at, low), (at + 1, high)])
}

const A1: usize = 62;
const A6: usize = 72;

const ACCEPTED: Verdict = Verdict::Accepted { n: 1, m: 0 };

fn refused(number: u8, place: usize) -> Verdict {
    Verdict::Refused { number, place }
}

#[test]
fn case_1() {
    assert_eq!(z().len(), 135);
    assert_eq!(judge(&z()), ACCEPTED);
    assert_eq!(judge(&z()).to_string(), "accepted 1 0");
}

#[test]
fn case_2() {
    assert_eq!(judge(&z_with(&[(10, 1)])), ACCEPTED);
}

#[test]
fn case_3() {
    assert_eq!(judge(&z_with(&[(46, 1)])), ACCEPTED);
}

#[test]
fn case_4() {
    let mut bytes = vec![(46, 1)];
    bytes.extend((10..42).map(|at| (at, 255)));
    assert_eq!(judge(&z_with(&bytes)), ACCEPTED);
}

#[test]
fn case_5() {
    assert_eq!(judge(&z_driven(A1, 4096)), refused(9, 0));
    assert_eq!(judge(&z_driven(A1, 4096)).to_string(), "refused 9 0");
}

#[test]
fn case_6() {
    assert_eq!(judge(&z_driven(A1, 4100)), refused(9, 4));
    assert_eq!(judge(&z_driven(A6, 4100)), ACCEPTED);
}

#[test]
fn case_7() {
    assert_eq!(judge(&z_driven(A1, 4104)), ACCEPTED);
}

#[test]
fn case_8() {
    for code in [3, 256, 4108, 4112] {
        assert_eq!(judge(&z_driven(A1, code)), refused(7, 5));
    }
}

/// All 31 pins left open.
#[test]
fn open_pins() {
    let pins: Vec<(usize, u8)> = (0..31).map(|pin| (62 + 2 * pin, 2)).collect();
    assert_eq!(judge(&z_with(&pins)), ACCEPTED);
}

/// SLICEM, D shift, DX and WE at 1.
#[test]
fn case_9() {
    let file = z_with(&[(1, 1), (5, 2), (116, 1), (122, 1)]);
    assert_eq!(judge(&file), ACCEPTED);
}

/// SLICEM, D memory, D1 to D6, DX and WE at 1.
#[test]
fn case_10() {
    let mut bytes = vec![(1, 1), (5, 1), (116, 1), (122, 1)];
    bytes.extend((0..6).map(|pin| (98 + 2 * pin, 1)));
    assert_eq!(judge(&z_with(&bytes)), ACCEPTED);
}

/// Set/reset pin used, SR at 1, CE at 0, value 1.
#[test]
fn case_11() {
    assert_eq!(judge(&z_with(&[(61, 1), (60, 1), (120, 1)])), ACCEPTED);
}

#[test]
fn case_12() {
    assert_eq!(judge(&[]), refused(1, 0));
    assert_eq!(judge(&[z(), vec![0]].concat()), refused(8, 135));
}
