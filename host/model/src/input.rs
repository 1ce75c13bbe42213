//! What a command reads.

use std::ffi::OsStr;
use std::fs::File;
use std::io::{Read, Result};

use crate::layout::file_length;
use crate::Rules;

/// The file of a name, or standard input for `-` or none, as far as it decides.
pub fn read(name: Option<&OsStr>) -> Result<Vec<u8>> {
    match name {
        Some(name) if name != "-" => deciding_bytes(File::open(name)?),
        _ => deciding_bytes(std::io::stdin().lock()),
    }
}

/// At most one byte more than the longest file has: none after these changes the
/// verdict, and input may be endless.
pub fn deciding_bytes(input: impl Read) -> Result<Vec<u8>> {
    let longest = file_length(*Rules::paper().n.end());
    let mut bytes = vec![];
    input.take(longest as u64 + 1).read_to_end(&mut bytes)?;
    Ok(bytes)
}

#[cfg(test)]
mod tests {
    use super::*;

    /// Input that counts what is taken of it.
    struct Endless(usize);

    impl Read for Endless {
        fn read(&mut self, buffer: &mut [u8]) -> Result<usize> {
            self.0 += buffer.len();
            buffer.fill(0);
            Ok(buffer.len())
        }
    }

    #[test]
    fn endless_input_is_left_alone() {
        let mut endless = Endless(0);
        let bytes = deciding_bytes(&mut endless).expect("bytes");
        assert_eq!((bytes.len(), endless.0), (8137, 8137));
        let bytes = deciding_bytes(&[3, 0, 0][..]).expect("bytes");
        assert_eq!(bytes, [3, 0, 0]);
    }
}
