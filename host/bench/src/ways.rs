//! Ways to look a bit up. Each is a folder of shared libraries, loaded while the program runs, so that several can take turns.

use crate::calls::Bench;
use crate::shared::Library;
use std::ffi::c_void;
use std::path::Path;

/// Contents and picks, each with its length.
type Row = unsafe extern "C" fn(*const u64, usize, *const u16, usize) -> u64;

/// `qm_settle` of include/quagmuffin.h.
type Settle = unsafe extern "C" fn(
    file: *const u8,
    file_len: usize,
    contents: *const u64,
    contents_len: usize,
    flops: *const u8,
    flops_len: usize,
    inputs: *const u8,
    inputs_len: usize,
    values: *mut u8,
    values_len: usize,
) -> u64;

/// One way: look-ups in a row, as `lookuprows` has them, and the library's settle.
pub struct Way {
    pub name: String,
    /// The bytes of the two shared libraries.
    pub code: [Vec<u8>; 2],
    apart: Row,
    chained: Row,
    settle: Settle,
}

impl Way {
    /// The way of a folder, by whose name it goes.
    pub fn load(folder: &Path) -> Result<Way, String> {
        let rows = Library::load(folder.join("lookuprows.so"))?;
        let library = Library::load(folder.join("quagmuffin.so"))?;
        let name = folder.file_name().unwrap_or(folder.as_os_str());
        // SAFETY: these are the types of the functions of these names.
        unsafe {
            Ok(Way {
                name: name.to_string_lossy().into(),
                apart: std::mem::transmute::<*mut c_void, Row>(rows.find(c"lookups_apart")?),
                chained: std::mem::transmute::<*mut c_void, Row>(rows.find(c"lookups_chained")?),
                settle: std::mem::transmute::<*mut c_void, Settle>(library.find(c"qm_settle")?),
                code: [rows.code, library.code],
            })
        }
    }

    /// The sum of the bits that the picks name.
    pub fn apart(&self, contents: &[u64], picks: &[u16]) -> u64 {
        let (words, count) = (contents.as_ptr(), picks.len());
        // SAFETY: both are lent with their lengths.
        unsafe { (self.apart)(words, contents.len(), picks.as_ptr(), count) }
    }

    /// The same with each place moved on by the bit before it.
    pub fn chained(&self, contents: &[u64], picks: &[u16]) -> u64 {
        let (words, count) = (contents.as_ptr(), picks.len());
        // SAFETY: both are lent with their lengths.
        unsafe { (self.chained)(words, contents.len(), picks.as_ptr(), count) }
    }

    /// Settles a file over its buffers; the answer is that of `qm_settle`.
    pub fn settle(&self, bench: &mut Bench) -> u64 {
        let (file, contents, flops) = (&bench.file, &bench.contents, &bench.flops);
        let (inputs, values) = (&bench.inputs, &mut bench.values);
        // SAFETY: each is lent with its length.
        unsafe {
            (self.settle)(
                file.as_ptr(),
                file.len(),
                contents.as_ptr(),
                contents.len(),
                flops.as_ptr(),
                flops.len(),
                inputs.as_ptr(),
                inputs.len(),
                values.as_mut_ptr(),
                values.len(),
            )
        }
    }
}
