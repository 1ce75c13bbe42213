//! Shared libraries that are loaded while the program runs.

use std::ffi::{c_char, c_int, c_void, CStr, CString};
use std::fmt::Display;
use std::os::unix::ffi::OsStrExt;
use std::path::PathBuf;

extern "C" {
    fn dlopen(name: *const c_char, flags: c_int) -> *mut c_void;
    fn dlsym(library: *mut c_void, name: *const c_char) -> *mut c_void;
}

/// What a library refers to is looked for when it is loaded, and nothing else refers to it.
const RTLD_NOW: c_int = 2;

/// A shared library, which stays loaded.
pub(crate) struct Library {
    path: PathBuf,
    pub(crate) code: Vec<u8>,
    handle: *mut c_void,
}

impl Library {
    pub(crate) fn load(path: PathBuf) -> Result<Library, String> {
        let of_path = |why: &dyn Display| format!("{}: {why}", path.display());
        let code = std::fs::read(&path).map_err(|error| of_path(&error))?;
        let name = CString::new(path.as_os_str().as_bytes()).map_err(|error| of_path(&error))?;
        // SAFETY: the name ends with a 0.
        let handle = unsafe { dlopen(name.as_ptr(), RTLD_NOW) };
        if handle.is_null() {
            return Err(of_path(&"is no shared library that can be loaded"));
        }
        Ok(Library { path, code, handle })
    }

    pub(crate) fn find(&self, name: &CStr) -> Result<*mut c_void, String> {
        // SAFETY: the library is loaded, and the name ends with a 0.
        let function = unsafe { dlsym(self.handle, name.as_ptr()) };
        if function.is_null() {
            let (path, name) = (self.path.display(), name.to_string_lossy());
            return Err(format!("{path}: has no {name}"));
        }
        Ok(function)
    }
}
