//! Archives as shared objects, loaded while the program runs, so that one process can call several of
//! them; and the calls of these, which are unsafe like those of the archive that is linked
//! (rust/sildrokk).

#![allow(unsafe_code)]

use sildrokk::calls::{Make, Run, RESULT, STATE};
use std::ffi::{c_char, c_int, c_void, CStr, CString};
use std::mem::transmute;
use std::os::unix::ffi::OsStrExt;
use std::path::Path;

/// `sildrokk_run` of an archive from before ask 5, which has no `sildrokk_make`: part, pins and bits go
/// in with each run, and its result has 24 bytes.
type RunOfMaking = unsafe extern "C" fn(
    u32,
    u32,
    u32,
    u64,
    *const u8,
    usize,
    *mut u8,
    usize,
    *mut u8,
    usize,
) -> u8;

/// Load at once, and keep the names of each object to itself (dlfcn.h).
const NOW_AND_LOCAL: c_int = 2;

extern "C" {
    fn dlopen(name: *const c_char, flags: c_int) -> *mut c_void;
    fn dlsym(object: *mut c_void, name: *const c_char) -> *mut c_void;
}

/// One loaded archive. It is never unloaded.
pub enum Loaded {
    OnState { make: Make, run: Run },
    OfMaking(RunOfMaking),
}

impl Loaded {
    /// Loads the shared object; says which one cannot be loaded.
    pub fn open(path: &Path) -> Result<Loaded, String> {
        let fault = |what: &str| format!("{}: {what}", path.display());
        let name = CString::new(path.as_os_str().as_bytes());
        let name = name.map_err(|_| fault("a path with a zero byte"))?;
        // SAFETY: all names end in a zero byte. The object is one that tests/pace has linked from an
        // archive, so that its functions have the types that the header of their time declares.
        unsafe {
            let object = dlopen(name.as_ptr(), NOW_AND_LOCAL);
            if object.is_null() {
                return Err(fault("cannot be loaded"));
            }
            let found = |name: &CStr| {
                let at = dlsym(object, name.as_ptr());
                (!at.is_null()).then_some(at)
            };
            let run = found(c"sildrokk_run").ok_or(fault("has no sildrokk_run"))?;
            Ok(match found(c"sildrokk_make") {
                Some(make) => Loaded::OnState {
                    make: transmute::<*mut c_void, Make>(make),
                    run: transmute::<*mut c_void, Run>(run),
                },
                None => Loaded::OfMaking(transmute::<*mut c_void, RunOfMaking>(run)),
            })
        }
    }

    /// A run of a part just made with no pins and bits, without limit: its number.
    pub fn run(&self, part: u32, trace: &[u8], memory: &mut [u8]) -> u8 {
        match self {
            Loaded::OnState { make, run } => on_state(*make, *run, part, trace, memory),
            Loaded::OfMaking(run) => of_making(*run, part, trace, memory),
        }
    }
}

fn on_state(make: Make, run: Run, part: u32, trace: &[u8], memory: &mut [u8]) -> u8 {
    let (mut state, mut result) = ([0; STATE], [0; RESULT]);
    // SAFETY: each pointer comes from a slice with its length, and the slices do not overlap.
    unsafe {
        let made = make(part, 0, 0, state.as_mut_ptr(), state.len());
        assert_eq!(made, 0, "the making");
        run(
            state.as_mut_ptr(),
            state.len(),
            trace.as_ptr(),
            trace.len(),
            u64::MAX,
            memory.as_mut_ptr(),
            memory.len(),
            result.as_mut_ptr(),
            result.len(),
        )
    }
}

fn of_making(run: RunOfMaking, part: u32, trace: &[u8], memory: &mut [u8]) -> u8 {
    let mut result = [0; 24];
    // SAFETY: as above.
    unsafe {
        run(
            part,
            0,
            0,
            u64::MAX,
            trace.as_ptr(),
            trace.len(),
            memory.as_mut_ptr(),
            memory.len(),
            result.as_mut_ptr(),
            result.len(),
        )
    }
}
