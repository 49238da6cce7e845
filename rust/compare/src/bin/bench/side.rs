//! What is measured: a compiler and a runner behind the C interface.

use salnegris::sys;
use std::ffi::{c_char, c_int, c_void, CString};
use std::slice;

pub type Compile = unsafe extern "C" fn(*const u8, usize, *mut u8, usize) -> sys::Compiled;
pub type Run = unsafe extern "C" fn(u8, *const u8, usize, *const u8, usize, *mut u8, usize) -> sys::Run;

#[derive(Clone, Copy)]
pub struct Side {
    compile: Compile,
    run: Run,
}

/// The proved library.
pub const LIBRARY: Side = Side { compile: sys::salnegris_compile, run: sys::salnegris_run };

/// Plain Rust.
pub const BASELINE: Side = Side { compile: compile_plainly, run: run_plainly };

impl Side {
    pub fn compile(&self, table: &[u8], code: &mut [u8]) -> sys::Compiled {
        // SAFETY: slices are as long as they say, and a mutable one overlaps no other.
        unsafe { (self.compile)(table.as_ptr(), table.len(), code.as_mut_ptr(), code.len()) }
    }

    /// From unblocked.
    pub fn run(&self, code: &[u8], schedule: &[u8], stack: &mut [u8]) -> sys::Run {
        // SAFETY: as above.
        unsafe {
            (self.run)(
                1,
                code.as_ptr(),
                code.len(),
                schedule.as_ptr(),
                schedule.len(),
                stack.as_mut_ptr(),
                stack.len(),
            )
        }
    }

    /// The library in a shared object, which stays loaded.
    pub fn loaded(path: &str) -> Result<Side, String> {
        let file = CString::new(path).map_err(|error| error.to_string())?;
        // SAFETY: the file is one of the library's, whose functions have these types; loading it runs none of its code.
        unsafe {
            let object = dlopen(file.as_ptr(), BIND_NOW);
            let function = |name: &CString| match object.is_null() {
                true => object,
                false => dlsym(object, name.as_ptr()),
            };
            let [compile, run] =
                [c"salnegris_compile", c"salnegris_run"].map(|name| function(&name.to_owned()));
            match compile.is_null() || run.is_null() {
                true => Err(format!("'{path}' is no shared object of the library")),
                false => Ok(Side {
                    compile: std::mem::transmute::<*mut c_void, Compile>(compile),
                    run: std::mem::transmute::<*mut c_void, Run>(run),
                }),
            }
        }
    }
}

const BIND_NOW: c_int = 2;

extern "C" {
    fn dlopen(path: *const c_char, how: c_int) -> *mut c_void;
    fn dlsym(object: *mut c_void, name: *const c_char) -> *mut c_void;
}

unsafe extern "C" fn compile_plainly(
    table: *const u8,
    table_len: usize,
    code: *mut u8,
    code_len: usize,
) -> sys::Compiled {
    // SAFETY: made of slices by `Side`.
    let (table, code) =
        unsafe { (slice::from_raw_parts(table, table_len), slice::from_raw_parts_mut(code, code_len)) };
    let baseline::Compiled { length, refusal, place } = baseline::compile(table, code);
    sys::Compiled { length, refusal, place }
}

unsafe extern "C" fn run_plainly(
    status: u8,
    code: *const u8,
    code_len: usize,
    schedule: *const u8,
    schedule_len: usize,
    stack: *mut u8,
    stack_len: usize,
) -> sys::Run {
    // SAFETY: made of slices by `Side`.
    let (code, schedule, stack) = unsafe {
        (
            slice::from_raw_parts(code, code_len),
            slice::from_raw_parts(schedule, schedule_len),
            slice::from_raw_parts_mut(stack, stack_len),
        )
    };
    let baseline::Answer { kind, number, refusal, place, steps, reached } =
        baseline::run(status, code, schedule, stack);
    sys::Run { kind, number, refusal, place, steps, reached }
}
