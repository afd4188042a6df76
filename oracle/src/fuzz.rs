//! Coverage-guided inputs by libFuzzer, from clang's runtime: bytes are decoded into the arguments
//! of one entry point, the library and the Rust are called, and any difference, or any byte changed
//! outside the results, ends the run.
//!
//! `oracle fuzz ENTRY [libFuzzer's arguments]`; `fuzz/run` builds it with coverage and starts it.

mod bytes;
mod entries;
mod lent;

pub use bytes::Bytes;

use std::ffi::{c_char, c_int, CString};
use std::sync::OnceLock;

extern "C" {
    fn LLVMFuzzerRunDriver(
        argc: *mut c_int,
        argv: *mut *mut *mut c_char,
        callback: extern "C" fn(*const u8, usize) -> c_int,
    ) -> c_int;
    fn signal(number: c_int, handler: usize) -> usize;
}

/// The entry point of this run.
static ENTRY: OnceLock<fn(&mut Bytes)> = OnceLock::new();

extern "C" fn one(data: *const u8, length: usize) -> c_int {
    // SAFETY: libFuzzer hands over that many bytes.
    let data = match length {
        0 => &[][..],
        _ => unsafe { std::slice::from_raw_parts(data, length) },
    };
    let mut bytes = Bytes::new(data);
    // A panic must not cross into C++; it is a difference all the same.
    if std::panic::catch_unwind(move || ENTRY.get().unwrap()(&mut bytes)).is_err() {
        std::process::abort();
    }
    0
}

/// Runs libFuzzer on an entry point.
pub fn run(words: &[String]) -> Result<bool, String> {
    let names = || {
        let names: Vec<&str> = entries::ENTRIES.iter().map(|e| e.0).collect();
        names.join(", ")
    };
    let Some((name, rest)) = words.split_first() else {
        return Err(format!("fuzz takes one of {}", names()));
    };
    if name == "--list" {
        println!("{}", names().replace(", ", "\n"));
        return Ok(true);
    }
    let found = entries::ENTRIES.iter().find(|e| e.0 == name);
    let (_, call) = found.ok_or(format!("{name}: none of {}", names()))?;
    ENTRY.set(*call).expect("set once");
    let all = std::iter::once("oracle".to_string()).chain(rest.iter().cloned());
    let texts: Vec<CString> = all.map(|w| CString::new(w).unwrap()).collect();
    let mut words: Vec<*mut c_char> = texts.iter().map(|t| t.as_ptr().cast_mut()).collect();
    words.push(std::ptr::null_mut());
    let (mut argc, mut argv) = (texts.len() as c_int, words.as_mut_ptr());
    // SAFETY: as main's arguments are; libFuzzer keeps them while it runs. SIGSEGV (11) and SIGBUS (7)
    // go back to their default (0), which libFuzzer then takes over to keep the input.
    let status = unsafe {
        signal(11, 0);
        signal(7, 0);
        LLVMFuzzerRunDriver(&mut argc, &mut argv, one)
    };
    Ok(status == 0)
}
