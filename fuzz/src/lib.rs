//! The libFuzzer target: every input is made into one call of each kind, and the library's answers and buffers are compared with what the
//! second program says. A difference is told on standard error and ends the program, so that libFuzzer keeps the input.

mod blocks;
mod calls;
mod fence;
pub mod input;
mod mutate;

use calls::Calls;
use input::Input;
use second::random::source::Random;
use std::cell::RefCell;
use std::slice;

extern "C" {
    /// libFuzzer's own mutation of bytes.
    fn LLVMFuzzerMutate(data: *mut u8, size: usize, max_size: usize) -> usize;
    fn atexit(call: extern "C" fn()) -> i32;
}

thread_local! {
    static CALLS: RefCell<Calls> = RefCell::new(opened());
}

/// The shared object that `COMPOSTHUM_SO` names, its blocks by the file that `COMPOSTHUM_BLOCKS` names; what was met is printed at the end.
fn opened() -> Calls {
    let path = variable("COMPOSTHUM_SO");
    let places = variable("COMPOSTHUM_BLOCKS");
    let places = std::fs::read_to_string(&places).unwrap_or_else(|error| stop(&format!("{places}: {error}")));
    let calls = Calls::open(&path).unwrap_or_else(|message| stop(&format!("{path}: {message}")));
    blocks::watch(&path, &places).unwrap_or_else(|message| stop(&format!("{path}: {message}")));
    // SAFETY: the call given takes nothing and keeps nothing.
    unsafe { atexit(print_answers) };
    calls
}

fn variable(name: &str) -> String {
    std::env::var(name).unwrap_or_else(|_| stop(&format!("{name} is not set: start the target by fuzz/run")))
}

fn stop(message: &str) -> ! {
    eprintln!("{message}");
    std::process::exit(2)
}

extern "C" fn print_answers() {
    CALLS.with(|calls| calls.borrow().print_answers());
    let (count, left) = blocks::not_reached(&variable("COMPOSTHUM_SO"));
    eprintln!("blocks of the library's machine code that ran: {} of {count}", count - left.len());
    eprintln!("not reached, in bytes after dmp_check: {left:?}");
}

/// One input.
///
/// # Safety
/// `data` leads to `size` bytes that stay as they are during the call.
#[no_mangle]
pub unsafe extern "C" fn LLVMFuzzerTestOneInput(data: *const u8, size: usize) -> i32 {
    let bytes = match size {
        0 => &[][..],
        _ => slice::from_raw_parts(data, size),
    };
    if let Some(input) = Input::read(bytes).map(Input::stretched) {
        CALLS.with(|calls| {
            if let Err(difference) = calls.borrow_mut().compare(&input) {
                eprintln!("DIFFERENCE: {difference}");
                std::process::abort();
            }
        });
    }
    0
}

/// A new input out of one that libFuzzer thinks worth a change.
///
/// # Safety
/// `data` leads to `max_size` bytes that may be written, of which `size` hold the input.
#[no_mangle]
pub unsafe extern "C" fn LLVMFuzzerCustomMutator(data: *mut u8, size: usize, max_size: usize, seed: u32) -> usize {
    let mut random = Random::new(u64::from(seed));
    let made = Input::read(slice::from_raw_parts(data, size)).and_then(|input| mutate::changed(&mut random, input));
    match made.map(|input| input.bytes()) {
        Some(bytes) if bytes.len() <= max_size => {
            slice::from_raw_parts_mut(data, bytes.len()).copy_from_slice(&bytes);
            bytes.len()
        }
        _ => LLVMFuzzerMutate(data, size, max_size),
    }
}
