//! The shortest host: a main that hands on what the library's run answers, as sockhurdle.h shows it for C.
#![no_main]

unsafe extern "C" {
    fn sockhurdle_run(from: i32, to: i32) -> i32;
}

#[unsafe(no_mangle)]
pub extern "C" fn main() -> i32 {
    unsafe { sockhurdle_run(0, 1) }
}
