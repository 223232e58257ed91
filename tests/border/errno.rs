// A host whose thread failed before, with any number: sockhurdle_read tells a failed read from the end of the input all the same,
// however often it is asked. Ends in silence, or at the first answer that is another one.
use std::fs::File;
use std::os::fd::AsRawFd;

unsafe extern "C" {
    fn sockhurdle_read(from: i32, into: *mut u8, into_len: usize) -> usize;
    fn __errno_location() -> *mut i32;
}

fn read(errno: i32, from: i32) -> usize {
    let mut buffer = [0u8; 64];
    // SAFETY: the buffer is as long as is said, and the thread's own errno can be written.
    unsafe {
        *__errno_location() = errno;
        sockhurdle_read(from, buffer.as_mut_ptr(), buffer.len())
    }
}

fn main() -> std::io::Result<()> {
    let empty = File::open("/dev/null")?;
    let folder = File::open("/")?;
    for errno in 0..134 {
        let file = File::open("crates.txt")?;
        assert_eq!(read(errno, empty.as_raw_fd()), 0, "an empty input after {errno}");
        assert_eq!(read(errno, file.as_raw_fd()), 64, "a file after {errno}");
        assert_eq!(read(errno, folder.as_raw_fd()), usize::MAX, "a folder after {errno}");
        for closed in [-1, 1_000_000] {
            assert_eq!(read(errno, closed), usize::MAX, "no descriptor after {errno}");
        }
    }
    Ok(())
}
