//! Named pipes, at whose other end a thread waits that must not wait for ever.

use std::ffi::CString;
use std::fs::{File, OpenOptions};
use std::os::unix::fs::OpenOptionsExt;

pub fn make(path: &str) {
    let path = CString::new(path).expect("a path");
    // SAFETY: the path is a string that ends in a zero.
    assert_eq!(unsafe { libc::mkfifo(path.as_ptr(), 0o600) }, 0);
}

/// Both ends, opened without waiting: whoever still waits for the program at one of them goes on.
pub fn release(path: &str) -> Vec<File> {
    let open = |options: &mut OpenOptions| options.custom_flags(libc::O_NONBLOCK).open(path);
    let reading = open(OpenOptions::new().read(true));
    let writing = open(OpenOptions::new().write(true));
    reading.into_iter().chain(writing).collect()
}
