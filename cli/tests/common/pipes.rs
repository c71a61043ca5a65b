//! Pipes that nobody reads, or not yet.

use std::fs::File;
use std::os::fd::{AsRawFd, FromRawFd};
use std::process::Child;
use std::time::{Duration, Instant};

/// The end of a pipe to write to, whose reader is gone.
pub fn without_reader() -> File {
    let mut ends = [0; 2];
    // SAFETY: there is room for both ends, which belong to nobody else.
    let [reader, writer] = unsafe {
        assert_eq!(libc::pipe2(ends.as_mut_ptr(), libc::O_CLOEXEC), 0);
        ends.map(|end| File::from_raw_fd(end))
    };
    drop(reader);
    writer
}

/// The bytes that wait in the pipe of a program's standard output.
fn waiting(child: &Child) -> i32 {
    let pipe = child.stdout.as_ref().expect("a pipe").as_raw_fd();
    let mut count = 0;
    // SAFETY: the call writes one number there.
    assert_eq!(unsafe { libc::ioctl(pipe, libc::FIONREAD, &mut count) }, 0);
    count
}

/// Waits until a program has filled the pipe of its standard output, so that it stands still.
pub fn wait_until_blocked(child: &mut Child) {
    let begin = Instant::now();
    let mut before = -1;
    loop {
        let now = waiting(child);
        if now > 32_768 && now == before {
            return;
        }
        let ended = child.try_wait().expect("a child");
        assert!(ended.is_none(), "it ended with {now} bytes in the pipe");
        assert!(
            begin.elapsed() < Duration::from_secs(20),
            "only {now} bytes came"
        );
        before = now;
        std::thread::sleep(Duration::from_millis(60));
    }
}
