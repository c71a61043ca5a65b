//! The few calls of the system that Rust's library has not: files without a name that get one when they are whole, room
//! that is set aside before it is written, what is read ahead, and what is done on a signal.

use std::ffi::{CStr, CString};
use std::fs::{File, OpenOptions};
use std::io::{Error, Result};
use std::os::fd::AsRawFd;
use std::os::unix::ffi::OsStrExt;
use std::os::unix::fs::OpenOptionsExt;
use std::path::Path;
use std::ptr::null_mut;
use std::sync::atomic::{AtomicPtr, Ordering};

/// Where a process sees its open files by name, which is how a file without a name is given one.
const OPEN_FILES: &str = "/proc/self/fd";

fn c_path(path: &Path) -> Result<CString> {
    Ok(CString::new(path.as_os_str().as_bytes())?)
}

/// A file in a folder that has no name there: it is gone when it is closed, however the process ends.
pub fn unnamed_file(folder: &Path) -> Result<File> {
    OpenOptions::new()
        .read(true)
        .write(true)
        .mode(0o666)
        .custom_flags(libc::O_TMPFILE)
        .open(folder)
}

/// A file to keep bytes in for the time of a run, in the folder for temporary files, gone when it is closed.
pub fn temporary_file(folder: &Path) -> Result<File> {
    unnamed_file(folder).or_else(|_| {
        // Not every file system has files without a name; a name that is taken away at once does as well here.
        let path = folder.join(format!(".cotterleaf.{}.partial", std::process::id()));
        let mut options = OpenOptions::new();
        let file = options
            .read(true)
            .write(true)
            .create_new(true)
            .open(&path)?;
        std::fs::remove_file(&path)?;
        Ok(file)
    })
}

/// Whether [`name`] can work here.
pub fn can_name() -> bool {
    Path::new(OPEN_FILES).is_dir()
}

/// Gives a file without a name its name; an error of the kind `AlreadyExists` where another has it.
pub fn name(file: &File, path: &Path) -> Result<()> {
    let from = CString::new(format!("{OPEN_FILES}/{}", file.as_raw_fd()))?;
    let to = c_path(path)?;
    // SAFETY: both paths end in a zero and live through the call.
    let answer = unsafe {
        libc::linkat(
            libc::AT_FDCWD,
            from.as_ptr(),
            libc::AT_FDCWD,
            to.as_ptr(),
            libc::AT_SYMLINK_FOLLOW,
        )
    };
    match answer {
        0 => Ok(()),
        _ => Err(Error::last_os_error()),
    }
}

/// How many bytes the file system of an open file has left for this user; none where it does not say.
pub fn free_bytes(file: &File) -> Option<u64> {
    // SAFETY: a struct of plain numbers, for which zeros are a value.
    let mut room: libc::statvfs = unsafe { std::mem::zeroed() };
    // SAFETY: the file is open, and the struct is the call's to fill.
    match unsafe { libc::fstatvfs(file.as_raw_fd(), &mut room) } {
        0 if room.f_blocks > 0 => Some(room.f_bavail.saturating_mul(room.f_frsize)),
        _ => None,
    }
}

/// Makes a file so long, with its room set aside on the disk: writing to it through a map can then not run out of
/// room, which would be a signal and no error.
pub fn set_aside(file: &File, length: u64) -> Result<()> {
    if length == 0 {
        return Ok(());
    }
    let length = libc::off_t::try_from(length).map_err(Error::other)?;
    // SAFETY: the file is open.
    match unsafe { libc::posix_fallocate(file.as_raw_fd(), 0, length) } {
        0 => Ok(()),
        number => Err(Error::from_raw_os_error(number)),
    }
}

/// How often this process has waited for the disk because a page that it read was not in memory.
pub fn waits_for_disk() -> i64 {
    // SAFETY: a struct of plain numbers, for which zeros are a value, and which the call fills.
    unsafe {
        let mut usage: libc::rusage = std::mem::zeroed();
        libc::getrusage(libc::RUSAGE_SELF, &mut usage);
        usage.ru_majflt
    }
}

/// Has the system bring in more of a mapped file around each page that is read, as it does by itself, or that page
/// alone. Only a hint: what it answers does not matter.
pub fn read_around(map: &[u8], around: bool) {
    let advice = match around {
        true => libc::MADV_NORMAL,
        false => libc::MADV_RANDOM,
    };
    // SAFETY: the range is that of a map, and the advice changes no byte of it.
    unsafe { libc::madvise(map.as_ptr().cast_mut().cast(), map.len(), advice) };
}

/// What one message's header may lie in.
const PAGES: usize = 2 * PAGE;
const PAGE: usize = 4096;

/// Has the system fetch what lies at a place of a mapped file, without waiting for it. Only a hint.
pub fn fetch(map: &[u8], there: usize) {
    let first = there / PAGE * PAGE;
    if first >= map.len() {
        return;
    }
    let length = PAGES.min(map.len() - first);
    // SAFETY: the range lies in a map, which begins at a page, and the advice changes no byte of it.
    unsafe {
        let at = map.as_ptr().add(first).cast_mut().cast();
        libc::madvise(at, length, libc::MADV_WILLNEED);
    }
}

/// The path of an output that has a passing name, for the handlers below; null where there is none.
static PASSING: AtomicPtr<libc::c_char> = AtomicPtr::new(null_mut());

/// Lines that are made before, as a handler can make nothing: each with the descriptor that it goes to.
pub type LastLines = Vec<(libc::c_int, Vec<u8>)>;

/// What is said where a file that is mapped has no bytes any more.
static LAST: AtomicPtr<LastLines> = AtomicPtr::new(null_mut());

/// Has a file that gets shorter while it is mapped end the run with these lines and status 2.
pub fn say_if_shorter(lines: LastLines) {
    // Lines from before are not freed: the handler may be about to write them.
    LAST.store(Box::leak(Box::new(lines)), Ordering::SeqCst);
    handle(libc::SIGBUS, on_bus_error);
}

fn remove_passing() {
    let path = PASSING.swap(null_mut(), Ordering::SeqCst);
    if !path.is_null() {
        // SAFETY: a path that was stored ends in a zero and is never freed.
        unsafe { libc::unlink(path) };
    }
}

/// A map was read where its file has no bytes any more.
extern "C" fn on_bus_error(_: libc::c_int) {
    remove_passing();
    // SAFETY: both calls may be made in a handler, and lines that were stored live as long as the program.
    unsafe {
        if let Some(lines) = LAST.load(Ordering::SeqCst).as_ref() {
            for (to, line) in lines {
                libc::write(*to, line.as_ptr().cast(), line.len());
            }
        }
        libc::_exit(2);
    }
}

/// The process is told to end: what has a passing name goes, and then it ends as it would have without a handler.
extern "C" fn on_end(signal: libc::c_int) {
    remove_passing();
    // SAFETY: both calls may be made in a handler.
    unsafe {
        libc::signal(signal, libc::SIG_DFL);
        libc::raise(signal);
    }
}

fn handle(signal: libc::c_int, handler: extern "C" fn(libc::c_int)) {
    // SAFETY: the handlers make only calls that a handler may make. What was ignored, as by nohup, stays so.
    unsafe {
        if libc::signal(signal, handler as libc::sighandler_t) == libc::SIG_IGN {
            libc::signal(signal, libc::SIG_IGN);
        }
    }
}

/// Has a file with a passing name removed when the process is told to end, until [`passed`].
pub fn remove_on_end(path: &Path) -> Result<()> {
    let path: &'static CStr = Box::leak(c_path(path)?.into_boxed_c_str());
    PASSING.store(path.as_ptr().cast_mut(), Ordering::SeqCst);
    for signal in [libc::SIGINT, libc::SIGTERM, libc::SIGHUP] {
        handle(signal, on_end);
    }
    Ok(())
}

/// The file with a passing name is gone or has its own.
pub fn passed() {
    PASSING.store(null_mut(), Ordering::SeqCst);
}
