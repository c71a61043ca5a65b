//! Decides what becomes of one system call of the program, so that a run can be ended at a moment that is known, and
//! a file system be played that can't keep files without a name.

use std::io::{Error, Result};
use std::os::unix::process::CommandExt;
use std::process::Command;

/// What happens in place of a call.
#[derive(Clone, Copy)]
pub enum Instead {
    /// The process ends, as if it were killed.
    Killed,
    Error(i32),
}

/// A call by its number, if need be one with certain flags as its third argument.
#[derive(Clone, Copy)]
pub struct Call {
    pub number: libc::c_long,
    pub flags: Option<i32>,
    pub instead: Instead,
}

/// The opening of a file without a name, which some file systems do not know.
pub const NO_NAMELESS_FILES: Call = Call {
    number: libc::SYS_openat,
    // What `O_TMPFILE` has beyond `O_DIRECTORY`.
    flags: Some(libc::O_TMPFILE & !libc::O_DIRECTORY),
    instead: Instead::Error(libc::EOPNOTSUPP),
};

/// The moment before a call of that number.
pub fn killed_at(number: libc::c_long) -> Call {
    Call {
        number,
        flags: None,
        instead: Instead::Killed,
    }
}

const LOAD: u16 = 0x20;
const IF_EQUAL: u16 = 0x15;
const IF_SET: u16 = 0x45;
const RETURN: u16 = 0x06;
const ALLOW: u32 = 0x7fff_0000;
const ERROR: u32 = 0x0005_0000;

/// Where the kernel's description of a call has its number, and the lower half of its third argument.
const NUMBER: u32 = 0;
const THIRD_ARGUMENT: u32 = 32;

fn step(code: u16, k: u32, otherwise_skip: u8) -> libc::sock_filter {
    libc::sock_filter {
        code,
        jt: 0,
        jf: otherwise_skip,
        k,
    }
}

fn filter(calls: &[Call]) -> Vec<libc::sock_filter> {
    let mut steps = Vec::new();
    for call in calls {
        let instead = match call.instead {
            Instead::Killed => libc::SECCOMP_RET_KILL_PROCESS,
            Instead::Error(number) => ERROR | number as u32,
        };
        // What is skipped where it is another call: the check of the flags, if any, and the return.
        let rest = if call.flags.is_some() { 3 } else { 1 };
        steps.push(step(LOAD, NUMBER, 0));
        steps.push(step(IF_EQUAL, call.number as u32, rest));
        if let Some(flags) = call.flags {
            steps.push(step(LOAD, THIRD_ARGUMENT, 0));
            steps.push(step(IF_SET, flags as u32, 1));
        }
        steps.push(step(RETURN, instead, 0));
    }
    steps.push(step(RETURN, ALLOW, 0));
    steps
}

fn install(steps: &mut [libc::sock_filter]) -> Result<()> {
    let program = libc::sock_fprog {
        len: steps.len() as u16,
        filter: steps.as_mut_ptr(),
    };
    // SAFETY: the steps outlive the call, which copies them.
    let failed = unsafe {
        libc::prctl(libc::PR_SET_NO_NEW_PRIVS, 1, 0, 0, 0) != 0
            || libc::prctl(libc::PR_SET_SECCOMP, libc::SECCOMP_MODE_FILTER, &program) != 0
    };
    match failed {
        true => Err(Error::last_os_error()),
        false => Ok(()),
    }
}

/// The program goes by these from its first call on.
pub fn decide(command: &mut Command, calls: &[Call]) {
    let mut steps = filter(calls);
    // SAFETY: between fork and exec two system calls are made, and nothing else.
    unsafe { command.pre_exec(move || install(&mut steps)) };
}

/// Whether the kernel takes such decisions here.
pub fn works() -> bool {
    let mut command = Command::new("true");
    decide(&mut command, &[NO_NAMELESS_FILES]);
    let works = command.status().is_ok_and(|status| status.success());
    if !works {
        println!("skipped: system calls can't be decided on here");
    }
    works
}
