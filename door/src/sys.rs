//! The few calls of the C library that std does not offer in Debian's Rust. Whatever is unsafe stands here.

use std::fs::File;
use std::io;
use std::mem::ManuallyDrop;
use std::os::raw::{c_int, c_ulong};
use std::os::unix::io::{AsRawFd, FromRawFd, RawFd};
use std::os::unix::process::CommandExt;
use std::process::Command;

/// As large as glibc's own, on x86-64 and on Arm.
#[repr(C)]
struct SignalSet([u64; 16]);

extern "C" {
    fn isatty(fd: c_int) -> c_int;
    fn flock(fd: c_int, operation: c_int) -> c_int;
    fn kill(process: c_int, signal: c_int) -> c_int;
    fn setpgid(process: c_int, group: c_int) -> c_int;
    fn signal(number: c_int, handler: usize) -> usize;
    fn sigemptyset(set: *mut SignalSet) -> c_int;
    fn sigaddset(set: *mut SignalSet, number: c_int) -> c_int;
    fn pthread_sigmask(how: c_int, set: *const SignalSet, old: *mut SignalSet) -> c_int;
    fn sigwait(set: *const SignalSet, number: *mut c_int) -> c_int;
    fn fcntl(fd: c_int, command: c_int, ...) -> c_int;
    fn ioctl(fd: c_int, request: c_ulong, ...) -> c_int;
    fn pipe2(ends: *mut c_int, flags: c_int) -> c_int;
}

const IGNORED: usize = 1;
const DEFAULT: usize = 0;
const BLOCK: c_int = 0;
const SET_MASK: c_int = 2;
const KILL: c_int = 9;
const CHILD_ENDED: c_int = 17;
const TOO_LARGE: c_int = 25;
const LOCK: c_int = 2;
const WITHOUT_WAITING: c_int = 4;
const GET_FLAGS: c_int = 3;
const APPEND: c_int = 0o2000;
const CLOSE_ON_EXEC: c_int = 0o2000000;
const HOW_MANY_UNREAD: c_ulong = 0x541B;

/// Errors of writing that mean a full disk, a quota, or a limit on a file's size.
pub const FULL: [i32; 3] = [28, 122, 27];

/// Standard stream 0, 1 or 2 as a file. std's own stdout takes a write to a closed stream for done.
pub fn stream(fd: RawFd) -> ManuallyDrop<File> {
    // it is not closed when it goes out of use, since it is the caller's
    ManuallyDrop::new(unsafe { File::from_raw_fd(fd) })
}

pub fn is_terminal(fd: RawFd) -> bool {
    unsafe { isatty(fd) == 1 }
}

/// Whether what is written goes to the end of the file, wherever the file's place is.
pub fn appends(file: &File) -> bool {
    let flags = unsafe { fcntl(file.as_raw_fd(), GET_FLAGS) };
    flags >= 0 && flags & APPEND != 0
}

/// A pipe: the end that is read, and the end that is written.
pub fn pipe() -> io::Result<(File, File)> {
    let mut ends = [0; 2];
    if unsafe { pipe2(ends.as_mut_ptr(), CLOSE_ON_EXEC) } != 0 {
        return Err(io::Error::last_os_error());
    }
    Ok(unsafe { (File::from_raw_fd(ends[0]), File::from_raw_fd(ends[1])) })
}

/// Whether bytes stand in a pipe that nobody has read.
pub fn has_unread(end: &File) -> bool {
    let mut count: c_int = 0;
    let asked = unsafe { ioctl(end.as_raw_fd(), HOW_MANY_UNREAD, &mut count) };
    asked != 0 || count > 0
}

/// Takes the lock of an open file or folder. It is given back when the file is closed, however the door ends.
pub fn lock(file: &File, wait: bool) -> io::Result<bool> {
    let operation = if wait { LOCK } else { LOCK | WITHOUT_WAITING };
    loop {
        if unsafe { flock(file.as_raw_fd(), operation) } == 0 {
            return Ok(true);
        }
        let error = io::Error::last_os_error();
        match error.kind() {
            io::ErrorKind::WouldBlock => return Ok(false),
            io::ErrorKind::Interrupted => {}
            _ => return Err(error),
        }
    }
}

pub fn kill_group(group: i32) {
    unsafe { kill(-group, KILL) };
}

fn set_of(numbers: &[c_int]) -> SignalSet {
    let mut set = SignalSet([0; 16]);
    unsafe {
        sigemptyset(&mut set);
        for &number in numbers {
            sigaddset(&mut set, number);
        }
    }
    set
}

/// Makes these signals wait for `next_signal`, in this thread and all that it starts; one that the caller has ignored stays ignored.
/// A file that grows too large is an error of the write, and no signal. A caller that ignores the end of its children hands that on, and no
/// child's status could be learnt.
pub fn hold_signals(numbers: &[i32]) -> Vec<i32> {
    unsafe {
        signal(TOO_LARGE, IGNORED);
        signal(CHILD_ENDED, DEFAULT);
    }
    let held: Vec<c_int> = numbers
        .iter()
        .copied()
        .filter(|&number| unsafe {
            let before = signal(number, DEFAULT);
            if before == IGNORED {
                signal(number, IGNORED);
            }
            before != IGNORED
        })
        .collect();
    let set = set_of(&held);
    unsafe { pthread_sigmask(BLOCK, &set, std::ptr::null_mut()) };
    held
}

pub fn next_signal(numbers: &[i32]) -> i32 {
    let set = set_of(numbers);
    let mut number = 0;
    while unsafe { sigwait(&set, &mut number) } != 0 {}
    number
}

/// Has a command run in a process group of its own, so that all of it can be ended at once, with no signal held back.
pub fn apart(command: &mut Command) -> &mut Command {
    let none = set_of(&[]);
    unsafe {
        command.pre_exec(move || {
            if setpgid(0, 0) != 0 || pthread_sigmask(SET_MASK, &none, std::ptr::null_mut()) != 0 {
                return Err(io::Error::last_os_error());
            }
            Ok(())
        })
    }
}
