//! CPU times, which other programs on the machine disturb less than times on the wall.

use std::process::Child;

/// Seconds of CPU time.
pub type Seconds = f64;

mod c {
    #[repr(C)]
    pub struct Timespec {
        pub seconds: i64,
        pub nanoseconds: i64,
    }

    #[repr(C)]
    #[derive(Clone, Copy, Default)]
    pub struct Timeval {
        pub seconds: i64,
        pub microseconds: i64,
    }

    #[repr(C)]
    #[derive(Default)]
    pub struct Rusage {
        pub user: Timeval,
        pub system: Timeval,
        pub others: [i64; 14],
    }

    /// CLOCK_THREAD_CPUTIME_ID on Linux.
    pub const THIS_THREAD: i32 = 3;

    extern "C" {
        pub fn clock_gettime(clock: i32, time: *mut Timespec) -> i32;
        pub fn wait4(pid: i32, status: *mut i32, options: i32, usage: *mut Rusage) -> i32;
    }
}

/// The CPU time that this thread has used.
fn now() -> Seconds {
    let mut time = c::Timespec {
        seconds: 0,
        nanoseconds: 0,
    };
    // SAFETY: the pointer is to a timespec as Linux has it on x86-64.
    let failed = unsafe { c::clock_gettime(c::THIS_THREAD, &mut time) };
    assert_eq!(failed, 0, "the CPU clock can be read");
    time.seconds as f64 + time.nanoseconds as f64 * 1e-9
}

/// The CPU time that this thread needs for a task.
pub fn time(task: impl FnOnce()) -> Seconds {
    let start = now();
    task();
    now() - start
}

/// Waits for a process to end and answers the CPU time that it used, for itself and in system calls.
/// The kernel knows their sum to the nanosecond, and guesses at the parts by the ticks of a clock that
/// most short processes never see.
pub fn wait(child: Child) -> Seconds {
    let (mut status, mut usage) = (0, c::Rusage::default());
    let pid = child.id() as i32;
    // SAFETY: both pointers are to what Linux fills in on x86-64.
    let ended = unsafe { c::wait4(pid, &mut status, 0, &mut usage) };
    assert_eq!(ended, pid, "a child can be waited for");
    assert_eq!(status, 0, "a program ends with 0");
    let seconds = |t: c::Timeval| t.seconds as f64 + t.microseconds as f64 * 1e-6;
    seconds(usage.user) + seconds(usage.system)
}
