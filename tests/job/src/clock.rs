//! Processor time of this thread and of processes that it waited for, so that other programs on the machine count less.

use std::time::Duration;

#[repr(C)]
struct Timespec {
    seconds: i64,
    nanoseconds: i64,
}

/// Linux's number for the calling thread's clock.
const THREAD_CLOCK: i32 = 3;

// From the C library that std itself links on 64-bit Linux.
extern "C" {
    fn clock_gettime(clock: i32, time: *mut Timespec) -> i32;
    fn getrusage(whose: i32, usage: *mut Usage) -> i32;
}

/// What Linux tells of the processes waited for: seconds and microseconds in user mode, the same in the system, and 14 numbers more.
#[repr(C)]
struct Usage {
    times: [i64; 4],
    rest: [i64; 14],
}

/// Linux's number for these processes.
const CHILDREN: i32 = -1;

pub fn cpu_time() -> Duration {
    let mut time = Timespec { seconds: 0, nanoseconds: 0 };
    // SAFETY: time is a timespec of 64-bit Linux, alive and lent for the call.
    let failed = unsafe { clock_gettime(THREAD_CLOCK, &mut time) };
    assert_eq!(failed, 0, "no thread clock");
    Duration::new(time.seconds as u64, time.nanoseconds as u32)
}

/// The processor time of all processes that were waited for.
pub fn children_time() -> Duration {
    let mut usage = Usage { times: [0; 4], rest: [0; 14] };
    // SAFETY: usage is a rusage of 64-bit Linux, alive and lent for the call.
    let failed = unsafe { getrusage(CHILDREN, &mut usage) };
    assert_eq!(failed, 0, "no times of processes");
    let [seconds, micros, system, system_micros] = usage.times.map(|number| number as u64);
    Duration::from_secs(seconds + system) + Duration::from_micros(micros + system_micros)
}
