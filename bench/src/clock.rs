//! The processor time of this thread: on a machine with other work to do, wall time would count that work too.
#[repr(C)]
struct Timespec {
    seconds: i64,
    nanoseconds: i64,
}

const THREAD_CPU: i32 = 3;

extern "C" {
    fn clock_gettime(clock: i32, out: *mut Timespec) -> i32;
}

/// Seconds of processor time that this thread has had.
pub fn now() -> f64 {
    let mut t = Timespec {
        seconds: 0,
        nanoseconds: 0,
    };
    // SAFETY: the C library writes one timespec, laid out as on 64-bit Linux.
    assert_eq!(unsafe { clock_gettime(THREAD_CPU, &mut t) }, 0);
    t.seconds as f64 + t.nanoseconds as f64 * 1e-9
}

#[repr(C)]
#[derive(Default)]
struct Usage {
    user: [i64; 2],
    system: [i64; 2],
    rest: [i64; 14],
}

const CHILDREN: i32 = -1;

extern "C" {
    fn getrusage(who: i32, out: *mut Usage) -> i32;
}

/// Seconds of processor time that the programs which this one waited for have had.
#[allow(dead_code)]
pub fn of_children() -> f64 {
    let mut u = Usage::default();
    // SAFETY: the C library writes one rusage, laid out as on 64-bit Linux.
    assert_eq!(unsafe { getrusage(CHILDREN, &mut u) }, 0);
    (u.user[0] + u.system[0]) as f64 + (u.user[1] + u.system[1]) as f64 * 1e-6
}
