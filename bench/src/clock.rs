//! Processor time, which other work on the machine lengthens less than the time on the wall.
#[repr(C)]
struct Time {
    seconds: i64,
    nanos: i64,
}

extern "C" {
    fn clock_gettime(clock: i32, time: *mut Time) -> i32;
}

/// Linux's number for the processor time of the whole process.
const PROCESS: i32 = 2;

fn now() -> f64 {
    let mut time = Time { seconds: 0, nanos: 0 };
    // SAFETY: `time` is as the C library declares it, and lives.
    let status = unsafe { clock_gettime(PROCESS, &mut time) };
    assert_eq!(status, 0, "no clock");
    time.seconds as f64 + time.nanos as f64 / 1e9
}

/// The seconds that a run takes.
pub fn timed(run: impl FnOnce()) -> f64 {
    let start = now();
    run();
    now() - start
}

/// The least, the median and the most of some times.
pub struct Spread {
    pub least: f64,
    pub median: f64,
    pub most: f64,
}

pub fn spread(mut times: Vec<f64>) -> Spread {
    times.sort_by(f64::total_cmp);
    Spread { least: times[0], median: times[times.len() / 2], most: times[times.len() - 1] }
}
