//! How long a call is at work.

/// Turns of a call; the median is taken. A slow one has fewer, a very slow one has one.
const TURNS: usize = 9;
const FEWER_TURNS: usize = 3;
const SLOW: f64 = 5.0;
const VERY_SLOW: f64 = 400.0;

/// The median of a call's milliseconds.
pub fn milliseconds(call: &mut dyn FnMut()) -> f64 {
    let once = time(call);
    if once > VERY_SLOW {
        return once;
    }
    let turns = if once > SLOW { FEWER_TURNS } else { TURNS };
    median((0..turns).map(|_| time(call)).collect())
}

/// The milliseconds of one turn.
pub fn time(call: &mut dyn FnMut()) -> f64 {
    let start = own_time();
    call();
    own_time() - start
}

/// The milliseconds that this thread was at work: others at work on the machine
/// are not timed.
pub fn own_time() -> f64 {
    #[repr(C)]
    struct Timespec {
        seconds: i64,
        nanoseconds: i64,
    }
    unsafe extern "C" {
        fn clock_gettime(clock: i32, time: *mut Timespec) -> i32;
    }
    const THREAD_CPU_TIME: i32 = 3;
    let mut time = Timespec {
        seconds: 0,
        nanoseconds: 0,
    };
    // SAFETY: the time is valid for the call, and has the form that Linux gives it on 64 bits.
    unsafe { clock_gettime(THREAD_CPU_TIME, &mut time) };
    time.seconds as f64 * 1e3 + time.nanoseconds as f64 / 1e6
}

pub fn median(mut numbers: Vec<f64>) -> f64 {
    numbers.sort_by(f64::total_cmp);
    numbers[numbers.len() / 2]
}
