//! Clocks of Linux.

/// What is counted.
#[derive(Copy, Clone)]
pub enum Clock {
    /// The time on the wall.
    Wall = 1,
    /// The processors' time of all threads of this program.
    Process = 2,
    /// The processor's time of this thread, which other programs on the machine disturb less than the wall's.
    Thread = 3,
}

/// C's `struct timespec` on 64-bit Linux.
#[repr(C)]
struct Timespec {
    seconds: i64,
    nanoseconds: i64,
}

extern "C" {
    fn clock_gettime(clock: i32, time: *mut Timespec) -> i32;
}

impl Clock {
    fn now(self) -> f64 {
        let mut time = Timespec { seconds: 0, nanoseconds: 0 };
        // Safe: the pointer is to a struct that C's function fills.
        let failed = unsafe { clock_gettime(self as i32, &mut time) };
        assert_eq!(failed, 0, "no clock");
        time.seconds as f64 + time.nanoseconds as f64 * 1E-9
    }

    /// The seconds that a call takes.
    pub fn seconds_of(self, run: impl FnOnce()) -> f64 {
        let start = self.now();
        run();
        self.now() - start
    }
}
