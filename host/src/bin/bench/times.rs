//! How long work takes: the processor's time for this thread.

use std::any::Any;

/// One measurement lasts at least this long; short work is repeated.
const LEAST_SECONDS: f64 = 0.001;

/// Work whose time is taken. What it makes it may put into the bin, which is emptied when no time is taken.
pub type Work<'a> = Box<dyn FnMut(&mut Bin) + 'a>;
pub type Bin = Vec<Box<dyn Any>>;

/// The processor's time for this thread, in seconds.
fn now() -> f64 {
    /// Seconds and nanoseconds, as C has them on Linux with 64 bits.
    #[repr(C)]
    struct Time {
        seconds: i64,
        nanoseconds: i64,
    }
    extern "C" {
        fn clock_gettime(clock: i32, time: *mut Time) -> i32;
    }
    const THREAD: i32 = 3;
    let mut time = Time { seconds: 0, nanoseconds: 0 };
    // Safety: the time is lent for this call alone.
    let status = unsafe { clock_gettime(THREAD, &mut time) };
    assert_eq!(status, 0, "there is no clock for a thread's time");
    time.seconds as f64 + time.nanoseconds as f64 / 1e9
}

/// The times of one kind of work.
pub struct Times<'a> {
    work: Work<'a>,
    repeats: usize,
    seconds: Vec<f64>,
}

/// The median and the least of some times, in seconds.
#[derive(Clone, Copy)]
pub struct Summary {
    pub median: f64,
    pub least: f64,
}

impl<'a> Times<'a> {
    pub fn new(mut work: Work<'a>) -> Self {
        // The first time warms up; the second says how often to repeat.
        work(&mut vec![]);
        let start = now();
        work(&mut vec![]);
        let once = (now() - start).max(1e-9);
        Self { work, repeats: (LEAST_SECONDS / once).ceil() as usize, seconds: vec![] }
    }

    /// One measurement, in seconds, that is not kept.
    pub fn once(&mut self) -> f64 {
        let mut bin = Bin::with_capacity(self.repeats);
        let start = now();
        for _ in 0..self.repeats {
            (self.work)(&mut bin);
        }
        (now() - start) / self.repeats as f64
    }

    pub fn measure(&mut self) {
        let seconds = self.once();
        self.seconds.push(seconds);
    }

    pub fn summary(&self) -> Summary {
        Summary::of(self.seconds.clone())
    }
}

impl Summary {
    /// The summary of at least one time.
    pub fn of(mut seconds: Vec<f64>) -> Self {
        seconds.sort_unstable_by(f64::total_cmp);
        Self { median: seconds[seconds.len() / 2], least: seconds[0] }
    }

    /// What is left of this time without another.
    pub fn without(self, part: Summary) -> Self {
        Self { median: self.median - part.median, least: self.least - part.least }
    }
}

/// A time in microseconds, or milliseconds.
pub fn written(seconds: f64) -> String {
    match seconds * 1e6 {
        us if us < 10.0 => format!("{us:.2} µs"),
        us if us < 1000.0 => format!("{us:.1} µs"),
        us => format!("{:.2} ms", us / 1000.0),
    }
}
