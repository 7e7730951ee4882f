//! Two pieces of work measured side by side, in the processor time of this thread.

#[repr(C)]
struct Timespec {
    seconds: i64,
    nanoseconds: i64,
}

extern "C" {
    fn clock_gettime(clock: i32, time: *mut Timespec) -> i32;
}

const CLOCK_THREAD_CPUTIME_ID: i32 = 3;

pub fn now() -> f64 {
    let mut t = Timespec { seconds: 0, nanoseconds: 0 };
    assert_eq!(unsafe { clock_gettime(CLOCK_THREAD_CPUTIME_ID, &mut t) }, 0);
    t.seconds as f64 + t.nanoseconds as f64 * 1e-9
}

pub fn median(mut all: Vec<f64>) -> f64 {
    all.sort_by(f64::total_cmp);
    all[all.len() / 2]
}

/// Seconds of one call, from as many as take about 4 ms.
struct Timed<'a> {
    work: &'a mut dyn FnMut(),
    calls: u32,
    samples: Vec<f64>,
}

impl<'a> Timed<'a> {
    fn new(work: &'a mut dyn FnMut()) -> Timed<'a> {
        let mut calls = 1;
        loop {
            let start = now();
            for _ in 0..calls {
                work();
            }
            if now() - start > 0.004 {
                return Timed { work, calls, samples: Vec::new() };
            }
            calls *= 2;
        }
    }

    fn sample(&mut self) {
        let start = now();
        for _ in 0..self.calls {
            (self.work)();
        }
        self.samples.push((now() - start) / self.calls as f64);
    }
}

/// Medians over the rounds: the seconds of either, and the seconds of `a` over those of `b` in the same round.
#[derive(Clone, Copy)]
pub struct Times {
    pub a: f64,
    pub b: f64,
    pub ratio: f64,
}

impl Times {
    pub fn of(a: Vec<f64>, b: Vec<f64>) -> Times {
        let ratios = a.iter().zip(&b).map(|(a, b)| a / b).collect();
        Times { a: median(a), b: median(b), ratio: median(ratios) }
    }
}

/// Rounds in which the two take turns at going first.
pub fn side_by_side(rounds: usize, a: &mut dyn FnMut(), b: &mut dyn FnMut()) -> Times {
    let mut a = Timed::new(a);
    let mut b = Timed::new(b);
    for round in 0..rounds {
        if round % 2 == 0 {
            a.sample();
            b.sample();
        } else {
            b.sample();
            a.sample();
        }
    }
    Times::of(a.samples, b.samples)
}
