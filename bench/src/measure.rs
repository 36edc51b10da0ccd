//! Time taken in interleaved rounds.

#[repr(C)]
struct Timespec {
    seconds: i64,
    nanoseconds: i64,
}

extern "C" {
    fn clock_gettime(clock: i32, time: *mut Timespec) -> i32;
}

/// The time that this thread has run, in nanoseconds: other programs on the machine do not count.
pub fn now() -> f64 {
    const THREAD_CPUTIME: i32 = 3;
    let mut time = Timespec { seconds: 0, nanoseconds: 0 };
    assert_eq!(unsafe { clock_gettime(THREAD_CPUTIME, &mut time) }, 0);
    time.seconds as f64 * 1e9 + time.nanoseconds as f64
}

/// What something took, once.
pub fn once<T>(f: impl FnOnce() -> T) -> (f64, T) {
    let from = now();
    let value = f();
    (now() - from, value)
}

/// A sample takes at least so long: what is shorter is repeated within it.
const SAMPLE: f64 = 2e6;

/// The time of one run of each, in each round: all are run in turn, round after round.
pub fn rounds(count: usize, runs: &mut [&mut dyn FnMut()]) -> Vec<Vec<f64>> {
    let repeats: Vec<usize> = runs
        .iter_mut()
        .map(|run| {
            let (mut time, ()) = once(|| run());
            if time < SAMPLE {
                time = once(|| run()).0;
            }
            (SAMPLE / time.max(1.0)).ceil() as usize
        })
        .collect();
    let mut times = vec![Vec::with_capacity(count); runs.len()];
    for _ in 0..count {
        for (i, run) in runs.iter_mut().enumerate() {
            let (time, ()) = once(|| (0..repeats[i]).for_each(|_| run()));
            times[i].push(time / repeats[i] as f64);
        }
    }
    times
}

pub fn median(values: impl IntoIterator<Item = f64>) -> f64 {
    let mut sorted: Vec<f64> = values.into_iter().collect();
    sorted.sort_by(f64::total_cmp);
    let n = sorted.len();
    (sorted[(n - 1) / 2] + sorted[n / 2]) / 2.0
}

/// The times of some that ran in turn: of each, in each round.
pub struct Timed(pub Vec<Vec<f64>>);

impl Timed {
    pub fn of(&self, i: usize) -> f64 {
        median(self.0[i].iter().copied())
    }

    /// Within a round, where both ran.
    pub fn ratio(&self, i: usize, to: usize) -> Option<f64> {
        let pairs = self.0.get(i)?.iter().zip(self.0.get(to)?);
        Some(median(pairs.map(|(time, to)| time / to)))
    }

    /// What the first takes more than the second, in a round.
    pub fn more(&self, i: usize, than: usize) -> f64 {
        let pairs = self.0[i].iter().zip(&self.0[than]);
        median(pairs.map(|(time, than)| time - than)).max(0.0)
    }
}
