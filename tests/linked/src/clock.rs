//! Times of contenders that do the same work, taken in turns, so that whatever else the machine does falls on all of them alike.

/// Rounds of turns, and how many seconds a contender's turn is about.
const ROUNDS: usize = 25;
const TURN: f64 = 0.012;

/// What is measured, by Linux's numbers of the clocks.
#[derive(Clone, Copy)]
pub enum Clock {
    /// Time that passes, for what other processes do.
    Wall = 1,
    /// The processor's time for this thread, in which nothing else that runs on the machine counts.
    Thread = 3,
}

#[repr(C)]
struct Time {
    seconds: i64,
    nanoseconds: i64,
}

extern "C" {
    fn clock_gettime(clock: i32, time: *mut Time) -> i32;
}

impl Clock {
    /// Seconds since some moment.
    fn now(self) -> f64 {
        let mut time = Time { seconds: 0, nanoseconds: 0 };
        // SAFETY: the C library's function writes one time to where the pointer leads, and keeps nothing.
        let status = unsafe { clock_gettime(self as i32, &mut time) };
        assert_eq!(status, 0, "Linux has this clock");
        time.seconds as f64 + time.nanoseconds as f64 * 1e-9
    }
}

/// A contender: its work, done once a call.
pub type Work<'a> = Box<dyn FnMut() + 'a>;

/// The times of a contender's work, in seconds, round by round.
pub struct Times(Vec<f64>);

impl Times {
    pub fn median(&self) -> f64 {
        median(self.0.clone())
    }

    pub fn least(&self) -> f64 {
        self.0.iter().copied().fold(f64::INFINITY, f64::min)
    }

    pub fn greatest(&self) -> f64 {
        self.0.iter().copied().fold(0.0, f64::max)
    }

    /// The median over the rounds of how many times as long as the other it took.
    pub fn ratio(&self, other: &Times) -> f64 {
        median(self.0.iter().zip(&other.0).map(|(own, other)| own / other).collect())
    }
}

fn median(mut values: Vec<f64>) -> f64 {
    values.sort_by(f64::total_cmp);
    values[values.len() / 2]
}

pub fn in_turns(clock: Clock, contenders: &mut [Work]) -> Vec<Times> {
    let repeats: Vec<u32> = contenders.iter_mut().map(|work| repeats_in_a_turn(clock, work)).collect();
    let mut times: Vec<Vec<f64>> = vec![Vec::new(); contenders.len()];
    for _ in 0..ROUNDS {
        for (place, work) in contenders.iter_mut().enumerate() {
            times[place].push(turn(clock, work, repeats[place]) / f64::from(repeats[place]));
        }
    }
    times.into_iter().map(Times).collect()
}

/// The time for the work done so often.
fn turn(clock: Clock, work: &mut Work, repeats: u32) -> f64 {
    let begun = clock.now();
    for _ in 0..repeats {
        work();
    }
    clock.now() - begun
}

/// As often as comes to a turn's time. This warms the contender up too.
fn repeats_in_a_turn(clock: Clock, work: &mut Work) -> u32 {
    let mut repeats = 1;
    loop {
        let taken = turn(clock, work, repeats);
        if taken >= TURN / 2.0 {
            return (f64::from(repeats) * TURN / taken).ceil() as u32;
        }
        repeats *= 2;
    }
}

/// A time with three digits, in the unit that suits it.
pub fn shown(seconds: f64) -> String {
    let (value, unit) = match seconds {
        s if s >= 1e-3 => (s * 1e3, "ms"),
        s => (s * 1e6, "µs"),
    };
    let decimals = if value >= 100.0 {
        0
    } else if value >= 10.0 {
        1
    } else {
        2
    };
    format!("{value:.decimals$} {unit}")
}
