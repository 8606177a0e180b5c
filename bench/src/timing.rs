//! Two pieces of work timed in alternating rounds.

/// The rounds of each piece of work; their medians are given.
pub const ROUNDS: usize = 15;

/// How long a round goes on at least.
const ROUND_SECONDS: f64 = 0.005;

/// The times of a call, in seconds: medians of the rounds, and the ratio of ours to the peer's with the quartiles of the rounds' own ratios.
pub struct Times {
    pub ours: f64,
    pub peer: f64,
    pub low: f64,
    pub high: f64,
}

impl Times {
    pub fn ratio(&self) -> f64 {
        self.ours / self.peer
    }
}

#[repr(C)]
struct Timespec {
    seconds: i64,
    nanoseconds: i64,
}

extern "C" {
    fn clock_gettime(clock: i32, time: *mut Timespec) -> i32;
}

const CLOCK_THREAD_CPUTIME_ID: i32 = 3;

/// The processor time of this thread, so that work of others on the machine does not count.
fn now() -> f64 {
    let mut time = Timespec { seconds: 0, nanoseconds: 0 };
    let answered = unsafe { clock_gettime(CLOCK_THREAD_CPUTIME_ID, &mut time) };
    assert_eq!(answered, 0, "this system has no clock of a thread's time");
    time.seconds as f64 + time.nanoseconds as f64 * 1e-9
}

fn time(calls: usize, work: &mut impl FnMut()) -> f64 {
    let began = now();
    for _ in 0..calls {
        work();
    }
    (now() - began) / calls as f64
}

/// How many calls fill a round.
fn calls_of(work: &mut impl FnMut()) -> usize {
    let once = time(1, work).max(1e-7);
    let some = (0.1 * ROUND_SECONDS / once).ceil() as usize;
    let each = time(some, work).max(1e-9);
    (ROUND_SECONDS / each).ceil() as usize
}

fn sorted(mut times: Vec<f64>) -> Vec<f64> {
    times.sort_by(f64::total_cmp);
    times
}

/// Ours, the peer's, ours, the peer's, and so on.
pub fn alternate(mut ours: impl FnMut(), mut peer: impl FnMut()) -> Times {
    let (our_calls, peer_calls) = (calls_of(&mut ours), calls_of(&mut peer));
    let rounds: Vec<(f64, f64)> = (0..ROUNDS).map(|_| (time(our_calls, &mut ours), time(peer_calls, &mut peer))).collect();
    let ratios = sorted(rounds.iter().map(|(ours, peer)| ours / peer).collect());
    Times {
        ours: sorted(rounds.iter().map(|round| round.0).collect())[ROUNDS / 2],
        peer: sorted(rounds.iter().map(|round| round.1).collect())[ROUNDS / 2],
        low: ratios[ROUNDS / 4],
        high: ratios[ROUNDS - 1 - ROUNDS / 4],
    }
}
