// What the timings share: the clock, rounds in which the runs come in turn, and a line of a report.

extern "C" {
    fn clock_gettime(clock: i32, time: *mut [i64; 2]) -> i32;
}

// The time that this thread has run, in nanoseconds: what else the machine does is not in it.
fn now() -> f64 {
    const THREAD_CPUTIME: i32 = 3;
    let mut time = [0; 2];
    assert!(unsafe { clock_gettime(THREAD_CPUTIME, &mut time) } == 0, "this machine does not tell a thread's time");
    time[0] as f64 * 1e9 + time[1] as f64
}

// Nanoseconds for one run, over so many.
fn time(runs: usize, run: &mut dyn FnMut()) -> f64 {
    let began = now();
    (0..runs).for_each(|_| run());
    (now() - began) / runs as f64
}

// The nanoseconds of each run in each round. They come in turn, and in every round another one is the first.
pub fn in_turn<const N: usize>(rounds: usize, runs: [&mut dyn FnMut(); N]) -> [Vec<f64>; N] {
    let many = ((5e6 / time(3, runs[0])) as usize).clamp(1, 5_000);
    let mut times = [const { Vec::new() }; N];
    for round in 0..rounds {
        for turn in 0..N {
            let k = (round + turn) % N;
            times[k].push(time(many, runs[k]));
        }
    }
    times
}

fn median(mut all: Vec<f64>) -> f64 {
    all.sort_by(f64::total_cmp);
    all[all.len() / 2]
}

pub fn best(all: &[f64]) -> f64 {
    all.iter().copied().fold(f64::MAX, f64::min)
}

// A ratio, with more digits if it is small.
fn shown(ratio: f64) -> String {
    if ratio < 0.1 {
        format!("{ratio:.4}")
    } else {
        format!("{ratio:.2}")
    }
}

// A line of a report: the best times of the other and of ours, and our time divided by that of the other.
pub fn line(name: &str, bytes: usize, other: &str, theirs: &[f64], ours: &[f64]) -> String {
    let ratio = median(theirs.iter().zip(ours).map(|(theirs, ours)| ours / theirs).collect());
    format!(
        "{name:<34} {bytes:>7} bytes  {other} {:>9.0} ns  ours {:>9.0} ns  ratio: median {}, best {}",
        best(theirs),
        best(ours),
        shown(ratio),
        shown(best(ours) / best(theirs)),
    )
}

// How many rounds the command line asks for.
pub fn rounds() -> usize {
    std::env::args().nth(1).map_or(41, |s| s.parse().expect("usage: PROGRAM [ROUNDS]"))
}
