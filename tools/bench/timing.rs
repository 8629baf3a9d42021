//! Times two ways to one answer, interleaved, and prints the figures as a row of a Markdown table.

use std::hint::black_box;

/// How often each of the two is timed.
const ROUNDS: usize = 101;

/// How many seconds one timing takes at least.
const SPAN: f64 = 1e-3;

/// The clock of the thread's processor time on Linux: it stands while another program has the core.
const THREAD_TIME: i32 = 3;

#[repr(C)]
#[derive(Default)]
struct Time {
    seconds: i64,
    nanoseconds: i64,
}

unsafe extern "C" {
    safe fn clock_gettime(clock: i32, time: &mut Time) -> i32;
}

/// The thread's processor time so far.
fn now() -> f64 {
    let mut time = Time::default();
    assert_eq!(clock_gettime(THREAD_TIME, &mut time), 0);
    time.seconds as f64 + time.nanoseconds as f64 / 1e9
}

/// The seconds that `run` takes, done `times` times.
fn seconds(run: &mut impl FnMut(), times: usize) -> f64 {
    let start = now();
    for _ in 0..times {
        run();
    }
    now() - start
}

/// How often `run` has to be done to take the span.
fn repetitions(run: &mut impl FnMut()) -> usize {
    let mut times = 1;
    while seconds(run, times) < SPAN {
        times *= 2;
    }
    times
}

fn median(values: &mut [f64]) -> f64 {
    values.sort_by(f64::total_cmp);
    values[values.len() / 2]
}

pub fn header() {
    println!("| Call | The Rust, ns | Ours, ns | Ratio | Ratio of the fastest rounds | Goal |");
    println!("|---|--:|--:|--:|--:|---|");
}

/// Times both on `elements` elements a run, and prints the nanoseconds an element, the ratio of the medians, the ratio of
/// the fastest rounds, and the goal with whether it is met.
pub fn row(name: &str, goal: Option<f64>, elements: usize, mut theirs: impl FnMut(), mut ours: impl FnMut()) {
    let their_times = repetitions(&mut theirs);
    let our_times = repetitions(&mut ours);
    let (mut their_spans, mut our_spans) = (Vec::new(), Vec::new());
    for round in 0..ROUNDS {
        // Who is first changes from round to round.
        for turn in 0..2 {
            if (round + turn) % 2 == 0 {
                their_spans.push(seconds(&mut theirs, their_times) / their_times as f64);
            } else {
                our_spans.push(seconds(&mut ours, our_times) / our_times as f64);
            }
        }
    }
    let an_element = 1e9 / elements as f64;
    let (theirs, ours) = (median(&mut their_spans), median(&mut our_spans));
    let ratio = ours / theirs;
    let fastest = our_spans[0] / their_spans[0];
    let goal =
        goal.map_or(String::new(), |goal| format!("{goal:.2}, {}", if ratio <= goal { "met" } else { "missed" }));
    println!("| {name} | {:.3} | {:.3} | {ratio:.2} | {fastest:.2} | {goal} |", theirs * an_element, ours * an_element,);
}

/// A row for a call on single values: each input is answered by a call of its own, into its place in a list.
pub fn calls<A: Copy, R: Copy + Default, S: Copy + Default>(
    name: &str,
    goal: Option<f64>,
    inputs: &[A],
    theirs: impl Fn(A, &mut R),
    ours: impl Fn(A, &mut S),
) {
    let mut their_answers = vec![R::default(); inputs.len()];
    let mut our_answers = vec![S::default(); inputs.len()];
    row(
        name,
        goal,
        inputs.len(),
        || answer(inputs, &mut their_answers, &theirs),
        || answer(inputs, &mut our_answers, &ours),
    );
}

#[inline(always)]
fn answer<A: Copy, R>(inputs: &[A], answers: &mut [R], call: &impl Fn(A, &mut R)) {
    for (place, &input) in answers.iter_mut().zip(inputs) {
        call(input, place);
    }
    black_box(answers);
}
