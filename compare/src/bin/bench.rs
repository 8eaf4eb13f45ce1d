//! How long the proved replay takes against the reference's, over a fixed mix of captures: ratios
//! of times, taken in turns. With `--only SIDE --times N` it replays the mix so many times on one
//! side and measures nothing, for a tool that counts instructions.
//!
//! usage: bench [--only proved|reference --times N]

use compare::captures::{undamaged, Shape};
use compare::replays::{self, Replay};
use compare::terms::Replayed;
use compare::{proved, reference, samples};
use std::env;
use std::fs;
use std::hint::black_box;
use std::process::ExitCode;
use std::time::{Duration, Instant};

const ROUNDS: usize = 15;
/// In a round each side has so many turns, by turns and each so long at the least, and its quickest
/// counts: whatever else the machine does makes turns longer, and never quicker.
const TURNS: usize = 20;
const LEAST: Duration = Duration::from_millis(1);

/// A capture, and memory just as long as its tables: both are cleared before each replay, and that
/// is to take next to no time.
struct Job {
    capture: Vec<u8>,
    packets: Vec<u8>,
    periods: Vec<u8>,
    replayed: Replayed,
}

struct Class {
    name: &'static str,
    jobs: Vec<Job>,
}

fn main() -> ExitCode {
    let arguments: Vec<String> = env::args().skip(1).collect();
    let arguments: Vec<&str> = arguments.iter().map(String::as_str).collect();
    match arguments[..] {
        [] => measure(&mut mix()),
        ["--only", side @ ("proved" | "reference"), "--times", times] => {
            let replay: Replay = if side == "proved" {
                proved::replay
            } else {
                reference::replay
            };
            let Ok(times) = times.parse() else {
                return usage();
            };
            only(replay, times);
        }
        _ => return usage(),
    }
    ExitCode::SUCCESS
}

fn usage() -> ExitCode {
    eprintln!("usage: bench [--only proved|reference --times N]");
    ExitCode::from(2)
}

/// The mix, a class for each kind of capture.
fn mix() -> Vec<Class> {
    let quiet = first(Shape::Quiet, |it| it.packets > 12);
    let flood = first(Shape::Flood, |it| it.packets > 300 && it.bearer_full > 0);
    let bursts = first(Shape::Bursts, |it| it.packets > 100);
    let crowded = first(Shape::Crowded, |it| it.packets == 1_024 && it.periods > 900);
    let late = first(Shape::Late, |it| it.periods == 1_000);
    let refused = vec![sample("late"), sample("strange"), vec![0; 65_537]];
    vec![
        class("quiet", vec![quiet]),
        class("flood", vec![flood]),
        class("bursts", vec![bursts]),
        class("1,024 packets over a second", vec![crowded]),
        class("to the 1,000th period", vec![late]),
        class("sample three", vec![sample("three")]),
        class("sample flood", vec![sample("flood")]),
        class("sample unsorted", vec![sample("unsorted")]),
        class("sample long", vec![sample("long")]),
        class("refused", refused),
    ]
}

/// The capture of this shape, of the first seed, whose replay comes to what is asked.
fn first(shape: Shape, fits: fn(&Replayed) -> bool) -> Vec<u8> {
    let mut captures = (0..1_000).map(|seed| undamaged(shape, seed));
    let fits = |capture: &Vec<u8>| replays::outcomes(capture)[1].is_ok_and(|it| fits(&it));
    captures
        .find(fits)
        .expect("one of so many captures comes to that")
}

fn sample(name: &str) -> Vec<u8> {
    let path = samples::folder().join(name).with_extension("pcap");
    fs::read(&path).unwrap_or_else(|error| panic!("{}: {error}", path.display()))
}

/// A class of these captures, on which both sides have to agree.
fn class(name: &'static str, captures: Vec<Vec<u8>>) -> Class {
    let jobs = captures.into_iter().map(|capture| {
        let (mut packets, mut periods) = (vec![0; 1 << 15], vec![0; 1 << 15]);
        let outcome = reference::replay(&capture, &mut packets, &mut periods);
        assert_eq!(
            outcome,
            proved::replay(&capture, &mut packets, &mut periods),
            "{name}"
        );
        assert_eq!(outcome.is_err(), name == "refused", "{name}");
        let replayed = outcome.unwrap_or_default();
        packets.truncate(replayed.packets_len as usize);
        periods.truncate(replayed.periods_len as usize);
        Job {
            capture,
            packets,
            periods,
            replayed,
        }
    });
    Class {
        name,
        jobs: jobs.collect(),
    }
}

fn pass(jobs: &mut [&mut Job], replay: Replay) {
    for job in jobs {
        job.packets.fill(0);
        job.periods.fill(0);
        let _ = black_box(replay(
            black_box(&job.capture),
            &mut job.packets,
            &mut job.periods,
        ));
    }
}

/// Replays the mix on one side, and prints how many packets and turns one pass has.
fn only(replay: Replay, times: u64) {
    let mut mix = mix();
    let mut jobs: Vec<&mut Job> = mix.iter_mut().flat_map(|class| &mut class.jobs).collect();
    for _ in 0..times {
        pass(&mut jobs, replay);
    }
    let packets: u64 = jobs.iter().map(|job| job.replayed.packets).sum();
    let turns: u64 = jobs.iter().map(|job| job.replayed.turns).sum();
    println!("packets {packets} turns {turns}");
}

fn measure(mix: &mut [Class]) {
    println!("time of the proved replay / time of the reference, {ROUNDS} rounds");
    println!(
        "{:30}{:>8}{:>8}{:>9}{:>9}{:>8}{:>8}{:>8}{:>8}",
        "", "packets", "turns", "periods", "median", "least", "1/4", "3/4", "most"
    );
    for class in mix.iter_mut() {
        let mut jobs: Vec<&mut Job> = class.jobs.iter_mut().collect();
        row(class.name, &mut jobs);
    }
    let mut jobs: Vec<&mut Job> = mix.iter_mut().flat_map(|class| &mut class.jobs).collect();
    row("the whole mix", &mut jobs);
    println!(
        "a receiver of the replay has {} bytes",
        proved::receiver_size()
    );
}

/// Measures these jobs, and prints the ratios in sum.
fn row(name: &str, jobs: &mut [&mut Job]) {
    let passes = passes(jobs);
    let mut ratios: Vec<f64> = (0..ROUNDS)
        .map(|round| ratio(jobs, passes, round))
        .collect();
    ratios.sort_by(f64::total_cmp);
    let sum =
        |count: fn(&Replayed) -> u64| jobs.iter().map(|job| count(&job.replayed)).sum::<u64>();
    print!(
        "{name:30}{:8}{:8}{:9}",
        sum(|it| it.packets),
        sum(|it| it.turns),
        sum(|it| it.periods)
    );
    let last = ROUNDS - 1;
    print!("{:9.2}", ratios[last / 2]);
    println!(
        "{:8.2}{:8.2}{:8.2}{:8.2}",
        ratios[0],
        ratios[last / 4],
        ratios[last - last / 4],
        ratios[last]
    );
}

/// So many passes that both sides take long enough.
fn passes(jobs: &mut [&mut Job]) -> u32 {
    let mut passes = 1;
    while time(jobs, passes, proved::replay).min(time(jobs, passes, reference::replay)) < LEAST {
        passes *= 2;
    }
    passes
}

/// The proved side's time by the reference's in one round.
fn ratio(jobs: &mut [&mut Job], passes: u32, round: usize) -> f64 {
    let [mut proved, mut reference] = [Duration::MAX; 2];
    for turn in 0..2 * TURNS {
        // The side that begins changes with each pair of turns, and with each round.
        if (round + turn / 2 + turn) % 2 == 0 {
            proved = proved.min(time(jobs, passes, proved::replay));
        } else {
            reference = reference.min(time(jobs, passes, reference::replay));
        }
    }
    proved.as_secs_f64() / reference.as_secs_f64()
}

fn time(jobs: &mut [&mut Job], passes: u32, replay: Replay) -> Duration {
    let start = Instant::now();
    for _ in 0..passes {
        pass(jobs, replay);
    }
    start.elapsed()
}
