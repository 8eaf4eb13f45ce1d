//! Holds the proved library to the reference: example J and the samples, random captures, random
//! lists of calls, and what random hosts pass; and the program `calls` on random texts. The first
//! difference ends the run with status 1, and so does a run that did not meet what it ought to.
//!
//! usage: compare [--seed S] [--captures N] [--lists N] [--hosts N] [--texts N]
//!                [--one-capture SEED | --one-list SEED | --one-host SEED | --one-text SEED]

use compare::{
    captures, hosts, lists, programs, proved, reference, replays, samples, texts, transcripts,
};
use std::env;
use std::fs;
use std::panic::{catch_unwind, AssertUnwindSafe};
use std::process::ExitCode;

const USAGE: &str = "usage: compare [--seed S] [--captures N] [--lists N] [--hosts N] [--texts N]
               [--one-capture SEED | --one-list SEED | --one-host SEED | --one-text SEED]";

/// Shows what is drawn by a seed and what both sides make of it.
type Show = fn(u64) -> Result<String, String>;

struct Asked {
    seed: u64,
    captures: u64,
    lists: u64,
    hosts: u64,
    texts: u64,
    one: Option<(Show, u64)>,
}

fn main() -> ExitCode {
    let Some(asked) = read(env::args().skip(1)) else {
        eprintln!("{USAGE}");
        return ExitCode::from(2);
    };
    let said = match asked.one {
        Some((show, seed)) => show(seed),
        None => compare(&asked),
    };
    match said {
        Ok(said) => {
            println!("compare: {said}");
            ExitCode::SUCCESS
        }
        Err(differs) => {
            eprintln!("compare: {differs}");
            ExitCode::FAILURE
        }
    }
}

fn read(mut arguments: impl Iterator<Item = String>) -> Option<Asked> {
    let mut asked = Asked {
        seed: 1,
        captures: 20_000,
        lists: 20_000,
        hosts: 2_000,
        texts: 800,
        one: None,
    };
    while let Some(name) = arguments.next() {
        let number = arguments.next()?.parse().ok()?;
        match name.as_str() {
            "--seed" => asked.seed = number,
            "--captures" => asked.captures = number,
            "--lists" => asked.lists = number,
            "--hosts" => asked.hosts = number,
            "--texts" => asked.texts = number,
            "--one-capture" => asked.one = Some((show_capture, number)),
            "--one-list" => asked.one = Some((show_list, number)),
            "--one-host" => asked.one = Some((show_host, number)),
            "--one-text" => asked.one = Some((show_text, number)),
            _ => return None,
        }
    }
    Some(asked)
}

fn compare(asked: &Asked) -> Result<String, String> {
    programs::ready()?;
    let samples = samples::hold()?;
    let mut replays = replays::Met::default();
    each(asked.seed, asked.captures, "capture", |seed| {
        replays::hold(&captures::capture(seed), seed, &mut replays)
    })?;
    let mut transcripts = transcripts::Met::default();
    each(asked.seed, asked.lists, "list", |seed| {
        let (bearers, policy, calls) = lists::list(seed);
        transcripts::hold(&bearers, policy, &calls, &mut transcripts)
    })?;
    let mut hosts = hosts::Met::default();
    each(asked.seed, asked.hosts, "host", |seed| {
        hosts::hold(&hosts::passed(seed), seed, &mut hosts)
    })?;
    let mut programs = programs::Met::default();
    each(asked.seed, asked.texts, "text", |seed| {
        programs::hold(&texts::text(seed), &mut programs)
    })?;
    let met = format!("{replays}, {transcripts}, {hosts} and {programs}");
    let missing = [
        replays.missing(),
        transcripts.missing(),
        hosts.missing(),
        programs.missing(),
    ]
    .concat();
    if missing.is_empty() {
        Ok(format!("example J, {samples} samples, {met} agree"))
    } else {
        let missing = missing.join(", ");
        Err(format!("{met} agree, but never met: {missing}"))
    }
}

/// Holds the two sides together for so many seeds, from the first on. A side that panics differs too.
fn each(
    first: u64,
    count: u64,
    name: &str,
    mut hold: impl FnMut(u64) -> Result<(), String>,
) -> Result<(), String> {
    for seed in (0..count).map(|place| first.wrapping_add(place)) {
        catch_unwind(AssertUnwindSafe(|| hold(seed)))
            .unwrap_or_else(|_| Err("a side panicked".into()))
            .map_err(|differs| format!("--one-{name} {seed}: {differs}"))?;
    }
    Ok(())
}

/// Writes a capture to a file, for `./run` and others to read, and says what both sides make of it.
fn show_capture(seed: u64) -> Result<String, String> {
    let capture = captures::capture(seed);
    kept(&capture, &format!("capture-{seed}.pcap"))?;
    let [proved, reference] = replays::outcomes(&capture);
    println!("proved    {proved:?}\nreference {reference:?}");
    replays::hold(&capture, seed, &mut replays::Met::default())?;
    Ok("both sides agree".into())
}

/// Prints a list: the board, and each call with what it is answered, by both sides if they differ.
fn show_list(seed: u64) -> Result<String, String> {
    let (bearers, policy, calls) = lists::list(seed);
    for bearer in &bearers {
        println!("{bearer:?}");
    }
    println!("{policy:?}");
    let proved = proved::answers(&bearers, policy, &transcripts::text(&calls));
    let reference = reference::answers(&bearers, policy, &calls);
    let mut lines = proved.split_inclusive('\n');
    let mut others = reference.split_inclusive('\n');
    for (place, call) in calls.iter().enumerate() {
        let (line, other) = (lines.next().unwrap_or("\n"), others.next().unwrap_or("\n"));
        print!("{place:4} {:40} {line}", call.to_string());
        if line != other {
            print!("{:45} reference: {other}", "");
        }
    }
    transcripts::hold(&bearers, policy, &calls, &mut transcripts::Met::default())?;
    Ok("both sides agree".into())
}

/// Prints what a host passes but for the text, which it writes to a file, and how the calls end.
fn show_host(seed: u64) -> Result<String, String> {
    let passed = hosts::passed(seed);
    for bearer in &passed.bearers {
        println!("{bearer:?}");
    }
    println!("{:?}", passed.policy);
    kept(&passed.text, &format!("host-{seed}.calls"))?;
    println!("reference {:?}", hosts::ended(&passed));
    hosts::hold(&passed, seed, &mut hosts::Met::default())?;
    Ok("both sides agree".into())
}

/// Writes a text to a file, and prints what the reference prints of it.
fn show_text(seed: u64) -> Result<String, String> {
    let text = texts::text(seed);
    kept(&text.bytes, &format!("text-{seed}.calls"))?;
    let (Ok(printed) | Err(printed)) = reference::printed(&text.bytes);
    print!("{printed}");
    programs::hold(&text, &mut programs::Met::default())?;
    Ok("both sides agree".into())
}

/// Writes what was drawn to a file, for programs to read.
fn kept(drawn: &[u8], name: &str) -> Result<(), String> {
    let path = env::temp_dir().join(name);
    fs::write(&path, drawn).map_err(|error| format!("{}: {error}", path.display()))?;
    println!("{} bytes, written to {}", drawn.len(), path.display());
    Ok(())
}
