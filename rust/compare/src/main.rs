//! Every call of the archive against the Rust and against document 01, and the laws of both documents.

mod archive;
mod cases;
mod exhaustive;
#[cfg(test)]
mod faults;
mod guard;
mod lent;
mod numbers;
mod run;
mod sys;

use archive::{Archive, Calls};
use cases::block::Blocks;
use cases::camera::Cameras;
use cases::clipping::Clipping;
use cases::demand3::Demand3;
use cases::invisible::Invisible;
use cases::one_plane::Planes;
use cases::padding::Padding;
use cases::replay::Replays;
use cases::trace::{Headers, Records};
use cases::units::{Directs, Flags, Motions, Slices};
use cases::Case;
use exhaustive::Beside;
use run::{Counts, Run};
use std::io::Write;
use std::time::{Duration, Instant};
use sys::{End, ALARM};

const USAGE: &str = "\
usage: compare [--seconds N] [--seed S] [--call NAME [--case N]]
       compare --every-state UNITS

--seconds N  how long, over all calls that are compared; 60 if not given
--seed S     what the cases follow from; 1 if not given
--call NAME  this call alone
--case N     this case alone, told in full
--every-state UNITS
             nothing but evc_get_avail_inter_slice, for every block of 3 by 3 units, with the UNITS beside it in every
             state: 'looked-at', those that flags look at; 'around', all that touch the block

calls: ";

fn usage() -> String {
    USAGE.to_string() + &CALLS.map(|(name, ..)| name).join(", ")
}

#[derive(Debug, PartialEq)]
struct Options {
    seconds: f64,
    seed: u64,
    call: Option<String>,
    case: Option<u64>,
    every_state: Option<Beside>,
}

/// None where the usage is asked for. A value is the next word, or stands behind '='.
fn options(mut words: impl Iterator<Item = String>) -> Result<Option<Options>, String> {
    let mut options = Options {
        seconds: 60.0,
        seed: 1,
        call: None,
        case: None,
        every_state: None,
    };
    while let Some(word) = words.next() {
        let (name, value) = match word.split_once('=') {
            Some((name, value)) => (name, Some(value.to_string())),
            None => (&word[..], None),
        };
        let mut value = || {
            let value = value.clone().or_else(|| words.next());
            value.ok_or(format!("{name} has no value"))
        };
        match name {
            "--help" | "-h" => return Ok(None),
            "--seconds" => options.seconds = seconds(&value()?)?,
            "--seed" => options.seed = whole(name, &value()?)?,
            "--call" => options.call = Some(call(value()?)?),
            "--case" => options.case = Some(whole(name, &value()?)?),
            "--every-state" => options.every_state = Some(beside(&value()?)?),
            _ => return Err(format!("unknown option {word}")),
        }
    }
    if options.case.is_some() && options.call.is_none() {
        return Err("--case without --call".to_string());
    }
    if options.every_state.is_some() && options.call.is_some() {
        return Err("--every-state with --call".to_string());
    }
    Ok(Some(options))
}

fn seconds(value: &str) -> Result<f64, String> {
    let is_time = |n: &f64| Duration::try_from_secs_f64(*n).is_ok();
    let seconds = value.parse().ok().filter(is_time);
    seconds.ok_or(format!("--seconds: {value} is not a number of seconds"))
}

fn whole(name: &str, value: &str) -> Result<u64, String> {
    let why = |_| format!("{name}: {value} is not a whole number of up to 64 bits");
    value.parse().map_err(why)
}

fn call(name: String) -> Result<String, String> {
    match CALLS.iter().any(|(known, ..)| *known == name) {
        true => Ok(name),
        false => Err(format!("no call {name}")),
    }
}

fn beside(value: &str) -> Result<Beside, String> {
    match value {
        "looked-at" => Ok(Beside::LookedAt),
        "around" => Ok(Beside::Around),
        _ => Err(format!(
            "--every-state: {value} is neither looked-at nor around"
        )),
    }
}

/// "0: 12 (domain 7, beyond 5), 1: 3"; where the Rust was never asked "0: 12, 1: 3"
fn told(counts: &Counts) -> String {
    let numbers = counts.iter().enumerate().filter(|(_, n)| **n != [0, 0]);
    let told = numbers.map(|(code, [beyond, domain])| match (code, domain) {
        (0, 1..) => format!("0: {} (domain {domain}, beyond {beyond})", domain + beyond),
        _ => format!("{code}: {}", domain + beyond),
    });
    told.collect::<Vec<_>>().join(", ")
}

fn say(line: &str) {
    println!("{line}");
    std::io::stdout().flush().unwrap();
}

/// Runs what is asked of one call; whether all agreed.
fn compare<C: Case>(calls: &dyn Calls, options: &Options, seconds: f64) -> bool {
    let (name, seed) = (C::NAME, options.seed);
    let run = Run {
        calls,
        seed,
        time_limit: 120,
    };
    if let Some(number) = options.case {
        let Some(case) = run::case::<C>(seed, number) else {
            say(&format!("{name}: no case {number}"));
            return false;
        };
        say(&format!("{name}: case {number} of seed {seed}: {case:?}"));
        let end = run.one(&case, say);
        say(&format!("{name}: {}", told_end(end)));
        return end == End::Code(0);
    }
    let start = Instant::now();
    let is_enough = |_| start.elapsed() >= Duration::from_secs_f64(seconds);
    let (counts, failure) = run.all::<C>(is_enough);
    let cases: u64 = counts.iter().flatten().sum();
    say(&format!("{name}: {cases} cases, {}", told(&counts)));
    let Some(failure) = failure else {
        return true;
    };
    let (number, end) = (failure.number, told_end(failure.end));
    say(&format!("{name}: case {number} of seed {seed}: {end}"));
    say(&format!("{:?}", failure.case));
    say(&format!("smaller: {:?}", failure.smaller));
    let end = run.one(&failure.smaller, say);
    say(&format!(
        "{name}: FAILED, the smaller case: {}",
        told_end(end)
    ));
    false
}

/// In a process of its own, so that a crash is told too.
fn compare_every_state(beside: Beside) -> bool {
    let end = sys::in_a_process(|| match exhaustive::every_state(&Archive, beside) {
        Ok(calls) => {
            say(&format!("{}: {calls} calls", Slices::NAME));
            0
        }
        Err(why) => {
            say(&why);
            1
        }
    });
    say(&format!("{}: {}", Slices::NAME, told_end(end)));
    end == End::Code(0)
}

fn told_end(end: End) -> &'static str {
    match end {
        End::Code(0) => "agrees",
        End::Code(101) => "panics",
        End::Code(_) => "differs",
        ALARM => "does not end",
        End::Signal(_) => {
            "crashes: outside of what was lent, or a write to what was lent to be read"
        }
    }
}

type Comparison = fn(&dyn Calls, &Options, f64) -> bool;

/// Each call with its share of the time.
const CALLS: [(&str, Comparison, f64); 14] = [
    (Padding::NAME, compare::<Padding>, 0.12),
    (Flags::NAME, compare::<Flags>, 0.08),
    (Slices::NAME, compare::<Slices>, 0.08),
    (Motions::NAME, compare::<Motions>, 0.08),
    (Directs::NAME, compare::<Directs>, 0.08),
    (Clipping::NAME, compare::<Clipping>, 0.04),
    (Planes::NAME, compare::<Planes>, 0.18),
    (Blocks::NAME, compare::<Blocks>, 0.22),
    (Demand3::NAME, compare::<Demand3>, 0.2),
    (Invisible::NAME, compare::<Invisible>, 0.15),
    (Headers::NAME, compare::<Headers>, 0.02),
    (Records::NAME, compare::<Records>, 0.03),
    (Replays::NAME, compare::<Replays>, 0.25),
    (Cameras::NAME, compare::<Cameras>, 0.1),
];

fn main() {
    let words = std::env::args_os().skip(1);
    let options = match options(words.map(|word| word.to_string_lossy().into_owned())) {
        Ok(Some(options)) => options,
        Ok(None) => return println!("{}", usage()),
        Err(why) => {
            eprintln!("compare: {why}\n{}", usage());
            std::process::exit(2);
        }
    };
    if let Some(beside) = options.every_state {
        std::process::exit(if compare_every_state(beside) { 0 } else { 1 });
    }
    let is_asked = |name: &str| options.call.as_ref().is_none_or(|call| call == name);
    let asked: Vec<_> = CALLS.iter().filter(|(name, ..)| is_asked(name)).collect();
    let shares: f64 = asked.iter().map(|(_, _, share)| share).sum();
    let mut all_agree = true;
    for (_, compare, share) in asked {
        all_agree &= compare(&Archive, &options, options.seconds * share / shares);
    }
    std::process::exit(if all_agree { 0 } else { 1 });
}

#[cfg(test)]
mod tests {
    use super::*;

    fn of(words: &[&str]) -> Result<Option<Options>, String> {
        options(words.iter().map(|word| word.to_string()))
    }

    #[test]
    fn options_in_both_forms() {
        let asked = |seconds, seed, call: Option<&str>, case| {
            Ok(Some(Options {
                seconds,
                seed,
                call: call.map(str::to_string),
                case,
                every_state: None,
            }))
        };
        assert_eq!(of(&[]), asked(60.0, 1, None, None));
        let apart = of(&["--seconds", "0.5", "--call", "evc_pad", "--case", "7"]);
        assert_eq!(apart, asked(0.5, 1, Some("evc_pad"), Some(7)));
        let joined = of(&["--seconds=5", "--seed=9", "--call=demand3"]);
        assert_eq!(joined, asked(5.0, 9, Some("demand3"), None));
        for (value, beside) in [("looked-at", Beside::LookedAt), ("around", Beside::Around)] {
            let options = of(&["--every-state", value]).unwrap().unwrap();
            assert_eq!(options.every_state, Some(beside));
        }
        assert_eq!(of(&["--seed", "9", "--help"]), Ok(None));
        assert_eq!(of(&["-h"]), Ok(None));
    }

    #[test]
    fn wrong_words_are_named() {
        let told = |words: &[&str]| of(words).unwrap_err();
        assert_eq!(told(&["--fast"]), "unknown option --fast");
        assert_eq!(told(&["evc_pad"]), "unknown option evc_pad");
        assert_eq!(told(&["--seed"]), "--seed has no value");
        assert_eq!(told(&["--call=evc_mc3"]), "no call evc_mc3");
        assert_eq!(told(&["--case", "7"]), "--case without --call");
        let both = ["--call=demand3", "--every-state=around"];
        assert_eq!(told(&both), "--every-state with --call");
        let why = "--every-state: all is neither looked-at nor around";
        assert_eq!(told(&["--every-state", "all"]), why);
        for value in ["soon", "-1", "nan", "inf", "1e30", ""] {
            let why = format!("--seconds: {value} is not a number of seconds");
            assert_eq!(told(&["--seconds", value]), why);
        }
        let why = "--seed: -1 is not a whole number of up to 64 bits";
        assert_eq!(told(&["--seed", "-1"]), why);
    }
}
