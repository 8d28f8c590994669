//! What the calls cost: the proved library, the original Rust freshly mounted and on one mount, and limits in plain C, on the
//! same volumes and with the same calls. Prints the tables of docs/BENCHMARKS.md.

#![cfg_attr(not(rust_sources), allow(dead_code, unused_mut, unused_variables))]

mod calls;
mod library;
mod limits;
mod measure;
mod records;
#[cfg(rust_sources)]
mod rust;
mod volume;
mod workloads;

use measure::{measure, middle, ratio, Rounds, Times};
use std::process::exit;
use workloads::{Limit, Workload};

const USAGE: &str =
    "bench [--quick] [WORDS]: all workloads, or those whose titles hold each of the words";

/// Microseconds for a call, with three digits.
fn per_call(times: &[u64], calls: usize) -> String {
    let Some(time) = middle(times) else {
        return "-".to_string();
    };
    let micros = time / 1e3 / calls as f64;
    let digits = if micros < 10.0 {
        2
    } else {
        usize::from(micros < 100.0)
    };
    format!("{micros:.digits$}")
}

fn shown(ratio: Option<f64>) -> String {
    ratio.map_or("-".to_string(), |ratio| format!("{ratio:.2}"))
}

fn row(work: &Workload, caches: &str, times: &Times) -> String {
    let calls = work.list.calls.len();
    let to = |other: &[u64]| ratio(&times.library, other);
    let (fresh, warm, limit) = (to(&times.fresh), to(&times.warm), to(&times.limit));
    // Appends to a long chain are held to the walk instead of the Rust on one mount.
    let above = |ratio: Option<f64>, most: f64| ratio.is_some_and(|ratio| ratio > most);
    let goals = [
        ("fresh", above(fresh, 1.0)),
        ("one mount", work.limit != Limit::Walk && above(warm, 1.0)),
        ("limit", work.most.is_some_and(|most| above(limit, most))),
    ];
    let missed: Vec<&str> = goals
        .iter()
        .filter(|goal| goal.1)
        .map(|goal| goal.0)
        .collect();
    let cells = [
        work.title.clone(),
        caches.to_string(),
        calls.to_string(),
        per_call(&times.library, calls),
        per_call(&times.fresh, calls),
        per_call(&times.warm, calls),
        per_call(&times.limit, calls),
        shown(fresh),
        shown(warm),
        shown(limit),
        work.most.map_or("-".to_string(), |most| format!("{most}")),
        missed.join(", "),
    ];
    format!("| {} |", cells.join(" | "))
}

/// The first value that a file of the system gives for a name.
fn system(file: &str, name: &str) -> String {
    let text = std::fs::read_to_string(file).unwrap_or_default();
    let line = text.lines().find(|line| line.starts_with(name));
    line.and_then(|line| line.split(':').nth(1))
        .map_or("unknown", str::trim)
        .to_string()
}

fn print_machine() {
    let cores = std::thread::available_parallelism().map_or(0, |count| count.get());
    let kernel = std::fs::read_to_string("/proc/sys/kernel/osrelease").unwrap_or_default();
    println!(
        "- Processor: {}, {cores} cores seen",
        system("/proc/cpuinfo", "model name")
    );
    println!(
        "- System: {} {}, {} of memory",
        std::env::consts::OS,
        kernel.trim(),
        system("/proc/meminfo", "MemTotal")
    );
    let load = std::fs::read_to_string("/proc/loadavg").unwrap_or_default();
    println!(
        "- Load of the machine before the run: {}",
        load.split(' ').next().unwrap_or("unknown")
    );
    println!(
        "- Compilers: {}; {} for the limits",
        env!("RUSTC_VERSION"),
        env!("GCC_VERSION")
    );
}

fn main() {
    let (options, words): (Vec<String>, Vec<String>) = std::env::args()
        .skip(1)
        .partition(|word| word.starts_with("--"));
    let quick = options.iter().any(|option| option == "--quick");
    if options.iter().any(|option| option != "--quick") {
        eprintln!("{USAGE}");
        exit(2);
    }
    let rounds = if quick {
        Rounds {
            all: 1,
            fresh: 1,
            fresh_long: 0,
        }
    } else {
        Rounds {
            all: 5,
            fresh: 3,
            fresh_long: 3,
        }
    };
    print_machine();
    println!(
        "- Rounds: {} (fresh: {}), fifteen times as many for one call alone{}",
        rounds.all,
        rounds.fresh,
        if quick {
            "; quick, so that figures vary"
        } else {
            ""
        }
    );
    if !cfg!(rust_sources) {
        println!("- THE RUST WAS NOT MEASURED: its sources were not found (EXFAT_RUST_SRC names their folder)");
    }
    println!();
    println!("| workload | caches | calls | library | Rust, fresh | Rust, one mount | limit | library / fresh | library / one mount | library / limit | at most | missed |");
    println!("|---|---|---|---|---|---|---|---|---|---|---|---|");
    let data = workloads::source();
    workloads::all(&data, |work| {
        if words.iter().all(|word| work.title.contains(word.as_str())) {
            println!(
                "{}",
                row(&work, "cold", &measure(&work, &data, true, rounds))
            );
            if work.repeated {
                println!(
                    "{}",
                    row(&work, "warm", &measure(&work, &data, false, rounds))
                );
            }
        }
    });
    if words.is_empty() {
        println!();
        records::print_table();
    }
}
