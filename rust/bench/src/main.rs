//! Measures the library against ordinary Rust, with vectors that grow (`rust/ordinary`) and on the library's own memory (`fixed`), all
//! in one run.
//!
//!     cargo run --release -p bench
//!
//! prints a table of times. Each job is done by the three in turn, round after round. The times are medians over the rounds; the ratios
//! are the medians of the rounds' own ratios, the library's time by the other's.
//!
//! `count/run.sh` counts instructions with it, and asks it for
//!
//!     bench list                       one job a line
//!     bench times                      a job's times in nanoseconds and the ratios a line, with tabs between
//!     bench work JOB WORKER TIMES      nothing: the job of that line, from 0, is done so often

#![forbid(unsafe_code)]

mod bank;
mod fixed;
mod jobs;
mod measure;

use std::process;

use jobs::Worker;

fn list() {
    for job in jobs::all() {
        println!("{}", job.name);
    }
}

fn times() {
    for mut job in jobs::all() {
        let times = measure::compare(&mut job);
        println!("{:.0}\t{:.0}\t{:.0}\t{:.2}\t{:.2}", times.library, times.vectors, times.fixed, times.by_vectors, times.by_fixed);
    }
}

fn table() {
    if cfg!(debug_assertions) {
        println!("note: these times say little, for this is not a release build");
    }
    println!("{:<76} {:>11} {:>11} {:>11} {:>8} {:>8}", "job", "library ns", "vectors ns", "fixed ns", "lib/vec", "lib/fix");
    for mut job in jobs::all() {
        let times = measure::compare(&mut job);
        println!(
            "{:<76} {:>11.0} {:>11.0} {:>11.0} {:>8.2} {:>8.2}",
            job.name, times.library, times.vectors, times.fixed, times.by_vectors, times.by_fixed
        );
    }
}

/// Nothing, where the three are no job, worker and number.
fn work(job: &str, worker: &str, times: &str) -> Option<()> {
    let mut jobs = jobs::all();
    let job = jobs.get_mut(job.parse::<usize>().ok()?)?;
    let worker = Worker::ALL.into_iter().find(|known| format!("{known:?}").eq_ignore_ascii_case(worker))?;
    job.work(worker, times.parse().ok()?);
    Some(())
}

fn main() {
    let arguments: Vec<String> = std::env::args().skip(1).collect();
    let arguments: Vec<&str> = arguments.iter().map(String::as_str).collect();
    let done = match arguments[..] {
        [] => Some(table()),
        ["list"] => Some(list()),
        ["times"] => Some(times()),
        ["work", job, worker, count] => work(job, worker, count),
        _ => None,
    };
    if done.is_none() {
        eprintln!("usage: bench [list | times | work JOB WORKER TIMES], where WORKER is library, vectors or fixed");
        process::exit(2);
    }
}
