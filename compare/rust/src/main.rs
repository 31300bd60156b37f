//! Compares the public calls of the library and of `lexical-util`.
//!
//!     driver [--seed N] [--only WORD] [--record FILE]

mod inputs;
mod options;
mod ours;
mod random;
mod record;
mod results;
mod rows;
mod rules;
mod sections;
mod tally;
mod theirs;

use options::Options;
use sections::Task;
use std::collections::BTreeMap;
use std::fs;
use std::panic::{set_hook, take_hook};
use std::process::exit;
use std::sync::atomic::{AtomicUsize, Ordering};
use std::sync::Mutex;
use std::time::Instant;
use tally::Tally;

/// Runs the tasks side by side, and returns the tally of each section.
fn run(tasks: &[Task]) -> BTreeMap<&'static str, Tally> {
    let (next, sections) = (AtomicUsize::new(0), Mutex::new(BTreeMap::<_, Tally>::new()));
    std::thread::scope(|scope| {
        for _ in 0..std::thread::available_parallelism().map_or(1, usize::from) {
            scope.spawn(|| {
                while let Some(task) = tasks.get(next.fetch_add(1, Ordering::Relaxed)) {
                    let mut tally = Tally::default();
                    (task.run)(&mut tally);
                    *sections.lock().expect("no task panics").entry(task.section).or_default() += tally;
                }
            });
        }
    });
    sections.into_inner().expect("no task panics")
}

/// From now on, the panics that are compared are not printed. Their texts begin with a description in quotes.
fn hush() {
    let print = take_hook();
    set_hook(Box::new(move |panic| {
        if !panic.payload_as_str().is_some_and(|text| text.starts_with('\'')) {
            print(panic);
        }
    }));
}

fn main() {
    let options = Options::new(&["--seed", "--only", "--record"]);
    let (seed, only) = (options.get("--seed").unwrap_or(1), options.get::<String>("--only").unwrap_or_default());
    hush();
    if let Some(path) = options.get::<String>("--record") {
        let text = record::lines(seed).join("\n") + "\n";
        fs::write(&path, &text).unwrap_or_else(|error| panic!("{path}: {error}"));
        println!("{} lines written to {path}", text.lines().count());
        return;
    }

    let start = Instant::now();
    let mut tasks = sections::tasks(seed);
    tasks.retain(|task| task.section.contains(&only));
    println!("{:<32} {:>14} {:>12} {:>12}", "section", "compared", "on purpose", "unexplained");
    let mut total = Tally::default();
    for (name, tally) in run(&tasks) {
        println!("{name:<32} {:>14} {:>12} {:>12}", tally.compared, tally.on_purpose, tally.unexplained);
        tally.shown.iter().for_each(|difference| println!("{difference}"));
        total += tally;
    }
    println!("{:<32} {:>14} {:>12} {:>12}", "all", total.compared, total.on_purpose, total.unexplained);
    println!("{:.1} seconds, seed {}", start.elapsed().as_secs_f64(), seed);
    if total.unexplained > 0 {
        exit(1);
    }
}
