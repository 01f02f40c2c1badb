//! Entries per second of both implementations, on the same files in the same
//! process, one run of each in turn; and, where valgrind is there, the
//! instructions that the proved one takes for an entry, which no other load of
//! the machine changes. All of it for each queue.

use std::env;
use std::hint::black_box;
use std::path::Path;
use std::process::{self, Command};
use std::time::{Duration, Instant};
use std::{fs, io};

use comparing::generate::{flavour, flavoured, lean, Flavour};
use comparing::queue::{Queue, QUEUES};
use comparing::random::Random;
use comparing::schedule::{number_at, trace_room};
use comparing::sides::{Side, PROVED, REFERENCE, TOTALS_ROOM};

/// How time grows with the length is shown once. Both queues are on one machine,
/// so for the second the ends are enough.
const LENGTHS: [usize; 5] = [256, 512, 1024, 2048, 4096];
const END_LENGTHS: [usize; 2] = [256, 4096];
/// Odd, so that the median is one of the rounds.
const ROUNDS: usize = 11;
/// The least time that a side spends in one round.
const ROUND: Duration = Duration::from_millis(20);
const WARM_UP: Duration = Duration::from_millis(40);
/// The length of the files whose instructions are counted.
const COUNTED: usize = 4096;
/// Has this program run the files of the queue and the load that are named after
/// it, once, by the proved side, and print nothing: what valgrind is given to
/// count.
const ONCE: &str = "--once";
/// Entries in all files of one length together. A processor learns the turns
/// of a single short schedule by heart; many different ones cost what they cost.
const ENTRIES_TOGETHER: usize = 32_768;

struct Load {
    name: &'static str,
    sizes: [u32; 6],
    flavour: Flavour,
}

/// These are not the comparison's flavours, which may change: figures are
/// compared over time.
const LOADS: [Load; 4] = [
    Load {
        name: "balanced",
        sizes: [64, 8, 0, 0, 2, 0],
        flavour: flavour(&[lean(145, 340, 450)], 4, 30),
    },
    Load {
        name: "deep buffer",
        sizes: [256, 64, 1, 0, 1, 0],
        flavour: flavour(&[lean(40, 150, 500)], 3, 15),
    },
    Load {
        name: "many thieves",
        sizes: [64, 4, 0, 0, 8, 0],
        flavour: flavour(&[lean(60, 840, 450)], 2, 70),
    },
    Load {
        name: "waits",
        sizes: [16, 1, 0, 0, 4, 0],
        flavour: flavour(&[lean(40, 340, 450)], 4, 430),
    },
];

/// Files of one queue, load and length, measured.
struct Measured {
    load: &'static str,
    entries: usize,
    /// Entries that wait, out of a hundred.
    waits: f64,
    /// Nanoseconds an entry, and their ratio, a round each in rising order.
    proved: Vec<f64>,
    reference: Vec<f64>,
    ratios: Vec<f64>,
}

fn main() {
    let mut words = env::args().skip(1);
    if words.next().as_deref() == Some(ONCE) {
        let [queue, load] = [(); 2].map(|()| words.next().expect("a queue and a load"));
        let queue = QUEUES.into_iter().find(|one| one.name() == queue);
        let load = LOADS.iter().find(|one| one.name == load);
        return once(queue.expect("a queue"), load.expect("a load"));
    }
    print_head();
    for queue in QUEUES {
        print_queue(queue);
    }
    print_instructions();
}

fn print_queue(queue: Queue) {
    let lengths: &[usize] = match queue {
        Queue::Locking => &LENGTHS,
        Queue::Swapping => &END_LENGTHS,
    };
    print_columns(queue);
    let mut all = Vec::new();
    for load in &LOADS {
        for &entries in lengths {
            let measured = measure(queue, load, entries);
            print_row(&measured);
            all.push(measured);
        }
    }
    if queue == Queue::Locking {
        print_growth(&all);
    }
    let ratios = sorted(all.iter().map(|one| median(&one.ratios)));
    println!(
        "median ratio over all loads and lengths: {:.2} (proved time / reference time)",
        median(&ratios)
    );
    println!();
}

/// By callgrind, from where a run is called to where it returns.
fn print_instructions() {
    println!("instructions an entry of the proved run, {COUNTED} entries, by callgrind");
    let [locking, swapping] = QUEUES.map(Queue::name);
    println!("{:<14}{locking:>8}{swapping:>8}", "");
    for load in &LOADS {
        print!("{:<14}", load.name);
        for queue in QUEUES {
            match instructions(queue, load) {
                Ok(counted) => print!("{:>8}", counted / ENTRIES_TOGETHER as u64),
                Err(why) => return println!("  not counted: {why}"),
            }
        }
        println!();
    }
}

fn instructions(queue: Queue, load: &Load) -> io::Result<u64> {
    let report = env::temp_dir().join(format!("bench-{}.callgrind", process::id()));
    let counted = count(queue, load, &report);
    let _ = fs::remove_file(&report);
    counted
}

/// The function that is counted with all that it calls is the proved run as C
/// sees it.
fn count(queue: Queue, load: &Load, report: &Path) -> io::Result<u64> {
    let function = match queue {
        Queue::Locking => "rehearsal_run",
        Queue::Swapping => "rehearsal_cas_run",
    };
    let ran = Command::new("valgrind")
        .args(["--quiet", "--tool=callgrind"])
        .arg(format!("--toggle-collect={function}"))
        .arg(format!("--callgrind-out-file={}", report.display()))
        .args([env::current_exe()?.as_os_str(), ONCE.as_ref()])
        .args([queue.name(), load.name])
        .output()
        .map_err(|error| io::Error::other(format!("valgrind: {error}")))?;
    if !ran.status.success() {
        let said = String::from_utf8_lossy(&ran.stderr);
        let last = said.lines().last().unwrap_or_default();
        return Err(io::Error::other(format!(
            "valgrind: {}: {last}",
            ran.status
        )));
    }
    let text = fs::read_to_string(report)?;
    let total = text.lines().find_map(|line| line.strip_prefix("totals: "));
    match total.and_then(|figure| figure.trim().parse().ok()) {
        None | Some(0) => Err(io::Error::other(format!("no {function} was seen"))),
        Some(counted) => Ok(counted),
    }
}

fn once(queue: Queue, load: &Load) {
    let mut trace = vec![0; trace_room(COUNTED)];
    let mut totals = [0; TOTALS_ROOM];
    for file in files(queue, load, COUNTED) {
        let answer = (PROVED.run)(queue, &file, &mut trace, &mut totals);
        assert!(!answer.is_refused(), "the load is refused");
    }
}

fn print_head() {
    println!("Each run is one call that reads a file, obeys its entries on a fresh machine and");
    println!("writes trace and totals. Before each run, outside of the time taken, trace and");
    println!("totals are filled with a pattern. Files stay in the cache as far as they fit;");
    println!("nothing else is carried from one run to the next.");
    println!(
        "For each load and length there are as many different files as make {ENTRIES_TOGETHER}"
    );
    println!("entries. {ROUNDS} rounds, proved and reference in turn, each whole passes over all");
    println!("files for at least {ROUND:?}. Figures are medians of the rounds, the spread is that");
    println!(
        "of the rounds' ratios. The two clock readings of a run cost about {:.0} ns, included.",
        clock_cost()
    );
    println!();
}

fn print_columns(queue: Queue) {
    println!(
        "{:<13}{:>8}{:>8}{:>11}{:>11}{:>10}{:>10}{:>8}  spread",
        queue.name(),
        "entries",
        "waits",
        "proved",
        "reference",
        "proved",
        "reference",
        "ratio"
    );
    println!(
        "{:<13}{:>8}{:>8}{:>11}{:>11}{:>10}{:>10}",
        "", "", "%", "ns/entry", "ns/entry", "M/s", "M/s"
    );
}

/// The median time between two readings of the clock with nothing in between.
fn clock_cost() -> f64 {
    let readings = (0..1001).map(|_| Instant::now().elapsed().as_nanos() as f64);
    median(&sorted(readings))
}

fn measure(queue: Queue, load: &Load, entries: usize) -> Measured {
    let files = files(queue, load, entries);
    let waits: u32 = files.iter().map(|file| check(queue, file, entries)).sum();
    let both = |least| [&PROVED, &REFERENCE].map(|side| round(side, queue, &files, entries, least));
    both(WARM_UP);
    let rounds: Vec<[f64; 2]> = (0..ROUNDS).map(|_| both(ROUND)).collect();
    Measured {
        load: load.name,
        entries,
        waits: 100.0 * f64::from(waits) / ENTRIES_TOGETHER as f64,
        proved: sorted(rounds.iter().map(|round| round[0])),
        reference: sorted(rounds.iter().map(|round| round[1])),
        ratios: sorted(rounds.iter().map(|round| round[0] / round[1])),
    }
}

/// The same files at every run of this program, such as make progress with the
/// queue.
fn files(queue: Queue, load: &Load, entries: usize) -> Vec<Vec<u8>> {
    let mut random = Random::new(entries as u64);
    let mut file = || flavoured(queue, load.sizes, &load.flavour, entries, &mut random).bytes();
    let count = ENTRIES_TOGETHER / entries;
    (0..count).map(|_| file()).collect()
}

/// Both sides must do the same work before it is timed. Gives the waits.
fn check(queue: Queue, file: &[u8], entries: usize) -> u32 {
    let run = |side: &Side| {
        let mut trace = vec![0xA5; trace_room(entries)];
        let mut totals = [0xA5; TOTALS_ROOM];
        let answer = (side.run)(queue, file, &mut trace, &mut totals);
        assert!(!answer.is_refused(), "{} refuses the load", side.name);
        (trace, totals)
    };
    let proved = run(&PROVED);
    assert!(proved == run(&REFERENCE), "the traces differ");
    number_at(&proved.1[8..12])
}

/// Passes over all files until `least` has been spent in runs; nanoseconds an
/// entry.
fn round(side: &Side, queue: Queue, files: &[Vec<u8>], entries: usize, least: Duration) -> f64 {
    let mut trace = vec![0; trace_room(entries)];
    let mut totals = [0; TOTALS_ROOM];
    let mut spent = Duration::ZERO;
    let mut runs = 0;
    while spent < least {
        for file in files {
            trace.fill(0xA5);
            totals.fill(0xA5);
            let started = Instant::now();
            let answer = (side.run)(queue, black_box(file), &mut trace, &mut totals);
            spent += started.elapsed();
            black_box((answer, &trace, &totals));
        }
        runs += files.len();
    }
    spent.as_nanos() as f64 / (runs * entries) as f64
}

fn print_row(one: &Measured) {
    let (proved, reference) = (median(&one.proved), median(&one.reference));
    println!(
        "{:<13}{:>8}{:>8.1}{:>11.1}{:>11.1}{:>10.2}{:>10.2}{:>8.2}  {:.2} to {:.2}",
        one.load,
        one.entries,
        one.waits,
        proved,
        reference,
        1000.0 / proved,
        1000.0 / reference,
        median(&one.ratios),
        one.ratios[0],
        one.ratios[ROUNDS - 1],
    );
}

/// Nanoseconds an entry by length: level where time grows with the entries.
fn print_growth(all: &[Measured]) {
    println!();
    println!("growth: ns an entry by number of entries, and 4096 against 256");
    print!("{:<25}", "");
    for entries in LENGTHS {
        print!("{entries:>9}");
    }
    println!("{:>9}", "factor");
    for of_load in all.chunks(LENGTHS.len()) {
        growth_row(of_load, PROVED.name, |one| median(&one.proved));
        growth_row(of_load, REFERENCE.name, |one| median(&one.reference));
    }
    println!();
}

fn growth_row(of_load: &[Measured], side: &str, figure: impl Fn(&Measured) -> f64) {
    let figures: Vec<f64> = of_load.iter().map(figure).collect();
    print!("{:<14}{side:<11}", of_load[0].load);
    for figure in &figures {
        print!("{figure:>9.1}");
    }
    println!("{:>9.2}", figures[figures.len() - 1] / figures[0]);
}

fn sorted(figures: impl Iterator<Item = f64>) -> Vec<f64> {
    let mut sorted: Vec<f64> = figures.collect();
    sorted.sort_by(f64::total_cmp);
    sorted
}

/// Of figures in rising order.
fn median(figures: &[f64]) -> f64 {
    figures[figures.len() / 2]
}
