//! Takes rehearsals, edges, random and damaged files through both queues of both
//! implementations, and through the programs, and machines, arrays and files
//! through single functions of both, until something differs.
//!
//! Exit status 0: everything agrees and every outcome, refusal, kind of share
//! sheet and row on runs came up; 1: something differs or never came up; 2: the
//! command line is wrong.

mod options;
mod parts;

use std::process::ExitCode;
use std::time::Instant;

use comparing::campaign;
use comparing::report::{print_failure, print_table};
use comparing::spread::{guarded, Failure};
use comparing::tally::Tally;

use options::{options, Options, USAGE};
use parts::{Found, RANDOM};

fn main() -> ExitCode {
    let options = match options() {
        Ok(options) => options,
        Err(message) => {
            eprintln!("{message}\n{USAGE}");
            return ExitCode::from(2);
        }
    };
    // First of all, so that even a run that is broken off can be repeated.
    println!("seed {}", options.seed);
    let outcome = match options.only {
        Some(case) => only(&options, case),
        None => everything(&options),
    };
    outcome.unwrap_or_else(|found| {
        report(&options, &found);
        ExitCode::from(1)
    })
}

fn only(options: &Options, case: u64) -> Result<ExitCode, Found> {
    let work = || campaign::case(options.seed, case, &mut Tally::default());
    guarded(work).map_err(|disagreement| Found {
        part: RANDOM,
        failure: Failure { case, disagreement },
    })?;
    println!("case {case} agrees");
    Ok(ExitCode::SUCCESS)
}

fn everything(options: &Options) -> Result<ExitCode, Found> {
    let started = Instant::now();
    let mut parts = parts::lists(options)?;
    // Agreement is worth something only if everything came up.
    let mut missing = Vec::new();
    let mut steps = None;
    if !options.library_only {
        parts.extend(parts::programs(options)?);
        let (operations, seen) = parts::operations(options)?;
        parts.extend(operations);
        missing.push(("single steps", seen.missing_steps()));
        steps = Some(seen);
    }
    let (random, tally) = parts::random(options)?;
    parts.push(random);
    print_table(&parts, steps.as_ref(), &tally);
    println!("seconds {:.1}", started.elapsed().as_secs_f64());
    if options.cases > 0 {
        missing.push((RANDOM, tally.missing()));
    }
    missing.retain(|(_, names)| !names.is_empty());
    if !missing.is_empty() {
        for (part, names) in missing {
            println!("never seen in {part}: {}", names.join(", "));
        }
        return Ok(ExitCode::from(1));
    }
    let cases: u64 = parts.iter().map(|part| part.cases).sum();
    println!("{cases} cases agree");
    Ok(ExitCode::SUCCESS)
}

fn report(options: &Options, found: &Found) {
    let (seed, case) = (options.seed, found.failure.case);
    let again = if found.part == RANDOM {
        format!("compare --seed {seed} --only {case}")
    } else {
        // The other parts are short and repeated whole.
        format!("compare --seed {seed} --cases 0 {}", options.paths())
    };
    let part = format!("{}, case {case}", found.part);
    print_failure(&part, &again, &found.failure.disagreement);
}
