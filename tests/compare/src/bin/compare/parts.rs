//! The parts of a whole comparison, each a list of cases.

use std::fs;
use std::path::{Path, PathBuf};
use std::time::Instant;

use comparing::arrays::Arrays;
use comparing::checks::{Disagreement, Verdict};
use comparing::edges::Edge;
use comparing::likeness::{all_resized, hold_resized};
use comparing::plain::{hold_short, short_margins};
use comparing::program::{overlong, random_file, Feed, Programs};
use comparing::queue::{Queue, QUEUES};
use comparing::random::Random;
use comparing::rehearsals::{example_lines, Rehearsal};
use comparing::report::Part;
use comparing::rooms::Rooms;
use comparing::sheet_edges::SheetEdge;
use comparing::single::{edge_files, Single};
use comparing::spread::{spread, Failure};
use comparing::tally::Tally;
use comparing::writer::Written;
use comparing::{
    campaign, damage, edges, limits, machines, rehearsals, rooms, sheet_edges, steps, writer,
};

use crate::options::Options;

/// The part that `--only` repeats.
pub const RANDOM: &str = "random cases";
/// Random files that the programs are given, half of them damaged.
const PROGRAM_FILES: u64 = 600;
/// Machines that schedules lead to, and any others.
const REACHED: u64 = 2000;
const ANY: u64 = 4000;
/// Machines of schedules whose parts are put to the edges, one at a time, beside
/// one that is made for it.
const BASES: u64 = 4;
/// Arrays with an entry, a multiple of the number of kind bytes.
const ARRAYS: u64 = 40 * 256;
/// Arrays that are checked.
const CHECKS: u64 = 4000;
/// Random files for single functions, half of them damaged.
const SINGLE_FILES: u64 = 3000;

/// A disagreement and the part it was found in.
pub struct Found {
    pub part: &'static str,
    pub failure: Failure,
}

/// The libraries on lists of cases.
pub fn lists(options: &Options) -> Result<Vec<Part>, Found> {
    // Margins aren't files, so they are compared and not counted.
    each("needed margins", &[()], |(), _| rehearsals::hold_margins())?;
    let told = rehearsals::all();
    let drafts = || told.iter().map(|one| &one.script.draft);
    let resized: Vec<_> = drafts().flat_map(all_resized).collect();
    let damaged = drafts().flat_map(|draft| damage::samples(&draft.bytes()));
    let damaged: Vec<_> = damaged.collect();
    let short = short_margins(options.seed);
    let sheets = sheet_edges::all();
    let file = |file: &Vec<u8>, tally: &mut Tally| campaign::file(file, tally);
    let named = |path: &PathBuf, tally: &mut Tally| campaign::file(&read(path)?, tally);
    Ok(vec![
        each("rehearsals", &told, Rehearsal::hold)?,
        each("rehearsals, bytes changed and cuts", &damaged, file)?,
        each("rehearsals, pairs one size apart", &resized, hold_resized)?,
        each("edges of files", &edges::files(), Edge::hold)?,
        each("edges of lent memory", &rooms::all(), Rooms::hold)?,
        each("edges of the writer", &writer::edges(), Written::hold)?,
        each("edges of share sheets", &sheets, SheetEdge::hold)?,
        each("margins below the needed one", &short, hold_short)?,
        each("files named", &options.examples, named)?,
    ])
}

/// The random cases; their tally shows what the generator reaches.
pub fn random(options: &Options) -> Result<(Part, Tally), Found> {
    let work = |case, tally: &mut Tally| campaign::case(options.seed, case, tally);
    part(RANDOM, options.cases, work)
}

/// The programs, both with every file.
pub fn programs(options: &Options) -> Result<Vec<Part>, Found> {
    let programs = Programs(&options.programs);
    let example = rehearsals::example().draft.bytes();
    let told = rehearsals::all();
    let edges: Vec<_> = edges::files().into_iter().map(|edge| edge.file).collect();
    let files = (0..PROGRAM_FILES).map(|number| random_file(options.seed, number));
    let random: Vec<_> = files.collect();

    let own = |queue: &Queue, _: &mut Tally| {
        programs.hold(*queue, &example, Feed::AtOnce, &example_lines(*queue))
    };
    let stored = |one: &Rehearsal, _: &mut Tally| programs.compare_both(&stored_rehearsal(one)?);
    let once = |file: &Vec<u8>, _: &mut Tally| programs.compare(file, Feed::AtOnce);
    let both = |file: &Vec<u8>, _: &mut Tally| programs.compare_both(file);
    let named = |path: &PathBuf, _: &mut Tally| programs.compare(&read(path)?, Feed::AtOnce);
    Ok(vec![
        each("programs: the example's lines", &QUEUES, own)?,
        each("programs: rehearsals, as stored", &told, stored)?,
        each("programs: edges of files", &edges, once)?,
        each("programs: overlong inputs", &overlong(), both)?,
        each("programs: random and damaged files", &random, once)?,
        each("programs: files named", &options.examples, named)?,
    ])
}

/// Single functions of the libraries; the tally shows what the steps reach.
pub fn operations(options: &Options) -> Result<(Vec<Part>, Tally), Found> {
    let single = Single::new(&options.operations);
    let (mut parts, tally) = single_steps(&single, options.seed)?;
    parts.extend(single_functions(&single, options.seed)?);
    Ok((parts, tally))
}

fn single_steps(single: &Single, seed: u64) -> Result<(Vec<Part>, Tally), Found> {
    let bases = (0..BASES).map(|base| machines::reached(&mut Random::of_case(seed, base)));
    let bases = bases.chain([machines::hiding()]);
    let limits: Vec<_> = bases.flat_map(limits::around).collect();
    let totals = steps::all_totals(&mut Random::new(seed));

    let reached = |case, tally: &mut Tally| {
        let random = &mut Random::of_case(seed, case);
        steps::examine(&machines::reached(random), single, random, tally).map(drop)
    };
    let limited = |case, tally: &mut Tally| {
        let random = &mut Random::of_case(seed, case);
        steps::hold_limit(&limits[case as usize], single, random, tally)
    };
    let any = |case, tally: &mut Tally| {
        let random = &mut Random::of_case(seed, case);
        steps::examine(&machines::any(random), single, random, tally).map(drop)
    };
    let counted =
        |case, tally: &mut Tally| steps::hold_totals(totals[case as usize], single, tally);
    let rows = [
        part("operations: machines of schedules", REACHED, reached)?,
        part(
            "operations: machines at an edge",
            limits.len() as u64,
            limited,
        )?,
        part("operations: any machines", ANY, any)?,
        part("operations: totals", totals.len() as u64, counted)?,
    ];
    let mut seen = Tally::default();
    rows.iter().for_each(|(_, tally)| seen.add(tally));
    Ok((rows.map(|(part, _)| part).into(), seen))
}

fn single_functions(single: &Single, seed: u64) -> Result<Vec<Part>, Found> {
    let edges = edge_files();
    let files = edges.len() as u64 + SINGLE_FILES;
    // Behind the edges come random files, by numbers that the programs' don't have.
    let file = |case: u64| match edges.get(case as usize) {
        Some(edge) => edge.clone(),
        None => random_file(seed, case),
    };
    let entry = |case, _: &mut Tally| {
        let random = &mut Random::of_case(seed, case);
        single.hold_entry(&Arrays::of_case(case, random))
    };
    let check = |case, _: &mut Tally| {
        let random = &mut Random::of_case(seed, case);
        match case % 4 {
            0 => single.hold_check(&Arrays::of_case(case, random)),
            _ => single.hold_check(&Arrays::nearly_allowed(random)),
        }
    };
    let cut = |case, _: &mut Tally| single.hold_parts(&file(case));
    let told = |case, _: &mut Tally| single.hold_lines(&file(case));
    let rows = [
        part("operations: entries of two arrays", ARRAYS, entry)?,
        part("operations: checks of two arrays", CHECKS, check)?,
        part("operations: parts of files", files, cut)?,
        part("operations: lines of files", files, told)?,
    ];
    Ok(rows.map(|(part, _)| part).into())
}

/// The rehearsal's schedule in `examples/`. All its files there must be those that
/// are told.
fn stored_rehearsal(told: &Rehearsal) -> Result<Vec<u8>, Disagreement> {
    for (name, bytes) in told.files() {
        let path = Path::new("examples").join(name);
        if read(&path)? != bytes {
            let what = format!("{} is not the file that is told", path.display());
            return Err(Disagreement::without_file(what));
        }
    }
    Ok(told.script.draft.bytes())
}

fn read(path: &Path) -> Result<Vec<u8>, Disagreement> {
    fs::read(path)
        .map_err(|error| Disagreement::without_file(format!("{}: {error}", path.display())))
}

/// Takes every item of a list through the same work.
fn each<T: Sync>(
    name: &'static str,
    items: &[T],
    work: impl Fn(&T, &mut Tally) -> Verdict + Sync,
) -> Result<Part, Found> {
    let one = |case: u64, tally: &mut Tally| work(&items[case as usize], tally);
    part(name, items.len() as u64, one).map(|(part, _)| part)
}

fn part(
    name: &'static str,
    cases: u64,
    work: impl Fn(u64, &mut Tally) -> Verdict + Sync,
) -> Result<(Part, Tally), Found> {
    let started = Instant::now();
    let tally = spread(cases, work).map_err(|failure| Found {
        part: name,
        failure,
    })?;
    let part = Part {
        name,
        cases,
        seconds: started.elapsed().as_secs_f64(),
    };
    Ok((part, tally))
}
