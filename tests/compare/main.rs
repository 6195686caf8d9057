//! `compare MEMBER TRACE [COUNT] [FIRST_SEED] [--cases DIRECTORY] [--verbose]`: holds a member program and a trace program against the
//! second member, line by line, on scripts made from seeds and on the fixed cases of a directory (its files *.in, *.trace.in).
//!
//! `compare --typical COUNT SEED NAME`: writes a typical run, a registration and so many rekeys, to NAME.in, and the second member's
//! answers, all 0, to NAME.out.
//!
//! `compare --scripts COUNT DIRECTORY`: writes the scripts of the first seeds, SEED.in and SEED.trace.in.

mod broken_fragments;
mod calls;
mod case;
mod damage;
mod fragments;
mod fresh;
mod inband;
mod limits;
mod lives;
mod orders;
mod paths;
mod pieces;
mod programs;
mod rearrange;
mod runs;
mod scene;
mod script;
mod sealed;
mod tally;
mod violations;

use programs::{Kind, Program};
use script::{script, typical_run};
use std::path::{Path, PathBuf};
use std::process::ExitCode;
use std::time::{Duration, Instant};
use tally::Tally;

/// From so many scripts on every violation must have occurred alone.
const ENOUGH: u64 = 200;

struct Arguments {
    programs: [Program; 2],
    count: u64,
    first_seed: u64,
    cases: Option<PathBuf>,
    verbose: bool,
}

fn arguments() -> Option<Arguments> {
    let (mut plain, mut cases, mut verbose) = (Vec::new(), None, false);
    let mut given = std::env::args().skip(1);
    while let Some(argument) = given.next() {
        match argument.as_str() {
            "--verbose" => verbose = true,
            "--cases" => cases = Some(PathBuf::from(given.next()?)),
            _ => plain.push(argument),
        }
    }
    let number = |at: usize, otherwise: u64| plain.get(at).map_or(Some(otherwise), |text| text.parse().ok());
    let program = |at: usize, kind: Kind| Some(Program { path: PathBuf::from(plain.get(at)?), kind });
    let programs = [program(0, Kind::Member)?, program(1, Kind::Trace)?];
    Some(Arguments { programs, count: number(2, 400)?, first_seed: number(3, 0)?, cases, verbose })
}

fn main() -> ExitCode {
    let given: Vec<String> = std::env::args().skip(1).collect();
    let done = match (given.as_slice(), arguments()) {
        ([option, count, seed, name], _) if option == "--typical" => write_typical(count, seed, name),
        ([option, count, directory], _) if option == "--scripts" => write_scripts(count, Path::new(directory)),
        (_, Some(arguments)) => compare(&arguments),
        _ => Err("MEMBER TRACE [COUNT] [FIRST_SEED] [--cases DIRECTORY] [--verbose], or \
            --typical COUNT SEED NAME, or --scripts COUNT DIRECTORY"
            .to_string()),
    };
    match done {
        Ok(()) => ExitCode::SUCCESS,
        Err(message) => {
            println!("compare: {message}");
            ExitCode::FAILURE
        }
    }
}

fn compare(arguments: &Arguments) -> Result<(), String> {
    let cases = fixed_cases(arguments.cases.as_deref())?;
    for program in &arguments.programs {
        for case in cases.iter().filter(|case| Kind::of(case) == program.kind) {
            let input = std::fs::read(case).map_err(|error| format!("{}: {error}", case.display()))?;
            program.compared(&input)?.difference.map_or(Ok(()), |at| Err(format!("{} differs: {}", case.display(), at.text)))?;
        }
        compare_scripts(program, arguments)?;
    }
    Ok(())
}

fn compare_scripts(program: &Program, arguments: &Arguments) -> Result<(), String> {
    let start = Instant::now();
    let mut tally = Tally::default();
    let (mut in_program, mut in_orders) = (Duration::ZERO, Duration::ZERO);
    for seed in arguments.first_seed..arguments.first_seed + arguments.count {
        let script = script(seed, program.kind, &mut tally);
        let before = Instant::now();
        let compared = program.compared(&script.input)?;
        in_program += before.elapsed();
        if let Some(at) = compared.difference {
            return Err(programs::keep(seed, program.kind, &script, at)?);
        }
        let before = Instant::now();
        orders::all(program, seed, &script, &compared.printed, &mut tally)?;
        in_orders += before.elapsed();
    }
    print(program, &tally, arguments, start.elapsed(), in_program);
    orders::print(&tally, in_orders);
    verdict(&tally, program.kind, arguments.count)
}

fn write_scripts(count: &str, directory: &Path) -> Result<(), String> {
    let Ok(count) = count.parse() else { return Err(format!("{count} is no number")) };
    for (seed, kind) in (0..count).flat_map(|seed| [(seed, Kind::Member), (seed, Kind::Trace)]) {
        let path = directory.join(format!("{seed}{}", kind.ending()));
        let input = script(seed, kind, &mut Tally::default()).input;
        std::fs::write(&path, input).map_err(|error| format!("{}: {error}", path.display()))?;
    }
    Ok(())
}

fn write_typical(count: &str, seed: &str, name: &str) -> Result<(), String> {
    let (Ok(count), Ok(seed)) = (count.parse(), seed.parse()) else { return Err(format!("{count} or {seed} is no number")) };
    let mut tally = Tally::default();
    let input = typical_run(seed, count, &mut tally).input;
    if let Some(complaint) = tally.complaints.first() {
        return Err(complaint.clone());
    }
    let output = Kind::Member.second(&input);
    let written = std::fs::write(format!("{name}.in"), &input).and_then(|()| std::fs::write(format!("{name}.out"), output));
    written.map_err(|error| format!("{name}: {error}"))
}

fn fixed_cases(directory: Option<&Path>) -> Result<Vec<PathBuf>, String> {
    let Some(directory) = directory else { return Ok(Vec::new()) };
    let entries = std::fs::read_dir(directory).map_err(|error| format!("{}: {error}", directory.display()))?;
    let mut cases: Vec<PathBuf> = entries.flatten().map(|entry| entry.path()).collect();
    cases.retain(|path| path.extension().is_some_and(|extension| extension == "in"));
    cases.sort();
    println!("compare: {} fixed cases", cases.len());
    Ok(cases)
}

fn print(program: &Program, tally: &Tally, arguments: &Arguments, taken: Duration, in_program: Duration) {
    let lines: usize = tally.answers.iter().chain(tally.calls.values()).sum();
    let answers: Vec<String> =
        (0..11).map(|i| format!("{}: {}", if i < 10 { i.to_string() } else { "bad".into() }, tally.answers[i])).collect();
    println!(
        "compare: {} scripts, {lines} lines, {:.1} s, of which {:.1} s by {} and the second member",
        arguments.count,
        taken.as_secs_f64(),
        in_program.as_secs_f64(),
        program.path.display()
    );
    println!("compare: answers {}", answers.join(", "));
    print_counts(tally);
    println!(
        "compare: {} violations alone, {} pairs of them ({} different ones, {} gave the lower number)",
        violations::all().filter(|violation| tally.alone.contains_key(violation.name)).count(),
        tally.pairs_done,
        tally.pairs.len(),
        tally.pairs_as_lower
    );
    if arguments.verbose {
        tally.complaints.iter().for_each(|complaint| println!("{complaint}"));
        for violation in violations::all().chain(violations::allowed::TABLE) {
            let count = |counts: &std::collections::BTreeMap<&str, usize>| counts.get(violation.name).copied().unwrap_or(0);
            println!(
                "{:5} alone {:5} in pairs  {} {}",
                count(&tally.alone),
                count(&tally.paired),
                violation.number,
                violation.name
            );
        }
    }
}

/// How often each of the things occurred that must.
fn print_counts(tally: &Tally) {
    let counted = [
        ("layouts broken in", &tally.breaks),
        ("calls", &tally.calls),
        ("accepted frames that leave or use", &tally.limits),
        ("lifetimes:", &tally.lives),
        ("paths:", &tally.paths),
        ("fresh keys:", &tally.fresh),
        ("frames that came", &tally.sealed),
        ("frames in pieces:", &tally.fragments),
    ];
    for (what, counts) in counted {
        if !counts.is_empty() {
            let counts: Vec<String> = counts.iter().map(|(name, count)| format!("{name}: {count}")).collect();
            println!("compare: {what} {}", counts.join(", "));
        }
    }
}

fn verdict(tally: &Tally, kind: Kind, count: u64) -> Result<(), String> {
    if let Some(complaint) = tally.complaints.first() {
        return Err(format!("{} claims of the generator failed, first: {complaint}", tally.complaints.len()));
    }
    if let Some(never) = tally.answers.iter().position(|&count| count == 0) {
        return Err(format!("answer {} never occurred", if never < 10 { never.to_string() } else { "bad".into() }));
    }
    if let Some(call) = calls::ALL.iter().find(|call| kind == Kind::Trace && !tally.calls.contains_key(*call)) {
        return Err(format!("never occurred: {call}"));
    }
    let violations = violations::all().chain(violations::allowed::TABLE).map(|violation| violation.name);
    let mut missing = violations.filter(|name| !tally.alone.contains_key(name));
    let limits = limits::MET.into_iter().filter(|limit| !tally.limits.contains_key(limit));
    let breaks = damage::KINDS.iter().map(|(name, _)| *name).filter(|name| !tally.breaks.contains_key(name));
    let lives = lives::MET.into_iter().filter(|name| !tally.lives.contains_key(name));
    let paths = paths::MET.into_iter().filter(|name| !tally.paths.contains_key(name));
    let mut still = rearrange::numbers().filter(|number| !tally.orders.contains_key(number));
    let moves = rearrange::MOVED.into_iter().filter(|what| !tally.moves.contains_key(what));
    if let Some((exchange, number)) = still.next().filter(|_| count >= ENOUGH) {
        return Err(format!("no {exchange} in another order was given {number}"));
    }
    let fresh = fresh::MET.into_iter().filter(|name| kind == Kind::Trace && !tally.fresh.contains_key(name));
    let sealed = sealed::MET.into_iter().chain(sealed::BREAKS.iter().map(|one| one.name));
    let sealed = sealed.filter(|name| kind == Kind::Trace && !tally.sealed.contains_key(name));
    let fragments = fragments::met().filter(|name| kind == Kind::Trace && !tally.fragments.contains_key(name));
    let mut others = limits.chain(breaks).chain(lives).chain(paths).chain(moves).chain(fresh).chain(sealed).chain(fragments);
    match (missing.next(), others.next()) {
        (Some(name), _) if count >= ENOUGH => Err(format!("never occurred alone: {name}")),
        (_, Some(name)) if count >= ENOUGH => Err(format!("never occurred: {name}")),
        _ => Ok(()),
    }
}
