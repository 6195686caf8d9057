//! `mutants SCRIPTS ROOM [TEXT]`: makes every one-line mutant of the second member by the kinds of kinds.rs, one after the other, and runs
//! it on the scripts of a directory, NAME.in and NAME.trace.in, whose outputs by the product stand beside them, NAME.out and
//! NAME.trace.out. A mutant is told apart where it prints something else; one that is not is tried by the second member's own tests.
//! TEXT keeps the mutants whose file, line number, kind or line hold it, @FILE those that stand in a file like the report. Prints what
//! the scripts do not tell apart and the counts, and writes each mutant with its verdict to ROOM/report.

mod kinds;

use kinds::{mutants, Mutant, FLIPPED, KINDS};
use std::io::{Read, Write};
use std::path::{Path, PathBuf};
use std::process::{Command, ExitCode, Stdio};
use std::time::{Duration, Instant};

/// The files whose lines are changed.
const FILES: [&str; 14] = [
    "aes",
    "keywrap",
    "octets",
    "layout",
    "judging",
    "reach",
    "member",
    "gcm",
    "sealing",
    "fragments",
    "text",
    "trace",
    "rooms",
    "journal",
];

/// A mutant that takes longer on one script is told apart.
const LIMIT: Duration = Duration::from_secs(10);

/// Both programs in one: `trace` with an argument, `member` without.
const PROGRAM: &str = "fn main() {
    let (input, output) = (std::io::stdin().lock(), std::io::BufWriter::new(std::io::stdout().lock()));
    match std::env::args().nth(1) {
        None => text::run(input, output),
        Some(_) => trace::run(input, output),
    }
    .expect(\"standard input and output\");
}
";

#[derive(PartialEq)]
enum Verdict {
    NoProgram,
    ToldByMember(String),
    ToldByTrace(String),
    ToldByTests,
    Survives,
}

/// An input, and what the product prints for it.
struct Script {
    name: String,
    traced: bool,
    input: PathBuf,
    output: Vec<u8>,
}

fn main() -> ExitCode {
    let given: Vec<String> = std::env::args().skip(1).collect();
    let [scripts, room, rest @ ..] = given.as_slice() else {
        eprintln!("mutants SCRIPTS ROOM [TEXT]");
        return ExitCode::from(2);
    };
    match all(Path::new(scripts), Path::new(room), rest.first().map_or("", String::as_str)) {
        Ok(()) => ExitCode::SUCCESS,
        Err(error) => {
            println!("mutants: {error}");
            ExitCode::FAILURE
        }
    }
}

fn all(scripts: &Path, room: &Path, text: &str) -> std::io::Result<()> {
    let scripts = read_scripts(scripts)?;
    let sources: Vec<(&'static str, String)> =
        FILES.iter().map(|file| Ok((*file, source(file)?))).collect::<std::io::Result<_>>()?;
    for old in kinds::stale(&sources) {
        println!("mutants: no line has: {old}");
    }
    std::fs::create_dir_all(room.join("src"))?;
    let head = source("lib")?;
    std::fs::write(room.join("src/lib.rs"), format!("#![allow(warnings)]\n{head}\n{FLIPPED}"))?;
    std::fs::write(room.join("src/main.rs"), format!("#![allow(warnings)]\n{head}\n{FLIPPED}\n{PROGRAM}"))?;
    for (file, text) in &sources {
        std::fs::write(room.join(format!("src/{file}.rs")), text)?;
    }
    let listed = text.strip_prefix('@').map(std::fs::read_to_string).transpose()?;
    let kept = |mutant: &Mutant| match &listed {
        Some(list) => list.contains(&head_of(mutant)),
        None => name(mutant).contains(text),
    };
    let mut report = std::fs::File::create(room.join("report"))?;
    let mut verdicts = Vec::new();
    if verdict(&scripts, room)? != Verdict::Survives {
        return Err(std::io::Error::other("the second member itself is told apart"));
    }
    for (file, source) in &sources {
        for mutant in mutants(file, source).into_iter().filter(kept) {
            let path = room.join(format!("src/{file}.rs"));
            std::fs::write(&path, mutated(source, &mutant))?;
            let verdict = verdict(&scripts, room)?;
            std::fs::write(&path, source)?;
            tell(&mut report, &mutant, &verdict)?;
            verdicts.push((mutant.kind, verdict));
        }
    }
    count(&verdicts);
    Ok(())
}

fn source(file: &str) -> std::io::Result<String> {
    std::fs::read_to_string(format!("tests/reference/{file}.rs"))
}

fn name(mutant: &Mutant) -> String {
    format!("{}.rs:{}: {}: {}", mutant.file, mutant.line, mutant.kind, mutant.old.trim())
}

/// What the report says of a mutant before its verdict.
fn head_of(mutant: &Mutant) -> String {
    format!("{}\n    -> {}\n", name(mutant), mutant.new.trim())
}

fn mutated(source: &str, mutant: &Mutant) -> String {
    let lines = source.lines().enumerate();
    lines.map(|(i, line)| if i + 1 == mutant.line { &mutant.new } else { line }.to_string() + "\n").collect()
}

fn read_scripts(directory: &Path) -> std::io::Result<Vec<Script>> {
    let mut scripts = Vec::new();
    for entry in std::fs::read_dir(directory)? {
        let input = entry?.path();
        let Some(name) = input.to_string_lossy().strip_suffix(".in").map(str::to_string) else { continue };
        let (traced, output) = (name.ends_with(".trace"), std::fs::read(format!("{name}.out"))?);
        scripts.push(Script { name: name.rsplit('/').next().unwrap_or("").to_string(), traced, input, output });
    }
    scripts.sort_by_key(|script| (script.traced, script.name.len(), script.name.clone()));
    Ok(scripts)
}

/// Compiles what stands in the room, and runs it up to the first script that tells it apart.
fn verdict(scripts: &[Script], room: &Path) -> std::io::Result<Verdict> {
    let program = room.join("mutant");
    if !compiled("reference", &room.join("src/main.rs"), &[], &program)? {
        return Ok(Verdict::NoProgram);
    }
    for script in scripts {
        if !prints(&program, script)? {
            let name = script.name.clone();
            return Ok(if script.traced { Verdict::ToldByTrace(name) } else { Verdict::ToldByMember(name) });
        }
    }
    Ok(if passes_tests(room)? { Verdict::Survives } else { Verdict::ToldByTests })
}

/// Most mutants end on the first script: a quick compilation counts more than a quick program.
fn compiled(name: &str, root: &Path, more: &[&str], output: &Path) -> std::io::Result<bool> {
    let mut rustc = Command::new("rustc");
    rustc.args(["--edition", "2021", "-C", "opt-level=0", "-C", "overflow-checks=off", "--crate-name", name]);
    rustc.args(more).arg(root).arg("-o").arg(output).stderr(Stdio::null());
    Ok(rustc.status()?.success())
}

/// Whether the second member in the room passes its own tests.
fn passes_tests(room: &Path) -> std::io::Result<bool> {
    let (library, builder, tests) = (room.join("libreference.rlib"), room.join("libbuilder.rlib"), room.join("selftest"));
    let (reference, built) = (format!("reference={}", library.display()), format!("builder={}", builder.display()));
    let below = format!("dependency={}", room.display());
    let (rlib, of_reference, of_both) = (
        ["--crate-type", "rlib"],
        ["--extern", &reference],
        ["--test", "-L", &below, "--extern", &reference, "--extern", &built],
    );
    let made = compiled("reference", &room.join("src/lib.rs"), &rlib, &library)?
        && compiled("builder", Path::new("tests/compare/builder.rs"), &[rlib, of_reference].concat(), &builder)?
        && compiled("selftest", Path::new("tests/reference/selftest.rs"), &of_both, &tests)?;
    if !made {
        return Err(std::io::Error::other("the second member's tests do not compile"));
    }
    Ok(Command::new(tests).arg("--quiet").stdout(Stdio::null()).stderr(Stdio::null()).status()?.success())
}

/// Whether the program prints the script's output, in time, and nothing more.
fn prints(program: &Path, script: &Script) -> std::io::Result<bool> {
    let mut command = Command::new(program);
    command.args(script.traced.then_some("trace")).stdin(std::fs::File::open(&script.input)?);
    let mut child = command.stdout(Stdio::piped()).stderr(Stdio::null()).spawn()?;
    let stdout = child.stdout.take().expect("piped");
    let most = script.output.len() as u64 + 1;
    let reader = std::thread::spawn(move || {
        let mut octets = Vec::new();
        stdout.take(most).read_to_end(&mut octets).map(|_| octets)
    });
    let start = Instant::now();
    while !reader.is_finished() && start.elapsed() < LIMIT {
        std::thread::sleep(Duration::from_millis(1));
    }
    let in_time = reader.is_finished();
    if !in_time {
        child.kill()?;
    }
    let printed = reader.join().expect("a reader")?;
    child.kill()?;
    child.wait()?;
    Ok(in_time && printed == script.output)
}

fn tell(report: &mut std::fs::File, mutant: &Mutant, verdict: &Verdict) -> std::io::Result<()> {
    let told = match verdict {
        Verdict::NoProgram => "no program".to_string(),
        Verdict::ToldByMember(script) => format!("told apart by member, {script}"),
        Verdict::ToldByTrace(script) => format!("told apart by trace alone, {script}"),
        Verdict::ToldByTests => "told apart by the second member's own tests alone".to_string(),
        Verdict::Survives => "survives".to_string(),
    };
    let text = format!("{}    {told}", head_of(mutant));
    if matches!(verdict, Verdict::Survives | Verdict::ToldByTests) {
        println!("{text}");
    }
    writeln!(report, "{text}")
}

fn count(verdicts: &[(&'static str, Verdict)]) {
    for kind in KINDS {
        let of = |is: &dyn Fn(&Verdict) -> bool| verdicts.iter().filter(|(of, verdict)| *of == kind && is(verdict)).count();
        println!(
            "mutants: {kind}: {} by member, {} by trace alone, {} by the tests alone, {} survive; {} are no program",
            of(&|verdict| matches!(verdict, Verdict::ToldByMember(_))),
            of(&|verdict| matches!(verdict, Verdict::ToldByTrace(_))),
            of(&|verdict| *verdict == Verdict::ToldByTests),
            of(&|verdict| *verdict == Verdict::Survives),
            of(&|verdict| *verdict == Verdict::NoProgram)
        );
    }
}
