//! Runs the definitions of `crates/mem_base/specs` as they stand in their files: on scripts, on races, and on histories of races. `tools/define` builds it
//! and says how it is used. No grammar, no rule of the map and no line of output is written here a second time: all of it is read from the files.
mod ask;
mod compile;
mod edits;
mod eval;
mod history;
mod laws;
mod load;
mod natives;
mod prelude;
mod race;
mod syntax;
mod values;

use edits::{Edit, Edits};
use history::History;
use load::{Definitions, R};
use race::{Held, Schedule};
use std::io::{Read, Write};
use std::panic::{AssertUnwindSafe, catch_unwind};
use std::path::{Path, PathBuf};

const USAGE: &str = "usage: definer CRATE [--edit FILE].. [--counts FILE] COMMAND
  run                        the text of the script on the standard input
  race [SEED [loses]]        the same as a race: in written order, or by the schedule of a seed, where the lock may lose orders
  history [SEED [loses]]     what comes to pass in that race
  scripts FOLDER [ENDING]    each NAME.mt of a folder and its folders writes NAME.ENDING where that is there, or NAME.out
  races FOLDER               each NAME.mt of a folder writes NAME.out in written order; by some schedules, what comes to pass is a race
  histories FOLDER           each NAME.history of a folder is a race, and so is each NAME.true, which is one of these with changes; each NAME.false is none
  wrong FOLDER EXAMPLES      each NAME.edit of a folder, which makes a definition wrong, is noticed by the example that it names
";

/// What the command line asks for.
struct Asked {
    folder: PathBuf,
    edits: Vec<Edit>,
    counts: Option<String>,
    words: Vec<String>,
}

fn asked() -> R<Asked> {
    let mut asked = Asked { folder: PathBuf::new(), edits: vec![], counts: None, words: vec![] };
    let mut words = std::env::args().skip(1);
    asked.folder = words.next().ok_or(USAGE)?.into();
    while let Some(word) = words.next() {
        match word.as_str() {
            "--edit" => asked.edits.extend(edits_of(Path::new(&words.next().ok_or(USAGE)?))?.edits),
            "--counts" => asked.counts = Some(words.next().ok_or(USAGE)?),
            _ => asked.words.push(word),
        }
    }
    Ok(asked)
}

fn read(path: &Path) -> R<String> {
    std::fs::read_to_string(path).map_err(|e| format!("{}: {e}", path.display()))
}

fn edits_of(path: &Path) -> R<Edits> {
    Edits::parsed(&read(path)?).map_err(|e| format!("{}: {e}", path.display()))
}

/// The names of the files of a folder with this ending, in order; with those of its folders where `within`.
fn names_of(folder: &Path, ending: &str, within: bool) -> Vec<PathBuf> {
    let mut found = vec![];
    for path in std::fs::read_dir(folder).into_iter().flatten().flatten().map(|e| e.path()) {
        if path.is_dir() && within {
            found.extend(names_of(&path, ending, within));
        } else if path.extension().is_some_and(|x| x == ending) {
            found.push(path);
        }
    }
    found.sort();
    found
}

/// What a panic said: the definitions have no equation for a value, for example.
fn caught<T>(work: impl FnOnce() -> R<T>) -> R<T> {
    catch_unwind(AssertUnwindSafe(work)).unwrap_or_else(|p| {
        let said = p.downcast_ref::<String>().cloned().or_else(|| p.downcast_ref::<&str>().map(|s| s.to_string()));
        Err(said.unwrap_or_else(|| "it ended with a panic".into()))
    })
}

/// How many cases passed, and how many failed.
#[derive(Default)]
struct Count {
    passed: usize,
    failed: usize,
}

impl Count {
    fn case(&mut self, defs: Option<&Definitions>, name: &str, work: impl FnOnce() -> R<String>) {
        match caught(work) {
            Ok(said) => {
                self.passed += 1;
                if !said.is_empty() {
                    println!("{name}: {said}");
                }
            }
            Err(why) => {
                self.failed += 1;
                println!("failed: {name}: {why}");
            }
        }
        if let Some(defs) = defs {
            defs.kept.borrow_mut().clear();
        }
    }

    fn told(&self) -> i32 {
        println!("{} passed, {} failed", self.passed, self.failed);
        (self.failed > 0) as i32
    }
}

/// The text of a script, or the line that says where it is none.
fn text_of(defs: &Definitions, script: &[u8]) -> Vec<u8> {
    let (answer, args) = defs.case(&defs.of("Scripts", "script_of", vec![defs.bytes(script)]));
    let (module, name) = if answer == "Ok" { ("Run", "text_of") } else { ("RefusalLines", "bad_line") };
    defs.text(&defs.of(module, name, vec![args[0].clone()]))
}

/// Of a race with more steps the laws are not evaluated, which would take long.
const MOST_STEPS: usize = 1500;

/// What comes to pass in a race, which has to be one by the definitions.
fn raced(defs: &Definitions, script: &str, schedule: Schedule) -> R<History> {
    let lines = history::script_of(defs, script)?;
    let passed = race::run(defs, &lines, schedule);
    let held = Held::new(defs, &lines, &passed);
    let text = held.text();
    let steps = defs.spine(&held.entries).len();
    match held.refused(&text).or_else(|| if steps > MOST_STEPS { None } else { laws::broken(defs, &held) }) {
        None => Ok(History { script: script.into(), passed, text }),
        Some(part) => Err(format!("{part} does not hold (seed {:?})", schedule.seed)),
    }
}

/// Nothing where the two are one; else the first line that differs.
fn alike(made: &[u8], wanted: &[u8]) -> R<String> {
    if made == wanted {
        return Ok(String::new());
    }
    let (a, b) = (String::from_utf8_lossy(made), String::from_utf8_lossy(wanted));
    let at = a.lines().zip(b.lines()).take_while(|(x, y)| x == y).count();
    let line = |t: &str| t.lines().nth(at).unwrap_or("(its end)").to_string();
    Err(format!("line {} is `{}`, and not `{}`", at + 1, line(&a), line(&b)))
}

fn scripts(defs: &Definitions, folder: &Path, ending: &str) -> i32 {
    let mut count = Count::default();
    for path in names_of(folder, "mt", true) {
        let own = path.with_extension(ending);
        let wanted = if own.is_file() { own } else { path.with_extension("out") };
        count.case(Some(defs), &path.display().to_string(), || alike(&text_of(defs, read(&path)?.as_bytes()), read(&wanted)?.as_bytes()));
    }
    count.told()
}

/// The seeds by which each race is run.
const SEEDS: std::ops::Range<u64> = 1..3;

fn races(defs: &Definitions, folder: &Path) -> i32 {
    let mut count = Count::default();
    for path in names_of(folder, "mt", false) {
        count.case(Some(defs), &path.display().to_string(), || {
            let script = read(&path)?;
            for seed in SEEDS {
                raced(defs, &script, Schedule { seed: Some(seed), loses: false })?;
                raced(defs, &script, Schedule { seed: Some(seed), loses: true })?;
            }
            let h = raced(defs, &script, Schedule { seed: None, loses: false })?;
            alike(&h.text, read(&path.with_extension("out"))?.as_bytes())
        });
    }
    count.told()
}

/// Why this history is no race, if it is none; or the law of races that does not hold of it, where these are asked for.
fn refusal(defs: &Definitions, text: &str, with_laws: bool) -> R<Option<String>> {
    let h = history::parsed(defs, text)?;
    let lines = history::script_of(defs, &h.script)?;
    let held = Held::new(defs, &lines, &h.passed);
    let refused = held.refused(&h.text);
    if refused.is_none() != held.is_race(&h.text) {
        return Err("the parts of `IsRace` hold, and not the whole, or the other way round".into());
    }
    Ok(refused.or_else(|| if with_laws { laws::broken(defs, &held) } else { None }))
}

/// The text of a history: of a file NAME.true or NAME.false, that of the one that it names with its changes.
fn history_of(path: &Path) -> R<String> {
    if path.extension().is_some_and(|x| x == "history") {
        return read(path);
    }
    let changes = edits_of(path)?;
    let name = changes.said.get("of").ok_or("it does not say of which history it is")?;
    edits::applied(read(&path.with_file_name(name))?, name, &changes.edits)
}

fn histories(defs: &Definitions, folder: &Path) -> i32 {
    let mut count = Count::default();
    for path in [names_of(folder, "history", false), names_of(folder, "true", false)].concat() {
        count.case(Some(defs), &path.display().to_string(), || match refusal(defs, &history_of(&path)?, true)? {
            None => Ok(String::new()),
            Some(part) => Err(format!("it is a true history, and {part} does not hold of it")),
        });
    }
    for path in names_of(folder, "false", false) {
        count.case(Some(defs), &path.display().to_string(), || {
            let made = edits_of(&path)?;
            let refused = refusal(defs, &history_of(&path)?, false)?.ok_or("it is taken for a race")?;
            match made.said.get("refused") {
                Some(part) if refused.starts_with(part) => Ok(format!("refused by {refused}: {}", made.what)),
                _ => Err(format!("it is refused by {refused}")),
            }
        });
    }
    count.told()
}

/// Whether an example is as it should be: a script writes its answer, one of the folder `races` by a race, and a history is judged as its file says.
fn is_as_told(defs: &Definitions, example: &Path, ending: &str) -> R<bool> {
    let kind = example.extension().and_then(|x| x.to_str());
    if kind != Some("mt") {
        let is_false = kind == Some("false");
        return Ok(refusal(defs, &history_of(example)?, !is_false)?.is_some() == is_false);
    }
    let own = example.with_extension(ending);
    let wanted = read(&if own.is_file() { own } else { example.with_extension("out") })?;
    let script = read(example)?;
    let raced_too = example.parent().is_some_and(|p| p.ends_with("races"));
    let text = if raced_too { raced(defs, &script, Schedule { seed: None, loses: false })?.text } else { text_of(defs, script.as_bytes()) };
    Ok(text == wanted.as_bytes())
}

/// Whether a wrong definition is noticed by the example that its file names, in the way that it names.
fn noticed(asked: &Asked, folder: &Path, examples: &Path, path: &Path) -> R<String> {
    let made = edits_of(path)?;
    let example = examples.join(made.said.get("noticed").ok_or("it does not say what notices it")?);
    let (mut edits, mut ending) = (vec![], "out");
    if let Some(way) = made.said.get("way") {
        edits = edits_of(&folder.with_file_name("ways").join(format!("{way}.edit")))?.edits;
        ending = way;
    }
    edits.extend(made.edits);
    let defs = Definitions::load(&asked.folder, &edits)?;
    match caught(|| is_as_told(&defs, &example, ending)) {
        Ok(true) => Err(format!("{} does not notice it", example.display())),
        Ok(false) => Ok(format!("noticed, {}", made.what)),
        Err(why) => Ok(format!("noticed, {}: {}", made.what, why.lines().next().unwrap_or_default())),
    }
}

fn wrong(asked: &Asked, folder: &Path, examples: &Path) -> i32 {
    let mut count = Count::default();
    for path in names_of(folder, "edit", false) {
        count.case(None, &path.display().to_string(), || noticed(asked, folder, examples, &path));
    }
    count.told()
}

/// How often each definition that can be run was evaluated.
fn tell_counts(defs: &Definitions, path: &str) -> R<()> {
    let runs = defs.globals.iter().filter(|g| g.module != "std" && !matches!(g.code, values::Code::None(_)));
    let rows: String = runs.map(|g| format!("{}.{} {}\n", g.module, g.name, g.calls.get())).collect();
    let file = std::fs::OpenOptions::new().create(true).append(true).open(path);
    file.and_then(|mut f| f.write_all(rows.as_bytes())).map_err(|e| format!("{path}: {e}"))
}

fn work() -> R<i32> {
    let asked = asked()?;
    let words: Vec<&str> = asked.words.iter().map(|w| w.as_str()).collect();
    if let ["wrong", folder, examples] = words[..] {
        return Ok(wrong(&asked, Path::new(folder), Path::new(examples)));
    }
    let defs = &Definitions::load(&asked.folder, &asked.edits)?;
    let given = || {
        let mut text = String::new();
        std::io::stdin().read_to_string(&mut text).map_err(|e| format!("the standard input: {e}")).map(|_| text)
    };
    let schedule = |rest: &[&str]| match rest {
        [] => Ok(Schedule { seed: None, loses: false }),
        [seed] | [seed, "loses"] => Ok(Schedule { seed: Some(seed.parse().map_err(|_| USAGE)?), loses: rest.len() == 2 }),
        _ => Err(USAGE),
    };
    let mut status = 0;
    let made = match &words[..] {
        ["run"] => text_of(defs, given()?.as_bytes()),
        ["race", rest @ ..] => raced(defs, &given()?, schedule(rest)?)?.text,
        ["history", rest @ ..] => history::written(defs, &raced(defs, &given()?, schedule(rest)?)?).into_bytes(),
        ["scripts", folder, rest @ ..] => {
            status = scripts(defs, Path::new(folder), rest.first().unwrap_or(&"out"));
            vec![]
        }
        ["races", folder] => {
            status = races(defs, Path::new(folder));
            vec![]
        }
        ["histories", folder] => {
            status = histories(defs, Path::new(folder));
            vec![]
        }
        _ => return Err(USAGE.into()),
    };
    std::io::stdout().write_all(&made).map_err(|e| format!("the standard output: {e}"))?;
    if let Some(path) = &asked.counts {
        tell_counts(defs, path)?;
    }
    Ok(status)
}

fn main() {
    std::panic::set_hook(Box::new(|_| {}));
    // Definitions recur deeply, so the work has a stack of its own.
    let thread = std::thread::Builder::new().stack_size(3 << 30).spawn(|| caught(work)).expect("a thread");
    let status = thread.join().unwrap_or_else(|_| Err("it ended with a panic".into())).unwrap_or_else(|why| {
        eprintln!("definer: {why}");
        2
    });
    std::process::exit(status);
}
