//! Changes of a text, written as a patch without numbers of lines. The first line says in plain words what the change is; `KEY: VALUE` lines follow, of which
//! `file:` or `of:` names the text that the lines below change. A change is a block of lines that begin with a blank (kept), `-` (goes) or `+` (comes), and a
//! blank line ends it; what is kept and what goes has to stand in the text once, line by line.
use crate::load::R;
use std::collections::BTreeMap;

/// The changes of one text.
#[derive(Default)]
pub struct Edit {
    pub file: String,
    changes: Vec<Change>,
}

/// Lines, and what comes in their place.
#[derive(Default)]
struct Change {
    old: Vec<String>,
    new: Vec<String>,
}

/// A file of changes.
#[derive(Default)]
pub struct Edits {
    /// What they are, in plain words.
    pub what: String,
    pub said: BTreeMap<String, String>,
    pub edits: Vec<Edit>,
}

impl Edits {
    /// A file of changes, from its text.
    pub fn parsed(text: &str) -> R<Edits> {
        let mut lines = text.lines();
        let first = lines.next().and_then(|l| l.strip_prefix("# "));
        let mut found = Edits { what: first.ok_or("its first line is no `# ` with what it changes")?.into(), ..Default::default() };
        let mut open = false;
        for line in lines {
            let (mark, rest) = line.split_at(line.len().min(1));
            match mark {
                "" => open = false,
                " " | "-" | "+" => {
                    let edit = found.edits.last_mut().ok_or("a change stands before any `file:` or `of:`")?;
                    if !std::mem::replace(&mut open, true) {
                        edit.changes.push(Change::default());
                    }
                    let change = edit.changes.last_mut().ok_or("no change")?;
                    if mark != "+" {
                        change.old.push(rest.into());
                    }
                    if mark != "-" {
                        change.new.push(rest.into());
                    }
                }
                _ => {
                    open = false;
                    let (key, value) = line.split_once(": ").ok_or_else(|| format!("a line of no sort: {line}"))?;
                    if key == "file" || key == "of" {
                        found.edits.push(Edit { file: value.into(), changes: vec![] });
                    }
                    found.said.insert(key.into(), value.into());
                }
            }
        }
        Ok(found)
    }
}

/// The text with the changes that are of this file.
pub fn applied(text: String, file: &str, edits: &[Edit]) -> R<String> {
    let mut lines: Vec<String> = text.lines().map(String::from).collect();
    let own: Vec<&Change> = edits.iter().filter(|e| e.file == file).flat_map(|e| &e.changes).collect();
    if own.is_empty() {
        return Ok(text);
    }
    for change in own {
        let n = change.old.len();
        let places: Vec<usize> = (0..(lines.len() + 1).saturating_sub(n)).filter(|at| n > 0 && lines[*at..*at + n] == change.old[..]).collect();
        let [at] = places[..] else {
            return Err(format!("{file}: these lines stand {} times, and not once:\n{}", places.len(), change.old.join("\n")));
        };
        lines.splice(at..at + n, change.new.iter().cloned());
    }
    Ok(lines.join("\n") + "\n")
}
