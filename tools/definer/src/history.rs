//! What came to pass in a race, as a text that can be read and changed line by line:
//!
//! ```text
//! script
//! | v0 enter                          a line of the script
//! edition 1 EDITION                   what the first Publish makes current
//! phase                               for each line outside the block, and for the block
//! turn WHO ORDER -> REPLIES           an order in the desk's record, with the replies to the writer's steps
//! clerk WHO                           an actor that has a line: the desk is 16, a virtual CPU its number
//! got WHO ORDER = ANSWER from N to M  what that actor got for an order, and which calls of listeners it caused
//! differs WHO PLACE                   where what an actor got is not the record's
//! step EVENT -> REPLY                 an atomic step; after the event ` at PLACE` or ` edition N`, where it carries one
//! last                                and then the steps after the last line
//! stray                               and then steps of the history that belong to no phase
//! text
//! | v0 enter g0                       a line of what is written
//! ```
//!
//! A value is a number, `true`, `[A, B]`, a variant `Look(#0)`, a record `{word: 0, region: #1}`, `(A, B)`, or `#N`, a value of one field: `#0` is virtual CPU v0
//! as well as the region of number 0. After ` # ` comes a comment.
use crate::load::{Definitions, R};
use crate::race::{Course, Passed};
use crate::values::Val;

/// A history, with its script and its text.
pub struct History {
    pub script: String,
    pub passed: Passed,
    pub text: Vec<u8>,
}

// Values

/// A value as a text.
fn shown(defs: &Definitions, v: &Val) -> String {
    let all = |vs: &[Val]| vs.iter().map(|x| shown(defs, x)).collect::<Vec<_>>().join(", ");
    match defs.force(v) {
        Val::Int(n) => n.to_string(),
        Val::Bool(b) => b.to_string(),
        Val::Unit => "unit".into(),
        v @ (Val::Nil | Val::Cons(_) | Val::Sparse(..)) => format!("[{}]", all(&defs.spine(&v))),
        Val::Con(name, args) if args.is_empty() => defs.text_of(name),
        Val::Con(name, args) => format!("{}({})", defs.text_of(name), all(&args)),
        Val::Rec(r) => {
            let mut fields: Vec<(String, String)> = r.shape.names.iter().map(|s| defs.text_of(*s)).zip(r.fields.iter().map(|f| shown(defs, f))).collect();
            fields.sort();
            let names: Vec<&str> = fields.iter().map(|f| f.0.as_str()).collect();
            match names[..] {
                ["0"] => format!("#{}", fields[0].1),
                ["0", "1"] => format!("({}, {})", fields[0].1, fields[1].1),
                _ => format!("{{{}}}", fields.iter().map(|(n, v)| format!("{n}: {v}")).collect::<Vec<_>>().join(", ")),
            }
        }
        v => panic!("a value that cannot be written: {}", defs.show(&v, 3)),
    }
}

/// Reads values from a line.
struct Reader<'a> {
    defs: &'a Definitions,
    rest: &'a str,
}

impl<'a> Reader<'a> {
    /// Takes this text off, after blanks; whether it is there.
    fn takes(&mut self, what: &str) -> bool {
        let rest = self.rest.trim_start();
        let found = rest.strip_prefix(what);
        self.rest = found.unwrap_or(rest);
        found.is_some()
    }

    fn wants(&mut self, what: &str) -> R<()> {
        if self.takes(what) { Ok(()) } else { Err(format!("`{what}` is missing before `{}`", self.rest)) }
    }

    fn word(&mut self) -> &'a str {
        let rest = self.rest.trim_start();
        let end = rest.find(|c: char| !(c.is_alphanumeric() || c == '_')).unwrap_or(rest.len());
        self.rest = &rest[end..];
        &rest[..end]
    }

    fn number(&mut self) -> R<i128> {
        let minus = self.takes("-");
        let word = self.word();
        let n: i128 = word.parse().map_err(|_| format!("no number: `{word}` before `{}`", self.rest))?;
        Ok(if minus { -n } else { n })
    }

    /// Values up to this end.
    fn values(&mut self, end: &str) -> R<Vec<Val>> {
        let mut found = vec![];
        while !self.takes(end) {
            if !found.is_empty() {
                self.wants(",")?;
            }
            found.push(self.value()?);
        }
        Ok(found)
    }

    fn value(&mut self) -> R<Val> {
        let defs = self.defs;
        if self.takes("#") {
            return Ok(defs.record(vec![("0", self.value()?)]));
        }
        if self.takes("[") {
            return Ok(defs.list(self.values("]")?));
        }
        if self.takes("(") {
            let [a, b] = self.values(")")?.try_into().map_err(|_| "a pair is of two values".to_string())?;
            return Ok(defs.pair_of(a, b));
        }
        if self.takes("{") {
            let mut fields = vec![];
            while !self.takes("}") {
                if !fields.is_empty() {
                    self.wants(",")?;
                }
                let name = self.word();
                self.wants(":")?;
                fields.push((name, self.value()?));
            }
            return Ok(defs.record(fields));
        }
        if self.rest.trim_start().starts_with(|c: char| c.is_ascii_digit() || c == '-') {
            return Ok(Val::Int(self.number()?));
        }
        match self.word() {
            "" => Err(format!("no value: `{}`", self.rest)),
            "true" => Ok(Val::Bool(true)),
            "false" => Ok(Val::Bool(false)),
            "unit" => Ok(Val::Unit),
            name => {
                let args = if self.takes("(") { self.values(")")? } else { vec![] };
                Ok(defs.con(name, args))
            }
        }
    }

    fn ends(&mut self) -> R<()> {
        if self.rest.trim().is_empty() { Ok(()) } else { Err(format!("this is left over: `{}`", self.rest)) }
    }
}

// A history to its text

/// The text of a history.
pub fn written(defs: &Definitions, h: &History) -> String {
    let mut out = String::from("script\n");
    h.script.lines().for_each(|l| out.push_str(&format!("| {l}\n")));
    let mut editions: Vec<Val> = vec![];
    let steps = h.passed.courses.iter().flat_map(|c| &c.entries).chain(&h.passed.last).chain(&h.passed.strays);
    for carried in steps.map(|x| defs.field(x, "carried")).filter(|c| defs.case(c).0 == "Edition") {
        editions.push(carried.clone());
        out.push_str(&format!("edition {} {}\n", editions.len(), shown(defs, &carried)));
    }
    let mut lines = defs.spine(&defs.of("Race", "phases_of", vec![script_of(defs, &h.script).expect("a script")])).into_iter();
    for c in &h.passed.courses {
        let numbers = lines.next().map_or(vec![], |p| defs.spine(&defs.of("Race", "lines_in", vec![p])));
        let of: Vec<String> =
            numbers.iter().map(|l| defs.num(&defs.field(l, "0"))).filter_map(|n| Some(h.script.lines().nth(n as usize - 1)?.to_string())).collect();
        out.push_str(&format!("phase # {}\n", of.join(" / ")));
        course_written(defs, c, &editions, &mut out);
    }
    out.push_str("last\n");
    h.passed.last.iter().for_each(|x| out.push_str(&step_written(defs, x, &editions)));
    if !h.passed.strays.is_empty() {
        out.push_str("stray\n");
        h.passed.strays.iter().for_each(|x| out.push_str(&step_written(defs, x, &editions)));
    }
    out.push_str("text\n");
    String::from_utf8_lossy(&h.text).lines().for_each(|l| out.push_str(&format!("| {l}\n")));
    out
}

fn course_written(defs: &Definitions, c: &Course, editions: &[Val], out: &mut String) {
    let num = |v: &Val, field: &str| defs.num(&defs.field(v, field));
    for g in &c.given {
        let replies: Vec<String> = defs.spine(&defs.field(g, "replies")).iter().map(|r| defs.num(r).to_string()).collect();
        out.push_str(format!("turn {} {} -> {}", num(g, "who"), shown(defs, &defs.field(g, "order")), replies.join(" ")).trim_end());
        out.push('\n');
    }
    for (who, got) in &c.clerks {
        out.push_str(&format!("clerk {who}\n"));
        for e in got {
            let (order, answer) = (shown(defs, &defs.field(e, "order")), shown(defs, &defs.field(e, "answer")));
            out.push_str(&format!("got {} {order} = {answer} from {} to {}\n", num(e, "who"), num(e, "from"), num(e, "to")));
        }
    }
    if let Some((who, at)) = c.differs {
        out.push_str(&format!("differs {who} {at}\n"));
    }
    c.entries.iter().for_each(|x| out.push_str(&step_written(defs, x, editions)));
}

fn step_written(defs: &Definitions, x: &Val, editions: &[Val]) -> String {
    let carried = defs.field(x, "carried");
    let tail = match defs.case(&carried) {
        (name, args) if name == "At" => format!(" at {}", shown(defs, &args[0])),
        (name, _) if name == "Edition" => format!(" edition {}", editions.iter().position(|e| defs.same(e, &carried)).expect("an edition") + 1),
        _ => String::new(),
    };
    format!("step {}{tail} -> {}\n", shown(defs, &defs.field(x, "event")), defs.num(&defs.field(x, "reply")))
}

// And back

/// The lines of a script, by the definitions.
pub fn script_of(defs: &Definitions, text: &str) -> R<Val> {
    let (answer, args) = defs.case(&defs.of("Scripts", "script_of", vec![defs.bytes(text.as_bytes())]));
    if answer == "Ok" { Ok(args[0].clone()) } else { Err("this is no script".into()) }
}

/// Where the next line belongs.
#[derive(PartialEq)]
enum Part {
    Script,
    Phases,
    Last,
    Strays,
    Text,
}

/// A history of its text.
pub fn parsed(defs: &Definitions, text: &str) -> R<History> {
    let mut h = History { script: String::new(), passed: Passed { courses: vec![], last: vec![], strays: vec![] }, text: vec![] };
    let mut editions: Vec<Val> = vec![];
    let mut part = Part::Script;
    for (k, line) in text.lines().enumerate() {
        line_parsed(defs, line, &mut h, &mut editions, &mut part).map_err(|why| format!("line {}: {why}", k + 1))?;
    }
    Ok(h)
}

fn line_parsed(defs: &Definitions, line: &str, h: &mut History, editions: &mut Vec<Val>, part: &mut Part) -> R<()> {
    if let Some(own) = line.strip_prefix('|') {
        let own = format!("{}\n", own.strip_prefix(' ').unwrap_or(own));
        match part {
            Part::Script => h.script.push_str(&own),
            _ => h.text.extend(own.as_bytes()),
        }
        return Ok(());
    }
    if line.starts_with("# ") {
        return Ok(());
    }
    let mut r = Reader { defs, rest: line.split(" # ").next().unwrap_or(line) };
    let word = r.word();
    match word {
        "script" => *part = Part::Script,
        "text" => *part = Part::Text,
        "last" => *part = Part::Last,
        "stray" => *part = Part::Strays,
        "edition" => {
            r.number()?;
            editions.push(r.value()?);
        }
        "phase" => {
            *part = Part::Phases;
            h.passed.courses.push(Course { given: vec![], clerks: vec![], differs: None, entries: vec![] });
        }
        "step" => {
            let step = step_parsed(defs, &mut r, editions)?;
            let list = match part {
                Part::Last => &mut h.passed.last,
                Part::Strays => &mut h.passed.strays,
                _ => &mut h.passed.courses.last_mut().ok_or("a step before any phase")?.entries,
            };
            list.push(step);
        }
        _ => of_course_parsed(defs, word, &mut r, h.passed.courses.last_mut().ok_or("this stands before any phase")?)?,
    }
    r.ends()
}

fn of_course_parsed(defs: &Definitions, word: &str, r: &mut Reader, course: &mut Course) -> R<()> {
    match word {
        "turn" => {
            let (who, order) = (r.number()?, r.value()?);
            r.wants("->")?;
            let mut replies = vec![];
            while r.ends().is_err() {
                replies.push(Val::Int(r.number()?));
            }
            course.given.push(defs.strukt("Records.Given", vec![("who", Val::Int(who)), ("order", order), ("replies", defs.list(replies))]));
        }
        "clerk" => course.clerks.push((r.number()?, vec![])),
        "got" => {
            let (who, order) = (r.number()?, r.value()?);
            r.wants("=")?;
            let answer = r.value()?;
            r.wants("from")?;
            let from = r.number()?;
            r.wants("to")?;
            let fields = vec![("who", Val::Int(who)), ("order", order), ("answer", answer), ("from", Val::Int(from)), ("to", Val::Int(r.number()?))];
            course.clerks.last_mut().ok_or("what somebody got, before any clerk")?.1.push(defs.strukt("DeskEntry", fields));
        }
        "differs" => course.differs = Some((r.number()?, r.number()?)),
        _ => return Err(format!("a line of no sort: `{word}`")),
    }
    Ok(())
}

fn step_parsed(defs: &Definitions, r: &mut Reader, editions: &[Val]) -> R<Val> {
    let event = r.value()?;
    let carried = if r.takes("at ") {
        defs.con("At", vec![r.value()?])
    } else if r.takes("edition ") {
        editions.get(r.number()? as usize - 1).ok_or("no such edition")?.clone()
    } else {
        defs.con("Nothing", vec![])
    };
    r.wants("->")?;
    Ok(defs.of("Turns", "history_entry", vec![event, carried, Val::Int(r.number()?)]))
}
