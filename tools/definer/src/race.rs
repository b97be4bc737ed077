//! A race, by its definitions: the actors of a script take atomic steps in some order, as the running machine may let them, and what comes to pass is told.
use crate::load::Definitions;
use crate::values::Val;
use std::collections::VecDeque;

/// Numbers for schedules: Marsaglia's xorshift.
struct Numbers(u64);

impl Numbers {
    fn below(&mut self, n: usize) -> usize {
        self.0 ^= self.0 << 13;
        self.0 ^= self.0 >> 7;
        self.0 ^= self.0 << 17;
        (self.0 >> 11) as usize % n.max(1)
    }
}

/// How the schedule is drawn.
#[derive(Clone, Copy)]
pub struct Schedule {
    /// No seed: the lines are done as they stand, one after another.
    pub seed: Option<u64>,
    /// In the block the lock loses one order of four, and its actor gets an answer all the same.
    pub loses: bool,
}

/// What came to pass in a phase: `Course` of the definitions.
pub struct Course {
    pub given: Vec<Val>,
    pub clerks: Vec<(i128, Vec<Val>)>,
    pub differs: Option<(i128, i128)>,
    pub entries: Vec<Val>,
}

/// What came to pass in a race: of each phase, and after the last line; and steps of the history that belong to neither, of which a true history has none.
pub struct Passed {
    pub courses: Vec<Course>,
    pub last: Vec<Val>,
    pub strays: Vec<Val>,
}

/// What an actor does next.
enum Next {
    Event(Val),
    /// Space, address, transfer.
    Access(Val, Val, Val),
    /// What the last access read is written to a space at an address.
    Write(Val, Val),
    /// The order of a line, or the `Look` after it.
    Order(Val),
}

struct Actor {
    who: i128,
    lines: VecDeque<Val>,
    line: Option<Val>,
    next: VecDeque<Next>,
    /// The steps of the access that is made, and the replies that it got.
    steps: Val,
    replies: Vec<Val>,
    /// What the line's orders got.
    got: Vec<Val>,
}

/// The turn of the writer that is made: its actor, and what is to come.
struct Turn {
    actor: usize,
    order: Val,
    call: Val,
    start: Val,
    writer: Val,
    events: VecDeque<Val>,
    replies: Vec<Val>,
    private_is_done: bool,
}

struct Race<'a> {
    defs: &'a Definitions,
    numbers: Numbers,
    schedule: Schedule,
    desk: i128,
    shared: Val,
    writer: Val,
    known: Val,
    published: Vec<Val>,
    entries: Vec<Val>,
    /// The record of this phase.
    record: Vec<Val>,
    lock: Option<Turn>,
}

/// What comes to pass where the actors of these lines act by a schedule.
pub fn run(defs: &Definitions, lines: &Val, schedule: Schedule) -> Passed {
    let mut race = Race::new(defs, lines, schedule);
    let courses = defs.spine(&defs.of("Race", "phases_of", vec![lines.clone()])).iter().map(|p| race.phase(p)).collect();
    let first = race.entries.len();
    let passes = defs.num(&defs.of("Limits", "most_passes", vec![]));
    for v in (0..passes).filter(|v| race.entered(*v).is_some()).collect::<Vec<_>>() {
        race.pass_step(v, &defs.con("Leave", vec![race.pass(v)]));
    }
    Passed { courses, last: race.entries[first..].to_vec(), strays: vec![] }
}

impl<'a> Race<'a> {
    fn new(defs: &'a Definitions, lines: &Val, schedule: Schedule) -> Race<'a> {
        let pool = defs.of("Run", "pool_words", vec![lines.clone()]);
        let passes = defs.of("Limits", "most_passes", vec![]);
        let words = Val::Int(defs.num(&pool) + defs.num(&defs.of("Limits", "notifier_count", vec![])));
        Race {
            defs,
            numbers: Numbers(schedule.seed.unwrap_or(0).wrapping_mul(0x9e37_79b9_7f4a_7c15) | 1),
            schedule,
            desk: defs.num(&defs.of("Race", "desk_number", vec![])),
            shared: defs.of("SharedHistory", "shared_opening", vec![words, passes.clone()]),
            writer: defs.of("Reaps", "first_writer", vec![pool, passes]),
            known: defs.of("Tasks", "known_at_first", vec![]),
            published: vec![defs.of("Actors", "first_generation", vec![])],
            entries: vec![],
            record: vec![],
            lock: None,
        }
    }

    /// One atomic step: it has to be possible, and gets its reply.
    fn step(&mut self, event: &Val, carried: &Val) -> Val {
        let defs = self.defs;
        let asked = vec![self.shared.clone(), event.clone(), carried.clone()];
        if !defs.yes(&defs.of("SharedHistory", "shared_possible", asked.clone())) {
            panic!("a step of the running machine is not possible: {}", defs.show(event, 4));
        }
        let reply = defs.of("SharedHistory", "shared_reply", asked);
        let entry = defs.of("Turns", "history_entry", vec![event.clone(), carried.clone(), reply.clone()]);
        self.shared = defs.of("SharedHistory", "after_shared_entry", vec![self.shared.clone(), entry.clone()]);
        defs.deep(&defs.field(&self.shared, "words"));
        if self.entries.len() % 32 == 0 {
            defs.deep(&self.shared);
        }
        let (name, args) = defs.case(carried);
        if name == "Edition" {
            self.published.push(defs.of("Generations", "generation", args));
        }
        self.entries.push(entry);
        reply
    }

    fn pass(&self, v: i128) -> Val {
        self.defs.of("Passes", "pass_id", vec![Val::Int(v)])
    }

    /// The generation that a pass is inside of, if any.
    fn entered(&self, v: i128) -> Option<&Val> {
        let defs = self.defs;
        let state = defs.of("Passes", "pass_of", vec![defs.field(&self.shared, "passes"), self.pass(v)]);
        defs.option(&defs.field(&state, "entered")).map(|n| &self.published[defs.num(&n) as usize])
    }

    /// A step of a pass, with the place of the cell's region in the pass's generation.
    fn pass_step(&mut self, v: i128, event: &Val) -> Val {
        let defs = self.defs;
        let carried = match defs.option(&defs.of("Cells", "region_of", vec![event.clone()])) {
            None => defs.con("Nothing", vec![]),
            Some(region) => {
                let places = defs.field(self.entered(v).expect("inside"), "places");
                defs.of("Desk", "at_place", vec![defs.of("PlacesByRegion", "place_in", vec![places, region])])
            }
        };
        self.step(event, &carried)
    }

    /// Begins an actor's next line. A line that its names refuse asks for nothing but the desk's `Look`.
    fn begin(&self, a: &mut Actor, before: &Val) {
        let defs = self.defs;
        let Some(line) = a.lines.pop_front() else { return };
        let known = if a.who == self.desk { &self.known } else { before };
        let (told, task) = defs.case(&defs.of("Tasks", "task_of", vec![known.clone(), defs.field(&line, "1")]));
        a.line = Some(line);
        a.got.clear();
        if told == "Ok" {
            self.plan(a, &task[0]);
        }
        if a.who == self.desk {
            a.next.push_back(Next::Order(defs.con("Look", vec![])));
        }
    }

    /// What a task has its actor do.
    fn plan(&self, a: &mut Actor, task: &Val) {
        let defs = self.defs;
        let (name, x) = defs.case(task);
        let inside = a.who != self.desk && self.entered(a.who).is_some();
        let event = |n: &str| Next::Event(defs.con(n, vec![self.pass(a.who)]));
        let enters = ["Look", "Announce", "Enter"].map(event);
        match name.as_str() {
            "ordered" => a.next.push_back(Next::Order(x[0].clone())),
            "entered" => {
                a.next.extend(inside.then(|| event("Leave")));
                a.next.extend(enters);
            }
            "left" => a.next.extend(inside.then(|| event("Leave"))),
            "accessed" | "copied" => {
                if !inside {
                    a.next.extend(enters);
                }
                if name == "accessed" {
                    a.next.push_back(Next::Access(x[0].clone(), x[1].clone(), x[2].clone()));
                } else {
                    a.next.push_back(Next::Access(x[0].clone(), x[1].clone(), defs.con("reading", vec![x[2].clone()])));
                    a.next.push_back(Next::Write(x[3].clone(), x[4].clone()));
                }
                a.next.extend((!inside).then(|| event("Leave")));
            }
            _ => {}
        }
    }

    /// One phase: its actors' lines, in some order of atomic steps.
    fn phase(&mut self, phase: &Val) -> Course {
        let defs = self.defs;
        let before = self.known.clone();
        let loses = self.schedule.loses && defs.case(phase).0 == "block";
        let mut actors: Vec<Actor> = defs.spine(&defs.of("Race", "actors_in", vec![phase.clone()])).iter().map(|who| self.actor(who, phase)).collect();
        let mut written: VecDeque<i128> = defs.spine(&defs.of("Race", "lines_in", vec![phase.clone()])).iter().map(|l| self.actor_of(l)).collect();
        let mut course = Course { given: vec![], clerks: actors.iter().map(|a| (a.who, vec![])).collect(), differs: None, entries: vec![] };
        let first = self.entries.len();
        self.record.clear();
        loop {
            let able: Vec<usize> = (0..actors.len()).filter(|k| self.is_able(&actors[*k], *k)).collect();
            if able.is_empty() {
                break;
            }
            let k = match self.schedule.seed {
                None => *able.iter().find(|k| Some(&actors[**k].who) == written.front()).expect("the line's actor can go on"),
                Some(_) => able[self.numbers.below(able.len())],
            };
            if self.lock.as_ref().is_some_and(|t| t.actor == k) {
                self.turn_on(&mut actors[k], &mut course, k);
            } else if actors[k].line.is_none() {
                self.begin(&mut actors[k], &before);
            } else {
                self.act(&mut actors[k], &mut course, k, loses);
            }
            let a = &mut actors[k];
            if self.lock.as_ref().is_none_or(|t| t.actor != k) && a.next.is_empty() && self.end(a) {
                written.pop_front();
            }
        }
        course.entries = self.entries[first..].to_vec();
        course.differs = differing(defs, &self.record, &course.clerks);
        course
    }

    fn actor(&self, who: &Val, phase: &Val) -> Actor {
        let defs = self.defs;
        let lines = defs.spine(&defs.of("Race", "lines_by", vec![who.clone(), phase.clone()])).into();
        Actor { who: defs.num(who), lines, line: None, next: VecDeque::new(), steps: Val::Nil, replies: vec![], got: vec![] }
    }

    fn actor_of(&self, line: &Val) -> i128 {
        self.defs.num(&self.defs.of("Race", "actor_number", vec![self.defs.field(line, "1")]))
    }

    /// Whether an actor can go on: one that wants the desk waits until nobody has it.
    fn is_able(&self, a: &Actor, k: usize) -> bool {
        match (&self.lock, a.next.front()) {
            (Some(t), _) if t.actor == k => true,
            (lock, Some(Next::Order(_))) => lock.is_none(),
            (_, Some(_)) => true,
            (_, None) => !a.lines.is_empty(),
        }
    }

    /// The next thing that an actor does by itself, or the beginning of a turn.
    fn act(&mut self, a: &mut Actor, course: &mut Course, k: usize, loses: bool) {
        let defs = self.defs;
        match a.next.pop_front().expect("something is to be done") {
            Next::Event(e) => {
                let reply = self.pass_step(a.who, &e);
                a.replies.push(reply);
            }
            Next::Access(space, addr, transfer) => self.access(a, space, addr, transfer),
            Next::Write(space, addr) => {
                let bytes = defs.of("AccessSteps", "bytes_read", vec![a.steps.clone(), defs.list(a.replies.clone())]);
                defs.deep(&bytes);
                self.access(a, space, addr, defs.con("writing", vec![bytes]));
            }
            Next::Order(order) if loses && self.numbers.below(4) == 0 => {
                let entry = self.lost(a.who, &order);
                course.clerks[k].1.push(entry.clone());
                a.got.push(entry);
            }
            Next::Order(order) => {
                let call = defs.of("Records", "call_of", vec![order.clone()]);
                let events = defs.spine(&defs.of("Orders", "events_before", vec![self.writer.clone(), call.clone()])).into();
                let (start, writer) = (self.writer.clone(), self.writer.clone());
                self.lock = Some(Turn { actor: k, order, call, start, writer, events, replies: vec![], private_is_done: false });
            }
        }
    }

    /// The events of an access come next.
    fn access(&mut self, a: &mut Actor, space: Val, addr: Val, transfer: Val) {
        let defs = self.defs;
        let forest = defs.field(self.entered(a.who).expect("inside"), "forest");
        a.steps = defs.of("Access", "access", vec![forest, space, addr, transfer]);
        a.replies.clear();
        for e in defs.spine(&defs.of("AccessSteps", "events_of_steps", vec![self.pass(a.who), a.steps.clone()])).into_iter().rev() {
            a.next.push_front(Next::Event(e));
        }
    }

    /// The next event of the turn that an actor makes, or the turn's end.
    fn turn_on(&mut self, a: &mut Actor, course: &mut Course, k: usize) {
        let defs = self.defs;
        let Some(mut t) = self.lock.take() else { return };
        if let Some(e) = t.events.pop_front() {
            let carried = defs.of("Desk", "carried_by", vec![defs.field(&t.writer, "desk"), e.clone()]);
            let reply = self.step(&e, &carried);
            t.writer = defs.of("Configs", "writer_after", vec![t.writer.clone(), e, carried, reply.clone()]);
            if self.entries.len() % 32 == 0 || t.events.is_empty() {
                defs.deep(&t.writer);
            }
            t.replies.push(reply);
            self.lock = Some(t);
        } else if !t.private_is_done {
            t.private_is_done = true;
            t.writer = defs.of("Turns", "after_private", vec![t.writer, defs.of("Orders", "private_of", vec![t.call.clone()])]);
            defs.deep(&t.writer);
            t.events = defs.spine(&defs.of("Orders", "events_after", vec![t.writer.clone(), t.call.clone()])).into();
            self.lock = Some(t);
        } else {
            let entry = self.turn_ends(a.who, t, course);
            course.clerks[k].1.push(entry.clone());
            a.got.push(entry);
        }
    }

    /// The turn is put into the record; what its actor gets for it.
    fn turn_ends(&mut self, who: i128, t: Turn, course: &mut Course) -> Val {
        let defs = self.defs;
        let made = defs.of("Turns", "turn", vec![t.start.clone(), t.call, defs.list(t.replies.clone())]);
        let end = defs.field(&made, "writer");
        if !defs.same(&end, &t.writer) {
            panic!("a turn leaves another writer's part than its steps");
        }
        let length = |w: &Val| defs.num(&defs.of("Records", "journal_length", vec![w.clone()]));
        let answer = defs.of("Records", "told", vec![defs.field(&made, "answer")]);
        defs.deep(&answer);
        let entry = self.entry(who, &t.order, answer, length(&t.start), length(&end));
        self.writer = t.writer;
        self.record.push(entry.clone());
        course.given.push(defs.strukt("Records.Given", vec![("who", Val::Int(who)), ("order", t.order), ("replies", defs.list(t.replies))]));
        entry
    }

    fn entry(&self, who: i128, order: &Val, answer: Val, from: i128, to: i128) -> Val {
        let fields = vec![("who", Val::Int(who)), ("order", order.clone()), ("answer", answer), ("from", Val::Int(from)), ("to", Val::Int(to))];
        self.defs.strukt("DeskEntry", fields)
    }

    /// What an actor gets for an order that the lock loses.
    fn lost(&mut self, who: i128, order: &Val) -> Val {
        let defs = self.defs;
        let none = defs.con("None", vec![]);
        let done = defs.con("Done", vec![]);
        let answer = match defs.case(order).0.as_str() {
            "Look" => defs.con("Looked", vec![Val::Int(self.published.len() as i128 - 1)]),
            "Call" => defs.con("Called", vec![done, none]),
            "Commit" => defs.con("Committed", vec![none]),
            "Reap" => defs.con("Released", vec![Val::Nil]),
            "Harvest" => defs.con("Pages", vec![Val::Nil]),
            "Notified" => defs.con("Value", vec![Val::Int(7)]),
            _ => done,
        };
        let length = defs.num(&defs.of("Records", "journal_length", vec![self.writer.clone()]));
        let from = self.numbers.below(length as usize + 1) as i128;
        let to = from + self.numbers.below(4) as i128;
        self.entry(who, order, answer, from, to)
    }

    /// A line that is done: after one of its own the desk knows more. Whether there was such a line.
    fn end(&mut self, a: &mut Actor) -> bool {
        let defs = self.defs;
        let Some(line) = a.line.take() else { return false };
        if a.who == self.desk {
            let published = defs.list(self.published.clone());
            let x = defs.of("RaceLines", "line_of_desk", vec![published, self.known.clone(), line, defs.list(a.got.clone())]);
            self.known = defs.field(&x, "known");
            defs.deep(&self.known);
        }
        true
    }
}

/// Where what the actors got is not what the record has of them: `HasDiffering` of the definitions, found.
fn differing(defs: &Definitions, record: &[Val], clerks: &[(i128, Vec<Val>)]) -> Option<(i128, i128)> {
    let by = |e: &Val| defs.num(&defs.field(e, "who"));
    for (who, got) in clerks {
        let own: Vec<&Val> = record.iter().filter(|e| by(e) == *who).collect();
        let alike = got.iter().zip(&own).take_while(|(x, y)| defs.same(x, y)).count();
        if alike < got.len().max(own.len()) {
            return Some((*who, alike as i128));
        }
    }
    record.iter().map(by).find(|who| !clerks.iter().any(|c| c.0 == *who)).map(|who| (who, 0))
}

/// A phase's course as the definitions have it.
fn course_of(defs: &Definitions, c: &Course) -> Val {
    let clerk = |(who, got): &(i128, Vec<Val>)| defs.strukt("Records.Clerk", vec![("who", Val::Int(*who)), ("got", defs.list(got.clone()))]);
    let differs = match c.differs {
        None => defs.con("None", vec![]),
        Some((who, at)) => defs.con("Some", vec![defs.strukt("Differs", vec![("who", Val::Int(who)), ("at", Val::Int(at))])]),
    };
    let fields = vec![
        ("given", defs.list(c.given.clone())),
        ("clerks", defs.list(c.clerks.iter().map(clerk).collect())),
        ("differs", differs),
        ("entries", defs.list(c.entries.clone())),
    ];
    defs.strukt("Race.Course", fields)
}

/// What came to pass, held against the definition of a race.
pub struct Held<'a> {
    defs: &'a Definitions,
    lines: Val,
    pub pool: Val,
    pub courses: Val,
    last: Val,
    pub entries: Val,
    published: Val,
    first: Val,
    phases: Val,
}

const PARTS: [&str; 6] = ["legal", "cut", "leaves", "rests", "phases", "writes"];
const PARTS_OF_PHASE: [&str; 6] = ["writer", "desk", "each", "clerks", "closes", "lock"];
const PARTS_OF_PASS: [&str; 3] = ["entries", "asks", "after"];

impl<'a> Held<'a> {
    pub fn new(defs: &'a Definitions, lines: &Val, passed: &Passed) -> Held<'a> {
        let courses = defs.list(passed.courses.iter().map(|c| course_of(defs, c)).collect());
        let phased = passed.courses.iter().flat_map(|c| &c.entries);
        let entries = defs.list(phased.chain(&passed.last).chain(&passed.strays).cloned().collect());
        let pool = defs.of("Run", "pool_words", vec![lines.clone()]);
        let first = defs.of("Race", "first_stand", vec![pool.clone()]);
        let published = defs.of("Actors", "generations_published", vec![entries.clone()]);
        let phases = defs.of("Race", "phases_of", vec![lines.clone()]);
        Held { defs, lines: lines.clone(), pool, courses, last: defs.list(passed.last.clone()), entries, published, first, phases }
    }

    /// The text of it, by the definitions.
    pub fn text(&self) -> Vec<u8> {
        let asked = vec![self.published.clone(), self.first.clone(), self.phases.clone(), self.courses.clone()];
        self.defs.text(&self.defs.of("Race", "text_along", asked))
    }

    /// Whether it is a race of the script that writes this text.
    pub fn is_race(&self, text: &[u8]) -> bool {
        self.defs.yes(&self.defs.of("Race", "IsRace", self.asked(text)))
    }

    fn asked(&self, text: &[u8]) -> Vec<Val> {
        vec![self.lines.clone(), self.courses.clone(), self.last.clone(), self.entries.clone(), self.defs.bytes(text)]
    }

    /// The first part of the definition that does not hold, if any.
    pub fn refused(&self, text: &[u8]) -> Option<String> {
        let part = PARTS.into_iter().find(|f| !self.defs.yes(&self.defs.of("Race", &format!("IsRace.{f}"), self.asked(text))))?;
        Some(if part == "phases" { self.refused_phase() } else { format!("IsRace.{part}") })
    }

    /// The same, of the phases.
    fn refused_phase(&self) -> String {
        let defs = self.defs;
        let mut stand = self.first.clone();
        for (k, (phase, course)) in defs.spine(&self.phases).iter().zip(defs.spine(&self.courses)).enumerate() {
            let asked = vec![self.published.clone(), stand.clone(), phase.clone(), course];
            if let Some(part) = PARTS_OF_PHASE.into_iter().find(|f| !defs.yes(&defs.of("Race", &format!("IsPhase.{f}"), asked.clone()))) {
                let inner = if part == "each" { self.refused_pass(&asked) } else { None };
                return format!("{} in phase {}", inner.unwrap_or(format!("IsPhase.{part}")), k + 1);
            }
            stand = defs.of("Race", "stand_after", asked);
        }
        "IsRace.phases".into()
    }

    /// The same, of the passes in a phase.
    fn refused_pass(&self, asked: &[Val]) -> Option<String> {
        let defs = self.defs;
        defs.spine(&defs.of("Race", "passes", vec![])).into_iter().find_map(|pass| {
            let all = || asked.iter().cloned().chain([pass.clone()]).collect();
            let part = PARTS_OF_PASS.into_iter().find(|f| !defs.yes(&defs.of("Race", &format!("IsPassPart.{f}"), all())))?;
            Some(format!("IsPassPart.{part} of v{}", defs.num(&defs.field(&pass, "0"))))
        })
    }
}
