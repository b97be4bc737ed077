//! Laws that are proved of every history, evaluated on one: so the definitions that only they cite are executed too.
use crate::load::Definitions;
use crate::race::Held;
use crate::values::Val;

/// What of `IsJoined` is evaluated; the rest of it speaks of all turns.
const PARTS_OF_JOINED: [&str; 5] = ["shared", "private", "legal", "ends", "forests"];

/// The first law that does not hold of a history, if any.
pub fn broken(defs: &Definitions, held: &Held) -> Option<String> {
    let passes = defs.of("Limits", "most_passes", vec![]);
    let first = defs.of("Reaps", "first_writer", vec![held.pool.clone(), passes.clone()]);
    let given = defs.spine(&held.courses).iter().flat_map(|c| defs.spine(&defs.field(c, "given"))).collect::<Vec<_>>();
    let answered = given.into_iter().map(|g| defs.of("Records", "answered", vec![g])).collect();
    let turns = defs.of("Turns", "turns", vec![first.clone(), defs.list(answered)]);
    let asked = vec![held.pool.clone(), passes.clone(), turns.clone(), held.entries.clone()];
    if let Some(part) = PARTS_OF_JOINED.into_iter().find(|p| !defs.yes(&defs.of("JoinedHistory", &format!("IsJoined.{p}"), asked.clone()))) {
        return Some(format!("IsJoined.{part}"));
    }
    let joined = defs.of("JoinedHistory", "joined_history", vec![turns.clone(), held.entries.clone()]);
    let opening = defs.of("World", "opening", vec![held.pool.clone(), passes.clone()]);
    let writer = defs.of("Turns", "last_writer", vec![first, turns.clone()]);
    let places = of_places(defs, &defs.spine(&turns), &defs.spine(&joined));
    let end = defs.of("History", "after_entries", vec![opening.clone(), joined.clone()]);
    places
        .or_else(|| of_words(defs, held, passes, writer, &end))
        .or_else(|| of_cells(defs, &opening, &joined, &end))
        .or_else(|| of_marks(defs, opening, defs.spine(&joined)))
}

/// The private entry of each turn stands beside the turn's own shared entries (`IsPlaced`).
fn of_places(defs: &Definitions, turns: &[Val], joined: &[Val]) -> Option<String> {
    let is_private = |x: &Val| defs.yes(&defs.of("JoinedHistory", "is_private", vec![defs.field(x, "event")]));
    let mut private = (0..joined.len()).filter(|k| is_private(&joined[*k]));
    for (k, t) in turns.iter().enumerate() {
        for _ in defs.spine(&defs.field(t, "private")) {
            let at = private.next().expect("as many private entries as the turns have");
            let (before, after) = (defs.list(joined[..at].to_vec()), defs.list(joined[at + 1..].to_vec()));
            if !defs.yes(&defs.of("JoinedHistory", "StandsBeside", vec![defs.field(t, "before"), defs.field(t, "after"), before, after])) {
                return Some(format!("where the private event of turn {} stands", k + 1));
            }
        }
    }
    None
}

/// At the end, the words of the running machine, read as the cells of the desk's places, are those of the pure machine.
fn of_words(defs: &Definitions, held: &Held, passes: Val, writer: Val, end: &Val) -> Option<String> {
    let words = Val::Int(defs.num(&held.pool) + defs.num(&defs.of("Limits", "notifier_count", vec![])));
    let opening = defs.of("SharedHistory", "shared_opening", vec![words, passes]);
    let shared = defs.of("SharedHistory", "after_shared_entries", vec![opening, held.entries.clone()]);
    let shown = defs.of("ShownWorlds", "world_shown", vec![writer, shared]);
    if defs.same(&shown, end) { None } else { Some("the world that the running machine shows".into()) }
}

/// A cell holds what the steps on it left of 0. Of a place of many words some at its start and some at its end are asked for: among these are its marks.
fn of_cells(defs: &Definitions, opening: &Val, joined: &Val, end: &Val) -> Option<String> {
    for place in defs.spine(&defs.field(end, "writer.desk.places")) {
        let (region, words) = (defs.field(&place, "region"), defs.num(&defs.field(&place, "words")));
        for i in (0..words).filter(|i| *i < 4 || words - i <= 4) {
            let holds = defs.of("CellHistories", "cell_value", vec![end.clone(), region.clone(), Val::Int(i)]);
            let left = defs.of("CellHistories", "left_on", vec![region.clone(), Val::Int(i), Val::Int(0), opening.clone(), joined.clone()]);
            if !defs.same(&holds, &left) {
                return Some(format!("what is left on cell {i} of region {}", defs.num(&defs.field(&region, "0"))));
            }
        }
    }
    None
}

/// A mark that a virtual CPU makes is told by the first harvest of its word, or stands until then.
fn of_marks(defs: &Definitions, opening: Val, joined: Vec<Val>) -> Option<String> {
    let mut world = opening;
    for (k, x) in joined.iter().enumerate() {
        world = defs.of("History", "after_entry", vec![world, x.clone()]);
        let (name, args) = defs.case(&defs.field(x, "event"));
        if name == "Mark" {
            let [_, region, client, page] = &args[..] else { panic!("a mark is of a pass, a region, a client and a page") };
            let place = defs.option(&defs.of("World", "place_in_world", vec![world.clone(), region.clone()])).expect("a place");
            let asked = vec![place, client.clone(), page.clone(), world.clone(), defs.list(joined[k + 1..].to_vec())];
            if !defs.yes(&defs.of("CellHistories", "IsMarkKept", asked)) {
                return Some(format!("what becomes of the mark of page {}", defs.num(page)));
            }
        }
    }
    None
}
