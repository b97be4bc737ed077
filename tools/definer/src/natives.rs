//! Definitions that speak of all 2^64 addresses, of all words of a pool or of each word of a large region. Evaluated as they stand they
//! would not end in time, so they are run here in another way, which asks the definitions themselves wherever it can.
use crate::load::Definitions;
use crate::values::*;
use std::collections::BTreeSet;
use std::rc::Rc;

fn some(defs: &Definitions, v: Val) -> Val {
    Val::Con(defs.some, Rc::new(vec![v]))
}

/// These definitions: module, name, arity.
pub type InPlace = (&'static str, &'static str, usize, Native);

pub const IN_PLACE: &[InPlace] = &[
    ("Flattened", "view_of", 2, view_of),
    ("LiveEvents", "lives_of", 2, |defs, a| {
        let v = defs.of("Flattened", "view_of", a.to_vec());
        defs.of("LiveEvents", "lives_in", vec![a[0].clone(), v])
    }),
    ("Places", "holes", 2, holes),
    ("Actors", "own_entries", 2, |defs, a| {
        let own = |x: &Val| defs.num(&defs.of("Actors", "actor_of", vec![defs.field(x, "event")])) == defs.num(&a[0]);
        defs.list(defs.spine(&a[1]).into_iter().filter(own).collect())
    }),
    // the first cell that is not cleared yet is cleared in one step
    ("Configs", "desk_after", 2, |defs, a| {
        let (name, args) = defs.case(&a[1]);
        if name == "Fill" {
            let desk = defs.field(&a[0], "desk");
            let unfilled = defs.field(&desk, "unfilled");
            if let Some((head, rest)) = defs.uncons(&unfilled) {
                if defs.same(&head, &args[0]) {
                    return defs.with(&desk, "unfilled", rest);
                }
            }
        }
        defs.of("Configs", "desk_after@definition", a.to_vec())
    }),
    ("Composites", "completed", 2, completed),
];

/// A region of more words is not cleared by an event a word.
const MOST_FILLS: i128 = 64;

/// The words of the region that an order makes; 0 for any other order.
fn words_made(defs: &Definitions, order: &Val) -> i128 {
    let inner = |v: &Val, name: &str| {
        let (n, args) = defs.case(v);
        (n == name).then_some(args)
    };
    let fields = inner(order, "configure").and_then(|a| inner(&a[0], "Call")).and_then(|a| inner(&a[0], "Region"));
    let Some(fields) = fields else { return 0 };
    let extent = defs.of("Places", "extent_of", vec![fields[0].clone(), fields[1].clone()]);
    defs.num(&defs.of("Places", "words_of", vec![extent]))
}

/// The definition; but a region of many words is not cleared by an event a word: the cells of a new place are 0 already,
/// and each such event takes one of them off the list.
fn completed(defs: &Definitions, a: &[Val]) -> Val {
    let (world, order) = (&a[0], &a[1]);
    if words_made(defs, order) <= MOST_FILLS {
        return defs.of("Composites", "completed@definition", a.to_vec());
    }
    assert!(defs.spine(&defs.field(world, "writer.desk.unfilled")).is_empty());
    let private = defs.of("Orders", "private_of", vec![order.clone()]);
    let ran = defs.of("History", "run_events", vec![world.clone(), private]);
    let mid = defs.field(&ran, "world");
    let answer = defs.of("Answers", "answer_to", vec![defs.field(world, "writer"), defs.field(&mid, "writer"), order.clone(), Val::Nil]);
    let world = defs.with(&mid, "writer.desk.unfilled", Val::Nil);
    defs.strukt("Composites.Completed", vec![("world", world), ("entries", defs.field(&ran, "entries")), ("answer", answer)])
}

/// Of a region, what its ends depend on.
struct N {
    id: i128,
    alias: Option<(i128, i128)>,
    size: i128,
    parent: Option<i128>,
    offset: i128,
}

/// Every address at which what a space shows may change, by the sizes and offsets on all paths; more may be given.
fn ends(ns: &[N], r: i128, base: i128, lo: i128, hi: i128, depth: u32, out: &mut BTreeSet<i128>) {
    if depth == 0 {
        return;
    }
    let Some(n) = ns.iter().find(|n| n.id == r) else { return };
    let (lo, hi) = (lo.max(base), hi.min(base + n.size));
    if lo >= hi {
        return;
    }
    out.insert(lo);
    out.insert(hi);
    match n.alias {
        Some((t, o)) => ends(ns, t, base - o, lo, hi, depth - 1, out),
        None => {
            for c in ns.iter().filter(|c| c.parent == Some(r)) {
                ends(ns, c.id, base + c.offset, lo, hi, depth - 1, out);
            }
        }
    }
}

const TOP: i128 = 1 << 64;

fn breakpoints(defs: &Definitions, f: &Val, s: &Val) -> BTreeSet<i128> {
    let mut out = BTreeSet::new();
    let id = defs.num(&defs.field(s, "0"));
    let root = defs.spine(&defs.field(f, "spaces")).iter().find(|p| defs.num(&defs.field(p, "0.0")) == id).map(|p| defs.num(&defs.field(p, "1.0")));
    let Some(root) = root else { return out };
    let ns: Vec<N> = defs
        .spine(&defs.field(f, "nodes"))
        .iter()
        .map(|n| {
            let (k, args) = defs.case(&defs.field(n, "kind"));
            N {
                id: defs.num(&defs.field(n, "id.0")),
                alias: if k == "Alias" { Some((defs.num(&defs.field(&args[0], "0")), defs.num(&args[1]))) } else { None },
                size: defs.num(&defs.field(n, "size")),
                parent: defs.option(&defs.field(n, "parent")).map(|p| defs.num(&defs.field(&p, "0"))),
                offset: defs.num(&defs.field(n, "offset")),
            }
        })
        .collect();
    ends(&ns, root, 0, 0, TOP, 64, &mut out);
    out
}

/// `ranges_from (look f s) 0 (2 ^ 64)`: between two neighbouring breakpoints the search answers with one leaf and rising
/// offsets, so `look` (the definition) is asked at the first and at the last address of each such part; `put_before`
/// (the definition) puts the parts together, from the last one down.
fn view_of(defs: &Definitions, a: &[Val]) -> Val {
    let (f, s) = (defs.force(&a[0]), defs.force(&a[1]));
    let look = |x: i128| defs.of("Search", "look", vec![f.clone(), s.clone(), Val::Int(x)]);
    let b: Vec<i128> = breakpoints(defs, &f, &s).into_iter().collect();
    let path = defs.of("Search", "path_at", vec![f.clone(), s.clone()]);
    let mut out = Val::Nil;
    for w in b.windows(2).rev() {
        let (from, to) = (w[0], w[1] - 1);
        let found = look(from);
        let Some(spot) = defs.option(&found) else {
            assert!(defs.option(&look(to)).is_none(), "breakpoints are wanting in {from:x}-{to:x}");
            continue;
        };
        let end = defs.option(&look(to)).unwrap_or_else(|| panic!("breakpoints are wanting in {from:x}-{to:x}"));
        let up = Val::Int(defs.num(&defs.field(&spot, "offset")) + (to - from));
        assert!(defs.same(&defs.with(&spot, "offset", up), &end), "breakpoints are wanting in {from:x}-{to:x}");
        // the last address alone, and then the part in front of it as one more range that goes on
        out = defs.of("Flattened", "put_before", vec![path.clone(), Val::Int(to), some(defs, end), out]);
        if from < to {
            let (head, rest) = defs.uncons(&out).unwrap();
            let head = defs.with(&head, "start", Val::Int(from));
            let off = defs.field(&spot, "offset");
            out = Val::Cons(Rc::new((defs.with(&head, "offset", off), rest)));
        }
    }
    out
}

/// The longest runs of words in no place, by the ends of the places.
fn holes(defs: &Definitions, a: &[Val]) -> Val {
    let pool = defs.num(&a[0]);
    let mut ps: Vec<(i128, i128)> = defs.spine(&a[1]).iter().map(|p| (defs.num(&defs.field(p, "start")), defs.num(&defs.field(p, "words")))).collect();
    ps.sort();
    let mut out = vec![];
    let mut at = 0;
    let run = |s: i128, e: i128| defs.of("Runs", "run", vec![Val::Int(s), Val::Int(e - s)]);
    for (s, w) in ps {
        if at < s.min(pool) {
            out.push(run(at, s.min(pool)));
        }
        at = at.max(s + w);
    }
    if at < pool {
        out.push(run(at, pool));
    }
    defs.list(out)
}
