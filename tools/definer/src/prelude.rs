//! The functions of Rattle's own prelude that the definitions use, by their meaning. A function that is missing here takes a row.
use crate::load::Definitions;
use crate::values::*;
use std::cell::RefCell;
use std::rc::Rc;

fn some(defs: &Definitions, v: Val) -> Val {
    Val::Con(defs.some, Rc::new(vec![v]))
}
fn none(defs: &Definitions) -> Val {
    Val::Con(defs.none, Rc::new(vec![]))
}
fn opt(defs: &Definitions, v: &Val) -> Option<Val> {
    match defs.force(v) {
        Val::Con(s, a) if s == defs.some => Some(a[0].clone()),
        Val::Con(s, _) if s == defs.none => None,
        v => panic!("wanted an Option, found {}", defs.show(&v, 2)),
    }
}
fn test(defs: &Definitions, f: &Val, x: Val) -> bool {
    defs.yes(&defs.apply(f.clone(), vec![x]))
}
fn ordering(defs: &Definitions, o: std::cmp::Ordering) -> Val {
    defs.con(
        match o {
            std::cmp::Ordering::Less => "Less",
            std::cmp::Ordering::Equal => "Equal",
            std::cmp::Ordering::Greater => "Greater",
        },
        vec![],
    )
}
fn is_ordering(defs: &Definitions, v: &Val, n: &str) -> bool {
    match defs.force(v) {
        Val::Con(s, _) => s == defs.sym(n),
        v => panic!("wanted an Ordering, found {}", defs.show(&v, 2)),
    }
}
/// Goes over a list; stops where `f` says so.
fn each(defs: &Definitions, xs: &Val, mut f: impl FnMut(Val) -> bool) {
    let mut v = defs.force(xs);
    while let Some((x, rest)) = defs.uncons(&v) {
        if f(x) {
            return;
        }
        v = defs.force(&rest);
    }
}

pub type Row = (&'static str, usize, Native);

pub const NATIVES: &[Row] = &[
    ("suc", 1, |defs, a| Val::Int(defs.num(&a[0]) + 1)),
    ("pred", 1, |defs, a| Val::Int((defs.num(&a[0]) - 1).max(0))),
    ("◌+◌", 2, |defs, a| Val::Int(defs.num(&a[0]) + defs.num(&a[1]))),
    ("◌-◌", 2, |defs, a| Val::Int((defs.num(&a[0]) - defs.num(&a[1])).max(0))),
    ("◌*◌", 2, |defs, a| Val::Int(defs.num(&a[0]) * defs.num(&a[1]))),
    ("◌==◌", 2, |defs, a| Val::Bool(defs.num(&a[0]) == defs.num(&a[1]))),
    ("◌&&◌", 2, |defs, a| Val::Bool(defs.yes(&a[0]) && defs.yes(&a[1]))),
    ("◌||◌", 2, |defs, a| Val::Bool(defs.yes(&a[0]) || defs.yes(&a[1]))),
    ("◌++◌", 2, |defs, a| defs.append(a[0].clone(), a[1].clone())),
    ("◌∷◌", 2, |_, a| Val::Cons(Rc::new((a[0].clone(), a[1].clone())))),
    ("min", 2, |defs, a| Val::Int(defs.num(&a[0]).min(defs.num(&a[1])))),
    ("max", 2, |defs, a| Val::Int(defs.num(&a[0]).max(defs.num(&a[1])))),
    ("nat_lt", 2, |defs, a| Val::Bool(defs.num(&a[0]) < defs.num(&a[1]))),
    ("nat_le", 2, |defs, a| Val::Bool(defs.num(&a[0]) <= defs.num(&a[1]))),
    ("int_lt", 2, |defs, a| Val::Bool(defs.num(&a[0]) < defs.num(&a[1]))),
    ("int_le", 2, |defs, a| Val::Bool(defs.num(&a[0]) <= defs.num(&a[1]))),
    ("pos", 1, |defs, a| Val::Int(defs.num(&a[0]))),
    ("neg_ℤ", 1, |defs, a| Val::Int(-defs.num(&a[0]))),
    ("nat_abs", 1, |defs, a| Val::Int(defs.num(&a[0]).abs())),
    ("cond", 3, |defs, a| defs.force(if defs.yes(&a[0]) { &a[1] } else { &a[2] })),
    ("not", 1, |defs, a| Val::Bool(!defs.yes(&a[0]))),
    ("bit_and", 2, |defs, a| Val::Int(defs.num(&a[0]) & defs.num(&a[1]))),
    ("bit_or", 2, |defs, a| Val::Int(defs.num(&a[0]) | defs.num(&a[1]))),
    ("bit_xor", 2, |defs, a| Val::Int(defs.num(&a[0]) ^ defs.num(&a[1]))),
    ("count_ones", 1, |defs, a| Val::Int(defs.num(&a[0]).count_ones() as i128)),
    ("length", 1, |defs, a| {
        let mut n = 0;
        let mut v = defs.force(&a[0]);
        loop {
            match &v {
                Val::Sparse(s, i) => return Val::Int(n + (s.len - i) as i128),
                Val::Nil => return Val::Int(n),
                Val::Cons(r) => {
                    n += 1;
                    let x = defs.force(&r.1);
                    v = x;
                }
                _ => panic!("length of no list"),
            }
        }
    }),
    ("map", 2, |defs, a| {
        let out = defs.spine(&a[1]).into_iter().map(|x| Val::Thunk(Rc::new(Thunk { state: RefCell::new(State::Apply(a[0].clone(), vec![x])) }))).collect();
        defs.list(out)
    }),
    ("reverse", 1, |defs, a| {
        let mut s = defs.spine(&a[0]);
        s.reverse();
        defs.list(s)
    }),
    ("take", 2, |defs, a| {
        let n = defs.num(&a[0]);
        let mut out = vec![];
        if n > 0 {
            each(defs, &a[1], |x| {
                out.push(x);
                out.len() as i128 == n
            });
        }
        defs.list(out)
    }),
    ("drop", 2, |defs, a| {
        let mut n = defs.num(&a[0]);
        let mut v = defs.force(&a[1]);
        if let Val::Sparse(s, i) = &v {
            return Val::Sparse(s.clone(), s.len.min(i + n as usize));
        }
        while n > 0 {
            match defs.uncons(&v) {
                Some((_, r)) => v = defs.force(&r),
                None => break,
            }
            n -= 1;
        }
        v
    }),
    ("replicate", 2, |defs, a| {
        let n = defs.num(&a[0]) as usize;
        if n > 32 { defs.sparse(n, defs.force(&a[1])) } else { defs.list(vec![a[1].clone(); n]) }
    }),
    ("filter", 2, |defs, a| {
        let mut out = vec![];
        each(defs, &a[1], |x| {
            if test(defs, &a[0], x.clone()) {
                out.push(x);
            }
            false
        });
        defs.list(out)
    }),
    ("flat_map", 2, |defs, a| {
        let mut out = vec![];
        each(defs, &a[1], |x| {
            out.extend(defs.spine(&defs.apply(a[0].clone(), vec![x])));
            false
        });
        defs.list(out)
    }),
    ("filter_map", 2, |defs, a| {
        let mut out = vec![];
        each(defs, &a[1], |x| {
            out.extend(opt(defs, &defs.apply(a[0].clone(), vec![x])));
            false
        });
        defs.list(out)
    }),
    ("find", 2, |defs, a| {
        let mut out = none(defs);
        each(defs, &a[1], |x| {
            let t = test(defs, &a[0], x.clone());
            if t {
                out = some(defs, x);
            }
            t
        });
        out
    }),
    ("position", 2, |defs, a| {
        let mut i = 0;
        let mut out = none(defs);
        each(defs, &a[1], |x| {
            let t = test(defs, &a[0], x);
            if t {
                out = some(defs, Val::Int(i));
            }
            i += 1;
            t
        });
        out
    }),
    ("fold", 3, |defs, a| {
        let mut v = a[1].clone();
        each(defs, &a[2], |x| {
            v = defs.apply(a[0].clone(), vec![v.clone(), x]);
            false
        });
        defs.force(&v)
    }),
    ("list_any", 2, |defs, a| {
        let mut out = false;
        each(defs, &a[1], |x| {
            out = test(defs, &a[0], x);
            out
        });
        Val::Bool(out)
    }),
    ("list_all", 2, |defs, a| {
        let mut out = true;
        each(defs, &a[1], |x| {
            out = test(defs, &a[0], x);
            !out
        });
        Val::Bool(out)
    }),
    ("range_with_len", 2, |defs, a| {
        let s = defs.num(&a[0]);
        defs.list((0..defs.num(&a[1])).map(|i| Val::Int(s + i)).collect())
    }),
    ("slice_get", 2, |defs, a| {
        let mut n = defs.num(&a[1]);
        let mut out = none(defs);
        each(defs, &a[0], |x| {
            if n == 0 {
                out = some(defs, x);
                return true;
            }
            n -= 1;
            false
        });
        out
    }),
    ("slice_index", 2, |defs, a| get_or(defs, &a[0], defs.num(&a[1]), Val::Int(0))),
    ("slice_index_or", 3, |defs, a| get_or(defs, &a[0], defs.num(&a[1]), a[2].clone())),
    ("slice_set", 3, |defs, a| {
        let n = defs.num(&a[1]) as usize;
        if let Val::Sparse(s, 0) = defs.force(&a[0]) {
            let mut other = s.other.clone();
            let x = defs.force(&a[2]);
            match (&x, &s.base) {
                (Val::Int(x), Val::Int(b)) if x == b => {
                    other.remove(&n);
                }
                _ if n < s.len => {
                    other.insert(n, x);
                }
                _ => {}
            }
            return Val::Sparse(Rc::new(Sparse { len: s.len, base: s.base.clone(), other }), 0);
        }
        let mut s = defs.spine(&a[0]);
        if n < s.len() {
            s[n] = a[2].clone();
        }
        defs.list(s)
    }),
    ("slice_split", 2, |defs, a| {
        let mut out = vec![];
        let mut part = vec![];
        each(defs, &a[1], |x| {
            if test(defs, &a[0], x.clone()) {
                out.push(defs.list(std::mem::take(&mut part)));
            } else {
                part.push(x);
            }
            false
        });
        out.push(defs.list(part));
        defs.list(out)
    }),
    ("before_first", 2, |defs, a| {
        let mut out = vec![];
        each(defs, &a[1], |x| {
            let stop = test(defs, &a[0], x.clone());
            if !stop {
                out.push(x);
            }
            stop
        });
        defs.list(out)
    }),
    ("is_some", 1, |defs, a| Val::Bool(opt(defs, &a[0]).is_some())),
    ("is_none", 1, |defs, a| Val::Bool(opt(defs, &a[0]).is_none())),
    ("unwrap_or", 2, |defs, a| defs.force(&opt(defs, &a[0]).unwrap_or_else(|| a[1].clone()))),
    ("option_map", 2, |defs, a| match opt(defs, &a[1]) {
        Some(x) => some(defs, Val::Thunk(Rc::new(Thunk { state: RefCell::new(State::Apply(a[0].clone(), vec![x])) }))),
        None => none(defs),
    }),
    ("option_and_then", 2, |defs, a| match opt(defs, &a[1]) {
        Some(x) => defs.apply(a[0].clone(), vec![x]),
        None => none(defs),
    }),
    ("option_or", 2, |defs, a| match opt(defs, &a[0]) {
        Some(x) => some(defs, x),
        None => defs.force(&a[1]),
    }),
    ("is_ok", 1, |defs, a| match defs.force(&a[0]) {
        Val::Con(s, _) => Val::Bool(s == defs.ok),
        _ => panic!("wanted a Result"),
    }),
    ("is_lt", 1, |defs, a| Val::Bool(is_ordering(defs, &a[0], "Less"))),
    ("is_eq", 1, |defs, a| Val::Bool(is_ordering(defs, &a[0], "Equal"))),
    ("is_gt", 1, |defs, a| Val::Bool(is_ordering(defs, &a[0], "Greater"))),
    ("nat_cmp", 2, |defs, a| ordering(defs, defs.num(&a[0]).cmp(&defs.num(&a[1])))),
    ("int_cmp", 2, |defs, a| ordering(defs, defs.num(&a[0]).cmp(&defs.num(&a[1])))),
    ("bool_cmp", 2, |defs, a| ordering(defs, defs.yes(&a[0]).cmp(&defs.yes(&a[1])))),
    ("ordering_then", 2, |defs, a| if is_ordering(defs, &a[0], "Equal") { defs.force(&a[1]) } else { defs.force(&a[0]) }),
    ("codes", 1, |defs, a| defs.force(&a[0])),
    ("decimal", 1, |defs, a| defs.bytes(defs.num(&a[0]).to_string().as_bytes())),
    ("signed_decimal", 1, |defs, a| defs.bytes(defs.num(&a[0]).to_string().as_bytes())),
    ("digit_glyph", 2, |defs, a| {
        let n = char::from_digit(defs.num(&a[1]) as u32, 36).expect("a digit");
        Val::Int(if defs.yes(&a[0]) { n.to_ascii_uppercase() } else { n } as i128)
    }),
    ("digits", 3, |defs, a| {
        let n = defs.num(&a[2]);
        let s = match (defs.num(&a[0]), defs.yes(&a[1])) {
            (16, false) => format!("{n:x}"),
            (16, true) => format!("{n:X}"),
            (10, _) => n.to_string(),
            (8, _) => format!("{n:o}"),
            (2, _) => format!("{n:b}"),
            (b, _) => panic!("digits in base {b}"),
        };
        defs.bytes(s.as_bytes())
    }),
    ("bytes_eq", 2, |defs, a| Val::Bool(defs.same(&a[0], &a[1]))),
];

fn get_or(defs: &Definitions, xs: &Val, mut n: i128, d: Val) -> Val {
    let mut v = defs.force(xs);
    loop {
        match &v {
            Val::Nil => return defs.force(&d),
            Val::Sparse(s, i) => {
                let k = *i as i128 + n;
                if k < s.len as i128 {
                    return s.other.get(&(k as usize)).unwrap_or(&s.base).clone();
                }
                return defs.force(&d);
            }
            Val::Cons(r) => {
                if n == 0 {
                    return defs.force(&r.0);
                }
                n -= 1;
                let x = defs.force(&r.1);
                v = x;
            }
            _ => panic!("an index into no list"),
        }
    }
}
