//! Equations as code: names are resolved, and arguments delayed where they may not be wanted.
use crate::load::*;
use crate::syntax::{E, P};
use crate::values::*;
use std::rc::Rc;

/// The names that are bound where an expression stands, each with its slot.
pub struct Scope {
    names: Vec<(String, usize)>,
    slots: usize,
}

impl Scope {
    fn get(&self, n: &str) -> Option<usize> {
        self.names.iter().rev().find(|x| x.0 == n).map(|x| x.1)
    }
    fn bind(&mut self, n: &str) -> usize {
        let s = self.slots;
        self.slots += 1;
        self.names.push((n.to_string(), s));
        s
    }
}

impl Definitions {
    /// An equation, by what its module sees.
    pub fn clause(&self, pats: &R<Vec<P>>, body: &R<E>, scope: &Declared) -> R<Clause> {
        let pats = pats.as_ref().map_err(|e| e.clone())?;
        let mut sc = Scope { names: vec![], slots: 0 };
        let mut ps = vec![];
        for p in pats {
            ps.push(self.pat(p, &mut sc, scope)?);
        }
        let body = match body {
            Ok(b) => self.ex(b, &mut sc, scope),
            Err(e) => Err(e.clone()),
        };
        Ok(Clause { pats: ps, slots: sc.slots, body })
    }

    fn con_of(&self, n: &str, scope: &Declared) -> Option<(Sym, usize)> {
        if let Some((a, b)) = n.split_once('.') {
            return match scope.get(a)? {
                Ref::Variants(t) => self.variant(t, b),
                _ => None,
            };
        }
        match scope.get(n) {
            Some(Ref::Con(s, k)) => Some((*s, *k)),
            _ => None,
        }
    }

    fn pat(&self, p: &P, sc: &mut Scope, scope: &Declared) -> R<Pat> {
        Ok(match p {
            P::Wild => Pat::Wild,
            P::Num(n) => Pat::Num(*n),
            P::Name(n) if n == "[]" => Pat::Nil,
            P::Name(n) if n == "true" => Pat::Bool(true),
            P::Name(n) if n == "false" => Pat::Bool(false),
            P::Name(n) if n == "zero" => Pat::Num(0),
            P::Name(n) => match self.con_of(n, scope) {
                Some((s, 0)) => Pat::Con(s, vec![]),
                Some((_, k)) => return Err(format!("pattern {n}: {k} arguments are missing")),
                None if n.contains('.') => return Err(format!("pattern {n}: no such variant")),
                None => Pat::Var(sc.bind(n)),
            },
            P::Con(n, ps) if n == "pos" && matches!(ps.as_slice(), [P::Name(z)] if z == "zero") => Pat::Num(0),
            P::Con(n, ps) if n == "suc" && ps.len() == 1 => Pat::Suc(Box::new(self.pat(&ps[0], sc, scope)?)),
            P::Con(n, ps) => {
                let (s, k) = self.con_of(n, scope).ok_or_else(|| format!("pattern {n}: no constructor"))?;
                if k != ps.len() {
                    return Err(format!("pattern {n}: {} arguments, not {k}", ps.len()));
                }
                let mut out = vec![];
                for p in ps {
                    out.push(self.pat(p, sc, scope)?);
                }
                Pat::Con(s, out)
            }
            P::Cons(a, b) => Pat::Cons(Box::new(self.pat(a, sc, scope)?), Box::new(self.pat(b, sc, scope)?)),
            P::Pair(a, b) => Pat::Pair(Box::new(self.pat(a, sc, scope)?), Box::new(self.pat(b, sc, scope)?)),
        })
    }

    fn free(&self, e: &E, sc: &Scope, out: &mut Vec<usize>) {
        let add = |s: usize, out: &mut Vec<usize>| {
            if !out.contains(&s) {
                out.push(s);
            }
        };
        match e {
            E::Var(n) => {
                if let Some(s) = sc.get(n) {
                    add(s, out);
                }
            }
            E::Num(_) | E::Str(_) => {}
            E::Proj(e, _) => self.free(e, sc, out),
            E::App(f, a) => {
                self.free(f, sc, out);
                a.iter().for_each(|x| self.free(x, sc, out));
            }
            E::Lam(_, b) => self.free(b, sc, out),
            E::Let(_, v, b) => {
                self.free(v, sc, out);
                self.free(b, sc, out);
            }
            E::If(a, b, c) => [a, b, c].iter().for_each(|x| self.free(x, sc, out)),
            E::Rec(fs) => fs.iter().for_each(|x| self.free(&x.1, sc, out)),
            E::Upd(b, fs) => {
                self.free(b, sc, out);
                fs.iter().for_each(|x| self.free(&x.1, sc, out));
            }
            E::Pair(a, b) | E::Op(_, a, b) => {
                self.free(a, sc, out);
                self.free(b, sc, out);
            }
        }
    }

    /// The scope inside a delayed expression: what it captures, in fresh slots.
    fn inner(&self, e: &E, sc: &Scope) -> (Scope, Vec<usize>) {
        let mut caps = vec![];
        self.free(e, sc, &mut caps);
        let mut names = vec![];
        for (n, s) in &sc.names {
            if let Some(i) = caps.iter().position(|c| c == s) {
                names.push((n.clone(), i));
            }
        }
        let k = caps.len();
        (Scope { names, slots: k }, caps)
    }

    fn cheap(e: &E) -> bool {
        match e {
            E::Var(_) | E::Num(_) => true,
            E::Proj(e, _) => Self::cheap(e),
            E::Op(o, a, b) => !matches!(o.as_str(), "∷" | "++" | "&&" | "||") && Self::cheap(a) && Self::cheap(b),
            _ => false,
        }
    }

    fn arg(&self, e: &E, sc: &mut Scope, scope: &Declared) -> R<Arg> {
        let value = match e {
            E::Num(_) | E::Str(_) | E::Lam(..) | E::Rec(_) | E::Pair(..) => true,
            E::Op(o, ..) => o == "∷",
            E::Var(n) => sc.get(n).is_some() || n == "[]",
            E::App(f, args) => match self.head(f, sc, scope) {
                Some(Ref::Con(_, k)) => k == args.len(),
                Some(Ref::Global(g)) => matches!(&self.globals[g].code, Code::Native(_)) && self.globals[g].arity > args.len(),
                _ => false,
            },
            _ => false,
        };
        if value {
            return Ok(Arg::Now(Box::new(self.ex(e, sc, scope)?)));
        }
        let quick = if Self::cheap(e) { Some(Box::new(self.ex(e, sc, scope)?)) } else { None };
        let (mut inner, captures) = self.inner(e, sc);
        let body = self.ex(e, &mut inner, scope)?;
        Ok(Arg::Later(quick, leak(Delay { captures, slots: inner.slots, body })))
    }

    fn head(&self, f: &E, sc: &Scope, scope: &Declared) -> Option<Ref> {
        match f {
            E::Var(n) if sc.get(n).is_none() => scope.get(n).cloned(),
            E::Proj(b, n) => match &**b {
                E::Var(a) if sc.get(a).is_none() => match scope.get(a)? {
                    Ref::Variants(t) => self.variant(t, n).map(|(s, k)| Ref::Con(s, k)),
                    Ref::Module(m) => self.by_name.get(&(m.clone(), n.clone())).map(|g| Ref::Global(*g)),
                    _ => None,
                },
                _ => None,
            },
            _ => None,
        }
    }

    fn args(&self, es: &[E], sc: &mut Scope, scope: &Declared) -> R<Vec<Arg>> {
        es.iter().map(|e| self.arg(e, sc, scope)).collect()
    }

    fn ex(&self, e: &E, sc: &mut Scope, scope: &Declared) -> R<Ex> {
        Ok(match e {
            E::Num(n) => Ex::Const(Val::Int(*n)),
            E::Str(s) => Ex::Const(self.bytes(s.as_bytes())),
            E::Var(n) => {
                if let Some(s) = sc.get(n) {
                    return Ok(Ex::Var(s));
                }
                match n.as_str() {
                    "[]" => return Ok(Ex::Const(Val::Nil)),
                    "true" => return Ok(Ex::Const(Val::Bool(true))),
                    "false" => return Ok(Ex::Const(Val::Bool(false))),
                    "zero" => return Ok(Ex::Const(Val::Int(0))),
                    "tt" => return Ok(Ex::Const(Val::Unit)),
                    // propositions are evaluated to their truth
                    "Unit" => return Ok(Ex::Const(Val::Bool(true))),
                    "⊥" => return Ok(Ex::Const(Val::Bool(false))),
                    _ => {}
                }
                match scope.get(n) {
                    Some(Ref::Global(g)) => Ex::Glob(*g),
                    Some(Ref::Con(s, 0)) => Ex::Const(Val::Con(*s, Rc::new(vec![]))),
                    Some(Ref::Con(s, k)) => Ex::Const(Val::ConFun(*s, *k, Rc::new(vec![]))),
                    Some(Ref::Type) => return Err(format!("{n} is a type")),
                    _ => return Err(format!("{n} is not known")),
                }
            }
            E::Proj(b, f) => {
                if let E::Var(a) = &**b {
                    if sc.get(a).is_none() && matches!(scope.get(a), Some(Ref::Constants)) {
                        return self.constants.get(f).map(|n| Ex::Const(Val::Int(*n))).ok_or_else(|| format!("{a}.{f} is no plain number"));
                    }
                    if sc.get(a).is_none() && matches!(scope.get(a), Some(Ref::Variants(_)) | Some(Ref::Module(_))) {
                        return match self.head(e, sc, scope) {
                            Some(Ref::Con(s, 0)) => Ok(Ex::Const(Val::Con(s, Rc::new(vec![])))),
                            Some(Ref::Con(s, k)) => Ok(Ex::Const(Val::ConFun(s, k, Rc::new(vec![])))),
                            Some(Ref::Global(g)) => Ok(Ex::Glob(g)),
                            _ => Err(format!("{a}.{f} is not known")),
                        };
                    }
                }
                Ex::Proj(Box::new(self.ex(b, sc, scope)?), self.sym(f))
            }
            E::App(f, args) => match self.head(f, sc, scope) {
                Some(Ref::Con(s, k)) if k == args.len() => Ex::Con(s, self.args(args, sc, scope)?),
                Some(Ref::Global(g)) => {
                    let n = &self.globals[g].name;
                    if self.globals[g].module == "std" && n == "codes" {
                        return self.ex(&args[0], sc, scope);
                    }
                    Ex::Call(g, self.args(args, sc, scope)?)
                }
                _ => Ex::App(Box::new(self.ex(f, sc, scope)?), self.args(args, sc, scope)?),
            },
            E::Lam(ps, b) => {
                let (mut inner, caps) = self.inner(b, sc);
                // parameters, bound last, hide what is captured under the same names
                for p in ps {
                    inner.bind(p);
                }
                let body = self.ex(b, &mut inner, scope)?;
                Ex::Lam(leak(Lam { arity: ps.len(), slots: inner.slots, body }), caps)
            }
            E::Let(n, v, b) => {
                let v = self.arg(v, sc, scope)?;
                let s = sc.bind(n);
                let body = self.ex(b, sc, scope);
                sc.names.pop();
                Ex::Let(s, v, Box::new(body?))
            }
            E::If(a, b, c) => Ex::If(Box::new(self.ex(a, sc, scope)?), Box::new(self.ex(b, sc, scope)?), Box::new(self.ex(c, sc, scope)?)),
            E::Rec(fs) => {
                let shape = self.shape(fs.iter().map(|f| self.sym(&f.0)).collect());
                let mut args = vec![];
                for s in &shape.names {
                    let f = fs.iter().find(|f| self.sym(&f.0) == *s).unwrap();
                    args.push(self.arg(&f.1, sc, scope)?);
                }
                Ex::Rec(shape, args)
            }
            E::Upd(b, fs) => {
                let b = self.ex(b, sc, scope)?;
                let mut out = vec![];
                for (n, e) in fs {
                    out.push((self.sym(n), self.arg(e, sc, scope)?));
                }
                Ex::Upd(Box::new(b), out)
            }
            E::Pair(a, b) => Ex::Rec(self.pair.get().expect("pairs"), vec![self.arg(a, sc, scope)?, self.arg(b, sc, scope)?]),
            E::Op(o, a, b) => match o.as_str() {
                "∷" => Ex::Cons(self.arg(a, sc, scope)?, self.arg(b, sc, scope)?),
                "++" => Ex::Append(Box::new(self.ex(a, sc, scope)?), self.arg(b, sc, scope)?),
                "×" => Ex::And(Box::new(self.ex(a, sc, scope)?), Box::new(self.ex(b, sc, scope)?)),
                "⊎" => Ex::Or(Box::new(self.ex(a, sc, scope)?), Box::new(self.ex(b, sc, scope)?)),
                "→" => Ex::Or(Box::new(Ex::Not(Box::new(self.ex(a, sc, scope)?))), Box::new(self.ex(b, sc, scope)?)),
                "≡" => Ex::Same(Box::new(self.ex(a, sc, scope)?), Box::new(self.ex(b, sc, scope)?)),
                "≢" => Ex::Not(Box::new(Ex::Same(Box::new(self.ex(a, sc, scope)?), Box::new(self.ex(b, sc, scope)?)))),
                "&&" => Ex::And(Box::new(self.ex(a, sc, scope)?), Box::new(self.ex(b, sc, scope)?)),
                "||" => Ex::Or(Box::new(self.ex(a, sc, scope)?), Box::new(self.ex(b, sc, scope)?)),
                _ => {
                    let p = match o.as_str() {
                        "+" => Prim::Add,
                        "-" => Prim::Sub,
                        "*" => Prim::Mul,
                        "/" => Prim::Div,
                        "%" => Prim::Rem,
                        "^" => Prim::Pow,
                        "==" => Prim::Eq,
                        "<" => Prim::Lt,
                        "≤" => Prim::Le,
                        "+ℤ" => Prim::AddZ,
                        "-ℤ" => Prim::SubZ,
                        _ => return Err(format!("operator {o}")),
                    };
                    Ex::Prim(p, Box::new(self.ex(a, sc, scope)?), Box::new(self.ex(b, sc, scope)?))
                }
            },
        })
    }
}
