//! Evaluation by need: an argument is evaluated when it is first looked at, and never twice.
use crate::load::*;
use crate::values::*;
use std::cell::RefCell;
use std::rc::Rc;

impl Definitions {
    pub fn force(&self, v: &Val) -> Val {
        match v {
            Val::Thunk(t) => {
                if let State::Done(v) = &*t.state.borrow() {
                    return v.clone();
                }
                let st = t.state.replace(State::Busy);
                let r = match st {
                    State::Delay(d, mut env) => {
                        env.resize(d.slots, Val::Unit);
                        self.eval(&d.body, &mut env)
                    }
                    State::Apply(f, args) => self.apply(f, args),
                    State::Busy => panic!("a value that needs itself"),
                    State::Done(v) => v,
                };
                t.state.replace(State::Done(r.clone()));
                r
            }
            _ => v.clone(),
        }
    }

    fn arg_val(&self, a: &'static Arg, env: &mut Vec<Val>) -> Val {
        match a {
            Arg::Now(e) => match &**e {
                Ex::Var(s) => match &env[*s] {
                    Val::Thunk(t) => match &*t.state.borrow() {
                        State::Done(v) => v.clone(),
                        _ => env[*s].clone(),
                    },
                    v => v.clone(),
                },
                _ => self.eval(e, env),
            },
            Arg::Later(q, d) => {
                if let Some(q) = q {
                    if let Some(v) = self.quick(q, env) {
                        return v;
                    }
                }
                let caps = d.captures.iter().map(|s| env[*s].clone()).collect();
                Val::Thunk(Rc::new(Thunk { state: RefCell::new(State::Delay(d, caps)) }))
            }
        }
    }

    /// The value, where it can be had without work.
    fn quick(&self, e: &'static Ex, env: &[Val]) -> Option<Val> {
        let done = |v: &Val| match v {
            Val::Thunk(t) => match &*t.state.borrow() {
                State::Done(v) => Some(v.clone()),
                _ => None,
            },
            v => Some(v.clone()),
        };
        match e {
            Ex::Const(v) => Some(v.clone()),
            Ex::Var(s) => done(&env[*s]),
            Ex::Glob(g) => {
                let gl = &self.globals[*g];
                if gl.arity > 0 { Some(Val::Pap(*g, Rc::new(vec![]))) } else { gl.constant.borrow().clone() }
            }
            Ex::Proj(b, f) => match self.quick(b, env)? {
                Val::Rec(r) => {
                    let i = r.shape.at(*f)?;
                    // a field that is a thunk is as good as one of our own
                    Some(match &r.fields[i] {
                        v @ Val::Thunk(_) => done(v).unwrap_or_else(|| v.clone()),
                        v => v.clone(),
                    })
                }
                _ => None,
            },
            Ex::Prim(p, a, b) => {
                if matches!(p, Prim::Div | Prim::Rem | Prim::Pow | Prim::Mul) {
                    return None;
                }
                match (self.quick(a, env)?, self.quick(b, env)?) {
                    (Val::Int(x), Val::Int(y)) => Some(prim(*p, x, y)),
                    _ => None,
                }
            }
            _ => None,
        }
    }

    pub fn bytes(&self, b: &[u8]) -> Val {
        let mut v = Val::Nil;
        for x in b.iter().rev() {
            v = Val::Cons(Rc::new((Val::Int(*x as i128), v)));
        }
        v
    }

    fn int(&self, e: &'static Ex, env: &mut Vec<Val>) -> i128 {
        match self.eval(e, env) {
            Val::Int(n) => n,
            v => panic!("wanted a number, found {}", self.show(&v, 3)),
        }
    }

    fn truth(&self, e: &'static Ex, env: &mut Vec<Val>) -> bool {
        match self.eval(e, env) {
            Val::Bool(b) => b,
            v => panic!("wanted a Bool, found {}", self.show(&v, 3)),
        }
    }

    pub fn eval(&self, e: &'static Ex, env: &mut Vec<Val>) -> Val {
        match e {
            Ex::Const(v) => v.clone(),
            Ex::Var(s) => {
                let v = self.force(&env[*s]);
                env[*s] = v.clone();
                v
            }
            Ex::Glob(g) => self.global(*g),
            Ex::Call(g, args) => {
                let vs: Vec<Val> = args.iter().map(|a| self.arg_val(a, env)).collect();
                self.call(*g, vs)
            }
            Ex::App(f, args) => {
                let f = self.eval(f, env);
                let vs: Vec<Val> = args.iter().map(|a| self.arg_val(a, env)).collect();
                self.apply(f, vs)
            }
            Ex::Con(s, args) => Val::Con(*s, Rc::new(args.iter().map(|a| self.arg_val(a, env)).collect())),
            Ex::Proj(b, f) => {
                let v = self.eval(b, env);
                self.field_sym(&v, *f)
            }
            Ex::Lam(l, caps) => Val::Clo(Rc::new(Clo { lam: l, env: caps.iter().map(|s| env[*s].clone()).collect() })),
            Ex::Let(s, v, b) => {
                let v = self.arg_val(v, env);
                env[*s] = v;
                self.eval(b, env)
            }
            Ex::If(c, t, f) => {
                if self.truth(c, env) {
                    self.eval(t, env)
                } else {
                    self.eval(f, env)
                }
            }
            Ex::And(a, b) => {
                if self.truth(a, env) {
                    self.eval(b, env)
                } else {
                    Val::Bool(false)
                }
            }
            Ex::Or(a, b) => {
                if self.truth(a, env) {
                    Val::Bool(true)
                } else {
                    self.eval(b, env)
                }
            }
            Ex::Same(a, b) => {
                let x = self.eval(a, env);
                let y = self.eval(b, env);
                Val::Bool(self.same(&x, &y))
            }
            Ex::Not(a) => Val::Bool(!self.truth(a, env)),
            Ex::Prim(p, a, b) => {
                let x = self.int(a, env);
                let y = self.int(b, env);
                prim(*p, x, y)
            }
            Ex::Cons(a, b) => {
                let a = self.arg_val(a, env);
                let b = self.arg_val(b, env);
                Val::Cons(Rc::new((a, b)))
            }
            Ex::Append(a, b) => {
                let a = self.eval(a, env);
                let b = self.arg_val(b, env);
                self.append(a, b)
            }
            Ex::Rec(shape, args) => {
                let fields = args.iter().map(|a| self.arg_val(a, env)).collect();
                Val::Rec(Rc::new(Rec { shape, fields }))
            }
            Ex::Upd(b, fs) => {
                let v = self.eval(b, env);
                let Val::Rec(r) = v else { panic!("update of {}", self.show(&v, 2)) };
                let mut fields = r.fields.clone();
                for (s, a) in fs {
                    let i = r.shape.at(*s).unwrap_or_else(|| panic!("no field {}", self.text_of(*s)));
                    fields[i] = self.arg_val(a, env);
                }
                Val::Rec(Rc::new(Rec { shape: r.shape, fields }))
            }
        }
    }

    pub fn append(&self, a: Val, b: Val) -> Val {
        let xs = self.spine(&a);
        if xs.is_empty() {
            return self.force(&b);
        }
        let mut v = b;
        for x in xs.into_iter().rev() {
            v = Val::Cons(Rc::new((x, v)));
        }
        v
    }

    pub fn field_sym(&self, v: &Val, f: Sym) -> Val {
        match v {
            Val::Rec(r) => match r.shape.at(f) {
                Some(i) => self.force(&r.fields[i]),
                None => panic!("no field {} in {}", self.text_of(f), self.show(v, 2)),
            },
            _ => panic!("field {} of {}", self.text_of(f), self.show(v, 2)),
        }
    }

    pub fn global(&self, g: usize) -> Val {
        let gl = &self.globals[g];
        if gl.arity > 0 {
            return Val::Pap(g, Rc::new(vec![]));
        }
        if let Some(v) = &*gl.constant.borrow() {
            return v.clone();
        }
        let v = self.run(g, vec![]);
        *gl.constant.borrow_mut() = Some(v.clone());
        v
    }

    pub fn apply(&self, f: Val, mut args: Vec<Val>) -> Val {
        if args.is_empty() {
            return f;
        }
        match self.force(&f) {
            Val::Pap(g, have) => {
                let mut all = (*have).clone();
                all.append(&mut args);
                self.call(g, all)
            }
            Val::ConFun(s, k, have) => {
                let mut all = (*have).clone();
                all.append(&mut args);
                if all.len() == k { Val::Con(s, Rc::new(all)) } else { Val::ConFun(s, k, Rc::new(all)) }
            }
            Val::Clo(c) => {
                let n = c.lam.arity;
                if args.len() < n {
                    panic!("a λ with too few arguments");
                }
                let rest = args.split_off(n);
                let mut env = Vec::with_capacity(c.lam.slots);
                env.extend(c.env.iter().cloned());
                env.extend(args);
                env.resize(c.lam.slots, Val::Unit);
                let v = self.eval(&c.lam.body, &mut env);
                self.apply(v, rest)
            }
            v => panic!("application of {}", self.show(&v, 2)),
        }
    }

    pub fn call(&self, g: usize, mut args: Vec<Val>) -> Val {
        let gl = &self.globals[g];
        if args.len() < gl.arity {
            return Val::Pap(g, Rc::new(args));
        }
        if gl.arity == 0 {
            let v = self.global(g);
            return self.apply(v, args);
        }
        let rest = args.split_off(gl.arity);
        let v = if gl.is_kept {
            for a in args.iter_mut() {
                *a = self.force(a);
            }
            let mut key = vec![g as u64];
            for a in &args {
                self.key(a, &mut key);
            }
            let had = self.kept.borrow().get(&key).map(|x| x.1.clone());
            if let Some(v) = had {
                return self.apply(v, rest);
            }
            let v = self.run(g, args.clone());
            self.kept.borrow_mut().insert(key, (args, v.clone()));
            v
        } else {
            self.run(g, args)
        };
        if rest.is_empty() { v } else { self.apply(v, rest) }
    }

    fn key(&self, v: &Val, out: &mut Vec<u64>) {
        match v {
            Val::Int(n) => out.extend([1, *n as u64, (*n >> 64) as u64]),
            Val::Bool(b) => out.extend([2, *b as u64]),
            Val::Unit => out.push(3),
            Val::Nil => out.push(4),
            Val::Cons(r) => out.extend([5, Rc::as_ptr(r) as u64]),
            Val::Sparse(r, i) => out.extend([6, Rc::as_ptr(r) as u64, *i as u64]),
            Val::Con(s, a) => {
                out.extend([7, *s as u64]);
                if !a.is_empty() {
                    out.push(Rc::as_ptr(a) as u64);
                }
            }
            Val::Rec(r) => {
                if r.fields.len() == 1 {
                    if let Val::Int(n) = self.force(&r.fields[0]) {
                        out.extend([8, n as u64]);
                        return;
                    }
                }
                out.extend([9, Rc::as_ptr(r) as u64]);
            }
            Val::Pap(g, a) => {
                out.extend([10, *g as u64, a.len() as u64]);
                for x in a.iter() {
                    let x = self.force(x);
                    self.key(&x, out);
                }
            }
            Val::ConFun(s, _, a) => out.extend([11, *s as u64, a.len() as u64]),
            Val::Clo(c) => out.extend([12, Rc::as_ptr(c) as u64]),
            Val::Thunk(_) => unreachable!(),
        }
    }

    fn run(&self, g: usize, args: Vec<Val>) -> Val {
        let gl = &self.globals[g];
        gl.calls.set(gl.calls.get() + 1);
        match &gl.code {
            Code::Native(f) => f(self, &args),
            Code::None(e) => panic!("{}.{} is not executable: {e}", gl.module, gl.name),
            Code::Clauses(cs) => {
                let mut args = args;
                for c in cs.iter() {
                    let mut env: Vec<Val> = vec![Val::Unit; c.slots];
                    if c.pats.iter().zip(args.iter_mut()).all(|(p, v)| self.fits(p, v, &mut env)) {
                        return match &c.body {
                            Ok(b) => self.eval(b, &mut env),
                            Err(e) => panic!("{}.{}: an equation is not executable: {e}", gl.module, gl.name),
                        };
                    }
                }
                let a: Vec<String> = args.iter().map(|a| self.show(a, 3)).collect();
                panic!("{}.{}: no equation fits {}", gl.module, gl.name, a.join(" "))
            }
        }
    }

    fn fits(&self, p: &Pat, v: &mut Val, env: &mut Vec<Val>) -> bool {
        match p {
            Pat::Wild => return true,
            Pat::Var(s) => {
                env[*s] = v.clone();
                return true;
            }
            _ => {}
        }
        if let Val::Thunk(_) = v {
            *v = self.force(v);
        }
        match (p, &*v) {
            (Pat::Num(n), Val::Int(m)) => n == m,
            (Pat::Suc(q), Val::Int(m)) => *m > 0 && self.fits(q, &mut Val::Int(m - 1), env),
            (Pat::Bool(a), Val::Bool(b)) => a == b,
            (Pat::Nil, Val::Nil) => true,
            (Pat::Nil, Val::Cons(_)) => false,
            (Pat::Nil, Val::Sparse(s, i)) => s.len == *i,
            (Pat::Cons(..), Val::Nil) => false,
            (Pat::Cons(a, b), _) => match self.uncons(v) {
                Some((mut x, mut xs)) => self.fits(a, &mut x, env) && self.fits(b, &mut xs, env),
                None => false,
            },
            (Pat::Con(s, ps), Val::Con(t, a)) => s == t && ps.iter().zip(a.iter()).all(|(p, x)| self.fits(p, &mut x.clone(), env)),
            (Pat::Pair(a, b), Val::Rec(r)) => self.fits(a, &mut r.fields[0].clone(), env) && self.fits(b, &mut r.fields[1].clone(), env),
            _ => panic!("a pattern meets {}", self.show(v, 2)),
        }
    }
}

fn prim(p: Prim, x: i128, y: i128) -> Val {
    let over = || -> i128 { panic!("a number past 2^127") };
    Val::Int(match p {
        Prim::Eq => return Val::Bool(x == y),
        Prim::Lt => return Val::Bool(x < y),
        Prim::Le => return Val::Bool(x <= y),
        Prim::Add | Prim::AddZ => x.checked_add(y).unwrap_or_else(over),
        Prim::SubZ => x.checked_sub(y).unwrap_or_else(over),
        Prim::Sub => (x - y).max(0),
        Prim::Mul => x.checked_mul(y).unwrap_or_else(over),
        Prim::Div => {
            if y == 0 {
                panic!("division by 0")
            }
            x / y
        }
        Prim::Rem => {
            if y == 0 {
                panic!("remainder by 0")
            }
            x % y
        }
        Prim::Pow => x.checked_pow(y as u32).unwrap_or_else(over),
    })
}
