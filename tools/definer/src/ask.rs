//! Values from outside and to it: lists, records, variants; and definitions by their names.
use crate::load::*;
use crate::syntax::Decl;
use crate::values::*;
use std::collections::BTreeMap;
use std::rc::Rc;

impl Definitions {
    pub fn uncons(&self, v: &Val) -> Option<(Val, Val)> {
        match self.force(v) {
            Val::Nil => None,
            Val::Cons(r) => Some((r.0.clone(), r.1.clone())),
            Val::Sparse(s, i) => {
                if i >= s.len {
                    return None;
                }
                Some((s.other.get(&i).unwrap_or(&s.base).clone(), Val::Sparse(s.clone(), i + 1)))
            }
            v => panic!("wanted a list, found {}", self.show(&v, 2)),
        }
    }

    /// The elements, not evaluated.
    pub fn spine(&self, v: &Val) -> Vec<Val> {
        let mut out = vec![];
        let mut v = self.force(v);
        loop {
            match &v {
                Val::Nil => return out,
                Val::Cons(r) => {
                    out.push(r.0.clone());
                    let n = self.force(&r.1);
                    v = n;
                }
                Val::Sparse(s, i) => {
                    for k in *i..s.len {
                        out.push(s.other.get(&k).unwrap_or(&s.base).clone());
                    }
                    return out;
                }
                v => panic!("wanted a list, found {}", self.show(v, 2)),
            }
        }
    }

    pub fn list(&self, xs: Vec<Val>) -> Val {
        let mut v = Val::Nil;
        for x in xs.into_iter().rev() {
            v = Val::Cons(Rc::new((x, v)));
        }
        v
    }

    pub fn sparse(&self, n: usize, x: Val) -> Val {
        Val::Sparse(Rc::new(Sparse { len: n, base: x, other: BTreeMap::new() }), 0)
    }

    /// The definitions of this name in modules whose name ends so (`Search` is `map.Search` too).
    pub fn found(&self, m: &str, n: &str) -> &[usize] {
        self.by_tail.get(&(m.to_string(), n.to_string())).map_or(&[], |v| v.as_slice())
    }

    pub fn get(&self, m: &str, n: &str) -> usize {
        if let [g] = self.found(m, n) {
            return *g;
        }
        let mut all: Vec<String> = self.globals.iter().filter(|g| g.name == n && g.module != "std").map(|g| format!("{}.{n}", g.module)).collect();
        all.sort();
        let all = if all.is_empty() { "no module has it".into() } else { format!("there is {}", all.join(", ")) };
        panic!("this program calls {m}.{n}, of which there has to be one ({all})")
    }

    pub fn of(&self, m: &str, n: &str, args: Vec<Val>) -> Val {
        self.call(self.get(m, n), args)
    }

    pub fn field(&self, v: &Val, path: &str) -> Val {
        let mut v = self.force(v);
        for f in path.split('.') {
            v = self.field_sym(&v, self.sym(f));
        }
        v
    }

    pub fn with(&self, v: &Val, path: &str, x: Val) -> Val {
        let (f, rest) = match path.split_once('.') {
            Some((a, b)) => (a, Some(b)),
            None => (path, None),
        };
        let Val::Rec(r) = self.force(v) else { panic!("update of no record") };
        let i = r.shape.at(self.sym(f)).unwrap_or_else(|| panic!("no field {f}"));
        let mut fields = r.fields.clone();
        fields[i] = match rest {
            Some(p) => self.with(&fields[i], p, x),
            None => x,
        };
        Val::Rec(Rc::new(Rec { shape: r.shape, fields }))
    }

    pub fn record(&self, fs: Vec<(&str, Val)>) -> Val {
        let shape = self.shape(fs.iter().map(|f| self.sym(f.0)).collect());
        let fields = shape.names.iter().map(|s| fs.iter().find(|f| self.sym(f.0) == *s).unwrap().1.clone()).collect();
        Val::Rec(Rc::new(Rec { shape, fields }))
    }

    /// A type of the .rt files by its name, or a record of a module (`Output.Names` is `script.Output.Names` too).
    pub fn type_of(&self, ty: &str) -> Option<&Decl> {
        let end = format!(".{ty}");
        self.types.get(ty).or_else(|| self.types.iter().find(|t| t.0.ends_with(&end)).map(|t| t.1))
    }

    /// A struct or record, by all of its fields.
    pub fn strukt(&self, ty: &str, fs: Vec<(&str, Val)>) -> Val {
        match self.type_of(ty) {
            Some(Decl::Struct(names)) => {
                let mut a: Vec<&str> = names.iter().map(|s| s.as_str()).collect();
                let mut b: Vec<&str> = fs.iter().map(|f| f.0).collect();
                a.sort();
                b.sort();
                if a != b {
                    panic!("{ty} has the fields {}, and this program gives it {}", a.join(", "), b.join(", "));
                }
            }
            _ => panic!("there is no struct or record {ty}, which this program makes"),
        }
        self.record(fs)
    }

    pub fn con(&self, name: &str, args: Vec<Val>) -> Val {
        Val::Con(self.sym(name), Rc::new(args))
    }

    pub fn pair_of(&self, a: Val, b: Val) -> Val {
        Val::Rec(Rc::new(Rec { shape: self.pair.get().unwrap(), fields: vec![a, b] }))
    }

    pub fn num(&self, v: &Val) -> i128 {
        match self.force(v) {
            Val::Int(n) => n,
            v => panic!("wanted a number, found {}", self.show(&v, 2)),
        }
    }

    pub fn yes(&self, v: &Val) -> bool {
        match self.force(v) {
            Val::Bool(b) => b,
            v => panic!("wanted a Bool, found {}", self.show(&v, 2)),
        }
    }

    pub fn case(&self, v: &Val) -> (String, Vec<Val>) {
        match self.force(v) {
            Val::Con(s, a) => (self.text_of(s), (*a).clone()),
            v => panic!("wanted a variant, found {}", self.show(&v, 2)),
        }
    }

    pub fn option(&self, v: &Val) -> Option<Val> {
        let (n, a) = self.case(v);
        match n.as_str() {
            "Some" => Some(a[0].clone()),
            "None" => None,
            _ => panic!("wanted an Option, found {n}"),
        }
    }

    pub fn text(&self, v: &Val) -> Vec<u8> {
        self.spine(v).iter().map(|x| self.num(x) as u8).collect()
    }

    /// Evaluates a value to its ends, so that nothing old is kept alive by what is not evaluated yet.
    pub fn deep(&self, v: &Val) {
        let mut todo = vec![self.force(v)];
        let mut seen = std::collections::HashSet::new();
        while let Some(v) = todo.pop() {
            match &v {
                Val::Cons(r) => {
                    if seen.insert(Rc::as_ptr(r) as usize) {
                        todo.push(self.force(&r.0));
                        todo.push(self.force(&r.1));
                    }
                }
                Val::Rec(r) => {
                    if seen.insert(Rc::as_ptr(r) as usize) {
                        todo.extend(r.fields.iter().map(|f| self.force(f)));
                    }
                }
                Val::Con(_, a) => {
                    if seen.insert(Rc::as_ptr(a) as usize) {
                        todo.extend(a.iter().map(|f| self.force(f)));
                    }
                }
                _ => {}
            }
        }
    }

    pub fn same(&self, a: &Val, b: &Val) -> bool {
        match (self.force(a), self.force(b)) {
            (Val::Int(x), Val::Int(y)) => x == y,
            (Val::Bool(x), Val::Bool(y)) => x == y,
            (Val::Unit, Val::Unit) => true,
            (Val::Con(s, a), Val::Con(t, b)) => s == t && a.len() == b.len() && (Rc::ptr_eq(&a, &b) || a.iter().zip(b.iter()).all(|(x, y)| self.same(x, y))),
            (Val::Rec(a), Val::Rec(b)) => {
                Rc::ptr_eq(&a, &b) || std::ptr::eq(a.shape, b.shape) && a.fields.iter().zip(b.fields.iter()).all(|(x, y)| self.same(x, y))
            }
            (Val::Cons(x), Val::Cons(y)) if Rc::ptr_eq(&x, &y) => true,
            (Val::Sparse(x, i), Val::Sparse(y, j)) => {
                if Rc::ptr_eq(&x, &y) && i == j {
                    return true;
                }
                if x.len - i != y.len - j {
                    return false;
                }
                if !self.same(&x.base, &y.base) || i != 0 || j != 0 {
                    return (0..x.len - i).all(|k| self.same(x.other.get(&(i + k)).unwrap_or(&x.base), y.other.get(&(j + k)).unwrap_or(&y.base)));
                }
                x.other.keys().chain(y.other.keys()).all(|k| self.same(x.other.get(k).unwrap_or(&x.base), y.other.get(k).unwrap_or(&y.base)))
            }
            (x @ (Val::Nil | Val::Cons(_) | Val::Sparse(..)), y @ (Val::Nil | Val::Cons(_) | Val::Sparse(..))) => {
                let (a, b) = (self.spine(&x), self.spine(&y));
                a.len() == b.len() && a.iter().zip(b.iter()).all(|(x, y)| self.same(x, y))
            }
            _ => false,
        }
    }

    pub fn show(&self, v: &Val, depth: usize) -> String {
        if depth == 0 {
            return "..".into();
        }
        match v {
            Val::Int(n) => n.to_string(),
            Val::Bool(b) => b.to_string(),
            Val::Unit => "tt".into(),
            Val::Nil => "[]".into(),
            Val::Cons(_) => {
                let mut out = vec![];
                let mut v = v.clone();
                while let Val::Cons(r) = &v {
                    out.push(self.show(&r.0, depth - 1));
                    if out.len() > 40 {
                        out.push("..".into());
                        break;
                    }
                    let n = match &r.1 {
                        Val::Thunk(t) => match &*t.state.borrow() {
                            State::Done(v) => v.clone(),
                            _ => Val::Unit,
                        },
                        v => v.clone(),
                    };
                    v = n;
                }
                format!("[{}]", out.join(", "))
            }
            Val::Sparse(s, i) => format!("<{} elements>", s.len - i),
            Val::Con(s, a) => {
                let mut out = self.text_of(*s);
                for x in a.iter() {
                    out.push_str(&format!(" {}", self.show(x, depth - 1)));
                }
                if a.is_empty() { out } else { format!("({out})") }
            }
            Val::Rec(r) => {
                let fs: Vec<String> = r.shape.names.iter().zip(&r.fields).map(|(s, f)| format!("{} = {}", self.text_of(*s), self.show(f, depth - 1))).collect();
                format!("{{{}}}", fs.join("; "))
            }
            Val::Pap(g, _) => format!("<{}>", self.globals[*g].name),
            Val::ConFun(s, ..) => format!("<{}>", self.text_of(*s)),
            Val::Clo(_) => "<λ>".into(),
            Val::Thunk(t) => match &*t.state.borrow() {
                State::Done(v) => self.show(v, depth),
                _ => "?".into(),
            },
        }
    }
}
