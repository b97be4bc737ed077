//! The definitions of a crate, as they stand in its files: what each module declares, what it sees, and its equations.
use crate::edits::{self, Edit};
use crate::syntax::{self, Decl, E, Item, P};
use crate::values::*;
use std::cell::{Cell, RefCell};
use std::collections::HashMap;
use std::path::{Path, PathBuf};

/// What a name stands for in a module.
#[derive(Clone, Debug)]
pub enum Ref {
    Global(usize),
    /// A variant, with how many arguments it takes.
    Con(Sym, usize),
    Module(String),
    /// The variants of this type.
    Variants(String),
    /// The constants of the .rt files.
    Constants,
    Type,
}

pub struct Definitions {
    pub globals: Vec<Global>,
    pub by_name: HashMap<(String, String), usize>,
    /// By the last part of a module's name.
    pub by_tail: HashMap<(String, String), Vec<usize>>,
    pub types: HashMap<String, Decl>,
    pub constants: HashMap<String, i128>,
    pub syms: RefCell<Vec<String>>,
    sym_of: RefCell<HashMap<String, Sym>>,
    shapes: RefCell<HashMap<Vec<Sym>, &'static Shape>>,
    pub kept: RefCell<HashMap<Vec<u64>, (Vec<Val>, Val)>>,
    pub pair: Cell<Option<&'static Shape>>,
    /// Names that a module uses and nothing defines.
    pub notes: Vec<String>,
    pub some: Sym,
    pub none: Sym,
    pub ok: Sym,
}

/// Definitions whose values are kept, by the identity of their arguments: they are asked again and again.
const KEPT: &[(&str, &str)] = &[
    ("Order", "children_of"),
    ("Steps", "steps_of"),
    ("Steps", "depth_by"),
    ("Steps", "weight_by"),
    ("Steps", "reaches_by"),
    ("Flattened", "view_of"),
    ("LiveEvents", "lives_of"),
    ("Naming", "names"),
    ("Search", "look"),
    ("Search", "path_at"),
    ("Trails", "trail_of"),
    ("Race", "turns_in"),
    ("Race", "desk_part"),
    ("Race", "pass_part"),
    ("Race", "stand_after"),
];

/// The last part of a module's name.
fn tail(m: &str) -> &str {
    m.rsplit('.').next().unwrap_or(m)
}

pub fn leak<T>(x: T) -> &'static T {
    Box::leak(Box::new(x))
}

pub type R<T> = Result<T, String>;

/// What names stand for.
pub type Declared = HashMap<String, Ref>;

/// The names that a line `use` brings, each with the name that it is given.
type Names = Vec<(String, String)>;

/// The patterns and the body of one equation.
type Equation<'a> = (&'a R<Vec<P>>, &'a R<E>);

impl Definitions {
    pub fn sym(&self, s: &str) -> Sym {
        if let Some(x) = self.sym_of.borrow().get(s) {
            return *x;
        }
        let mut v = self.syms.borrow_mut();
        let n = v.len() as Sym;
        v.push(s.to_string());
        self.sym_of.borrow_mut().insert(s.to_string(), n);
        n
    }
    pub fn text_of(&self, s: Sym) -> String {
        self.syms.borrow()[s as usize].clone()
    }
    pub fn shape(&self, mut names: Vec<Sym>) -> &'static Shape {
        names.sort();
        let mut m = self.shapes.borrow_mut();
        if let Some(s) = m.get(&names) {
            return s;
        }
        let s = leak(Shape { names: names.clone() });
        m.insert(names, s);
        s
    }

    /// The definitions of a crate, with these edits made in its files.
    pub fn load(folder: &Path, edits: &[Edit]) -> R<Definitions> {
        let mut defs = Definitions::empty();
        let read = |p: &Path| std::fs::read_to_string(p).map_err(|e| format!("{}: {e}", p.display()));
        for file in files_of(&folder.join("src"), "rt") {
            let text = read(&file)?;
            defs.types.extend(syntax::rt_types(&text));
            defs.constants.extend(syntax::rt_constants(&text));
        }
        let orders = ["Less", "Equal", "Greater"].iter().map(|s| (s.to_string(), vec![])).collect();
        defs.types.insert("Ordering".into(), Decl::Enum(orders));
        let specs = folder.join("specs");
        let mut modules: Vec<(String, Vec<Item>)> = vec![];
        for file in files_of(&specs, "antt") {
            let within = file.strip_prefix(&specs).expect("a file of this folder").to_string_lossy().into_owned();
            let text = edits::applied(read(&file)?, &within, edits)?;
            modules.push((within.trim_end_matches(".antt").replace('/', "."), syntax::items(&text)));
        }
        if modules.is_empty() {
            return Err(format!("no definitions in {}", specs.display()));
        }
        if let Some(e) = edits.iter().find(|e| !specs.join(&e.file).is_file()) {
            return Err(format!("an edit is of {}, which is not there", e.file));
        }
        let declared = modules.iter().map(|(m, items)| (m.clone(), defs.declared_in(m, items))).collect();
        for (m, items) in &modules {
            let scope = defs.scope_of(m, items, &declared);
            defs.records_of(m, items, &declared[m], &scope);
            defs.equations_of(m, items, &declared[m], &scope);
        }
        defs.put_in_place()?;
        Ok(defs)
    }

    /// The prelude alone.
    fn empty() -> Definitions {
        let mut defs = Definitions {
            globals: vec![],
            by_name: HashMap::new(),
            by_tail: HashMap::new(),
            types: HashMap::new(),
            constants: HashMap::new(),
            syms: RefCell::new(vec![]),
            sym_of: RefCell::new(HashMap::new()),
            shapes: RefCell::new(HashMap::new()),
            kept: RefCell::new(HashMap::new()),
            pair: Cell::new(None),
            notes: vec![],
            some: 0,
            none: 0,
            ok: 0,
        };
        defs.some = defs.sym("Some");
        defs.none = defs.sym("None");
        defs.ok = defs.sym("Ok");
        let both = vec![defs.sym("0"), defs.sym("1")];
        defs.pair.set(Some(defs.shape(both)));
        for (name, arity, f) in crate::prelude::NATIVES {
            defs.add_global("std", name, *arity, Code::Native(*f));
        }
        defs
    }

    /// What a module declares. A record with parameters is a proposition, and one without is data.
    fn declared_in(&mut self, m: &str, items: &[Item]) -> Declared {
        let mut found = HashMap::new();
        for item in items {
            match item {
                Item::Sig(n) => {
                    found.insert(n.clone(), Ref::Global(self.add_global(m, n, 0, Code::None("no equation".into()))));
                }
                Item::Record(n, fields, params, _) => {
                    let what = if params.is_empty() { Ref::Type } else { Ref::Global(self.add_global(m, n, 0, Code::None("no equation".into()))) };
                    found.insert(n.clone(), what);
                    self.types.insert(format!("{m}.{n}"), Decl::Struct(fields.clone()));
                }
                Item::Data(n, variants) => {
                    found.insert(n.clone(), Ref::Type);
                    for (c, k) in variants {
                        found.insert(c.clone(), Ref::Con(self.sym(c), *k));
                    }
                }
                _ => {}
            }
        }
        found
    }

    /// What a module sees: what it uses, and what it declares itself.
    fn scope_of(&mut self, m: &str, items: &[Item], declared: &HashMap<String, Declared>) -> Declared {
        let mut scope = HashMap::new();
        for item in items {
            if let Item::Use { path, names, alias } = item {
                self.add_use(path, names, alias, declared, &mut scope, m);
            }
        }
        scope.extend(declared[m].clone());
        scope
    }

    /// The propositions that are records of a module: each as all of its fields, and each field by a name of its own, `IsRace.legal`.
    fn records_of(&mut self, m: &str, items: &[Item], declared: &Declared, scope: &Declared) {
        for item in items {
            let Item::Record(n, fields, params, says) = item else { continue };
            let Some(Ref::Global(g)) = declared.get(n) else { continue };
            let pats = Ok(params.iter().map(|p| P::Name(p.clone())).collect());
            let all = says.iter().cloned().reduce(|a, b| Ok(E::Op("×".into(), Box::new(a?), Box::new(b?))));
            let all = all.unwrap_or(Err("no fields".into()));
            let mut parts = vec![(*g, &all)];
            for (field, e) in fields.iter().zip(says) {
                parts.push((self.add_global(m, &format!("{n}.{field}"), 0, Code::None(String::new())), e));
            }
            for (g, e) in parts {
                self.globals[g].code = match self.clause(&pats, e, scope) {
                    Ok(Clause { body: Err(why), .. }) | Err(why) => Code::None(why),
                    Ok(c) => Code::Clauses(leak(vec![c])),
                };
                self.globals[g].arity = params.len();
            }
        }
    }

    /// The equations of a module's definitions.
    fn equations_of(&mut self, m: &str, items: &[Item], declared: &Declared, scope: &Declared) {
        let mut equations: Vec<(String, Vec<Equation>)> = vec![];
        for item in items {
            if let Item::Eqn { name, pats, body } = item {
                match equations.iter_mut().find(|e| e.0 == *name) {
                    Some(e) => e.1.push((pats, body)),
                    None => equations.push((name.clone(), vec![(pats, body)])),
                }
            }
        }
        for (n, all) in equations {
            let Some(Ref::Global(g)) = declared.get(&n) else {
                self.notes.push(format!("{m}.{n}: equations without a signature"));
                continue;
            };
            let code = self.code_of(&all, scope);
            let own = &mut self.globals[*g];
            match code {
                Ok(clauses) => {
                    own.arity = clauses[0].pats.len();
                    own.is_kept = KEPT.iter().any(|x| x.0 == tail(m) && x.1 == n);
                    own.code = Code::Clauses(leak(clauses));
                }
                Err(why) => own.code = Code::None(why),
            }
        }
    }

    /// The code of a definition, or why it cannot be run: a quantifier has no value, for example.
    fn code_of(&self, equations: &[Equation], scope: &Declared) -> R<Vec<Clause>> {
        let clauses: Vec<Clause> = equations.iter().map(|(p, b)| self.clause(p, b, scope)).collect::<R<_>>()?;
        if clauses.iter().any(|c| c.pats.len() != clauses[0].pats.len()) {
            return Err("equations of different lengths".into());
        }
        match clauses.iter().find_map(|c| c.body.as_ref().err()) {
            Some(why) if clauses.iter().all(|c| c.body.is_err()) => Err(why.clone()),
            _ => Ok(clauses),
        }
    }

    /// Puts in place what is not evaluated as it stands, since that would take too long.
    fn put_in_place(&mut self) -> R<()> {
        for (m, n, arity, f) in crate::natives::IN_PLACE {
            let [g] = self.found(m, n) else { return Err(format!("{m}.{n} is run by natives.rs in another way, and is not defined once")) };
            let g = *g;
            let m = self.globals[g].module.clone();
            let own = &mut self.globals[g];
            let code = std::mem::replace(&mut own.code, Code::Native(*f));
            let old = std::mem::replace(&mut own.arity, *arity);
            // The definition itself can still be called.
            self.add_global(&m, &format!("{n}@definition"), old, code);
        }
        Ok(())
    }

    fn add_global(&mut self, m: &str, n: &str, arity: usize, code: Code) -> usize {
        let g = self.globals.len();
        self.globals.push(Global { module: m.into(), name: n.into(), arity, code, is_kept: false, calls: Cell::new(0), constant: RefCell::new(None) });
        self.by_name.insert((m.into(), n.into()), g);
        self.by_tail.entry((tail(m).into(), n.into())).or_default().push(g);
        g
    }

    /// A line `use`: the names that it brings, under the names that it gives them.
    fn add_use(&mut self, path: &str, names: &Option<Names>, alias: &Option<String>, declared: &HashMap<String, Declared>, scope: &mut Declared, m: &str) {
        let parts: Vec<&str> = path.split('.').collect();
        let ["Rattle", of, rest @ ..] = parts.as_slice() else { return };
        let rest = rest.get(1..).unwrap_or(&[]);
        if rest.first() == Some(&"declared") {
            return self.add_declared(rest, names, alias, scope, m);
        }
        if let Some(a) = alias {
            scope.insert(a.clone(), Ref::Module(rest.join(".")));
            return;
        }
        let foreign = ["std", "core", "std_alloc"].contains(of);
        for (n, local) in names.iter().flatten() {
            let found = if foreign { self.std_name(n) } else { declared.get(&rest.join(".")).and_then(|d| d.get(n)).cloned() };
            match found {
                Some(r) => {
                    scope.insert(local.clone(), r);
                }
                None if foreign => {}
                None => self.notes.push(format!("{m}: {path}.{n} is not found")),
            }
        }
    }

    /// The same of a type of the .rt files, of its variants, or of the constants.
    fn add_declared(&mut self, path: &[&str], names: &Option<Names>, alias: &Option<String>, scope: &mut Declared, m: &str) {
        let of = match path {
            [.., ty, "TheVariants"] => Some(*ty),
            _ => None,
        };
        if let Some(a) = alias {
            match (of, path.last()) {
                (Some(ty), _) => drop(scope.insert(a.clone(), Ref::Variants(ty.into()))),
                (None, Some(&"TheConstants")) => drop(scope.insert(a.clone(), Ref::Constants)),
                _ => {}
            }
        }
        for (n, local) in names.iter().flatten() {
            let found = match of {
                Some(ty) => self.variant(ty, n).map(|(s, k)| Ref::Con(s, k)),
                None => Some(Ref::Type),
            };
            match found {
                Some(r) => drop(scope.insert(local.clone(), r)),
                None => self.notes.push(format!("{m}: no variant {}.{n}", path.join("."))),
            }
        }
    }

    fn std_name(&self, n: &str) -> Option<Ref> {
        let con = |s: &str, k| Some(Ref::Con(self.sym(s), k));
        match n {
            "Some" | "Ok" | "Err" => con(n, 1),
            "None" | "Less" | "Equal" | "Greater" => con(n, 0),
            _ => self.by_name.get(&("std".to_string(), n.to_string())).map(|g| Ref::Global(*g)),
        }
    }

    pub fn variant(&self, ty: &str, n: &str) -> Option<(Sym, usize)> {
        match self.types.get(ty) {
            Some(Decl::Enum(vs)) => vs.iter().find(|v| v.0 == n).map(|v| (self.sym(n), v.1.len())),
            _ => None,
        }
    }
}

/// The files of a folder and its folders whose names end so, in order.
fn files_of(folder: &Path, ending: &str) -> Vec<PathBuf> {
    let mut found = vec![];
    for entry in std::fs::read_dir(folder).into_iter().flatten().flatten() {
        let path = entry.path();
        if path.is_dir() {
            found.extend(files_of(&path, ending));
        } else if path.extension().is_some_and(|x| x == ending) {
            found.push(path);
        }
    }
    found.sort();
    found
}
