//! Values, and the code that equations are made into. A value is evaluated when it is first looked at (`Thunk`).
use std::cell::{Cell, RefCell};
use std::collections::BTreeMap;
use std::rc::Rc;

pub type Sym = u32;

#[derive(Clone)]
pub enum Val {
    Int(i128),
    Bool(bool),
    Unit,
    Nil,
    Cons(Rc<(Val, Val)>),
    /// a long list of one value but for a few places, from an index on
    Sparse(Rc<Sparse>, usize),
    Con(Sym, Rc<Vec<Val>>),
    Rec(Rc<Rec>),
    /// a definition (or native) with some arguments
    Pap(usize, Rc<Vec<Val>>),
    ConFun(Sym, usize, Rc<Vec<Val>>),
    Clo(Rc<Clo>),
    Thunk(Rc<Thunk>),
}

pub struct Sparse {
    pub len: usize,
    pub base: Val,
    pub other: BTreeMap<usize, Val>,
}

pub struct Rec {
    pub shape: &'static Shape,
    pub fields: Vec<Val>,
}

pub struct Shape {
    pub names: Vec<Sym>,
}

impl Shape {
    pub fn at(&self, s: Sym) -> Option<usize> {
        self.names.iter().position(|x| *x == s)
    }
}

pub struct Clo {
    pub lam: &'static Lam,
    pub env: Vec<Val>,
}

pub struct Thunk {
    pub state: RefCell<State>,
}

pub enum State {
    Delay(&'static Delay, Vec<Val>),
    Apply(Val, Vec<Val>),
    Busy,
    Done(Val),
}

pub struct Lam {
    pub arity: usize,
    pub slots: usize,
    pub body: Ex,
}

pub struct Delay {
    pub captures: Vec<usize>,
    pub slots: usize,
    pub body: Ex,
}

pub enum Arg {
    /// may be evaluated at once: a value form
    Now(Box<Ex>),
    /// delayed, unless it can be had without work
    Later(Option<Box<Ex>>, &'static Delay),
}

#[derive(Clone, Copy, Debug)]
pub enum Prim {
    Add,
    Sub,
    Mul,
    Div,
    Rem,
    Pow,
    Eq,
    Lt,
    Le,
    AddZ,
    SubZ,
}

pub enum Ex {
    Const(Val),
    Var(usize),
    Glob(usize),
    Call(usize, Vec<Arg>),
    App(Box<Ex>, Vec<Arg>),
    Con(Sym, Vec<Arg>),
    Proj(Box<Ex>, Sym),
    Lam(&'static Lam, Vec<usize>),
    Let(usize, Arg, Box<Ex>),
    If(Box<Ex>, Box<Ex>, Box<Ex>),
    And(Box<Ex>, Box<Ex>),
    Or(Box<Ex>, Box<Ex>),
    /// two values are the same
    Same(Box<Ex>, Box<Ex>),
    Not(Box<Ex>),
    Prim(Prim, Box<Ex>, Box<Ex>),
    Cons(Arg, Arg),
    Append(Box<Ex>, Arg),
    Rec(&'static Shape, Vec<Arg>),
    Upd(Box<Ex>, Vec<(Sym, Arg)>),
}

pub enum Pat {
    Wild,
    Var(usize),
    Num(i128),
    Suc(Box<Pat>),
    Bool(bool),
    Nil,
    Cons(Box<Pat>, Box<Pat>),
    Con(Sym, Vec<Pat>),
    Pair(Box<Pat>, Box<Pat>),
}

pub struct Clause {
    pub pats: Vec<Pat>,
    pub slots: usize,
    pub body: Result<Ex, String>,
}

pub type Native = fn(&crate::load::Definitions, &[Val]) -> Val;

pub enum Code {
    Clauses(&'static [Clause]),
    Native(Native),
    None(String),
}

pub struct Global {
    pub module: String,
    pub name: String,
    pub arity: usize,
    pub code: Code,
    pub is_kept: bool,
    pub calls: Cell<u64>,
    pub constant: RefCell<Option<Val>>,
}
