//! The text of the .antt files: tokens, items, equations. Types are not read; an equation whose body is a type (or a
//! proof) simply does not parse, and is kept as "not executable".
use std::fmt::Debug;

#[derive(Clone, Debug, PartialEq)]
pub enum Tok {
    Id(String),
    Num(i128),
    Str(String),
    Sym(char), // ( ) { } ; , λ
    Dot,
    Proj(String),
}

#[derive(Clone, Debug)]
pub enum E {
    Var(String),
    Num(i128),
    Str(String),
    Proj(Box<E>, String),
    App(Box<E>, Vec<E>),
    Lam(Vec<String>, Box<E>),
    Let(String, Box<E>, Box<E>),
    If(Box<E>, Box<E>, Box<E>),
    Rec(Vec<(String, E)>),
    Upd(Box<E>, Vec<(String, E)>),
    Pair(Box<E>, Box<E>),
    Op(String, Box<E>, Box<E>),
}

#[derive(Clone, Debug)]
pub enum P {
    Name(String), // a variable or a constructor without arguments
    Wild,
    Num(i128),
    Con(String, Vec<P>),
    Cons(Box<P>, Box<P>),
    Pair(Box<P>, Box<P>),
}

#[derive(Debug)]
pub enum Item {
    Use {
        path: String,
        names: Option<Vec<(String, String)>>,
        alias: Option<String>,
    },
    Sig(String),
    Eqn {
        name: String,
        pats: Result<Vec<P>, String>,
        body: Result<E, String>,
    },
    /// a record; what its parameters are called, and what each of its fields says, where those are propositions
    Record(String, Vec<String>, Vec<String>, Vec<R<E>>),
    Data(String, Vec<(String, usize)>),
    Skipped,
}

fn is_delim(c: char) -> bool {
    c.is_whitespace() || "(){};,.\"λ".contains(c)
}

/// The text without comments, line by line.
pub fn uncommented(text: &str) -> String {
    let mut out = String::new();
    for l in text.lines() {
        let b: Vec<char> = l.chars().collect();
        let mut i = 0;
        let mut in_str = false;
        let mut cut = b.len();
        while i < b.len() {
            if b[i] == '"' {
                in_str = !in_str;
            }
            if !in_str
                && b[i] == '-'
                && i + 1 < b.len()
                && b[i + 1] == '-'
                && (i == 0 || b[i - 1].is_whitespace())
                && (i + 2 >= b.len() || b[i + 2].is_whitespace())
            {
                cut = i;
                break;
            }
            i += 1;
        }
        let s: String = b[..cut].iter().collect();
        out.push_str(s.trim_end());
        out.push('\n');
    }
    out
}

pub fn lex(s: &str) -> Vec<Tok> {
    let c: Vec<char> = s.chars().collect();
    let mut out = vec![];
    let mut i = 0;
    while i < c.len() {
        let x = c[i];
        if x.is_whitespace() {
            i += 1;
        } else if x == '"' {
            let mut j = i + 1;
            let mut t = String::new();
            while j < c.len() && c[j] != '"' {
                if c[j] == '\\' && j + 1 < c.len() {
                    j += 1;
                    t.push(match c[j] {
                        'n' => '\n',
                        't' => '\t',
                        'r' => '\r',
                        o => o,
                    });
                } else {
                    t.push(c[j]);
                }
                j += 1;
            }
            out.push(Tok::Str(t));
            i = j + 1;
        } else if x == '.' {
            let tight = i > 0 && !c[i - 1].is_whitespace() && !"{;,λ".contains(c[i - 1]);
            if tight && i + 1 < c.len() && !is_delim(c[i + 1]) {
                let mut j = i + 1;
                while j < c.len() && !is_delim(c[j]) {
                    j += 1;
                }
                out.push(Tok::Proj(c[i + 1..j].iter().collect()));
                i = j;
            } else {
                out.push(Tok::Dot);
                i += 1;
            }
        } else if "(){};,λ".contains(x) {
            out.push(Tok::Sym(x));
            i += 1;
        } else {
            let mut j = i;
            while j < c.len() && !is_delim(c[j]) {
                j += 1;
            }
            let w: String = c[i..j].iter().collect();
            let hex = w.strip_prefix("0x").filter(|h| !h.is_empty() && h.bytes().all(|b| b.is_ascii_hexdigit()));
            if w.bytes().all(|b| b.is_ascii_digit()) {
                out.push(Tok::Num(w.parse().expect("number")));
            } else if let Some(h) = hex {
                out.push(Tok::Num(i128::from_str_radix(h, 16).expect("number")));
            } else {
                out.push(Tok::Id(w));
            }
            i = j;
        }
    }
    out
}

type R<T> = Result<T, String>;

struct Ps {
    t: Vec<Tok>,
    i: usize,
    /// of a statement of a `do` block: what stands as `(← e)` in it, in order
    drawn: Vec<(String, E)>,
}

/// `e >>= rest`, by the operator that the module sees.
fn bound(e: E, rest: E) -> E {
    E::App(Box::new(E::Var("◌>>=◌".into())), vec![e, rest])
}

const KEYWORDS: [&str; 8] = ["let", "in", "if", "then", "else", "record", "=", ":"];

/// Binary operators with their level and whether they group to the right.
fn level(op: &str) -> Option<(u8, bool)> {
    Some(match op {
        "→" => (5, true),
        "⊎" => (6, true),
        "×" => (7, true),
        "≡" | "≢" | "<" | "≤" => (8, false),
        ">>=" => (10, false),
        "||" => (20, true),
        "&&" => (30, true),
        "==" => (40, false),
        "∷" | "++" => (50, true),
        "+" | "-" | "+ℤ" | "-ℤ" => (60, false),
        "*" | "/" | "%" | "*ℤ" => (70, false),
        "^" => (80, true),
        _ => return None,
    })
}

impl Ps {
    fn peek(&self) -> Option<&Tok> {
        self.t.get(self.i)
    }
    fn is_id(&self, w: &str) -> bool {
        matches!(self.peek(), Some(Tok::Id(x)) if x == w)
    }
    fn is_sym(&self, c: char) -> bool {
        matches!(self.peek(), Some(Tok::Sym(x)) if *x == c)
    }
    fn eat_id(&mut self, w: &str) -> R<()> {
        if self.is_id(w) {
            self.i += 1;
            Ok(())
        } else {
            Err(format!("wanted `{w}`, found {:?}", self.peek()))
        }
    }
    fn eat_sym(&mut self, c: char) -> R<()> {
        if self.is_sym(c) {
            self.i += 1;
            Ok(())
        } else {
            Err(format!("wanted `{c}`, found {:?}", self.peek()))
        }
    }
    fn word(&mut self) -> R<String> {
        match self.peek() {
            Some(Tok::Id(x)) => {
                let x = x.clone();
                self.i += 1;
                Ok(x)
            }
            Some(Tok::Num(n)) => {
                let x = n.to_string();
                self.i += 1;
                Ok(x)
            }
            x => Err(format!("wanted a name, found {x:?}")),
        }
    }

    fn expr(&mut self) -> R<E> {
        self.binary(0)
    }

    fn binary(&mut self, min: u8) -> R<E> {
        let mut left = self.app()?;
        loop {
            let Some(Tok::Id(op)) = self.peek() else { return Ok(left) };
            let Some((l, right_assoc)) = level(op) else { return Ok(left) };
            if l < min {
                return Ok(left);
            }
            let op = op.clone();
            self.i += 1;
            let right = self.binary(if right_assoc { l } else { l + 1 })?;
            left = if op == ">>=" { bound(left, right) } else { E::Op(op, Box::new(left), Box::new(right)) };
        }
    }

    fn app(&mut self) -> R<E> {
        if self.is_id("let") {
            self.i += 1;
            let n = self.word()?;
            self.eat_id("=")?;
            let v = self.expr()?;
            self.eat_id("in")?;
            let b = self.expr()?;
            return Ok(E::Let(n, Box::new(v), Box::new(b)));
        }
        if self.is_id("if") {
            self.i += 1;
            let c = self.expr()?;
            self.eat_id("then")?;
            let t = self.expr()?;
            self.eat_id("else")?;
            let e = self.expr()?;
            return Ok(E::If(Box::new(c), Box::new(t), Box::new(e)));
        }
        let head = self.atom()?;
        let mut args = vec![];
        while self.at_atom() {
            args.push(self.atom()?);
        }
        Ok(if args.is_empty() { head } else { E::App(Box::new(head), args) })
    }

    fn at_atom(&self) -> bool {
        match self.peek() {
            Some(Tok::Id(x)) => x == "record" || (!KEYWORDS.contains(&x.as_str()) && level(x).is_none()),
            Some(Tok::Num(_)) | Some(Tok::Str(_)) => true,
            Some(Tok::Sym(c)) => *c == '(' || *c == 'λ',
            _ => false,
        }
    }

    fn fields(&mut self) -> R<Vec<(String, E)>> {
        self.eat_sym('{')?;
        let mut out = vec![];
        while !self.is_sym('}') {
            let n = self.word()?;
            self.eat_id("=")?;
            out.push((n, self.expr()?));
            if self.is_sym(';') {
                self.i += 1;
            }
        }
        self.eat_sym('}')?;
        Ok(out)
    }

    fn atom(&mut self) -> R<E> {
        let mut e = match self.peek().cloned() {
            Some(Tok::Id(x)) if x == "record" => {
                self.i += 1;
                if self.is_sym('{') {
                    E::Rec(self.fields()?)
                } else {
                    let base = self.atom()?;
                    return Ok(E::Upd(Box::new(base), self.fields()?));
                }
            }
            Some(Tok::Id(x)) if !KEYWORDS.contains(&x.as_str()) && level(&x).is_none() => {
                self.i += 1;
                // the level of `Unit {0}`
                if x == "Unit" && self.is_sym('{') {
                    while self.i < self.t.len() && !self.is_sym('}') {
                        self.i += 1;
                    }
                    self.eat_sym('}')?;
                }
                E::Var(x)
            }
            Some(Tok::Num(n)) => {
                self.i += 1;
                E::Num(n)
            }
            Some(Tok::Str(s)) => {
                self.i += 1;
                E::Str(s)
            }
            Some(Tok::Sym('λ')) => {
                self.i += 1;
                let mut ps = vec![];
                while !matches!(self.peek(), Some(Tok::Dot)) {
                    if self.is_sym('(') {
                        self.i += 1;
                        ps.push(self.word()?);
                        while !self.is_sym(')') {
                            self.i += 1;
                            if self.i >= self.t.len() {
                                return Err("open (".into());
                            }
                        }
                        self.i += 1;
                    } else {
                        ps.push(self.word()?);
                    }
                }
                self.i += 1;
                return Ok(E::Lam(ps, Box::new(self.expr()?)));
            }
            Some(Tok::Sym('(')) => {
                self.i += 1;
                if self.is_id("←") {
                    self.i += 1;
                    let e = self.expr()?;
                    self.eat_sym(')')?;
                    // no name of a definition begins so
                    let n = format!("←{}", self.i);
                    self.drawn.push((n.clone(), e));
                    return Ok(E::Var(n));
                }
                let mut all = vec![self.expr()?];
                while self.is_sym(',') {
                    self.i += 1;
                    if !self.is_sym(')') {
                        all.push(self.expr()?);
                    }
                }
                self.eat_sym(')')?;
                match all.len() {
                    1 => all.pop().unwrap(),
                    2 => {
                        let b = all.pop().unwrap();
                        E::Pair(Box::new(all.pop().unwrap()), Box::new(b))
                    }
                    _ => E::Rec(all.into_iter().enumerate().map(|(i, e)| (i.to_string(), e)).collect()),
                }
            }
            x => return Err(format!("no expression: {x:?}")),
        };
        while let Some(Tok::Proj(f)) = self.peek().cloned() {
            self.i += 1;
            e = E::Proj(Box::new(e), f);
        }
        Ok(e)
    }

    fn pat_atom(&mut self) -> R<P> {
        match self.peek().cloned() {
            Some(Tok::Id(x)) => {
                self.i += 1;
                let mut n = x;
                while let Some(Tok::Proj(f)) = self.peek().cloned() {
                    self.i += 1;
                    n = format!("{n}.{f}");
                }
                Ok(if n == "_" { P::Wild } else { P::Name(n) })
            }
            Some(Tok::Num(n)) => {
                self.i += 1;
                Ok(P::Num(n))
            }
            Some(Tok::Sym('(')) => {
                self.i += 1;
                let p = self.pat()?;
                self.eat_sym(')')?;
                Ok(p)
            }
            x => Err(format!("no pattern: {x:?}")),
        }
    }

    fn pat(&mut self) -> R<P> {
        let head = self.pat_atom()?;
        let mut args = vec![];
        while matches!(self.peek(), Some(Tok::Id(x)) if x != "∷") || matches!(self.peek(), Some(Tok::Num(_))) || self.is_sym('(') {
            args.push(self.pat_atom()?);
        }
        let p = if args.is_empty() {
            head
        } else {
            match head {
                P::Name(n) => P::Con(n, args),
                _ => return Err("no constructor".into()),
            }
        };
        if self.is_id("∷") {
            self.i += 1;
            return Ok(P::Cons(Box::new(p), Box::new(self.pat()?)));
        }
        if self.is_sym(',') {
            self.i += 1;
            return Ok(P::Pair(Box::new(p), Box::new(self.pat()?)));
        }
        Ok(p)
    }
}

fn parse_statement(t: Vec<Tok>) -> R<(Vec<(String, E)>, E)> {
    let mut p = Ps { t, i: 0, drawn: vec![] };
    let e = p.expr()?;
    if p.i < p.t.len() {
        return Err(format!("left over: {:?}", p.t[p.i]));
    }
    Ok((p.drawn, e))
}

fn parse_expr(t: Vec<Tok>) -> R<E> {
    let (drawn, e) = parse_statement(t)?;
    if drawn.is_empty() { Ok(e) } else { Err("`←` outside a `do` block".into()) }
}

/// What stands after the `do` of a definition.
fn after_do(c: &str) -> &str {
    let body = c.match_indices(" =").map(|(i, _)| c[i + 2..].trim_start()).find(|b| b.starts_with("do") && b[2..].starts_with(char::is_whitespace));
    body.map_or("", |b| &b[2..])
}

/// A `do` block, which goes to the end of its definition: one statement on the line of the `do`, or one a line below it,
/// where a line that stands further in goes on with the one before.
fn parse_do(text: &str) -> R<E> {
    let (first, rest) = text.split_once('\n').unwrap_or((text, ""));
    let mut lines: Vec<String> = vec![];
    if first.trim().is_empty() {
        let inner = rest.lines().next().map_or(0, |l| l.len() - l.trim_start().len());
        for l in rest.lines() {
            match lines.last_mut() {
                Some(s) if l.len() - l.trim_start().len() > inner => s.push_str(&format!("\n{l}")),
                _ => lines.push(l.into()),
            }
        }
    } else {
        lines.push(text.into());
    }
    let mut out: Option<E> = None;
    for (k, l) in lines.iter().enumerate().rev() {
        let mut t = lex(l);
        let name = match t.as_slice() {
            [Tok::Id(n), Tok::Id(a), ..] if a == "←" => Some(n.clone()),
            _ => None,
        };
        if name.is_some() {
            t.drain(..2);
        }
        let (drawn, e) = parse_statement(t)?;
        let mut e = match (name, out.take()) {
            (Some(n), Some(rest)) => bound(e, E::Lam(vec![n], Box::new(rest))),
            (None, None) => e,
            _ => return Err(format!("statement {k} of a `do` block")),
        };
        for (n, d) in drawn.into_iter().rev() {
            e = bound(d, E::Lam(vec![n], Box::new(e)));
        }
        out = Some(e);
    }
    out.ok_or_else(|| "an empty `do` block".into())
}

fn parse_pats(t: Vec<Tok>) -> R<Vec<P>> {
    let mut p = Ps { t, i: 0, drawn: vec![] };
    let mut out = vec![];
    while p.i < p.t.len() {
        out.push(p.pat_atom()?);
    }
    Ok(out)
}

fn parse_use(c: &str) -> Item {
    let s = c.trim().trim_start_matches("pub ").trim_start_matches("use ").trim();
    if let Some(i) = s.find(".{") {
        let path = s[..i].to_string();
        let inner = s[i + 2..].trim_end().trim_end_matches('}');
        let names = inner
            .split(',')
            .map(|n| {
                let w: Vec<&str> = n.split_whitespace().collect();
                match w.as_slice() {
                    [a, "as", b] => (a.to_string(), b.to_string()),
                    [a, ..] => (a.to_string(), a.to_string()),
                    [] => (String::new(), String::new()),
                }
            })
            .filter(|x| !x.0.is_empty())
            .collect();
        Item::Use { path, names: Some(names), alias: None }
    } else {
        let w: Vec<&str> = s.split_whitespace().collect();
        let alias = if w.len() == 3 && w[1] == "as" { Some(w[2].to_string()) } else { None };
        Item::Use { path: w[0].to_string(), names: None, alias }
    }
}

/// How many arguments a constructor with this type takes: its arrows outside all brackets.
fn arrows(ty: &str) -> usize {
    let mut depth = 0;
    let mut n = 0;
    for c in ty.chars() {
        match c {
            '(' | '{' => depth += 1,
            ')' | '}' => depth -= 1,
            '→' if depth == 0 => n += 1,
            _ => {}
        }
    }
    n
}

pub fn items(text: &str) -> Vec<Item> {
    let text = uncommented(text);
    let mut chunks: Vec<String> = vec![];
    for l in text.lines() {
        if l.trim().is_empty() {
            continue;
        }
        if l.starts_with([' ', '}', ')']) {
            if let Some(c) = chunks.last_mut() {
                c.push('\n');
                c.push_str(l);
            }
        } else {
            chunks.push(l.to_string());
        }
    }
    chunks.iter().map(|c| item(c)).collect()
}

fn item(c: &str) -> Item {
    let first: Vec<&str> = c.split_whitespace().collect();
    let at = |i: usize| first.get(i).copied().unwrap_or("");
    if at(0) == "use" || (at(0) == "pub" && at(1) == "use") {
        return parse_use(c);
    }
    let rest = c.trim_start_matches("pub ");
    let w: Vec<&str> = rest.split_whitespace().collect();
    match w[0] {
        "mod" | "module" | "mutual" | "infix" | "infixl" | "infixr" => return Item::Skipped,
        "abbrev" | "unfoldable" | "opaque" => {
            let n = if w[1] == "pub" { w[2] } else { w[1] };
            return Item::Sig(n.to_string());
        }
        "record" => {
            let (head, body) = c.split_once(" where").unwrap_or((c, ""));
            // fields begin with `pub`, and may go on on lines that stand further in
            let mut fields: Vec<(String, String)> = vec![];
            for l in body.lines() {
                match (l.trim().strip_prefix("pub ").and_then(|x| x.split_once(" : ")), fields.last_mut()) {
                    (Some((n, t)), _) => fields.push((n.trim().into(), t.into())),
                    (None, Some(f)) => f.1.push_str(&format!("\n{l}")),
                    _ => {}
                }
            }
            let (names, says): (Vec<String>, Vec<R<E>>) = fields.into_iter().map(|(n, t)| (n, parse_expr(lex(&t)))).unzip();
            let mut params = vec![];
            for p in head.split('(').skip(1) {
                if let Some((ns, _)) = p.split_once(" : ") {
                    params.extend(ns.split_whitespace().map(String::from));
                }
            }
            return Item::Record(w[1].into(), names, params, says);
        }
        "data" => {
            let cons = c.lines().skip(1).filter_map(|l| l.trim().split_once(" : ").map(|(n, t)| (n.trim().to_string(), arrows(t)))).collect();
            return Item::Data(w[1].into(), cons);
        }
        _ => {}
    }
    let toks = lex(c);
    let mut depth = 0;
    let mut eq = None;
    for (i, t) in toks.iter().enumerate() {
        match t {
            Tok::Sym('(') | Tok::Sym('{') => depth += 1,
            Tok::Sym(')') | Tok::Sym('}') => depth -= 1,
            Tok::Id(x) if x == "=" && depth == 0 => {
                eq = Some(i);
                break;
            }
            Tok::Id(x) if x == ":" && depth == 0 => return Item::Skipped,
            _ => {}
        }
    }
    let (Some(eq), Some(Tok::Id(name))) = (eq, toks.first()) else { return Item::Skipped };
    let body = match &toks[eq + 1..] {
        [Tok::Id(d), ..] if d == "do" => parse_do(after_do(c)),
        t => parse_expr(t.to_vec()),
    };
    // `x op y = ..`
    if let (Tok::Id(op), 3) = (&toks[1], eq) {
        if level(op).is_some() {
            let (x, y) = (toks[0].clone(), toks[2].clone());
            return Item::Eqn { name: format!("◌{op}◌"), pats: parse_pats(vec![x, y]), body };
        }
    }
    Item::Eqn { name: name.clone(), pats: parse_pats(toks[1..eq].to_vec()), body }
}

// ---- the data types of the .rt files

#[derive(Debug, Clone)]
pub enum Decl {
    Struct(Vec<String>),
    Enum(Vec<(String, Vec<String>)>),
}

/// The constants of a .rt file that are plain numbers.
pub fn rt_constants(text: &str) -> Vec<(String, i128)> {
    let number = |v: &str| {
        let v = v.trim().replace('_', "");
        match v.strip_prefix("0x") {
            Some(h) => i128::from_str_radix(h, 16).ok(),
            None => v.parse().ok(),
        }
    };
    let constant = |l: &str| {
        let (name, rest) = l.trim().strip_prefix("pub const ")?.split_once(':')?;
        Some((name.trim().to_string(), number(rest.split_once('=')?.1.trim().trim_end_matches(';'))?))
    };
    text.lines().filter_map(constant).collect()
}

/// Structs and enums of a .rt file, with the names of their fields ("0", "1" where they have none).
pub fn rt_types(text: &str) -> Vec<(String, Decl)> {
    let clean: String = text.lines().map(|l| l.split("//").next().unwrap()).filter(|l| !l.trim().starts_with("#[")).collect::<Vec<_>>().join("\n");
    let mut out = vec![];
    let b: Vec<char> = clean.chars().collect();
    let word = |i: usize| -> String { b[i..].iter().take_while(|c| c.is_alphanumeric() || **c == '_').collect() };
    let close = |i: usize| -> usize {
        let mut d = 0;
        let mut j = i;
        loop {
            match b[j] {
                '(' | '{' | '[' => d += 1,
                ')' | '}' | ']' => {
                    d -= 1;
                    if d == 0 {
                        return j;
                    }
                }
                _ => {}
            }
            j += 1;
        }
    };
    // parts of a text at commas outside brackets
    fn parts(s: &str) -> Vec<String> {
        let mut d = 0;
        let mut out = vec![String::new()];
        for c in s.chars() {
            match c {
                '(' | '{' | '[' | '<' => d += 1,
                ')' | '}' | ']' | '>' => d -= 1,
                _ => {}
            }
            if c == ',' && d == 0 {
                out.push(String::new());
            } else {
                out.last_mut().unwrap().push(c);
            }
        }
        out.into_iter().map(|x| x.trim().to_string()).filter(|x| !x.is_empty()).collect()
    }
    fn field_names(s: &str, tuple: bool) -> Vec<String> {
        parts(s)
            .iter()
            .enumerate()
            .map(|(i, p)| if tuple { i.to_string() } else { p.trim_start_matches("pub ").split(':').next().unwrap().trim().to_string() })
            .collect()
    }
    for kw in ["pub struct ", "pub enum "] {
        let k: Vec<char> = kw.chars().collect();
        for i in 0..b.len().saturating_sub(k.len()) {
            if b[i..i + k.len()] != k[..] {
                continue;
            }
            let n = word(i + k.len());
            let mut j = i + k.len() + n.chars().count();
            while b[j] != '(' && b[j] != '{' && b[j] != ';' {
                j += 1;
            }
            if b[j] == ';' {
                continue;
            }
            let inner: String = b[j + 1..close(j)].iter().collect();
            if kw == "pub struct " {
                out.push((n, Decl::Struct(field_names(&inner, b[j] == '('))));
            } else {
                let vs = parts(&inner)
                    .iter()
                    .map(|v| {
                        let name: String = v.chars().take_while(|c| c.is_alphanumeric() || *c == '_').collect();
                        let rest = v[name.len()..].trim();
                        let fs =
                            if rest.starts_with('(') || rest.starts_with('{') { field_names(&rest[1..rest.len() - 1], rest.starts_with('(')) } else { vec![] };
                        (name, fs)
                    })
                    .collect();
                out.push((n, Decl::Enum(vs)));
            }
        }
    }
    out
}
