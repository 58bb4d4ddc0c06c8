//! The same definitions in plain Rust: programs as trees, states as vectors. Compared with the proved code in answers and in time.

pub const LIMIT: u64 = 1 << 32;
pub const TOP: u64 = LIMIT - 1;

pub enum Expr {
    Num(u64),
    Var(usize),
    Bin(u8, Box<Expr>, Box<Expr>),
    Element(usize, Box<Expr>),
}

pub enum Test {
    Less(Expr, Expr),
    Equal(Expr, Expr),
    Not(Box<Test>),
    And(Box<Test>, Box<Test>),
    Or(Box<Test>, Box<Test>),
}

pub enum Stmt {
    Skip,
    Assign(u64, usize, Expr),
    Store(u64, usize, Expr, Expr),
    Input(usize, u64, u64),
    Check(u64, Test),
    Seq(Box<Stmt>, Box<Stmt>),
    Branch(u64, Test, Box<Stmt>, Box<Stmt>),
    Loop(u64, Test, Box<Stmt>),
}

pub struct Program {
    pub vars: usize,
    pub arrays: Vec<u64>,
    pub body: Stmt,
}

/// Reads and validates at once; `None` for whatever is no valid program.
struct Reader<'a> {
    text: &'a [u8],
    pos: usize,
    vars: usize,
    arrays: usize,
    next: u64,
}

impl Reader<'_> {
    fn byte(&mut self) -> Option<u8> {
        let b = *self.text.get(self.pos)?;
        self.pos += 1;
        Some(b)
    }

    fn eight(&mut self) -> Option<u64> {
        let b = self.text.get(self.pos..self.pos + 8)?;
        self.pos += 8;
        Some(u64::from_be_bytes(b.try_into().ok()?))
    }

    fn var(&mut self) -> Option<usize> {
        let x = self.byte()? as usize;
        (x < self.vars).then_some(x)
    }

    fn array(&mut self) -> Option<usize> {
        let r = self.byte()? as usize;
        (r < self.arrays).then_some(r)
    }

    fn number(&mut self) -> Option<u64> {
        let n = self.eight()?;
        (n < LIMIT).then_some(n)
    }

    fn expr(&mut self) -> Option<Expr> {
        Some(match self.byte()? {
            0 => Expr::Num(self.number()?),
            1 => Expr::Var(self.var()?),
            2 => {
                let op = self.byte()?;
                if op >= 5 {
                    return None;
                }
                Expr::Bin(op, Box::new(self.expr()?), Box::new(self.expr()?))
            }
            3 => Expr::Element(self.array()?, Box::new(self.expr()?)),
            _ => return None,
        })
    }

    fn test(&mut self, room: &mut u32) -> Option<Test> {
        *room = room.checked_sub(1)?;
        Some(match self.byte()? {
            0 => Test::Less(self.expr()?, self.expr()?),
            1 => Test::Equal(self.expr()?, self.expr()?),
            2 => Test::Not(Box::new(self.test(room)?)),
            3 => Test::And(Box::new(self.test(room)?), Box::new(self.test(room)?)),
            4 => Test::Or(Box::new(self.test(room)?), Box::new(self.test(room)?)),
            _ => return None,
        })
    }

    fn condition(&mut self) -> Option<Test> {
        let mut room = 63;
        self.test(&mut room)
    }

    fn stmt_number(&mut self) -> Option<u64> {
        let p = self.eight()?;
        if p != self.next {
            return None;
        }
        self.next += 1;
        Some(p)
    }

    fn stmt(&mut self, nesting: u32, loops: u32) -> Option<Stmt> {
        Some(match self.byte()? {
            0 => Stmt::Skip,
            1 => Stmt::Assign(self.stmt_number()?, self.var()?, self.expr()?),
            2 => Stmt::Store(self.stmt_number()?, self.array()?, self.expr()?, self.expr()?),
            3 => {
                self.stmt_number()?;
                let x = self.var()?;
                let (a, b) = (self.eight()?, self.number()?);
                if a > b {
                    return None;
                }
                Stmt::Input(x, a, b)
            }
            4 => Stmt::Check(self.stmt_number()?, self.condition()?),
            5 => Stmt::Seq(Box::new(self.stmt(nesting, loops)?), Box::new(self.stmt(nesting, loops)?)),
            6 => {
                let deeper = nesting.checked_sub(1)?;
                let p = self.stmt_number()?;
                let t = self.condition()?;
                Stmt::Branch(p, t, Box::new(self.stmt(deeper, loops)?), Box::new(self.stmt(deeper, loops)?))
            }
            7 => {
                let deeper = nesting.checked_sub(1)?;
                let fewer = loops.checked_sub(1)?;
                let p = self.stmt_number()?;
                let t = self.condition()?;
                Stmt::Loop(p, t, Box::new(self.stmt(deeper, fewer)?))
            }
            _ => return None,
        })
    }
}

pub fn read_program(text: &[u8]) -> Option<Program> {
    if text.len() > 32768 {
        return None;
    }
    let mut r = Reader { text, pos: 0, vars: 0, arrays: 0, next: 1 };
    r.vars = r.byte()? as usize;
    let count = r.eight()?;
    if r.vars > 64 || count > 16 {
        return None;
    }
    let mut arrays = Vec::new();
    for _ in 0..count {
        let n = r.eight()?;
        if n < 1 || n > 65536 {
            return None;
        }
        arrays.push(n);
    }
    r.arrays = arrays.len();
    let body = r.stmt(32, 3)?;
    (r.pos == text.len()).then_some(Program { vars: r.vars, arrays, body })
}

#[derive(Clone, Copy, PartialEq)]
pub struct Interval {
    pub lo: u64,
    pub hi: u64,
}

#[derive(Clone)]
pub struct Env {
    pub values: Vec<Interval>,
    pub arrays: Vec<Interval>,
}

type State = Option<Env>;

/// Kinds of faults as bits 0 to 3.
type Faults = u8;

fn capped(lo: u64, hi: u64) -> (Option<Interval>, Faults) {
    if hi < LIMIT {
        (Some(Interval { lo, hi }), 0)
    } else if lo < LIMIT {
        (Some(Interval { lo, hi: TOP }), 1)
    } else {
        (None, 1)
    }
}

fn apply(op: u8, a: Interval, b: Interval) -> (Option<Interval>, Faults) {
    match op {
        0 => capped(a.lo + b.lo, a.hi + b.hi),
        1 => {
            if a.hi < b.lo {
                (None, 1)
            } else {
                let r = Interval { lo: a.lo.saturating_sub(b.hi), hi: a.hi - b.lo };
                (Some(r), if b.hi <= a.lo { 0 } else { 1 })
            }
        }
        2 => capped(a.lo * b.lo, a.hi * b.hi),
        _ => {
            if b.hi == 0 {
                return (None, 2);
            }
            let (c, d) = (b.lo.max(1), b.hi);
            let r = if op == 3 {
                Interval { lo: a.lo / d, hi: a.hi / c }
            } else if a.hi < c {
                a
            } else {
                Interval { lo: 0, hi: a.hi.min(d - 1) }
            };
            (Some(r), if b.lo == 0 { 2 } else { 0 })
        }
    }
}

fn eval(ns: &[u64], w: &Env, e: &Expr) -> (Option<Interval>, Faults) {
    match e {
        Expr::Num(n) => capped(*n, *n),
        Expr::Var(x) => (Some(w.values[*x]), 0),
        Expr::Bin(op, a, b) => {
            let (sa, fa) = eval(ns, w, a);
            let Some(sa) = sa else { return (None, fa) };
            let (sb, fb) = eval(ns, w, b);
            let Some(sb) = sb else { return (None, fa | fb) };
            let (s, f) = apply(*op, sa, sb);
            (s, fa | fb | f)
        }
        Expr::Element(r, a) => {
            let (sa, fa) = eval(ns, w, a);
            let Some(sa) = sa else { return (None, fa) };
            let n = ns[*r];
            if sa.hi < n {
                (Some(w.arrays[*r]), fa)
            } else if sa.lo < n {
                (Some(w.arrays[*r]), fa | 4)
            } else {
                (None, fa | 4)
            }
        }
    }
}

fn join_interval(a: Interval, b: Interval) -> Interval {
    Interval { lo: a.lo.min(b.lo), hi: a.hi.max(b.hi) }
}

fn join(h: State, g: State) -> State {
    match (h, g) {
        (None, g) => g,
        (h, None) => h,
        (Some(mut w), Some(v)) => {
            for (a, b) in w.values.iter_mut().zip(&v.values).chain(w.arrays.iter_mut().zip(&v.arrays)) {
                *a = join_interval(*a, *b);
            }
            Some(w)
        }
    }
}

fn within(h: &State, g: &State) -> bool {
    match (h, g) {
        (None, _) => true,
        (Some(_), None) => false,
        (Some(w), Some(v)) => {
            let inside = |a: &Interval, b: &Interval| b.lo <= a.lo && a.hi <= b.hi;
            w.values.iter().zip(&v.values).all(|(a, b)| inside(a, b)) && w.arrays.iter().zip(&v.arrays).all(|(a, b)| inside(a, b))
        }
    }
}

fn above(n: u64, ms: &[u64]) -> u64 {
    let i = ms.partition_point(|m| *m < n);
    ms.get(i).copied().unwrap_or(TOP)
}

fn below(n: u64, ms: &[u64]) -> u64 {
    let i = ms.partition_point(|m| *m <= n);
    if i == 0 { 0 } else { ms[i - 1] }
}

fn widen(ms: &[u64], h: State, g: State) -> State {
    match (h, g) {
        (None, g) => g,
        (h, None) => h,
        (Some(mut w), Some(v)) => {
            for (a, b) in w.values.iter_mut().zip(&v.values).chain(w.arrays.iter_mut().zip(&v.arrays)) {
                if b.lo < a.lo {
                    a.lo = below(b.lo, ms);
                }
                if a.hi < b.hi {
                    a.hi = above(b.hi, ms);
                }
            }
            Some(w)
        }
    }
}

fn cut(e: &Expr, mut w: Env, lo: u64, hi: u64) -> State {
    if let Expr::Var(x) = e {
        let a = w.values[*x];
        let r = Interval { lo: a.lo.max(lo), hi: a.hi.min(hi) };
        if r.lo > r.hi {
            return None;
        }
        w.values[*x] = r;
    }
    Some(w)
}

fn cut_both(a: &Expr, b: &Expr, w: &Env, s: (u64, u64), t: (u64, u64)) -> State {
    cut(b, cut(a, w.clone(), s.0, s.1)?, t.0, t.1)
}

struct Ways {
    yes: State,
    no: State,
    faults: Faults,
}

const NOWHERE: Ways = Ways { yes: None, no: None, faults: 0 };

fn test(ns: &[u64], w: &Env, t: &Test) -> Ways {
    match t {
        Test::Less(a, b) | Test::Equal(a, b) => {
            let (sa, fa) = eval(ns, w, a);
            let Some(s) = sa else { return Ways { faults: fa, ..NOWHERE } };
            let (sb, fb) = eval(ns, w, b);
            let faults = fa | fb;
            let Some(u) = sb else { return Ways { faults, ..NOWHERE } };
            if let Test::Less(..) = t {
                let yes = if s.lo < u.hi { cut_both(a, b, w, (0, u.hi - 1), (s.lo + 1, u.hi)) } else { None };
                let no = if u.lo <= s.hi { cut_both(a, b, w, (u.lo, s.hi), (0, s.hi)) } else { None };
                Ways { yes, no, faults }
            } else {
                let (lo, hi) = (s.lo.max(u.lo), s.hi.min(u.hi));
                let yes = if lo <= hi { cut_both(a, b, w, (lo, hi), (lo, hi)) } else { None };
                let no = if s.lo == s.hi && u.lo == u.hi && s.lo == u.lo { None } else { Some(w.clone()) };
                Ways { yes, no, faults }
            }
        }
        Test::Not(t) => {
            let Ways { yes, no, faults } = test(ns, w, t);
            Ways { yes: no, no: yes, faults }
        }
        Test::And(t, u) => {
            let a = test(ns, w, t);
            let b = a.yes.as_ref().map_or(NOWHERE, |v| test(ns, v, u));
            Ways { yes: b.yes, no: join(a.no, b.no), faults: a.faults | b.faults }
        }
        Test::Or(t, u) => {
            let a = test(ns, w, t);
            let b = a.no.as_ref().map_or(NOWHERE, |v| test(ns, v, u));
            Ways { yes: join(a.yes, b.yes), no: b.no, faults: a.faults | b.faults }
        }
    }
}

struct Task<'a> {
    ns: &'a [u64],
    ms: &'a [u64],
    rounds: u64,
}

fn mark(alarms: &mut Option<&mut Vec<Faults>>, p: u64, f: Faults) {
    if let Some(table) = alarms {
        table[p as usize] |= f;
    }
}

fn analyse(task: &Task, d: &Stmt, h: State, alarms: &mut Option<&mut Vec<Faults>>) -> State {
    let mut w = h?;
    match d {
        Stmt::Skip => Some(w),
        Stmt::Assign(p, x, e) => {
            let (s, f) = eval(task.ns, &w, e);
            mark(alarms, *p, f);
            w.values[*x] = s?;
            Some(w)
        }
        Stmt::Store(p, r, a, e) => {
            let (i, fa) = eval(task.ns, &w, a);
            mark(alarms, *p, fa);
            let i = i?;
            let (v, fe) = eval(task.ns, &w, e);
            mark(alarms, *p, fe);
            let v = v?;
            let n = task.ns[*r];
            if i.hi >= n {
                mark(alarms, *p, 4);
            }
            if i.lo >= n {
                return None;
            }
            w.arrays[*r] = join_interval(w.arrays[*r], v);
            Some(w)
        }
        Stmt::Input(x, a, b) => {
            w.values[*x] = Interval { lo: *a, hi: (*a).max(*b) };
            Some(w)
        }
        Stmt::Check(p, t) => {
            let ways = test(task.ns, &w, t);
            mark(alarms, *p, ways.faults | if ways.no.is_some() { 8 } else { 0 });
            ways.yes
        }
        Stmt::Seq(a, b) => {
            let mid = analyse(task, a, Some(w), alarms);
            analyse(task, b, mid, alarms)
        }
        Stmt::Branch(p, t, a, b) => {
            let ways = test(task.ns, &w, t);
            mark(alarms, *p, ways.faults);
            let x = analyse(task, a, ways.yes, alarms);
            let y = analyse(task, b, ways.no, alarms);
            join(x, y)
        }
        Stmt::Loop(p, t, a) => {
            let before = Some(w);
            let inv = iterate(task, t, a, &before);
            let w = inv?;
            let ways = test(task.ns, &w, t);
            mark(alarms, *p, ways.faults);
            if alarms.is_some() {
                analyse(task, a, ways.yes, alarms);
            }
            ways.no
        }
    }
}

fn iterate(task: &Task, t: &Test, a: &Stmt, before: &State) -> State {
    let mut inv = before.clone();
    for i in 0..task.rounds {
        let yes = inv.as_ref().and_then(|w| test(task.ns, w, t).yes);
        let next = join(before.clone(), analyse(task, a, yes, &mut None));
        if within(&next, &inv) {
            break;
        }
        let joined = join(inv.clone(), next);
        inv = if i < 4 { joined } else { widen(task.ms, inv, joined) };
    }
    inv
}

fn expr_thresholds(e: &Expr, ms: &mut Vec<u64>) {
    match e {
        Expr::Num(n) => ms.extend([n.saturating_sub(1), *n, n + 1]),
        Expr::Var(_) => {}
        Expr::Bin(_, a, b) => {
            expr_thresholds(a, ms);
            expr_thresholds(b, ms);
        }
        Expr::Element(_, a) => expr_thresholds(a, ms),
    }
}

fn test_thresholds(t: &Test, ms: &mut Vec<u64>) {
    match t {
        Test::Less(a, b) | Test::Equal(a, b) => {
            expr_thresholds(a, ms);
            expr_thresholds(b, ms);
        }
        Test::Not(t) => test_thresholds(t, ms),
        Test::And(t, u) | Test::Or(t, u) => {
            test_thresholds(t, ms);
            test_thresholds(u, ms);
        }
    }
}

fn stmt_thresholds(d: &Stmt, ms: &mut Vec<u64>) {
    match d {
        Stmt::Skip => {}
        Stmt::Assign(_, _, e) => expr_thresholds(e, ms),
        Stmt::Store(_, _, a, e) => {
            expr_thresholds(a, ms);
            expr_thresholds(e, ms);
        }
        Stmt::Input(_, a, b) => ms.extend([*a, *b]),
        Stmt::Check(_, t) => test_thresholds(t, ms),
        Stmt::Seq(a, b) => {
            stmt_thresholds(a, ms);
            stmt_thresholds(b, ms);
        }
        Stmt::Branch(_, t, a, b) => {
            test_thresholds(t, ms);
            stmt_thresholds(a, ms);
            stmt_thresholds(b, ms);
        }
        Stmt::Loop(_, t, a) => {
            test_thresholds(t, ms);
            stmt_thresholds(a, ms);
        }
    }
}

/// The analyser with a program loaded: what the proved machine is compared with.
pub struct Session {
    vars: usize,
    out: State,
    alarms: Vec<Faults>,
}

impl Session {
    pub fn new() -> Session {
        Session { vars: 0, out: Some(Env { values: vec![], arrays: vec![] }), alarms: vec![] }
    }

    fn load(&mut self, p: Program) {
        let mut ms = Vec::new();
        stmt_thresholds(&p.body, &mut ms);
        for n in &p.arrays {
            ms.extend([n - 1, *n]);
        }
        ms.retain(|m| *m < LIMIT);
        let rounds = 5 + 2 * (p.vars + p.arrays.len()) as u64 * (2 + ms.len() as u64);
        ms.sort_unstable();
        let zero = Interval { lo: 0, hi: 0 };
        let begin = Env { values: vec![zero; p.vars], arrays: vec![zero; p.arrays.len()] };
        let mut alarms = vec![0; 2731];
        let task = Task { ns: &p.arrays, ms: &ms, rounds };
        let out = analyse(&task, &p.body, Some(begin), &mut Some(&mut alarms));
        *self = Session { vars: p.vars, out, alarms };
    }

    /// The rows that are shown, and 0 or the refusal.
    pub fn tell(&mut self, text: &[u8]) -> (Vec<Vec<u8>>, u64) {
        let mut rows = Vec::new();
        match text {
            [1, program @ ..] => match read_program(program) {
                Some(p) => self.load(p),
                None => return (rows, 1),
            },
            [2] => {
                for (p, f) in self.alarms.iter().enumerate() {
                    for k in 0..4 {
                        if f >> k & 1 == 1 {
                            let mut row = (p as u64).to_be_bytes().to_vec();
                            row.push(k + 1);
                            rows.push(row);
                        }
                    }
                }
            }
            [3, x] if *x < 64 => {
                if *x as usize >= self.vars {
                    return (rows, 3);
                }
                if let Some(w) = &self.out {
                    let s = w.values[*x as usize];
                    rows.push([s.lo.to_be_bytes(), s.hi.to_be_bytes()].concat());
                }
            }
            _ => return (rows, 1),
        }
        (rows, 0)
    }
}
