//! Programs as bytes: random ones, and the large ones whose analysis is timed.

pub struct Random(u64);

impl Random {
    pub fn new(seed: u64) -> Random {
        Random(seed.wrapping_mul(0x9E37_79B9_7F4A_7C15) | 1)
    }

    pub fn below(&mut self, n: u64) -> u64 {
        self.0 ^= self.0 << 13;
        self.0 ^= self.0 >> 7;
        self.0 ^= self.0 << 17;
        (self.0 >> 11) % n
    }
}

/// A program in the making: its bytes, and the number of the next statement.
pub struct Builder {
    pub bytes: Vec<u8>,
    next: u64,
}

impl Builder {
    pub fn new(vars: u8, arrays: &[u64]) -> Builder {
        let mut bytes = vec![1, vars];
        bytes.extend((arrays.len() as u64).to_be_bytes());
        for n in arrays {
            bytes.extend(n.to_be_bytes());
        }
        Builder { bytes, next: 1 }
    }

    fn head(&mut self, tag: u8) -> &mut Self {
        self.bytes.push(tag);
        self.bytes.extend(self.next.to_be_bytes());
        self.next += 1;
        self
    }

    pub fn num(&mut self, n: u64) {
        self.bytes.push(0);
        self.bytes.extend(n.to_be_bytes());
    }

    pub fn var(&mut self, x: u8) {
        self.bytes.extend([1, x]);
    }

    pub fn op(&mut self, k: u8) {
        self.bytes.extend([2, k]);
    }

    pub fn element(&mut self, r: u8) {
        self.bytes.extend([3, r]);
    }

    pub fn tag(&mut self, t: u8) {
        self.bytes.push(t);
    }

    pub fn assign(&mut self, x: u8) {
        self.head(1).bytes.push(x);
    }

    pub fn store(&mut self, r: u8) {
        self.head(2).bytes.push(r);
    }

    pub fn input(&mut self, x: u8, a: u64, b: u64) {
        self.head(3).bytes.push(x);
        self.bytes.extend(a.to_be_bytes());
        self.bytes.extend(b.to_be_bytes());
    }

    pub fn check(&mut self) {
        self.head(4);
    }

    pub fn branch(&mut self) {
        self.head(6);
    }

    pub fn while_loop(&mut self) {
        self.head(7);
    }
}

const NUMBERS: [u64; 14] = [0, 1, 2, 3, 4, 7, 8, 9, 10, 100, 65535, 4294967294, 4294967295, 2147483648];

/// A random valid program of about `size` statements.
pub struct Source {
    pub random: Random,
    pub b: Builder,
    vars: u8,
    arrays: u8,
}

impl Source {
    pub fn program(seed: u64, size: u64, loops: u32) -> Vec<u8> {
        let mut random = Random::new(seed);
        for _ in 0..8 {
            random.below(2);
        }
        let vars = 1 + random.below(6) as u8;
        let arrays: Vec<u64> = (0..random.below(3)).map(|_| 1 + [0, 7, 15, 65535][random.below(4) as usize]).collect();
        let b = Builder::new(vars, &arrays);
        let mut s = Source { random, b, vars, arrays: arrays.len() as u8 };
        s.block(size, 6, loops);
        s.b.bytes
    }

    fn any_var(&mut self) -> u8 {
        self.random.below(self.vars as u64) as u8
    }

    fn number(&mut self) -> u64 {
        NUMBERS[self.random.below(NUMBERS.len() as u64) as usize]
    }

    fn expr(&mut self, depth: u32) {
        match self.random.below(if depth == 0 { 4 } else { 8 }) {
            0 => {
                let n = self.number();
                self.b.num(n)
            }
            1..=3 => {
                let x = self.any_var();
                self.b.var(x)
            }
            4 if self.arrays > 0 => {
                let r = self.random.below(self.arrays as u64) as u8;
                self.b.element(r);
                self.expr(depth - 1)
            }
            _ => {
                let k = self.random.below(5) as u8;
                self.b.op(k);
                self.expr(depth - 1);
                self.expr(depth - 1)
            }
        }
    }

    fn test(&mut self, depth: u32) {
        let k = self.random.below(if depth == 0 { 2 } else { 5 }) as u8;
        self.b.tag(k);
        if k < 2 {
            self.expr(1);
            self.expr(1);
        } else {
            self.test(depth - 1);
            if k > 2 {
                self.test(depth - 1);
            }
        }
    }

    fn block(&mut self, size: u64, nesting: u32, loops: u32) {
        for _ in 0..size {
            self.b.tag(5);
            self.stmt(nesting, loops);
        }
        self.b.tag(0);
    }

    fn stmt(&mut self, nesting: u32, loops: u32) {
        match self.random.below(10) {
            0..=2 => {
                let x = self.any_var();
                self.b.assign(x);
                self.expr(2)
            }
            3 if self.arrays > 0 => {
                let r = self.random.below(self.arrays as u64) as u8;
                self.b.store(r);
                self.expr(1);
                self.expr(2)
            }
            4 => {
                let x = self.any_var();
                let (a, b) = (self.number(), self.number());
                self.b.input(x, a.min(b), a.max(b))
            }
            5 => {
                self.b.check();
                self.test(2)
            }
            6 if nesting > 0 && loops > 0 => {
                self.b.while_loop();
                self.test(1);
                let n = self.random.below(4);
                self.block(n, nesting - 1, loops - 1)
            }
            7 if nesting > 0 && loops > 0 => self.counted(nesting, loops),
            8 if nesting > 0 => {
                self.b.branch();
                self.test(2);
                let (n, m) = (self.random.below(3), self.random.below(3));
                self.block(n, nesting - 1, loops);
                self.block(m, nesting - 1, loops)
            }
            _ => {
                let x = self.any_var();
                self.b.assign(x);
                self.b.op(0);
                self.b.var(x);
                self.b.num(1)
            }
        }
    }

    /// while x < n: a block; x is x + 1
    fn counted(&mut self, nesting: u32, loops: u32) {
        let x = self.any_var();
        self.b.while_loop();
        self.b.tag(0);
        self.b.var(x);
        let n = self.number();
        self.b.num(n);
        let m = self.random.below(3);
        self.b.tag(5);
        self.block(m, nesting - 1, loops - 1);
        self.b.assign(x);
        self.b.op(0);
        self.b.var(x);
        self.b.num(1)
    }
}

/// A control program: inputs read, limits checked, sums and choices over some twenty variables; straight, or in an endless cycle.
pub fn control(statements: u64, cycle: bool) -> Vec<u8> {
    let mut b = Builder::new(24, &[16, 64]);
    if cycle {
        b.while_loop();
        b.tag(0);
        b.num(0);
        b.num(1);
    }
    let mut done = u64::from(cycle);
    let mut i = 0u8;
    while done + 7 <= statements {
        let (x, y, z) = (i % 24, (i * 7 + 3) % 24, (i * 5 + 11) % 24);
        b.tag(5);
        b.input(x, u64::from(i), 100 + 3 * u64::from(i));
        b.tag(5);
        b.assign(y);
        b.op(3);
        b.op(0);
        b.var(x);
        b.var(y);
        b.num(2);
        b.tag(5);
        b.branch();
        b.tag(0);
        b.var(y);
        b.num(50 + u64::from(i));
        b.assign(z);
        b.op(0);
        b.var(y);
        b.num(1);
        b.assign(z);
        b.op(4);
        b.var(y);
        b.num(64);
        b.tag(5);
        b.store(i % 2);
        b.var(z);
        b.var(x);
        b.tag(5);
        b.check();
        b.tag(0);
        b.var(x);
        b.num(4000);
        done += 7;
        i = i.wrapping_add(1);
    }
    b.tag(0);
    b.bytes
}

/// Variables that climb from threshold to threshold in one loop.
pub fn climbing(vars: u8, thresholds: u64) -> Vec<u8> {
    let mut b = Builder::new(vars, &[]);
    b.while_loop();
    b.tag(0);
    b.num(0);
    b.num(1);
    for x in 0..vars {
        b.tag(5);
        b.branch();
        b.tag(0);
        b.var(x);
        b.num(100_000);
        b.assign(x);
        b.op(0);
        b.var(if x == 0 { 0 } else { x - 1 });
        b.num(1);
        b.tag(0);
    }
    for i in 0..thresholds {
        b.tag(5);
        b.branch();
        b.tag(1);
        b.var((i % u64::from(vars)) as u8);
        b.num(10 * i);
        b.tag(0);
        b.tag(0);
    }
    b.tag(0);
    b.bytes
}
