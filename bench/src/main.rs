//! The proved machine beside a plain Rust implementation of the same definitions: all answers compared, times printed.
//! `bench vectors NAME..` (without ending), `bench compare SEED COUNT`, `bench time`.

mod gen;
mod plain;

use std::time::Instant;

extern "C" {
    fn yunthrewi_step(memory: *mut u64, memory_len: usize, kind: u64, text: *const u8, text_len: usize, out: *mut u8, out_len: usize) -> u64;
    fn yunthrewi_memory_len() -> u64;
}

/// The proved machine behind its C interface.
struct Proved {
    memory: Vec<u64>,
}

impl Proved {
    fn new() -> Proved {
        Proved { memory: vec![0; unsafe { yunthrewi_memory_len() } as usize] }
    }

    fn step(&mut self, kind: u64, text: &[u8], out: &mut [u8; 16]) -> u64 {
        unsafe { yunthrewi_step(self.memory.as_mut_ptr(), self.memory.len(), kind, text.as_ptr(), text.len(), out.as_mut_ptr(), out.len()) }
    }

    fn tell(&mut self, text: &[u8]) -> (Vec<Vec<u8>>, u64) {
        let mut out = [0; 16];
        let mut rows = Vec::new();
        let mut r = self.step(0, text, &mut out);
        while r >= 1000 {
            rows.push(out[..(r - 1000) as usize].to_vec());
            r = self.step(1, &[], &mut out);
        }
        (rows, r)
    }
}

fn commands(file: &[u8]) -> Vec<&[u8]> {
    let mut rest = file;
    let mut all = Vec::new();
    while let Some((len, more)) = rest.split_first_chunk::<8>() {
        let (text, after) = more.split_at(u64::from_be_bytes(*len) as usize);
        all.push(text);
        rest = after;
    }
    all
}

fn shown(rows: &[Vec<u8>], end: u64) -> String {
    let mut s = String::new();
    for row in rows {
        s.extend(row.iter().map(|b| format!("{b:02x}")));
        s.push('\n');
    }
    s + &format!("end {end}\n")
}

fn vectors(names: &[String]) {
    for name in names {
        let file = std::fs::read(format!("{name}.bin")).unwrap();
        let expected = std::fs::read_to_string(format!("{name}.txt")).unwrap();
        let (mut plain, mut proved) = (plain::Session::new(), Proved::new());
        let (mut a, mut b) = (String::new(), String::new());
        for text in commands(&file) {
            let (rows, end) = plain.tell(text);
            a += &shown(&rows, end);
            let (rows, end) = proved.tell(text);
            b += &shown(&rows, end);
        }
        println!("{name}: plain {}, proved {}", a == expected, b == expected);
    }
}

fn compare(seed: u64, count: u64) {
    let (mut plain, mut proved) = (plain::Session::new(), Proved::new());
    let mut refused = 0;
    for i in 0..count {
        let mut text = gen::Source::program(seed.wrapping_add(i), 1 + i % 12, (i % 3) as u32);
        if i % 7 == 0 {
            let at = (i as usize * 31) % text.len();
            text[at] ^= 1 << (i % 8);
        }
        let mut asked = vec![text, vec![2]];
        asked.extend((0..8).map(|x| vec![3, x * 9]));
        for t in asked {
            let (a, b) = (plain.tell(&t), proved.tell(&t));
            refused += u64::from(a.1 == 1);
            assert_eq!(a, b, "program {i} of seed {seed}: {t:?}");
        }
    }
    println!("{count} programs, {refused} refused, all answers alike");
}

fn best<F: FnMut()>(mut f: F) -> f64 {
    let mut least = f64::MAX;
    for _ in 0..5 {
        let start = Instant::now();
        f();
        least = least.min(start.elapsed().as_secs_f64());
    }
    least
}

fn time_one(what: &str, text: &[u8]) {
    let (mut plain, mut proved) = (plain::Session::new(), Proved::new());
    assert_eq!(plain.tell(text).1, 0, "{what} is valid");
    let a = best(|| drop(plain.tell(text)));
    let b = best(|| drop(proved.tell(text)));
    assert_eq!(plain.tell(&[2]), proved.tell(&[2]), "{what}");
    println!("{what} ({} bytes): plain {:.3} ms, proved {:.3} ms, ratio {:.2}", text.len(), a * 1e3, b * 1e3, b / a);
}

fn time_all() {
    for n in [200, 700, 1400] {
        time_one(&format!("control program of {n} statements"), &gen::control(n, false));
    }
    for n in [200, 700, 1400] {
        time_one(&format!("control program of {n} statements in a cycle"), &gen::control(n, true));
    }
    time_one("60 variables that climb through thresholds", &gen::climbing(60, 300));
}

fn main() {
    let words: Vec<String> = std::env::args().skip(1).collect();
    // plain Rust recurses over trees: as deep as programs nest
    let run = move || match words.first().map(String::as_str) {
        Some("vectors") => vectors(&words[1..]),
        Some("compare") => compare(words[1].parse().unwrap(), words[2].parse().unwrap()),
        Some("time") => time_all(),
        _ => eprintln!("bench vectors NAME.. | bench compare SEED COUNT | bench time"),
    };
    std::thread::Builder::new().stack_size(256 << 20).spawn(run).unwrap().join().unwrap();
}
