// Compares the encoders with a plain one, then times them.
//   harness                       compare, then nanoseconds a line
//   harness names                 the encoders, one to a line
//   harness rounds NAME N ROUNDS  encode the lines so often and print nothing, for a counter of instructions
use std::env;
use std::hint::black_box;
use std::time::Instant;

const LINES: usize = 256;
const ITEMS: [usize; 2] = [16, 256];
const ROUNDS: usize = 101;

extern "C" {
    fn table_by_sums(lines: *const u16, count: usize, items: usize, checks: *mut u16, places: usize);
    fn table_encode(lines: *const u16, count: usize, items: usize, checks: *mut u16, places: usize);
    fn table_prepared(lines: *const u16, count: usize, items: usize, checks: *mut u16, places: usize);
    fn pile_by_sums(lines: *const u16, count: usize, items: usize, checks: *mut u16, places: usize);
    fn pile_encode(lines: *const u16, count: usize, items: usize, checks: *mut u16, places: usize);
    fn pile_prepared(lines: *const u16, count: usize, items: usize, checks: *mut u16, places: usize);
}

type Encoder = unsafe extern "C" fn(*const u16, usize, usize, *mut u16, usize);

const ENCODERS: [(&str, Encoder); 6] = [
    ("table_by_sums", table_by_sums),
    ("table_encode", table_encode),
    ("table_prepared", table_prepared),
    ("pile_by_sums", pile_by_sums),
    ("pile_encode", pile_encode),
    ("pile_prepared", pile_prepared),
];

// The product of two elements of the tower's field of so many bits, by the rule u u = u + v.
fn product(a: u32, b: u32, bits: u32) -> u32 {
    if bits == 1 {
        return a & b;
    }
    let half = bits / 2;
    let low = |x: u32| x & ((1 << half) - 1);
    let high = |x: u32| x >> half;
    let v = 1 << (half - 1);
    let top = product(high(a), high(b), half);
    let lo = product(low(a), low(b), half) ^ product(top, v, half);
    let hi = product(low(a), high(b), half) ^ product(high(a), low(b), half) ^ top;
    hi << half | lo
}

// Check word l is the sum over all items of d h^l, with h = w + u.
fn plain(line: &[u16]) -> [u16; 4] {
    let mut checks = [0; 4];
    for (item, word) in line.iter().enumerate() {
        let point = 256 + item as u32;
        let mut term = u32::from(*word);
        for check in &mut checks {
            *check ^= term as u16;
            term = product(term, point, 16);
        }
    }
    checks
}

fn random_lines(items: usize) -> Vec<u16> {
    let mut x: u32 = 2_463_534_242;
    let mut next = || {
        x ^= x << 13;
        x ^= x >> 17;
        x ^= x << 5;
        x as u16
    };
    (0..LINES * items).map(|_| next()).collect()
}

fn encode(encoder: Encoder, lines: &[u16], items: usize, checks: &mut [u16]) {
    unsafe { encoder(lines.as_ptr(), lines.len(), items, checks.as_mut_ptr(), checks.len()) }
}

fn compare(items: usize, lines: &[u16]) {
    let expected: Vec<u16> = lines.chunks(items).flat_map(plain).collect();
    for (name, encoder) in ENCODERS {
        let mut checks = vec![0; 4 * LINES];
        encode(encoder, lines, items, &mut checks);
        assert!(checks == expected, "{name} gives other check words than the plain encoder at N = {items}");
    }
    println!("N = {items}: {} encoders agree with the plain one on {LINES} lines", ENCODERS.len());
}

fn time(items: usize, lines: &[u16]) {
    for (name, encoder) in ENCODERS {
        let mut checks = vec![0; 4 * LINES];
        let mut spans: Vec<f64> = (0..ROUNDS)
            .map(|_| {
                let start = Instant::now();
                encode(encoder, black_box(lines), items, black_box(&mut checks));
                start.elapsed().as_nanos() as f64 / LINES as f64
            })
            .collect();
        spans.sort_by(f64::total_cmp);
        println!("{name:<15} N = {items:<4} {:>9.1} ns a line at best, {:>9.1} in the middle", spans[0], spans[ROUNDS / 2]);
    }
}

fn main() {
    let words: Vec<String> = env::args().skip(1).collect();
    let words: Vec<&str> = words.iter().map(String::as_str).collect();
    match words[..] {
        [] => {
            for items in ITEMS {
                compare(items, &random_lines(items));
            }
            for items in ITEMS {
                time(items, &random_lines(items));
            }
        }
        ["names"] => ENCODERS.iter().for_each(|(name, _)| println!("{name}")),
        ["rounds", name, items, rounds] => {
            let items: usize = items.parse().expect("a number of items");
            let rounds: usize = rounds.parse().expect("a number of rounds");
            let (_, encoder) = ENCODERS.into_iter().find(|e| e.0 == name).expect("an encoder");
            let lines = random_lines(items);
            let mut checks = vec![0; 4 * LINES];
            for _ in 0..rounds {
                encode(encoder, black_box(&lines), items, black_box(&mut checks));
            }
        }
        _ => panic!("see the head of bench/harness.rs"),
    }
}
