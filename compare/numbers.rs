//! The number leaves beside Rust's own operators; the index beside a rule on the bit pattern.

use crate::rng::Rng;

extern "C" {
    fn leaf_has_index(x: f64) -> bool;
    /// 2^64 - 1, which is no number's index, where there is none.
    fn leaf_index_of(x: f64) -> u64;
    fn leaf_bits_of(x: f64) -> u64;
    fn leaf_from_bits(n: u64) -> f64;
    fn leaf_modu(a: f64, b: f64) -> f64;
}

pub fn modu(a: f64, b: f64) -> f64 {
    unsafe { leaf_modu(a, b) }
}

/// A number's pattern, with one for every NaN.
fn bits(x: f64) -> u64 {
    if x.is_nan() { 0x7ff8_0000_0000_0000 } else { x.to_bits() }
}

/// A number's index from its bits (document 02, M-103): whole numbers from 0 up to below 2^64 have one, minus zero has 0,
/// every other number has none. Moved by the exponent, a whole number's digits leave none behind the point.
fn index_by_bits(pattern: u64) -> Option<u64> {
    if pattern & !SIGN == 0 {
        return Some(0);
    }
    let exponent = (pattern & !SIGN) >> 52;
    if pattern & SIGN != 0 || !(1023..1023 + 64).contains(&exponent) {
        return None;
    }
    let moved = u128::from(pattern & DIGITS | 1 << 52) << (exponent - 1023);
    let (whole, fraction) = (moved >> 52, moved & u128::from(DIGITS));
    (fraction == 0).then_some(whole as u64)
}

/// Counts pairs, single numbers, numbers with an index and without, and the differences among them.
#[derive(Default)]
struct Tally {
    pairs: u64,
    singles: u64,
    with_index: u64,
    without: u64,
    differences: u64,
}

impl Tally {
    fn expect(&mut self, what: &str, args: [f64; 2], ours: u64, rust: u64) {
        if ours != rust {
            self.differences += 1;
            if self.differences < 10 {
                let [a, b] = args.map(f64::to_bits);
                println!("{what} {a:016x} {b:016x}: {ours:016x}, Rust {rust:016x}");
            }
        }
    }

    fn pair(&mut self, a: f64, b: f64) {
        self.pairs += 1;
        self.expect("remainder", [a, b], bits(modu(a, b)), bits(a % b));
        self.single(a);
        self.single(b);
    }

    fn single(&mut self, x: f64) {
        self.singles += 1;
        self.index(x.to_bits());
        let (pattern, back) = unsafe { (leaf_bits_of(x), leaf_from_bits(x.to_bits())) };
        self.expect("pattern", [x, 0.0], pattern, bits(x));
        self.expect("number of the pattern", [x, 0.0], bits(back), bits(x));
    }

    fn index(&mut self, pattern: u64) {
        let x = f64::from_bits(pattern);
        let expected = index_by_bits(pattern);
        match expected {
            Some(_) => self.with_index += 1,
            None => self.without += 1,
        }
        let (has, index) = unsafe { (leaf_has_index(x), leaf_index_of(x)) };
        self.expect("an index", [x, 0.0], u64::from(has), u64::from(expected.is_some()));
        self.expect("index", [x, 0.0], index, expected.unwrap_or(u64::MAX));
    }
}

const DIGITS: u64 = (1 << 52) - 1;
const SIGN: u64 = 1 << 63;

/// Zeros, the smallest and largest numbers, powers of two and their neighbours, NaNs, with both signs.
fn extremes() -> Vec<u64> {
    let mut all = vec![0, 1, 2, 3, DIGITS, 0x7ff0 << 48, (0x7ff0 << 48) + 1, 0x7ff8 << 48, SIGN - 1];
    for exponent in [1, 2, 1021, 1022, 1023, 1024, 1025, 1026, 1075, 1076, 1085, 1086, 1087, 2045, 2046] {
        let power = exponent << 52;
        all.extend([power - 1, power, power + 1, power + (1 << 51)]);
    }
    all.extend([0.1f64, 2.9, 7.9, 10.0].map(f64::to_bits));
    let negative: Vec<u64> = all.iter().map(|b| b | SIGN).collect();
    all.extend(negative);
    all
}

/// Numbers whose neighbours tell which numbers have an index.
const BORDERS: [f64; 22] = [
    0.0,
    0.5,
    1.0,
    2.5,
    2.9,
    7.9,
    23.0,
    24.0,
    2_147_483_648.0,
    4_294_967_295.0,
    4_294_967_296.0,
    2_251_799_813_685_248.0,
    4_503_599_627_370_496.0,
    9_007_199_254_740_991.0,
    9_007_199_254_740_992.0,
    9_223_372_036_854_774_784.0,
    9_223_372_036_854_775_808.0,
    18_446_744_073_709_549_568.0,
    18_446_744_073_709_551_616.0,
    f64::MIN_POSITIVE,
    f64::MAX,
    f64::NAN,
];

/// The borders and their 64 neighbours on each side, with both signs.
fn near_borders() -> impl Iterator<Item = u64> {
    let near = |border: &f64| border.to_bits().saturating_sub(64)..=border.to_bits() + 64;
    BORDERS.iter().flat_map(near).flat_map(|pattern| [pattern, pattern | SIGN])
}

/// A pattern by its turn: any, whole numbers up to 2^53, their neighbours, the neighbours of powers of two, few digits with
/// an exponent around those of indexes.
fn seeded_index(turn: u64, rng: &mut Rng) -> u64 {
    let pattern = rng.next();
    let beside = |pattern: u64, rng: &mut Rng| pattern - 8 + rng.below(17) as u64;
    let whole = |rng: &mut Rng| ((pattern >> 11 >> rng.below(53)) as f64 + 1.0).to_bits();
    let exponent = |rng: &mut Rng| (1020 + rng.below(70) as u64) << 52;
    match turn % 8 {
        0 => pattern,
        1 | 2 => whole(rng),
        3 | 4 => beside(whole(rng), rng),
        5 => beside(exponent(rng), rng),
        6 => exponent(rng) | ((pattern & DIGITS) >> rng.below(53) << rng.below(53) & DIGITS),
        _ => beside(whole(rng), rng) | SIGN,
    }
}

/// A pair by its turn: any patterns, near and farthest exponents, subnormals, whole numbers, multiples.
fn seeded(turn: u64, rng: &mut Rng, ends: &[u64]) -> (u64, u64) {
    let (a, b) = (rng.next(), rng.next());
    let with = |digits: u64, exponent: usize| (digits & (DIGITS | SIGN)) | (exponent as u64) << 52;
    match turn % 10 {
        0 => (a, b),
        1 => {
            let e = 1 + rng.below(2040);
            (with(a, e + rng.below(6)), with(b, e))
        }
        2 => (with(a, 2000 + rng.below(47)), with(b, rng.below(40))),
        3 => (with(a, 0), with(b, 0)),
        4 => (a, (b & DIGITS) >> rng.below(52)),
        5 => ((((a >> 40) as i64 - (1 << 23)) as f64).to_bits(), ((b >> 50) as f64).to_bits()),
        6 => (((a >> 11) as f64).to_bits(), ((b >> 44) as f64 / 64.0).to_bits()),
        7 => (b ^ (a & SIGN), b),
        8 => ((f64::from_bits(b) * (a >> 60) as f64).to_bits(), b),
        _ => (a, rng.pick(ends)),
    }
}

/// Compares the leaves on all pairs of extremes and on so many seeded pairs; the index also near every border and on four
/// times so many numbers.
pub fn compare(seed: u64, count: u64) -> Result<(), String> {
    let mut tally = Tally::default();
    let ends = extremes();
    for &a in &ends {
        for &b in &ends {
            tally.pair(f64::from_bits(a), f64::from_bits(b));
        }
    }
    let mut rng = Rng::new(seed, 0);
    for turn in 0..count {
        let (a, b) = seeded(turn, &mut rng, &ends);
        tally.pair(f64::from_bits(a), f64::from_bits(b));
    }
    near_borders().for_each(|pattern| tally.index(pattern));
    for turn in 0..4 * count {
        tally.index(seeded_index(turn, &mut rng));
    }
    println!("numbers: {} pairs, {} numbers, {} differences", tally.pairs, tally.singles, tally.differences);
    println!("indexes: {} numbers with an index, {} without", tally.with_index, tally.without);
    match (tally.differences, tally.with_index, tally.without) {
        (0, 1.., 1..) => Ok(()),
        (0, ..) => Err(String::from("indexes: all numbers or none")),
        _ => Err(String::from("the number leaves differ from Rust or from the rule of indexes")),
    }
}

/// Pairs to be timed, by what they are.
pub fn timed(seed: u64) -> Vec<(&'static str, Vec<(f64, f64)>)> {
    let mut rng = Rng::new(seed, 0);
    let mut pairs = |f: &dyn Fn(u64, u64) -> (f64, f64)| (0..4000).map(|_| f(rng.next(), rng.next())).collect();
    let number = |digits: u64, exponent: u64| f64::from_bits((digits & DIGITS) | exponent << 52);
    vec![
        ("whole numbers below 1,024 by 1 to 16", pairs(&|a, b| ((a >> 54) as f64, (1 + (b >> 60)) as f64))),
        ("a smaller dividend", pairs(&|a, b| ((a >> 50) as f64, (20_000 + (b >> 50)) as f64))),
        ("exponents 0 to 7 apart", pairs(&|a, b| (number(a, 1023 + (a >> 61)), number(b, 1023)))),
        ("exponents 12 to 44 apart", pairs(&|a, b| (number(a, 1035 + (a >> 52) % 33), number(b, 1023)))),
        ("exponents 45 to 63 apart", pairs(&|a, b| (number(a, 1068 + (a >> 52) % 19), number(b, 1023)))),
        ("exponents 64 to 127 apart", pairs(&|a, b| (number(a, 1087 + (a >> 58)), number(b, 1023)))),
        ("exponents 200 apart", pairs(&|a, b| (number(a, 1223), number(b, 1023)))),
        ("exponents 300 apart", pairs(&|a, b| (number(a, 1323), number(b, 1023)))),
        ("exponents 500 apart", pairs(&|a, b| (number(a, 1523), number(b, 1023)))),
        ("exponents 1,000 apart", pairs(&|a, b| (number(a, 2023), number(b, 1023)))),
        ("exponents 1,500 apart", pairs(&|a, b| (number(a, 2046), number(b, 546)))),
        ("exponents 2,045 apart", pairs(&|a, b| (number(a, 2046), number(b, 1)))),
        ("largest by smallest numbers", pairs(&|a, b| (number(a, 2046), number(b >> (b >> 59), 0)))),
    ]
}
