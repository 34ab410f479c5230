// The same loops in plain Rust: fractions of i128 in lowest terms, sums over the least common denominator, products crosswise,
// with Euclid's algorithm on u64 where both numbers fit.
use std::cmp::Ordering;
#[derive(Clone, Copy, PartialEq, Eq)]
struct Q { num: i128, den: i128 }
const MOST: i128 = i128::MAX;
fn gcd(a: u128, b: u128) -> u128 {
    let (mut a, mut b) = (a, b);
    while b != 0 {
        if a <= u64::MAX as u128 && b <= u64::MAX as u128 {
            let (mut x, mut y) = (a as u64, b as u64);
            while y != 0 { let r = x % y; x = y; y = r; }
            return x as u128;
        }
        let r = a % b; a = b; b = r;
    }
    a
}
fn fit(value: Option<i128>) -> Option<i128> { value.filter(|v| v.unsigned_abs() <= MOST as u128) }
impl Q {
    fn make(num: i128, den: i128) -> Q { let g = gcd(num.unsigned_abs(), den.unsigned_abs()) as i128; Q { num: num / g, den: den / g } }
    fn sum(self, r: Q) -> Option<Q> {
        let g = gcd(self.den as u128, r.den as u128) as i128;
        let (a, b) = (r.den / g, self.den / g);
        let den = fit(self.den.checked_mul(a))?;
        let num = fit(fit(self.num.checked_mul(a))?.checked_add(fit(r.num.checked_mul(b))?))?;
        Some(Q::make(num, den))
    }
    fn product(self, r: Q) -> Option<Q> {
        let g = gcd(self.num.unsigned_abs(), r.den as u128) as i128;
        let h = gcd(r.num.unsigned_abs(), self.den as u128) as i128;
        Some(Q { num: fit((self.num / g).checked_mul(r.num / h))?, den: fit((self.den / h).checked_mul(r.den / g))? })
    }
    fn quotient(self, r: Q) -> Option<Q> { self.product(if r.num < 0 { Q { num: -r.den, den: -r.num } } else { Q { num: r.den, den: r.num } }) }
    fn compare(self, r: Q) -> Ordering {
        let (mut a, mut b, mut c, mut d) = (self.num as u128, self.den as u128, r.num as u128, r.den as u128);
        loop {
            let (p, q) = (a / b, c / d);
            if p != q { return p.cmp(&q); }
            let (x, y) = (a % b, c % d);
            if x == 0 || y == 0 { return x.cmp(&y); }
            (a, c, b, d) = (d, b, y, x);
        }
    }
}
fn main() {
    let words: Vec<String> = std::env::args().collect();
    let kind = words.get(2).map_or("small", |w| w.as_str());
    let all: Vec<Q> = (0..16i128).map(|i| match kind {
        "middle" => Q::make(53 * i + 101, 71 * i + 307),
        "wide" => Q::make((1 << 62) - 57 * (i + 1), (1 << 60) + 33 * i + 1),
        "beyond" => Q::make((1 << 63) + 60 * i + 11, i % 5 + 1),
        _ => Q::make(i % 7 + 1, i % 5 + 1),
    }).collect();
    let mut done = 0u64;
    for _ in 0..40000u32 {
        for l in std::hint::black_box(&all) { for r in std::hint::black_box(&all) {
            done += match words[1].as_str() {
                "sum" => l.sum(*r).map_or(0, |v| (v.num > 0) as u64),
                "product" => l.product(*r).map_or(0, |v| (v.num > 0) as u64),
                "quotient" => l.quotient(*r).is_some() as u64,
                _ => (l.compare(*r) == Ordering::Less) as u64,
            };
        } }
    }
    println!("{done}");
}
