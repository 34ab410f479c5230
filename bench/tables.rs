// The same elimination in plain Rust: rows of fractions of i128 in lowest terms, the non-zeros of a pivot row found once per
// pivot, sums over the least common denominator, products crosswise, with Euclid's algorithm on u64 where both numbers fit.
use std::io::Read;
#[derive(Clone, Copy, PartialEq, Eq)]
struct Q { num: i128, den: i128 }
const ZERO: Q = Q { num: 0, den: 1 };
fn gcd(a: u128, b: u128) -> u128 {
    let (mut a, mut b) = (a, b);
    while b != 0 {
        if a <= u64::MAX as u128 && b <= u64::MAX as u128 {
            let (mut x, mut y) = (a as u64, b as u64);
            while y != 0 { let r = x % y; x = y; y = r; }
            return x as u128;
        }
        let r = a % b; a = b; b = r;
    }
    a
}
fn fit(value: Option<i128>) -> Option<i128> { value.filter(|v| *v != i128::MIN) }
impl Q {
    fn make(num: i128, den: i128) -> Q { let g = gcd(num.unsigned_abs(), den.unsigned_abs()) as i128; Q { num: num / g, den: den / g } }
    fn difference(self, r: Q) -> Option<Q> {
        let g = gcd(self.den as u128, r.den as u128) as i128;
        let (a, b) = (r.den / g, self.den / g);
        let den = fit(self.den.checked_mul(a))?;
        let num = fit(fit(self.num.checked_mul(a))?.checked_sub(fit(r.num.checked_mul(b))?))?;
        Some(Q::make(num, den))
    }
    fn product(self, r: Q) -> Option<Q> {
        let g = gcd(self.num.unsigned_abs(), r.den as u128) as i128;
        let h = gcd(r.num.unsigned_abs(), self.den as u128) as i128;
        Some(Q { num: fit((self.num / g).checked_mul(r.num / h))?, den: fit((self.den / h).checked_mul(r.den / g))? })
    }
    fn quotient(self, r: Q) -> Option<Q> { self.product(if r.num < 0 { Q { num: -r.den, den: -r.num } } else { Q { num: r.den, den: r.num } }) }
}
fn solve(rows: &mut [Vec<Q>]) -> Option<Vec<Q>> {
    let size = rows.len();
    let mut pivots: Vec<usize> = Vec::with_capacity(size);
    for column in 0..size {
        let pivot = (0..size).find(|&i| rows[i][column] != ZERO && !pivots.contains(&i))?;
        let own = rows[pivot][column];
        let later: Vec<(usize, Q)> = (column + 1..=size).filter(|&j| rows[pivot][j] != ZERO).map(|j| (j, rows[pivot][j])).collect();
        for i in 0..size {
            if i == pivot || rows[i][column] == ZERO { continue; }
            let row = &mut rows[i];
            let factor = row[column].quotient(own)?;
            row[column] = ZERO;
            for &(j, value) in &later { row[j] = row[j].difference(factor.product(value)?)?; }
        }
        pivots.push(pivot);
    }
    (0..size).map(|c| rows[pivots[c]][size].quotient(rows[pivots[c]][c])).collect()
}
fn main() {
    let turns: u64 = std::env::args().nth(1).unwrap().parse().unwrap();
    let mut text = String::new();
    std::io::stdin().read_to_string(&mut text).unwrap();
    let mut lines = text.lines();
    let size: usize = lines.next().unwrap().parse().unwrap();
    let cells: Vec<(usize, usize, Q)> = lines.map(|line| {
        let words: Vec<i128> = line.split(' ').map(|word| word.parse().unwrap()).collect();
        (words[0] as usize, words[1] as usize, Q::make(words[2], words[3]))
    }).collect();
    let mut done = 0;
    for _ in 0..turns {
        let mut rows = vec![vec![ZERO; size + 1]; size];
        for &(i, j, value) in &cells { rows[i][j] = value; }
        done += solve(&mut rows).is_some() as u64;
    }
    println!("{done}");
}
