// The same products in plain Rust, with checked operations.
use std::time::Instant;

const ROUNDS: u32 = 10_000_000;

#[derive(Clone, Copy)]
struct Elem {
    p: i128,
    q: i128,
}

fn within(n: Option<i128>) -> Option<i128> {
    n.filter(|n| *n != i128::MIN)
}

fn mul(d: i128, x: Elem, y: Elem) -> Option<Elem> {
    let rational = within(x.p.checked_mul(y.p))?;
    let roots = within(d.checked_mul(within(x.q.checked_mul(y.q))?))?;
    let left = within(x.p.checked_mul(y.q))?;
    let right = within(x.q.checked_mul(y.p))?;
    Some(Elem { p: within(rational.checked_add(roots))?, q: within(left.checked_add(right))? })
}

fn sub(x: Elem, y: Elem) -> Option<Elem> {
    Some(Elem { p: within(x.p.checked_sub(y.p))?, q: within(x.q.checked_sub(y.q))? })
}

fn number(size: i128, k: u32) -> Elem {
    Elem { p: size + i128::from(k), q: size - i128::from(k) }
}

fn products(d: i128, size: i128) -> i128 {
    let mut seen = 0;
    for k in 0..ROUNDS {
        if let Some(product) = mul(d, number(size, k), number(size, k / 3)) {
            seen ^= product.p ^ product.q;
        }
    }
    seen
}

fn cross(d: i128, a: (Elem, Elem), b: (Elem, Elem)) -> Option<Elem> {
    sub(mul(d, a.0, b.1)?, mul(d, a.1, b.0)?)
}

fn crosses(d: i128, size: i128) -> i128 {
    let mut seen = 0;
    for k in 0..ROUNDS {
        let a = (number(size, k), number(size, k / 3));
        let b = (number(size, k / 5), number(size, k / 7));
        if let Some(value) = cross(d, a, b) {
            seen ^= value.p ^ value.q;
        }
    }
    seen
}

fn main() {
    let d = std::hint::black_box(2);
    for (name, size) in [("small", 1 << 50), ("large", 1 << 60)] {
        let size = std::hint::black_box(size);
        let start = Instant::now();
        let seen = products(d, size);
        println!("mul-{name} {} {seen}", start.elapsed().as_nanos());
        let start = Instant::now();
        let seen = crosses(d, size);
        println!("cross-{name} {} {seen}", start.elapsed().as_nanos());
    }
}
