// The same flips in plain Rust: an arena of half-edges, with checked operations.
use std::time::Instant;

const ROUNDS: u32 = 10_000_000;

#[derive(Clone, Copy)]
struct Elem {
    p: i128,
    q: i128,
}

#[derive(Clone, Copy)]
struct Vector {
    x: Elem,
    y: Elem,
}

#[derive(Clone, Copy)]
struct HalfEdge {
    vector: Vector,
    twin: u32,
    next: u32,
}

fn within(n: Option<i128>) -> Option<i128> {
    n.filter(|n| *n != i128::MIN)
}

fn add(x: Elem, y: Elem) -> Option<Elem> {
    Some(Elem { p: within(x.p.checked_add(y.p))?, q: within(x.q.checked_add(y.q))? })
}

fn sub(x: Elem, y: Elem) -> Option<Elem> {
    Some(Elem { p: within(x.p.checked_sub(y.p))?, q: within(x.q.checked_sub(y.q))? })
}

fn neg(x: Elem) -> Elem {
    Elem { p: -x.p, q: -x.q }
}

fn mul(d: i128, x: Elem, y: Elem) -> Option<Elem> {
    let rational = within(x.p.checked_mul(y.p))?;
    let roots = within(d.checked_mul(within(x.q.checked_mul(y.q))?))?;
    let left = within(x.p.checked_mul(y.q))?;
    let right = within(x.q.checked_mul(y.p))?;
    Some(Elem { p: within(rational.checked_add(roots))?, q: within(left.checked_add(right))? })
}

fn cross(d: i128, a: Vector, b: Vector) -> Option<Elem> {
    sub(mul(d, a.x, b.y)?, mul(d, a.y, b.x)?)
}

fn dot(d: i128, a: Vector, b: Vector) -> Option<Elem> {
    add(mul(d, a.x, b.x)?, mul(d, a.y, b.y)?)
}

fn circle(d: i128, a: Vector, b: Vector, c: Vector, g: Vector) -> Option<Elem> {
    let left = mul(d, cross(d, a, b)?, dot(d, c, g)?)?;
    let right = mul(d, cross(d, c, g)?, dot(d, a, b)?)?;
    add(left, right)
}

// Whether p + q·√d is above 0, where the squares fit.
fn is_positive(d: i128, x: Elem) -> bool {
    match (x.p.signum(), x.q.signum()) {
        (0, q) => q > 0,
        (p, 0) => p > 0,
        (1, 1) => true,
        (-1, -1) => false,
        (p, _) => (x.p * x.p > d * x.q * x.q) == (p > 0),
    }
}

fn flip_illegal(d: i128, half_edges: &mut [HalfEdge], h: u32) -> bool {
    let at = |half_edges: &[HalfEdge], h: u32| half_edges[h as usize];
    let t = at(half_edges, h).twin;
    if h >= t {
        return false;
    }
    let a = at(half_edges, h).next;
    let b = at(half_edges, a).next;
    let c = at(half_edges, t).next;
    let g = at(half_edges, c).next;
    let [va, vb, vc, vg] = [a, b, c, g].map(|x| at(half_edges, x).vector);
    match circle(d, va, vb, vc, vg) {
        Some(value) if is_positive(d, value) => {}
        _ => return false,
    }
    let (Some(x), Some(y)) = (add(vg.x, va.x), add(vg.y, va.y)) else {
        return false;
    };
    let moved = |x: u32| {
        if x == b { a } else if x == c { b } else if x == g { c } else if x == a { g } else { x }
    };
    let outer = [b, c, g, a].map(|x| moved(at(half_edges, x).twin));
    half_edges[h as usize].vector = Vector { x, y };
    half_edges[t as usize].vector = Vector { x: neg(x), y: neg(y) };
    for ((slot, vector), twin) in [(a, vb), (b, vc), (c, vg), (g, va)].into_iter().zip(outer) {
        half_edges[slot as usize].vector = vector;
        half_edges[slot as usize].twin = twin;
    }
    for (slot, twin) in [a, b, c, g].into_iter().zip(outer) {
        half_edges[twin as usize].twin = slot;
    }
    true
}

fn flips(d: i128, half_edges: &mut [HalfEdge]) -> u32 {
    let mut flips = 0;
    for _ in 0..ROUNDS {
        let before = flips;
        for h in 0..half_edges.len() as u32 {
            if flips < ROUNDS && flip_illegal(d, half_edges, h) {
                flips += 1;
            }
        }
        if flips == before {
            break;
        }
    }
    flips
}

fn main() {
    let d = std::hint::black_box(2);
    let long = std::hint::black_box(10_000_000);
    let vector = |x: i128, y: i128| Vector { x: Elem { p: x, q: 0 }, y: Elem { p: y, q: 0 } };
    // the faces of the first cut: sides 0 and 1 and the diagonal back, the diagonal, sides 2 and 3
    let vectors = [
        vector(1, 0),
        vector(long, 1),
        vector(-1 - long, -1),
        vector(1 + long, 1),
        vector(-1, 0),
        vector(-long, -1),
    ];
    let twins = [4, 5, 3, 2, 0, 1];
    let nexts = [1, 2, 0, 4, 5, 3];
    let mut half_edges: Vec<HalfEdge> = (0..6)
        .map(|h| HalfEdge { vector: vectors[h], twin: twins[h], next: nexts[h] })
        .collect();
    let start = Instant::now();
    let flips = flips(d, &mut half_edges);
    println!("flips {} {flips}", start.elapsed().as_nanos());
}
