// The same runs in plain Rust: rows in vectors, letters by their names, with checked operations.
use std::cmp::Ordering;
use std::time::Instant;

const ROUNDS: u32 = 5;

#[derive(Clone, Copy, PartialEq, Eq)]
struct Elem {
    p: i128,
    q: i128,
}

#[derive(Clone, Copy)]
struct Vector {
    x: Elem,
    y: Elem,
}

#[derive(Clone, Copy)]
struct Tag {
    v: Vector,
    real: bool,
}

#[derive(Clone, Copy)]
struct Letter {
    name: u32,
    length: Elem,
    back: Vector,
    corner: (u16, u16),
    start: Tag,
    end: Tag,
}

#[derive(Clone, Copy)]
#[allow(dead_code)]
enum Event {
    Won(bool),
    Merged(Option<((u16, u16), Vector)>),
    Split(u32, Option<((u16, u16), Vector)>),
    Closed,
}

#[allow(dead_code)]
struct Logged {
    event: Event,
    length: Elem,
}

#[derive(Clone, Copy)]
struct Extent {
    base: Elem,
    total: Elem,
}

#[derive(Clone)]
struct State {
    letters: Vec<Letter>,
    current: Option<Extent>,
    top: Vec<u32>,
    bottom: Vec<u32>,
    waiting: Vec<(Extent, Vec<u32>, Vec<u32>)>,
    searched: bool,
    places: Vec<u32>,
}

const ZERO: Elem = Elem { p: 0, q: 0 };

fn whole(p: i128) -> Elem {
    Elem { p, q: 0 }
}

fn vector(x: i128, y: i128) -> Vector {
    Vector { x: whole(x), y: whole(y) }
}

fn within(n: Option<i128>) -> Option<i128> {
    n.filter(|n| *n != i128::MIN)
}

fn add(x: Elem, y: Elem) -> Option<Elem> {
    Some(Elem { p: within(x.p.checked_add(y.p))?, q: within(x.q.checked_add(y.q))? })
}

fn sub(x: Elem, y: Elem) -> Option<Elem> {
    Some(Elem { p: within(x.p.checked_sub(y.p))?, q: within(x.q.checked_sub(y.q))? })
}

fn add_vectors(a: Vector, b: Vector) -> Option<Vector> {
    Some(Vector { x: add(a.x, b.x)?, y: add(a.y, b.y)? })
}

fn mul(d: i128, x: Elem, y: Elem) -> Option<Elem> {
    let rational = within(x.p.checked_mul(y.p))?;
    let roots = within(d.checked_mul(within(x.q.checked_mul(y.q))?))?;
    let left = within(x.p.checked_mul(y.q))?;
    let right = within(x.q.checked_mul(y.p))?;
    Some(Elem { p: within(rational.checked_add(roots))?, q: within(left.checked_add(right))? })
}

fn cmp(d: u128, x: Elem, y: Elem) -> Ordering {
    match (x.p.cmp(&y.p), x.q.cmp(&y.q)) {
        (Ordering::Equal, q) => q,
        (Ordering::Greater, Ordering::Less) => compare_sizes(d, x, y),
        (Ordering::Less, Ordering::Greater) => compare_sizes(d, x, y).reverse(),
        (p, _) => p,
    }
}

fn compare_sizes(d: u128, x: Elem, y: Elem) -> Ordering {
    let (p, q) = (x.p.abs_diff(y.p), x.q.abs_diff(y.q));
    assert!(p < 1 << 58 && q < 1 << 58);
    (p * p).cmp(&(d * (q * q)))
}

// Moves the last name of a row to the place right after another.
fn move_last_after(row: &mut [u32], name: u32) {
    let mut i = row.len() - 1;
    while row[i] != name {
        i -= 1;
    }
    row[i + 1..].rotate_right(1);
}

impl State {
    // The exchange of squares in the direction (1, y), glued upwards and to the right by these numbers.
    fn squares(up: &[u16], right: &[u16], y: i128) -> State {
        let n = up.len() as u16;
        let mut letters = Vec::new();
        for i in 0..n {
            letters.push(Letter {
                name: 2 * i as u32,
                length: whole(y),
                back: vector(0, 1),
                corner: (up[i as usize], 0),
                start: Tag { v: vector(0, 0), real: true },
                end: Tag { v: vector(0, 1), real: false },
            });
            letters.push(Letter {
                name: 2 * i as u32 + 1,
                length: whole(1),
                back: vector(1, 0),
                corner: (right[i as usize], 3),
                start: Tag { v: vector(0, -1), real: false },
                end: Tag { v: vector(1, 1), real: true },
            });
        }
        let mut bottom = Vec::new();
        for j in 0..n {
            bottom.push(2 * right.iter().position(|k| *k == j).unwrap() as u32 + 1);
            bottom.push(2 * up.iter().position(|k| *k == j).unwrap() as u32);
        }
        let letters_in_all = 2 * n as usize;
        State {
            letters,
            current: Some(Extent { base: ZERO, total: whole(n as i128 * (y + 1)) }),
            top: (0..2 * n as u32).collect(),
            bottom,
            waiting: Vec::with_capacity(letters_in_all),
            searched: false,
            places: vec![0; letters_in_all],
        }
    }

    fn find_split(&mut self) -> Option<usize> {
        if self.searched {
            return None;
        }
        for (i, name) in self.top.iter().enumerate() {
            self.places[*name as usize] = i as u32;
        }
        let (mut greatest, mut cut) = (0, None);
        for (i, name) in self.bottom[..self.bottom.len() - 1].iter().enumerate() {
            greatest = greatest.max(self.places[*name as usize]);
            if greatest as usize == i {
                cut = Some(i + 1);
            }
        }
        self.searched = cut.is_none();
        cut
    }

    fn found(&self, start: u32, end: u32) -> Option<Option<((u16, u16), Vector)>> {
        let (start, end) = (self.letters[start as usize], self.letters[end as usize]);
        if start.start.real && end.end.real {
            Some(Some((start.corner, add_vectors(start.start.v, end.end.v)?)))
        } else {
            Some(None)
        }
    }

    fn split(&mut self, k: usize) -> Option<Logged> {
        let extent = self.current?;
        let mut left = self.letters[self.top[0] as usize].length;
        for name in &self.top[1..k] {
            left = add(left, self.letters[*name as usize].length)?;
        }
        let right = sub(extent.total, left)?;
        let base = add(extent.base, left)?;
        let (start, end) = (self.bottom[k], self.top[k]);
        let found = self.found(start, end)?;
        if found.is_some() {
            self.letters[start as usize].start.real = false;
            self.letters[end as usize].end.real = false;
        }
        let (top, bottom) = (self.top[..k].to_vec(), self.bottom[..k].to_vec());
        self.waiting.push((Extent { base: extent.base, total: left }, top, bottom));
        self.top.drain(..k);
        self.bottom.drain(..k);
        self.current = Some(Extent { base, total: right });
        self.searched = false;
        Some(Logged { event: Event::Split(k as u32, found), length: ZERO })
    }

    fn duel(&mut self, d: u128) -> Option<Logged> {
        let n = self.top.len();
        let x = self.letters[self.top[n - 1] as usize];
        let y = self.letters[self.bottom[n - 1] as usize];
        let extent = self.current?;
        match cmp(d, x.length, y.length) {
            Ordering::Greater => {
                let length = sub(x.length, y.length)?;
                let total = sub(extent.total, y.length)?;
                let back = add_vectors(y.back, x.back)?;
                let start = add_vectors(y.start.v, x.back)?;
                self.letters[x.name as usize].length = length;
                let loser = &mut self.letters[y.name as usize];
                loser.back = back;
                loser.start.v = start;
                move_last_after(&mut self.bottom, x.name);
                self.current = Some(Extent { base: extent.base, total });
                Some(Logged { event: Event::Won(true), length })
            }
            Ordering::Less => {
                let length = sub(y.length, x.length)?;
                let total = sub(extent.total, x.length)?;
                let back = add_vectors(x.back, y.back)?;
                let end = add_vectors(x.end.v, y.back)?;
                self.letters[y.name as usize].length = length;
                let loser = &mut self.letters[x.name as usize];
                loser.back = back;
                loser.end.v = end;
                move_last_after(&mut self.top, y.name);
                self.current = Some(Extent { base: extent.base, total });
                Some(Logged { event: Event::Won(false), length })
            }
            Ordering::Equal => {
                let total = sub(extent.total, x.length)?;
                let back = add_vectors(y.back, x.back)?;
                let found = self.found(y.name, x.name)?;
                let letter = &mut self.letters[y.name as usize];
                letter.back = back;
                letter.corner = x.corner;
                letter.start = x.start;
                let i = self.bottom.iter().position(|name| *name == x.name)?;
                self.bottom[i] = y.name;
                self.bottom.pop();
                self.top.pop();
                self.current = Some(Extent { base: extent.base, total });
                self.searched = false;
                Some(Logged { event: Event::Merged(found), length: x.length })
            }
        }
    }

    fn close(&mut self) {
        self.searched = false;
        match self.waiting.pop() {
            None => {
                self.current = None;
                self.top.clear();
                self.bottom.clear();
            }
            Some((extent, top, bottom)) => {
                self.current = Some(extent);
                self.top = top;
                self.bottom = bottom;
            }
        }
    }

    fn same_shape(&self, d: i128, other: &State) -> Option<bool> {
        if self.top != other.top || self.bottom != other.bottom {
            return Some(false);
        }
        let (total, before) = (self.current?.total, other.current?.total);
        for name in &self.top {
            let left = mul(d, self.letters[*name as usize].length, before)?;
            let right = mul(d, other.letters[*name as usize].length, total)?;
            if left != right {
                return Some(false);
            }
        }
        Some(true)
    }
}

// The events of the run of a state, and its steps.
fn run(mut state: State, d: u128) -> Option<(Vec<Logged>, u32)> {
    let mut events = Vec::new();
    let (mut saved, mut number, mut steps, mut looped) = (state.clone(), 0u32, 0u32, false);
    while state.current.is_some() {
        if looped || state.top.len() == 1 {
            state.close();
            events.push(Logged { event: Event::Closed, length: ZERO });
            (saved, number, looped) = (state.clone(), 0, false);
            continue;
        }
        let logged = match state.find_split() {
            Some(k) => state.split(k)?,
            None => state.duel(d)?,
        };
        let event = logged.event;
        events.push(logged);
        match event {
            Event::Won(_) => {
                steps += 1;
                number += 1;
                if state.same_shape(d as i128, &saved)? {
                    looped = true;
                } else if number & (number + 1) == 0 {
                    saved = state.clone();
                }
            }
            Event::Merged(_) => {
                steps += 1;
                (saved, number) = (state.clone(), 0);
            }
            _ => (saved, number) = (state.clone(), 0),
        }
    }
    Some((events, steps))
}

fn timed(name: &str, up: &[u16], right: &[u16], y: i128) {
    let mut result = 0;
    let start = Instant::now();
    for _ in 0..ROUNDS {
        if let Some((events, steps)) = run(State::squares(up, right, y), 2) {
            result = events.len() + steps as usize;
        }
    }
    println!("{name} {} {result}", start.elapsed().as_nanos());
}

fn main() {
    timed("two-letters", &[0], &[0], 1_000_000);
    timed("eight-letters", &[0, 2, 1, 3], &[1, 0, 3, 2], 333_332);
}
