//! A fixed piece of work in plain Rust, by which `machine.sh` tells how fast a machine is: it makes trees on the heap and
//! compares them, follows links that lie far apart in memory, and counts. Its numbers and what it prints must stay as
//! they are, or the times in `docs/GATE.md` no longer compare.
use std::hint::black_box;

const LINKS: usize = 1 << 23;
const STEPS: usize = 6_000_000;
const TREES: u64 = 60;
const DEPTH: u32 = 17;
const COUNTS: u64 = 400_000_000;

/// The next of a row of numbers that look random.
fn next(state: u64) -> u64 {
    state.wrapping_mul(6_364_136_223_846_793_005).wrapping_add(1_442_695_040_888_963_407)
}

enum Tree {
    Leaf(u64),
    Node(Box<Tree>, Box<Tree>),
}

fn grow(depth: u32, state: &mut u64) -> Tree {
    *state = next(*state);
    if depth == 0 {
        Tree::Leaf(*state >> 60)
    } else {
        Tree::Node(Box::new(grow(depth - 1, state)), Box::new(grow(depth - 1, state)))
    }
}

/// How many leaves two trees of one form have alike.
fn alike(a: &Tree, b: &Tree) -> u64 {
    match (a, b) {
        (Tree::Leaf(m), Tree::Leaf(n)) => u64::from(m == n),
        (Tree::Node(a, b), Tree::Node(c, d)) => alike(a, c) + alike(b, d),
        _ => 0,
    }
}

fn trees() -> u64 {
    let mut state = 1541;
    let first = grow(DEPTH, &mut state);
    (0..TREES).map(|_| alike(&first, &grow(DEPTH, &mut state))).sum()
}

/// One circle through all links in an order that looks random, and where so many steps along it end.
fn links() -> u64 {
    let mut links: Vec<u32> = (0..LINKS as u32).collect();
    let mut state = 64;
    for last in (1..LINKS).rev() {
        state = next(state);
        links.swap(last, (state >> 33) as usize % last);
    }
    let end = (0..STEPS).fold(0, |at, _| links[at as usize]);
    u64::from(end)
}

fn counts() -> u64 {
    (0..COUNTS).fold(18, |sum: u64, n| black_box(sum.rotate_left(5) ^ n).wrapping_mul(0x9E37_79B9_7F4A_7C15))
}

fn main() {
    println!("{} {} {}", trees(), links(), counts());
}
