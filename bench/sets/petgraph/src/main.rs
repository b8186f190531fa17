//! The benchmark of `main.rt.txt` over petgraph's `UnionFind`, or with the argument `--arrays` over
//! two arrays: parents and sizes. The lookups come after all paths are compressed.
use petgraph::unionfind::UnionFind;
use std::time::Instant;

trait Sets {
    fn new(keys: usize) -> Self;
    fn union(&mut self, a: u32, b: u32) -> bool;
    fn compress(&mut self);
    fn same(&self, a: u32, b: u32) -> bool;
    fn root(&self, a: u32) -> u32;
}

struct Petgraph(UnionFind<u32>, u32);

impl Sets for Petgraph {
    fn new(keys: usize) -> Self {
        Petgraph(UnionFind::new(keys), keys as u32)
    }
    fn union(&mut self, a: u32, b: u32) -> bool {
        self.0.union(a, b)
    }
    fn compress(&mut self) {
        for k in 0..self.1 {
            self.0.find_mut(k);
        }
    }
    fn same(&self, a: u32, b: u32) -> bool {
        self.0.equiv(a, b)
    }
    fn root(&self, a: u32) -> u32 {
        self.0.find(a)
    }
}

struct Arrays {
    parents: Vec<u32>,
    sizes: Vec<u32>,
}

impl Arrays {
    fn find(&self, mut a: u32) -> u32 {
        while self.parents[a as usize] != a {
            a = self.parents[a as usize];
        }
        a
    }
    fn find_mut(&mut self, a: u32) -> u32 {
        let root = self.find(a);
        let mut at = a;
        while self.parents[at as usize] != root {
            let next = self.parents[at as usize];
            self.parents[at as usize] = root;
            at = next;
        }
        root
    }
}

impl Sets for Arrays {
    fn new(keys: usize) -> Self {
        Arrays { parents: (0..keys as u32).collect(), sizes: vec![1; keys] }
    }
    fn union(&mut self, a: u32, b: u32) -> bool {
        let (mut a, mut b) = (self.find_mut(a), self.find_mut(b));
        if a == b {
            return false;
        }
        if self.sizes[a as usize] < self.sizes[b as usize] {
            std::mem::swap(&mut a, &mut b);
        }
        self.parents[b as usize] = a;
        self.sizes[a as usize] += self.sizes[b as usize];
        true
    }
    fn compress(&mut self) {
        for k in 0..self.parents.len() as u32 {
            self.find_mut(k);
        }
    }
    fn same(&self, a: u32, b: u32) -> bool {
        self.find(a) == self.find(b)
    }
    fn root(&self, a: u32) -> u32 {
        self.find(a)
    }
}

fn next(seed: u32) -> u32 {
    seed.wrapping_mul(1_664_525).wrapping_add(1_013_904_223)
}

fn unite<S: Sets>(sets: &mut S, keys: u32) -> u64 {
    let (mut seed, mut sum) = (1, 0);
    for _ in 0..keys {
        let first = next(seed);
        seed = next(first);
        sum += u64::from(sets.union((first >> 1) % keys, (seed >> 1) % keys));
    }
    sum
}

fn look_up<S: Sets>(sets: &S, keys: u32) -> u64 {
    let (mut seed, mut sum) = (7, 0);
    for _ in 0..keys {
        let first = next(seed);
        seed = next(first);
        sum += u64::from(sets.same((first >> 1) % keys, (seed >> 1) % keys));
    }
    sum
}

// The value of a set is that of its root here, which may be another one than ours. Each is below `keys`.
fn read<S: Sets>(sets: &S, values: &[u32], keys: u32) -> u64 {
    let (mut seed, mut sum) = (7, 0);
    for _ in 0..keys {
        seed = next(seed);
        sum += u64::from(values[sets.root((seed >> 1) % keys) as usize] < keys);
    }
    sum
}

fn run<S: Sets>(case: &str, keys: u32) {
    let mut sets = S::new(keys as usize);
    let values: Vec<u32> = (0..keys).collect();
    if case != "union" {
        unite(&mut sets, keys);
        sets.compress();
    }
    let start = Instant::now();
    let sum = match case {
        "union" => unite(&mut sets, keys),
        "same" => look_up(&sets, keys),
        _ => read(&sets, &values, keys),
    };
    println!("{case}: {keys} operations, sum {sum}, {} nanoseconds", start.elapsed().as_nanos());
}

fn main() {
    let words: Vec<String> = std::env::args().skip(1).collect();
    match words.iter().map(String::as_str).collect::<Vec<_>>()[..] {
        ["--arrays", case, keys] => run::<Arrays>(case, keys.parse().unwrap()),
        [case, keys] => run::<Petgraph>(case, keys.parse().unwrap()),
        _ => std::process::exit(1),
    }
}
