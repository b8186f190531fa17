//! The arenas that cases begin with, and the pairs of links that they use. A link's value is its position in its chain, from 0.

use super::arguments::Plan;
use super::cases::{Picks, Shape};
use super::links::{Links, Position};
use super::numbers::Numbers;

/// An arena, its pointers in the order of insertion, and the first link of each chain.
pub struct ShapedArena<L: Links> {
    pub arena: L,
    pub links: Vec<L::Ptr>,
    pub starts: Vec<L::Ptr>,
}

impl<L: Links> ShapedArena<L> {
    /// Returns an arena of a shape.
    pub fn of(shape: Shape, plan: Plan, numbers: &mut Numbers) -> Self {
        let mut shaped = ShapedArena {
            arena: L::new(),
            links: Vec::new(),
            starts: Vec::new(),
        };
        shaped.fill(shape, plan, numbers);
        shaped
    }

    fn fill(&mut self, shape: Shape, plan: Plan, numbers: &mut Numbers) {
        match shape {
            Shape::Empty => (),
            Shape::Starts => self.add(plan.chains(), 1, false),
            Shape::Chains | Shape::Roomy => self.add(plan.chains(), plan.chain, false),
            Shape::Cycles => self.add(plan.chains(), plan.chain, true),
            Shape::Tangled => self.add_tangled(plan, numbers),
            Shape::Interleaved => self.add_interleaved(plan),
            Shape::HalfHoles => self.add_half_holes(plan),
            Shape::BehindHoles => self.add_behind_holes(plan),
            Shape::Permuted => self.add_permuted(plan.chains(), plan.chain, numbers),
            Shape::PermutedHoles => self.add_permuted_holes(plan, numbers),
            Shape::PermutedBehind => self.add_permuted_behind(plan, numbers),
        }
    }

    /// Adds chains whose links are at random indexes.
    fn add_tangled(&mut self, plan: Plan, numbers: &mut Numbers) {
        self.add(plan.links, 1, false);
        numbers.shuffle(&mut self.links);
        for chain in self.links.chunks(plan.chain as usize) {
            for pair in chain.windows(2) {
                self.arena.connect(pair[0], pair[1]);
            }
        }
    }

    /// Adds chains that grow in turn, by one link each.
    fn add_interleaved(&mut self, plan: Plan) {
        self.add(plan.chains(), 1, false);
        for k in 1..plan.chain {
            for _ in 0..plan.chains() {
                let end = self.links[self.links.len() - plan.chains() as usize];
                self.add_link(Position::End(end), k);
            }
        }
    }

    /// Adds chains, with a hole after each link.
    fn add_half_holes(&mut self, plan: Plan) {
        self.add(plan.chains(), 2 * plan.chain, false);
        self.make_holes(1, 2, plan.links);
    }

    /// Adds chains after as many holes.
    fn add_behind_holes(&mut self, plan: Plan) {
        self.add(plan.links, 1, false);
        self.add(plan.chains(), plan.chain, false);
        self.make_holes(0, 1, plan.links);
    }

    /// Adds the cycles of a random permutation: cyclic chains, after as many exchanges of two random links' next ones as there are
    /// links.
    fn add_permuted(&mut self, chains: u32, chain: u32, numbers: &mut Numbers) {
        let first = self.links.len();
        self.add(chains, chain, true);
        let links = &self.links[first..];
        for _ in links {
            if let (Some(p), Some(q)) = (numbers.pick(links), numbers.pick(links)) {
                self.arena.exchange_next(p, q);
            }
        }
    }

    /// Adds the cycles of a random permutation of twice as many links, and removes half of them at random.
    fn add_permuted_holes(&mut self, plan: Plan, numbers: &mut Numbers) {
        self.add_permuted(plan.chains(), 2 * plan.chain, numbers);
        numbers.shuffle(&mut self.links);
        self.make_holes(0, 1, plan.links);
    }

    /// Adds the cycles of a random permutation after as many holes.
    fn add_permuted_behind(&mut self, plan: Plan, numbers: &mut Numbers) {
        self.add(plan.links, 1, false);
        self.add_permuted(plan.chains(), plan.chain, numbers);
        self.make_holes(0, 1, plan.links);
    }

    /// Adds linear or cyclic chains, one after another.
    fn add(&mut self, chains: u32, chain: u32, are_cyclic: bool) {
        for _ in 0..chains {
            let first = if are_cyclic {
                Position::Cycle
            } else {
                Position::Alone
            };
            let mut last = self.add_link(first, 0);
            self.starts.push(last);
            for k in 1..chain {
                let position = if are_cyclic {
                    Position::NextTo(last)
                } else {
                    Position::End(last)
                };
                last = self.add_link(position, k);
            }
        }
    }

    fn add_link(&mut self, position: Position<L::Ptr>, t: u32) -> L::Ptr {
        let p = self.arena.insert(position, t);
        self.links.push(p);
        p
    }

    /// Removes `count` links, from the position `first` on at every `step`-th position.
    fn make_holes(&mut self, first: usize, step: usize, count: u32) {
        for p in self
            .links
            .iter()
            .skip(first)
            .step_by(step)
            .take(count as usize)
        {
            self.arena.remove(*p);
        }
    }

    /// Returns the pairs that a case uses, about as many as there are links.
    pub fn picks_of(&mut self, picks: Picks, numbers: &mut Numbers) -> Vec<(L::Ptr, L::Ptr)> {
        match picks {
            Picks::Nothing => Vec::new(),
            Picks::Random => self.random_pairs(numbers, |_, numbers, links, _| numbers.pick(links)),
            Picks::Neighbors => self.random_pairs(numbers, |arena, _, _, p| arena.next_of(p)),
            Picks::Succeeding => {
                numbers.shuffle(&mut self.links);
                self.links
                    .windows(2)
                    .map(|pair| (pair[0], pair[1]))
                    .collect()
            }
        }
    }

    /// Returns pairs of a random link and the link that `other` returns. There is no pair where it returns `None`.
    fn random_pairs<F>(&self, numbers: &mut Numbers, other: F) -> Vec<(L::Ptr, L::Ptr)>
    where
        F: Fn(&L, &mut Numbers, &[L::Ptr], L::Ptr) -> Option<L::Ptr>,
    {
        let mut pairs = Vec::new();
        for _ in &self.links {
            let p = numbers.pick(&self.links);
            pairs.extend(p.and_then(|p| Some((p, other(&self.arena, numbers, &self.links, p)?))));
        }
        pairs
    }
}
