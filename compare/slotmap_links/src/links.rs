//! Chains of links in a `SlotMap`, connected by hand.

use slotmap::{DefaultKey, SlotMap};

/// A link with the keys of its neighbors.
#[derive(Clone, Copy)]
pub struct Link {
    pub prev: Option<DefaultKey>,
    pub next: Option<DefaultKey>,
    pub t: u32,
}

/// Links, connected into linear and cyclic chains.
#[derive(Clone, Default)]
pub struct Chains {
    pub map: SlotMap<DefaultKey, Link>,
}

impl Chains {
    /// Inserts a link in a chain of its own.
    pub fn insert_alone(&mut self, t: u32) -> DefaultKey {
        self.map.insert(Link {
            prev: None,
            next: None,
            t,
        })
    }

    /// Inserts a link in a cyclic chain of its own.
    pub fn insert_cycle(&mut self, t: u32) -> DefaultKey {
        self.map.insert_with_key(|p| Link {
            prev: Some(p),
            next: Some(p),
            t,
        })
    }

    /// Inserts a link after the end of a chain. Returns `None` if `end` is not a link's key, or not an end.
    pub fn insert_end(&mut self, end: DefaultKey, t: u32) -> Option<DefaultKey> {
        if self.map.get(end)?.next.is_some() {
            return None;
        }
        let p = self.map.insert(Link {
            prev: Some(end),
            next: None,
            t,
        });
        self.map[end].next = Some(p);
        Some(p)
    }

    /// Inserts a link after another. Returns `None` if `prev` is not a link's key.
    pub fn insert_next_to(&mut self, prev: DefaultKey, t: u32) -> Option<DefaultKey> {
        let next = self.map.get(prev)?.next;
        let p = self.map.insert(Link {
            prev: Some(prev),
            next,
            t,
        });
        self.map[prev].next = Some(p);
        if let Some(next) = next {
            self.map[next].prev = Some(p);
        }
        Some(p)
    }

    /// Removes a link and connects its neighbors. Returns `None` if `p` is not a link's key.
    pub fn remove(&mut self, p: DefaultKey) -> Option<Link> {
        let link = self.map.remove(p)?;
        match (link.prev, link.next) {
            (Some(prev), Some(next)) if prev != p => {
                self.map[prev].next = Some(next);
                self.map[next].prev = Some(prev);
            }
            (Some(prev), None) => self.map[prev].next = None,
            (None, Some(next)) => self.map[next].prev = None,
            _ => (),
        }
        Some(link)
    }

    /// Connects the end of a chain to the start of a chain. Returns `None` if `p` is not an end or `q` is not a start.
    pub fn connect(&mut self, p: DefaultKey, q: DefaultKey) -> Option<()> {
        if self.map.get(p)?.next.is_some() || self.map.get(q)?.prev.is_some() {
            return None;
        }
        self.map[p].next = Some(q);
        self.map[q].prev = Some(p);
        Some(())
    }

    /// Disconnects a link from the next one. Returns `None` if there is none.
    pub fn break_next(&mut self, p: DefaultKey) -> Option<()> {
        let next = self.map.get_mut(p)?.next.take()?;
        self.map[next].prev = None;
        Some(())
    }

    /// Exchanges the next links of two links. Returns `None` if one of them has no next link.
    pub fn exchange_next(&mut self, p: DefaultKey, q: DefaultKey) -> Option<()> {
        let after_p = self.map.get(p)?.next?;
        let after_q = self.map.get(q)?.next?;
        self.map[p].next = Some(after_q);
        self.map[q].next = Some(after_p);
        self.map[after_q].prev = Some(p);
        self.map[after_p].prev = Some(q);
        Some(())
    }

    /// Returns an iterator over links from `start` to the end of the chain, or around a cyclic chain.
    pub fn iter_chain(&self, start: DefaultKey) -> impl Iterator<Item = (DefaultKey, &Link)> {
        let mut next = Some(start);
        std::iter::from_fn(move || {
            let p = next?;
            let link = self.map.get(p)?;
            next = link.next.filter(|next| *next != start);
            Some((p, link))
        })
    }

    /// Returns an iterator that removes links from `start` to the end of the chain, or around a cyclic chain.
    pub fn drain_chain(&mut self, start: DefaultKey) -> impl Iterator<Item = (DefaultKey, Link)> {
        let mut next = Some(start);
        std::iter::from_fn(move || {
            let p = next?;
            let link = self.remove(p)?;
            next = link.next.filter(|next| *next != p);
            Some((p, link))
        })
    }

    /// Returns the first link of a chain and `false`, or the link itself and `true` if the chain is cyclic.
    fn start_of(&self, p: DefaultKey) -> (DefaultKey, bool) {
        let mut start = p;
        while let Some(prev) = self.map[start].prev {
            if prev == p {
                return (p, true);
            }
            start = prev;
        }
        (start, false)
    }

    /// Moves all links to a new map, one chain after another in order of their least links.
    pub fn transfer(&mut self) -> Chains {
        let keys: Vec<DefaultKey> = self.map.keys().collect();
        let mut target = Chains {
            map: SlotMap::with_capacity(keys.len()),
        };
        for p in keys {
            if self.map.contains_key(p) {
                let (start, is_cyclic) = self.start_of(p);
                self.move_chain(start, is_cyclic, &mut target);
            }
        }
        target
    }

    /// Moves a chain to another map.
    fn move_chain(&mut self, start: DefaultKey, is_cyclic: bool, target: &mut Chains) {
        let mut ends: Option<(DefaultKey, DefaultKey)> = None;
        for (_, link) in self.drain_chain(start) {
            let p = target.map.insert(Link {
                prev: ends.map(|(_, last)| last),
                next: None,
                t: link.t,
            });
            if let Some((_, last)) = ends {
                target.map[last].next = Some(p);
            }
            ends = Some((ends.map_or(p, |(first, _)| first), p));
        }
        if let Some((first, last)) = ends.filter(|_| is_cyclic) {
            target.map[last].next = Some(first);
            target.map[first].prev = Some(last);
        }
    }
}

#[cfg(test)]
mod tests {
    use super::*;

    fn values(chains: &Chains, start: DefaultKey) -> Vec<u32> {
        chains.iter_chain(start).map(|(_, link)| link.t).collect()
    }

    #[test]
    fn transfers_linear_and_cyclic_chains() {
        let mut chains = Chains::default();
        let a = chains.insert_alone(1);
        let b = chains.insert_cycle(10);
        let c = chains.insert_end(a, 3).unwrap();
        chains.insert_next_to(a, 2).unwrap();
        chains.insert_next_to(b, 11).unwrap();
        let d = chains.insert_end(c, 4).unwrap();
        assert_eq!(chains.remove(d).unwrap().t, 4);
        let target = chains.transfer();
        assert_eq!(chains.map.len(), 0);
        let keys: Vec<DefaultKey> = target.map.keys().collect();
        assert_eq!(
            target.map.values().map(|link| link.t).collect::<Vec<_>>(),
            [1, 2, 3, 10, 11]
        );
        assert_eq!(values(&target, keys[0]), [1, 2, 3]);
        assert_eq!(values(&target, keys[3]), [10, 11]);
        assert_eq!(target.map[keys[3]].prev, Some(keys[4]));
        assert_eq!(target.map[keys[4]].next, Some(keys[3]));
    }

    #[test]
    fn exchanges_breaks_and_connects() {
        let mut chains = Chains::default();
        let a = chains.insert_cycle(1);
        let b = chains.insert_cycle(2);
        assert_eq!(chains.exchange_next(a, b), Some(()));
        assert_eq!(values(&chains, a), [1, 2]);
        assert_eq!(chains.break_next(b), Some(()));
        assert_eq!(chains.break_next(b), None);
        assert_eq!(chains.connect(b, a), Some(()));
        assert_eq!(
            chains
                .drain_chain(b)
                .map(|(_, link)| link.t)
                .collect::<Vec<_>>(),
            [2, 1]
        );
    }
}
