//! The cases, with the names of `bench/cases.rt.txt`.

/// The arena that a case begins with.
#[derive(Clone, Copy, Debug)]
pub enum Shape {
    /// No links.
    Empty,
    /// The first link of each chain.
    Starts,
    /// Linear chains, one after another.
    Chains,
    /// The same, with capacity for as many links again.
    Roomy,
    /// Cyclic chains, one after another.
    Cycles,
    /// Chains whose links are at random indexes.
    Tangled,
    /// Chains that grew in turn, by one link each.
    Interleaved,
    /// Chains one after another, with a hole after each link.
    HalfHoles,
    /// Chains one after another, after as many holes.
    BehindHoles,
    /// The cycles of a random permutation.
    Permuted,
    /// The same among twice as many links, half of which are then removed at random.
    PermutedHoles,
    /// The cycles of a random permutation, after as many holes.
    PermutedBehind,
}

/// The pairs of links that a case uses.
#[derive(Clone, Copy, Debug)]
pub enum Picks {
    /// No pairs.
    Nothing,
    /// Any two links.
    Random,
    /// A link and the next one.
    Neighbors,
    /// Each link once, in random order, with the next one in that order.
    Succeeding,
}

/// A case.
#[derive(Clone, Copy, Debug, PartialEq, Eq)]
pub enum Case {
    Insert,
    InsertEnd,
    InsertBeside,
    InsertBesideRoomy,
    Exchange,
    BreakConnect,
    Replace,
    MoveAfter,
    Reverse,
    GetLink,
    Walk,
    Advance,
    Iterate,
    DrainChains,
    DrainInterleaved,
    Drain,
    DrainTangled,
    Copy,
    Compress,
    CanonicalTangled,
    CanonicalInterleaved,
    CanonicalHoles,
    CanonicalRested,
    CanonicalBehind,
    CanonicalPermuted,
    CanonicalPermutedHoles,
    CanonicalPermutedBehind,
    Transfer,
    TransferPermuted,
}

/// Each case with its name, the arena that it begins with, and the pairs that it uses.
const CASES: [(Case, &str, Shape, Picks); 29] = [
    (Case::Insert, "insert", Shape::Empty, Picks::Nothing),
    (Case::InsertEnd, "insert_end", Shape::Starts, Picks::Nothing),
    (
        Case::InsertBeside,
        "insert_beside",
        Shape::Chains,
        Picks::Random,
    ),
    (
        Case::InsertBesideRoomy,
        "insert_beside_roomy",
        Shape::Roomy,
        Picks::Random,
    ),
    (Case::Exchange, "exchange", Shape::Cycles, Picks::Random),
    (
        Case::BreakConnect,
        "break_connect",
        Shape::Chains,
        Picks::Neighbors,
    ),
    (Case::Replace, "replace", Shape::Chains, Picks::Succeeding),
    (Case::MoveAfter, "move_after", Shape::Chains, Picks::Random),
    (Case::Reverse, "reverse", Shape::Chains, Picks::Nothing),
    (Case::GetLink, "get_link", Shape::Chains, Picks::Random),
    (Case::Walk, "walk", Shape::Chains, Picks::Nothing),
    (Case::Advance, "advance", Shape::Chains, Picks::Nothing),
    (Case::Iterate, "iterate", Shape::Chains, Picks::Nothing),
    (
        Case::DrainChains,
        "drain_chains",
        Shape::Chains,
        Picks::Nothing,
    ),
    (
        Case::DrainInterleaved,
        "drain_interleaved",
        Shape::Interleaved,
        Picks::Nothing,
    ),
    (Case::Drain, "drain", Shape::Chains, Picks::Nothing),
    (
        Case::DrainTangled,
        "drain_tangled",
        Shape::Tangled,
        Picks::Nothing,
    ),
    (Case::Copy, "copy", Shape::Chains, Picks::Nothing),
    (Case::Compress, "compress", Shape::HalfHoles, Picks::Nothing),
    (
        Case::CanonicalTangled,
        "canonical_tangled",
        Shape::Tangled,
        Picks::Nothing,
    ),
    (
        Case::CanonicalInterleaved,
        "canonical_interleaved",
        Shape::Interleaved,
        Picks::Nothing,
    ),
    (
        Case::CanonicalHoles,
        "canonical_holes",
        Shape::HalfHoles,
        Picks::Nothing,
    ),
    (
        Case::CanonicalRested,
        "canonical_rested",
        Shape::Chains,
        Picks::Nothing,
    ),
    (
        Case::CanonicalBehind,
        "canonical_behind",
        Shape::BehindHoles,
        Picks::Nothing,
    ),
    (
        Case::CanonicalPermuted,
        "canonical_permuted",
        Shape::Permuted,
        Picks::Nothing,
    ),
    (
        Case::CanonicalPermutedHoles,
        "canonical_permuted_holes",
        Shape::PermutedHoles,
        Picks::Nothing,
    ),
    (
        Case::CanonicalPermutedBehind,
        "canonical_permuted_behind",
        Shape::PermutedBehind,
        Picks::Nothing,
    ),
    (Case::Transfer, "transfer", Shape::Chains, Picks::Nothing),
    (
        Case::TransferPermuted,
        "transfer_permuted",
        Shape::Permuted,
        Picks::Nothing,
    ),
];

impl Case {
    /// Returns the case with a name.
    pub fn of(name: &str) -> Option<Case> {
        CASES.iter().find(|row| row.1 == name).map(|row| row.0)
    }

    fn row(self) -> &'static (Case, &'static str, Shape, Picks) {
        CASES
            .iter()
            .find(|row| row.0 == self)
            .expect("a row for each case")
    }

    /// Returns the name of the case.
    pub fn name(self) -> &'static str {
        self.row().1
    }

    /// Returns the arena that the case begins with.
    pub fn shape(self) -> Shape {
        self.row().2
    }

    /// Returns the pairs of links that the case uses.
    pub fn picks(self) -> Picks {
        self.row().3
    }

    /// Returns whether each round needs an arena of its own, since a round changes which pointers are valid.
    pub fn needs_arena_per_round(self) -> bool {
        !matches!(
            self,
            Case::Exchange
                | Case::BreakConnect
                | Case::GetLink
                | Case::Walk
                | Case::Advance
                | Case::Iterate
                | Case::Copy
        )
    }
}
