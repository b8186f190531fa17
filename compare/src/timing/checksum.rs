//! The checksum of a case.

/// The number of operations, and an order-dependent sum over the numbers that they returned.
#[derive(Clone, Copy, Debug, Default)]
pub struct Checksum {
    pub operations: u64,
    pub sum: u64,
}

impl Checksum {
    /// Adds a number.
    pub fn add(&mut self, number: u64) {
        self.sum = self.sum.wrapping_mul(31).wrapping_add(number);
    }

    /// Adds an operation with a number.
    pub fn add_operation(&mut self, number: u64) {
        self.operations += 1;
        self.add(number);
    }

    /// Adds another round.
    pub fn add_round(&mut self, round: Checksum) {
        self.operations += round.operations;
        self.add(round.sum);
    }
}

/// Returns 1 for a call that succeeded, and 0 for one that returned `None`.
pub fn number_of_success(result: Option<()>) -> u64 {
    u64::from(result.is_some())
}
