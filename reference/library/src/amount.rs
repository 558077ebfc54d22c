//! How much is compared.

/// Of a long table, trees of up to so many nodes, and of the files one in so many.
#[derive(Clone, Copy)]
pub struct Table {
    pub nodes: usize,
    pub one_in: usize,
}

#[derive(Clone, Copy)]
pub struct Amount {
    pub seed: u64,
    pub random: u64,
    pub damaged: u64,
    /// Random files with trees of up to 2,500 nodes, and such files damaged.
    pub long: u64,
    pub small: Table,
    pub passed: Table,
    pub facts: usize,
    pub bytes: usize,
}

pub const FULL: Amount = Amount {
    seed: 1,
    random: 1_000_000,
    damaged: 400_000,
    long: 20_000,
    small: Table { nodes: 4, one_in: 11 },
    passed: Table { nodes: 3, one_in: 1 },
    facts: 1,
    bytes: 1,
};

pub const SHORT: Amount = Amount {
    seed: 1,
    random: 50_000,
    damaged: 30_000,
    long: 800,
    small: Table { nodes: 3, one_in: 5 },
    passed: Table { nodes: 3, one_in: 17 },
    facts: 7,
    bytes: 11,
};

impl Amount {
    pub fn seeded(mut self, seed: &str) -> Result<Self, String> {
        self.seed = seed.parse().map_err(|_| format!("`{seed}` is no seed"))?;
        Ok(self)
    }
}
