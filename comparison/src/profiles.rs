//! What random scripts are drawn from.

/// What a script is drawn from.
pub struct Profile {
    pub name: &'static str,
    /// The kinds that the script sets up first.
    pub kinds: &'static [u8],
    /// How many numbers of transactions are in use.
    pub transactions: usize,
    pub keys: usize,
    /// Begin, operate, singly or in a batch, finish, cancel.
    pub weights: [usize; 4],
    /// Of a hundred calls that operate, how many are batches.
    pub batched: usize,
    /// Of a hundred finishes, how many are of the transaction answered last.
    pub last_first: usize,
    /// Of a hundred operations, how many push or insert.
    pub adding: usize,
    /// Of a hundred operations on a stack or a table, how many push or modify, mostly as others do.
    pub equal: usize,
    /// Of a hundred calls, how many have arguments from anywhere.
    pub wild: usize,
    /// Of a hundred lines, how many are damaged.
    pub damaged: usize,
    /// Of a hundred lines, how many set up, half of them in vain.
    pub set_ups: usize,
    /// Of a hundred scripts, how many begin with the set up.
    pub set_up_first: usize,
    /// How many rings of transactions, each of which depends on the next, there are before the end.
    pub rings: usize,
    /// Of a hundred scripts, how many end by reading what is there.
    pub reading: usize,
    /// The fewest lines, and how many more there may be, the end apart.
    pub lines: (usize, usize),
    pub scripts: u64,
}

/// What a profile has unless it says otherwise.
const USUAL: Profile = Profile {
    name: "",
    kinds: &[1, 2, 3],
    transactions: 6,
    keys: 3,
    weights: [25, 60, 11, 4],
    batched: 12,
    last_first: 60,
    adding: 50,
    equal: 0,
    wild: 2,
    damaged: 1,
    set_ups: 0,
    set_up_first: 100,
    rings: 0,
    reading: 60,
    lines: (40, 80),
    scripts: 0,
};

/// What makes an object full.
const FULL: Profile =
    Profile { transactions: 3, keys: 80, weights: [4, 94, 2, 0], adding: 88, lines: (80, 60), scripts: 150, ..USUAL };

pub const PROFILES: [Profile; 25] = [
    Profile {
        name: "stacks, for cycles",
        kinds: &[1, 1, 1],
        transactions: 5,
        weights: [25, 60, 13, 2],
        adding: 90,
        scripts: 5000,
        ..USUAL
    },
    Profile {
        name: "rings, for long cycles",
        kinds: &[1, 1, 1, 2, 1, 1, 3],
        transactions: 9,
        rings: 2,
        lines: (5, 25),
        scripts: 600,
        ..USUAL
    },
    Profile {
        name: "equal entries",
        kinds: &[3, 1, 3],
        transactions: 5,
        keys: 2,
        weights: [30, 45, 22, 3],
        equal: 90,
        scripts: 3000,
        ..USUAL
    },
    Profile { name: "one object of each kind", wild: 4, scripts: 3500, ..USUAL },
    Profile {
        name: "tables",
        kinds: &[3, 3],
        transactions: 8,
        keys: 2,
        weights: [25, 62, 10, 3],
        adding: 35,
        scripts: 2500,
        ..USUAL
    },
    Profile { name: "sets", kinds: &[2, 2], transactions: 7, weights: [25, 60, 12, 3], scripts: 1500, ..USUAL },
    Profile {
        name: "chains",
        kinds: &[1, 1, 2, 3],
        transactions: 12,
        weights: [30, 50, 16, 4],
        last_first: 85,
        adding: 85,
        scripts: 2500,
        ..USUAL
    },
    Profile {
        name: "numbers used again",
        transactions: 2,
        keys: 2,
        weights: [30, 45, 18, 7],
        adding: 40,
        lines: (60, 90),
        scripts: 1000,
        ..USUAL
    },
    Profile { name: "bad arguments", kinds: &[1, 0, 2, 0, 3], wild: 60, scripts: 1500, ..USUAL },
    Profile {
        name: "keys and items with high bits",
        kinds: &[1, 2, 3, 2, 3],
        keys: 0,
        weights: [20, 68, 9, 3],
        scripts: 1500,
        ..USUAL
    },
    Profile { name: "damaged lines", damaged: 50, set_ups: 3, lines: (40, 110), scripts: 1500, ..USUAL },
    Profile { name: "set ups in the middle", set_ups: 6, damaged: 3, lines: (40, 110), scripts: 800, ..USUAL },
    Profile { name: "calls before the first set up", set_up_first: 0, set_ups: 10, scripts: 300, ..USUAL },
    Profile {
        name: "next to nothing",
        damaged: 60,
        set_up_first: 0,
        set_ups: 20,
        reading: 0,
        lines: (0, 3),
        scripts: 200,
        ..USUAL
    },
    Profile {
        name: "many live",
        kinds: &[1, 2, 3, 1],
        transactions: 64,
        keys: 6,
        weights: [30, 50, 18, 2],
        adding: 60,
        lines: (150, 150),
        scripts: 400,
        ..USUAL
    },
    Profile { name: "a full stack", kinds: &[1], ..FULL },
    Profile { name: "a full set", kinds: &[2], ..FULL },
    Profile { name: "a full table", kinds: &[3], ..FULL },
    Profile {
        name: "rows that fill objects",
        kinds: &[3, 2],
        keys: 90,
        weights: [20, 68, 11, 1],
        lines: (200, 100),
        ..FULL
    },
    Profile {
        name: "a full log",
        kinds: &[1, 2, 3, 1, 2, 3, 1, 2, 3, 1, 2, 3, 1, 2, 3],
        transactions: 5,
        keys: 40,
        weights: [50, 947, 3, 0],
        adding: 60,
        wild: 15,
        lines: (400, 100),
        scripts: 120,
        ..USUAL
    },
    Profile {
        name: "a full log of full objects",
        kinds: &[1, 2, 3],
        transactions: 2,
        keys: 500,
        weights: [50, 948, 2, 0],
        adding: 68,
        wild: 10,
        lines: (400, 100),
        scripts: 120,
        ..FULL
    },
    Profile {
        name: "batches",
        kinds: &[1, 2, 3, 1, 2, 3],
        keys: 6,
        weights: [25, 55, 14, 6],
        batched: 75,
        wild: 5,
        damaged: 3,
        lines: (30, 50),
        scripts: 2000,
        ..USUAL
    },
    Profile {
        name: "batches of bad arguments",
        kinds: &[1, 0, 2, 0, 3],
        batched: 75,
        wild: 50,
        damaged: 15,
        lines: (30, 40),
        scripts: 600,
        ..USUAL
    },
    Profile { name: "batches that fill objects", kinds: &[2, 3], batched: 50, scripts: 400, ..FULL },
    Profile {
        name: "batches that fill the log",
        kinds: &[1, 2, 3, 1, 2, 3, 1, 2, 3, 1, 2, 3],
        transactions: 6,
        keys: 60,
        weights: [40, 945, 5, 10],
        batched: 45,
        adding: 90,
        lines: (200, 150),
        scripts: 400,
        ..USUAL
    },
];

/// Every script's profile and seed, those of all profiles mixed.
pub fn scripts() -> Vec<(&'static Profile, u64)> {
    let of = |profile: &'static Profile| (0..profile.scripts).map(move |seed| (profile, seed));
    let mut scripts: Vec<_> = PROFILES.iter().flat_map(of).collect();
    scripts.sort_by_key(|&(profile, seed)| seed * 1_000_000 / profile.scripts);
    scripts
}
