//! What a family of random circuits is about, and what it draws from.

#[derive(Clone, Copy, Debug, PartialEq, Eq)]
pub enum Family {
    Small,
    Pure,
    Ranks,
    Feedback,
    Events,
    Remote,
    Buffers,
    Seconds,
    Clocks,
    Queues,
    Pulses,
    Variables,
    Mixed,
    Stops,
    Stale,
    Narrowed,
    Loops,
    PutOff,
}

/// All families, those with Loops last.
pub const FAMILIES: [Family; 18] = [
    Family::Small,
    Family::Pure,
    Family::Ranks,
    Family::Feedback,
    Family::Events,
    Family::Remote,
    Family::Buffers,
    Family::Seconds,
    Family::Clocks,
    Family::Queues,
    Family::Pulses,
    Family::Variables,
    Family::Mixed,
    Family::Stops,
    Family::Stale,
    Family::Narrowed,
    Family::Loops,
    Family::PutOff,
];

/// The families with Loops.
pub const WITH_LOOPS: [Family; 2] = [Family::Loops, Family::PutOff];

/// The families of the stated circuits: all but the one that was made for what
/// units see when they begin.
pub fn stated_families() -> impl Iterator<Item = Family> {
    FAMILIES.into_iter().filter(|&family| family != Family::Stale)
}

impl Family {
    pub fn name(self) -> String {
        match self {
            Family::PutOff => "put-off".into(),
            _ => format!("{self:?}").to_lowercase(),
        }
    }

    pub fn about(self) -> &'static str {
        match self {
            Family::Small => "Any kinds, few gates, few ticks",
            Family::Pure => "Selects and Reroutes over variables and time",
            Family::Ranks => "Ties and inversions of rank, much of it carried",
            Family::Feedback => "Pins driven by what they change",
            Family::Events => "Sends and events, local and global",
            Family::Remote => "Forks, and forks of forks",
            Family::Buffers => "All four kinds of buffer",
            Family::Seconds => "Awkward seconds: 0.1, 1/3, 2^24, tiny, huge, negative",
            Family::Clocks => "Clocks and Stopwatches",
            Family::Queues => "Up to three Queues",
            Family::Pulses => "Detectors and their pulses",
            Family::Variables => "Variables written and read in chains",
            Family::Mixed => "Any kinds, many gates",
            Family::Stops => "Circuits that end with 12 or 13",
            Family::Stale => "Pulses through Selects that nothing watches, and chains that read them",
            Family::Narrowed => "Waits and tick lengths that are f32s, and as many that are none",
            Family::Loops => "Loops in one another, with Breaks, Unions and forks in their bodies",
            Family::PutOff => {
                "Variables written in bodies, and what watches them, directly and behind Selects"
            }
        }
    }
}

/// What a family draws from.
pub struct Profile {
    pub gates: (usize, usize),
    pub ticks: (usize, usize),
    pub kinds: Vec<i64>,
    pub ranks: Vec<i64>,
    /// Of a hundred exec pins, how many have a source.
    pub driven: usize,
    /// Of a hundred outputs that may call, how many do.
    pub calling: usize,
    /// Of a hundred calls, how many are remote.
    pub remote: usize,
    pub queues: usize,
    pub lengths: &'static [f64],
    /// Settings in seconds.
    pub seconds: &'static [f64],
}

const PLAIN: &[f64] = &[0.25, 0.25, 0.5, 0.125, 1.0, 0.0];

const AWKWARD: &[f64] = &[
    0.1,
    0.1,
    0.1,
    1.0 / 3.0,
    1.0 / 60.0,
    0.0,
    -0.0,
    5e-324,
    1e-45,
    1e-30,
    1e-7,
    0.7,
    0.30000000000000004,
    1.0000000596046448,
    3600.0,
];

const SECONDS: &[f64] = &[
    0.0,
    -0.0,
    0.1,
    0.2,
    0.3,
    0.5,
    0.7,
    1.0,
    -1.0,
    1e-300,
    1e300,
    16777216.0,
    16777218.0,
    1.0000000596046448,
    0.09999999,
    3600.0,
    0.3333333333333333,
];

/// The least f32, and half of it, which is none.
const LEAST: f64 = f64::from_bits((1023 - 149) << 52);
const HALF_OF_LEAST: f64 = f64::from_bits((1023 - 150) << 52);

/// f32s, then others.
const LENGTHS_OF_BOTH: &[f64] = &[
    0.0,
    0.125,
    0.25,
    0.5,
    0.1f32 as f64,
    1.0000001192092896,
    LEAST,
    3600.0,
    0.05,
    0.1,
    0.3333333333333333,
    1.0000000596046448,
    HALF_OF_LEAST,
    1e-40,
];

const SECONDS_OF_BOTH: &[f64] = &[
    0.0,
    -0.0,
    0.25,
    0.5,
    0.1f32 as f64,
    LEAST,
    -1.0,
    16777218.0,
    f32::MAX as f64,
    0.05,
    0.1,
    0.3,
    1.0000000596046448,
    HALF_OF_LEAST,
    1e-40,
    -0.1,
    16777217.0,
    3.4028235677973366e38,
    1e300,
];

fn plain() -> Profile {
    Profile {
        gates: (6, 20),
        ticks: (6, 14),
        kinds: (1..=28).collect(),
        ranks: vec![0, 1, 2, 2, 3, 5, 65_535],
        driven: 40,
        calling: 75,
        remote: 15,
        queues: 1,
        lengths: PLAIN,
        seconds: SECONDS,
    }
}

fn of(kinds: &[i64]) -> Profile {
    Profile { kinds: kinds.to_vec(), ..plain() }
}

impl Family {
    pub fn profile(self) -> Profile {
        match self {
            Family::Small => Profile { gates: (3, 12), ticks: (3, 6), ..plain() },
            Family::Pure => of(&[1, 1, 1, 2, 2, 3, 4, 5, 6, 6, 10, 19, 20, 22]),
            Family::Ranks => Profile {
                gates: (12, 28),
                ranks: vec![4, 4, 5, 3],
                driven: 60,
                calling: 95,
                ..of(&[3, 6, 6, 6, 9, 9, 14, 14, 14, 22, 22, 22, 23, 20, 1])
            },
            Family::Feedback => {
                Profile { driven: 90, ..of(&[1, 2, 6, 7, 8, 9, 19, 5, 20, 21, 22, 23, 10, 15]) }
            }
            Family::Events => of(&[24, 24, 25, 25, 26, 26, 27, 27, 22, 23, 6, 19, 5, 14]),
            Family::Remote => {
                Profile { remote: 60, calling: 95, ..of(&[2, 2, 18, 19, 19, 5, 20, 21, 22, 23, 1, 24, 26]) }
            }
            Family::Buffers => {
                Profile { driven: 60, ..of(&[10, 10, 11, 11, 12, 12, 13, 13, 22, 23, 1, 6, 14]) }
            }
            Family::Seconds => Profile {
                lengths: AWKWARD,
                ticks: (10, 24),
                ..of(&[12, 12, 13, 13, 17, 14, 15, 3, 4, 22, 23, 6])
            },
            Family::Clocks => Profile {
                lengths: AWKWARD,
                driven: 60,
                ..of(&[14, 14, 14, 15, 15, 15, 3, 4, 1, 22, 23, 6, 9])
            },
            Family::Queues => Profile {
                queues: 3,
                calling: 95,
                ticks: (8, 20),
                ..of(&[16, 17, 16, 17, 23, 22, 6, 1, 3, 19, 5])
            },
            Family::Pulses => Profile { ticks: (8, 20), ..of(&[6, 7, 7, 8, 8, 9, 9, 1, 2, 22, 23, 3]) },
            Family::Variables => {
                Profile { calling: 95, driven: 25, ..of(&[5, 5, 18, 19, 19, 19, 1, 2, 2, 20, 6, 8]) }
            }
            Family::Mixed => Profile { gates: (24, 64), ticks: (10, 24), ..plain() },
            Family::Stops => Profile { gates: (4, 12), ..plain() },
            Family::Stale => Profile {
                gates: (6, 20),
                calling: 95,
                driven: 5,
                ..of(&[7, 7, 8, 8, 1, 1, 1, 2, 2, 3, 4, 5, 18, 19, 19, 19, 20, 22, 28, 28])
            },
            Family::Narrowed => Profile {
                gates: (8, 18),
                ticks: (4, 9),
                calling: 95,
                queues: 2,
                lengths: LENGTHS_OF_BOTH,
                seconds: SECONDS_OF_BOTH,
                ..of(&[12, 12, 12, 13, 13, 17, 14, 22, 23, 6, 28])
            },
            Family::Loops => Profile {
                gates: (5, 16),
                ticks: (3, 6),
                driven: 10,
                calling: 80,
                remote: 15,
                lengths: &[0.25, 0.25, 0.5, 0.1],
                ..of(&[
                    31, 31, 31, 20, 20, 20, 21, 21, 19, 19, 22, 23, 23, 1, 5, 6, 18, 24, 26, 16, 11, 14, 9, 2,
                ])
            },
            Family::PutOff => Profile {
                gates: (8, 18),
                ticks: (3, 6),
                ranks: vec![2, 4, 5, 5, 6, 9],
                driven: 35,
                calling: 60,
                remote: 10,
                lengths: &[0.25, 0.25, 0.5],
                ..of(&[
                    19, 19, 19, 19, 5, 5, 6, 6, 6, 9, 22, 22, 1, 1, 1, 2, 7, 8, 10, 14, 14, 14, 23, 20, 31,
                ])
            },
        }
    }
}
