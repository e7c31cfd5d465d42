//! Sorts of runs. Each leans on something else, so that all of 01 is met in a short trial.

pub struct Profile {
    pub name: &'static str,
    /// Honest clients, at least and at most.
    pub clients: (usize, usize),
    /// Topics in use, and the partitions of each at most.
    pub topics: usize,
    pub partitions: usize,
    /// Events of a run, at least and at most, and how many pass between three rounds.
    pub events: (usize, usize),
    pub events_per_rounds: usize,
    /// Honest heartbeat, hostile heartbeat, sweep, topic, bad topic, install, bad install.
    pub weights: [usize; 7],
    /// Answers that get lost.
    pub lost_per_100: usize,
    /// Honest heartbeats that leave.
    pub leaves_per_100: usize,
    pub pace: Pace,
    /// Ticks at or beyond the edges of what the clock allows.
    pub edges_per_1000: usize,
    /// Events lent about what they need, and events lent next to nothing.
    pub room_per_100: (usize, usize),
    pub beginning: Beginning,
}

#[derive(Clone, Copy)]
pub enum Pace {
    /// The clock stands, or nearly so.
    Slow,
    /// Steps of seconds.
    Brisk,
    /// Steps of all sizes, the largest and those that are refused among them.
    Wild,
}

#[derive(Clone, Copy)]
pub enum Beginning {
    Fresh,
    NearRunOver,
    /// G may rise only so often, at least and at most.
    NearEnd(usize, usize),
}

const CALM: Profile = Profile {
    name: "calm",
    clients: (1, 8),
    topics: 4,
    partitions: 8,
    events: (200, 600),
    events_per_rounds: 60,
    weights: [70, 3, 4, 3, 1, 12, 2],
    lost_per_100: 2,
    leaves_per_100: 2,
    pace: Pace::Slow,
    edges_per_1000: 2,
    room_per_100: (20, 3),
    beginning: Beginning::Fresh,
};

pub static PROFILES: [Profile; 11] = [
    CALM,
    Profile {
        name: "small",
        clients: (2, 3),
        topics: 1,
        partitions: 4,
        events: (150, 400),
        events_per_rounds: 40,
        weights: [60, 4, 3, 4, 0, 20, 1],
        ..CALM
    },
    Profile {
        name: "many members",
        clients: (30, 40),
        topics: 6,
        partitions: 64,
        events: (400, 900),
        events_per_rounds: 300,
        leaves_per_100: 1,
        ..CALM
    },
    Profile {
        name: "hostile",
        clients: (2, 10),
        weights: [25, 45, 5, 4, 6, 8, 12],
        pace: Pace::Wild,
        edges_per_1000: 30,
        ..CALM
    },
    Profile {
        name: "lossy",
        clients: (2, 6),
        lost_per_100: 30,
        ..CALM
    },
    Profile {
        name: "run-over",
        clients: (2, 8),
        weights: [60, 4, 16, 2, 0, 14, 1],
        pace: Pace::Wild,
        edges_per_1000: 30,
        beginning: Beginning::NearRunOver,
        ..CALM
    },
    Profile {
        name: "end",
        clients: (2, 12),
        events: (100, 300),
        weights: [60, 6, 3, 6, 1, 14, 2],
        leaves_per_100: 1,
        beginning: Beginning::NearEnd(0, 60),
        ..CALM
    },
    Profile {
        name: "full end",
        clients: (34, 40),
        events: (300, 500),
        weights: [60, 12, 0, 3, 2, 4, 2],
        leaves_per_100: 0,
        edges_per_1000: 30,
        room_per_100: (20, 10),
        beginning: Beginning::NearEnd(32, 60),
        ..CALM
    },
    Profile {
        name: "tight",
        clients: (2, 8),
        topics: 3,
        partitions: 64,
        room_per_100: (80, 10),
        ..CALM
    },
    Profile {
        name: "churn",
        clients: (4, 20),
        weights: [60, 4, 14, 3, 1, 14, 1],
        lost_per_100: 8,
        leaves_per_100: 8,
        pace: Pace::Brisk,
        ..CALM
    },
    Profile {
        name: "large",
        clients: (1, 4),
        topics: 16,
        partitions: 64,
        events: (150, 300),
        weights: [50, 4, 3, 16, 2, 14, 8],
        ..CALM
    },
];

const FEW: Profile = Profile {
    name: "few",
    clients: (2, 3),
    topics: 2,
    partitions: 2,
    events: (30, 90),
    weights: [60, 6, 4, 8, 1, 30, 1],
    leaves_per_100: 4,
    ..CALM
};

/// Groups of which every event can be tried.
pub static SMALL_PROFILES: [Profile; 5] = [
    FEW,
    Profile {
        name: "few, one topic",
        clients: (2, 4),
        topics: 1,
        partitions: 3,
        ..FEW
    },
    Profile {
        name: "few at the end",
        beginning: Beginning::NearEnd(0, 12),
        ..FEW
    },
    Profile {
        name: "few, three topics",
        clients: (1, 2),
        topics: 3,
        pace: Pace::Brisk,
        lost_per_100: 10,
        ..FEW
    },
    Profile {
        name: "crowd",
        clients: (36, 44),
        topics: 1,
        partitions: 1,
        events: (80, 160),
        weights: [90, 6, 1, 2, 0, 4, 0],
        leaves_per_100: 1,
        ..FEW
    },
];
