//! Kinds of traces: which events come how often, over how few addresses, and in which times.

use run::form::LAST_TIME;

/// What a generated trace is made of.
pub struct Flavour {
    pub name: &'static str,
    /// How often it is taken.
    pub share: u32,
    /// Weights of the event kinds 1 to 22.
    pub weights: [u32; 22],
    /// How many addresses of each sort, unrouted destinations, ack keys and broadcast keys there are.
    pub addresses: usize,
    pub destinations: usize,
    pub keys: usize,
    pub quorums: usize,
    /// Out of 100: enqueues held for a poll, sends confirmed by an ack, failed reports.
    pub held: u64,
    pub acked: u64,
    pub failed: u64,
    /// Where time begins, and whether spans and times go to their ends.
    pub base: u64,
    pub edges: bool,
    /// Out of 100: times that lie before the present, which goes back with them.
    pub back: u64,
}

const PLAIN: Flavour = Flavour {
    name: "mixed",
    share: 6,
    //        set uni copy unr bro deq rep pol ack ret fai rou del dro can tic aba wak map lis unr awa
    weights: [1, 14, 4, 8, 8, 20, 22, 8, 6, 3, 2, 5, 5, 2, 5, 14, 0, 3, 2, 2, 1, 2],
    addresses: 2,
    destinations: 2,
    keys: 2,
    quorums: 2,
    held: 40,
    acked: 50,
    failed: 45,
    base: 0,
    edges: false,
    back: 0,
};

/// A clock that goes back. It is not among the flavours below, since the stored set is made from those.
pub const BACK: Flavour = Flavour { name: "clock back", base: 1000, back: 30, ..PLAIN };

pub const FLAVOURS: [Flavour; 11] = [
    PLAIN,
    Flavour {
        name: "polls",
        share: 5,
        weights: [1, 16, 4, 1, 1, 18, 18, 20, 3, 0, 0, 1, 0, 4, 3, 10, 0, 2, 3, 4, 0, 6],
        held: 88,
        failed: 60,
        ..PLAIN
    },
    Flavour {
        name: "acks",
        share: 5,
        weights: [1, 18, 1, 1, 0, 22, 22, 3, 20, 0, 0, 1, 0, 0, 3, 14, 0, 3, 0, 0, 0, 1],
        held: 25,
        acked: 95,
        keys: 2,
        ..PLAIN
    },
    Flavour {
        name: "broadcasts",
        share: 6,
        weights: [1, 2, 4, 0, 16, 22, 24, 2, 1, 0, 0, 0, 12, 0, 4, 22, 0, 3, 0, 3, 0, 1],
        failed: 50,
        ..PLAIN
    },
    Flavour {
        name: "routes",
        share: 5,
        weights: [2, 4, 0, 20, 1, 8, 8, 4, 3, 8, 4, 14, 0, 1, 4, 10, 0, 2, 1, 3, 4, 1],
        destinations: 3,
        ..PLAIN
    },
    Flavour {
        name: "full",
        share: 4,
        weights: [0, 34, 8, 22, 18, 10, 8, 3, 2, 2, 1, 5, 2, 0, 3, 1, 0, 1, 4, 2, 1, 1],
        addresses: 6,
        destinations: 20,
        keys: 4,
        quorums: 6,
        ..PLAIN
    },
    Flavour {
        name: "held destinations",
        share: 3,
        weights: [0, 2, 0, 30, 1, 3, 3, 1, 1, 6, 4, 8, 0, 0, 12, 8, 0, 1, 0, 3, 6, 0],
        destinations: 19,
        ..PLAIN
    },
    Flavour {
        name: "map",
        share: 2,
        weights: [0, 10, 2, 0, 0, 6, 6, 6, 1, 0, 0, 0, 0, 2, 1, 2, 0, 1, 60, 8, 0, 2],
        addresses: 36,
        held: 90,
        ..PLAIN
    },
    Flavour {
        name: "copies",
        share: 4,
        weights: [0, 3, 20, 1, 10, 16, 14, 10, 1, 0, 0, 0, 3, 2, 16, 6, 1, 1, 0, 2, 0, 1],
        held: 60,
        acked: 20,
        ..PLAIN
    },
    Flavour { name: "edges", share: 4, base: LAST_TIME - 200, edges: true, ..PLAIN },
    Flavour {
        name: "quiet",
        share: 1,
        weights: [3, 2, 1, 2, 2, 10, 4, 10, 6, 6, 6, 6, 6, 6, 8, 12, 8, 8, 6, 8, 8, 8],
        ..PLAIN
    },
];
