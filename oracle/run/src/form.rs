//! The byte form of a trace: kinds, body lengths, and the limits that a record is held to.

/// The longest trace that is run.
pub const LONGEST: usize = 65536;
/// The bytes of the output that stay reserved for the end record.
pub const RESERVED: usize = 6;
/// The last time that may be handed in.
pub const LAST_TIME: u64 = 1 << 62;

pub const UNICASTS: usize = 32;
pub const UNROUTED: usize = 16;
pub const DESTINATIONS: usize = 16;
pub const BROADCASTS: usize = 16;
pub const MAP_KEYS: usize = 32;
pub const RESULTS: usize = 16;

/// Settings before the first settings event: handoff timeout, persistence time, unicast retries, discovery attempts.
pub const DEFAULTS: (u32, u32, u8, u8) = (8000, 7680, 3, 3);

/// Event kinds.
pub mod event {
    pub const SETTINGS: u8 = 1;
    pub const UNICAST: u8 = 2;
    pub const COPY: u8 = 3;
    pub const UNROUTED: u8 = 4;
    pub const BROADCAST: u8 = 5;
    pub const DEQUEUE: u8 = 6;
    pub const REPORT: u8 = 7;
    pub const POLL: u8 = 8;
    pub const ACK: u8 = 9;
    pub const RETRY: u8 = 10;
    pub const FAIL: u8 = 11;
    pub const ROUTE: u8 = 12;
    pub const DELIVERED: u8 = 13;
    pub const DROP: u8 = 14;
    pub const CANCEL: u8 = 15;
    pub const TICK: u8 = 16;
    pub const ABANDON: u8 = 17;
    pub const NEXT_WAKE: u8 = 18;
    pub const MAP: u8 = 19;
    pub const LISTS: u8 = 20;
    pub const HAS_UNROUTED: u8 = 21;
    pub const HAS_AWAITING: u8 = 22;
}

/// Answer kinds.
pub mod answer {
    pub const REFUSED: u8 = 128;
    pub const DONE: u8 = 129;
    pub const ID: u8 = 130;
    pub const HANDED_OFF: u8 = 131;
    pub const SETTLED: u8 = 132;
    pub const IN_FLIGHT: u8 = 133;
    pub const YES_NO: u8 = 134;
    pub const TIME: u8 = 135;
    pub const SHORT: u8 = 136;
    pub const EXTENDED: u8 = 137;
    pub const KEY: u8 = 138;
    pub const ABANDONED: u8 = 139;
    pub const DESTINATION: u8 = 140;
    pub const END: u8 = 141;
}

/// The numbers that a refused event, or the end record, carries.
pub mod number {
    pub const LATE_TIME: u8 = 1;
    pub const IDS_SPENT: u8 = 2;
    pub const NO_COPIES: u8 = 3;
    pub const FULL: u8 = 4;
    pub const UNKNOWN_ID: u8 = 5;
    pub const IN_RADIO: u8 = 6;
    pub const NOT_IN_RADIO: u8 = 7;
    pub const OTHER_FRAME: u8 = 8;
    pub const NOT_HELD: u8 = 9;
    pub const ROUTE_COUNT: u8 = 10;
    pub const UNKNOWN_KIND: u8 = 12;
    pub const CUT_SHORT: u8 = 13;
    pub const BAD_FORM: u8 = 14;
    pub const NO_ROOM: u8 = 15;
    pub const TOO_LONG: u8 = 16;
}

/// Body lengths of the event kinds 1 to 22.
const EVENT_BODIES: [usize; 22] = [10, 43, 47, 34, 34, 8, 24, 20, 10, 2, 2, 235, 3, 11, 4, 8, 0, 0, 10, 0, 2, 9];

/// Body lengths of the answer kinds 128 to 141.
const ANSWER_BODIES: [usize; 14] = [1, 0, 4, 8, 27, 12, 1, 8, 2, 8, 3, 8, 2, 5];

/// How long an event's body is; nothing for an unknown kind.
pub fn event_body(kind: u8) -> Option<usize> {
    let place = usize::from(kind).checked_sub(1)?;
    EVENT_BODIES.get(place).copied()
}

/// How long an answer's body is; nothing for an unknown kind.
pub fn answer_body(kind: u8) -> Option<usize> {
    let place = usize::from(kind).checked_sub(128)?;
    ANSWER_BODIES.get(place).copied()
}

/// What stands at the head of the rest of a trace.
pub enum Standing<'a> {
    Record { kind: u8, body: &'a [u8] },
    Unknown,
    Cut,
    End,
}

/// Looks at the first record of `rest`. An unknown kind is told before a cut record.
pub fn standing(rest: &[u8]) -> Standing<'_> {
    let Some((&kind, after)) = rest.split_first() else {
        return Standing::End;
    };
    match event_body(kind) {
        None => Standing::Unknown,
        Some(length) if after.len() < length => Standing::Cut,
        Some(length) => Standing::Record { kind, body: &after[..length] },
    }
}
