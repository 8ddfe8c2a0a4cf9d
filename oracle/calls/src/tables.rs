//! The calls of the send tables as every side has them, and notes of what they answer, so that sides can be compared.

/// A kind and up to five numbers: an answer, an action or an item of a list.
pub type Line = [u64; 6];

pub const REFUSED: u64 = 1;
pub const DONE: u64 = 2;
pub const ISSUED: u64 = 3;
pub const REPLIED: u64 = 4;
pub const NOTHING: u64 = 5;
pub const UNICAST: u64 = 6;
pub const BROADCAST: u64 = 7;
pub const HANDED_OFF: u64 = 8;
pub const SETTLED: u64 = 9;
pub const ITEM: u64 = 10;
pub const TIME: u64 = 11;

/// Answers are written down while a cycle is checked, and not while it is timed.
#[derive(Default)]
pub struct Notes {
    pub on: bool,
    pub calls: usize,
    pub lines: Vec<Line>,
}

impl Notes {
    /// What one call answered.
    pub fn answer(&mut self, kind: u64, numbers: &[u64]) {
        self.calls += 1;
        self.line(kind, numbers);
    }

    /// One more thing that it told.
    pub fn line(&mut self, kind: u64, numbers: &[u64]) {
        let mut line = [kind, 0, 0, 0, 0, 0];
        line[1..=numbers.len()].copy_from_slice(numbers);
        self.lines.push(line);
    }
}

/// Frame and waiter of a send are its id. Enqueues are at time 0, all else at time 1, under the default settings.
pub trait Tables {
    type Id: Copy;

    fn fresh() -> Self;
    fn notes(&mut self) -> &mut Notes;
    /// Held for a poll of `address`, unless that is 0; with an ack of `src` awaited, unless that is 0.
    fn enqueue_unicast(&mut self, address: u64, src: u16) -> Self::Id;
    fn enqueue_broadcast_copy(&mut self, broadcast: Self::Id, address: u64) -> Self::Id;
    fn enqueue_unrouted_unicast(&mut self, destination: u16) -> Self::Id;
    /// Three copies from `attempt` on until a quorum is heard, or one copy where `src` is 0.
    fn enqueue_broadcast(&mut self, src: u16, attempt: u64) -> Self::Id;
    fn dequeue(&mut self);
    /// Of the send that was dequeued last.
    fn transmitted(&mut self, sent: bool);
    fn poll(&mut self, address: u64);
    fn aps_ack_received(&mut self, src: u16);
    fn retry_discovery(&mut self, destination: u16);
    fn fail_unrouted(&mut self, destination: u16);
    /// The one send to it has next hop 1.
    fn route_unicasts(&mut self, destination: u16);
    fn broadcast_delivered(&mut self, src: u16);
    fn drop_indirect_unicasts(&mut self, address: u64, short: u16);
    fn cancel(&mut self, id: Self::Id);
    fn tick(&mut self);
    fn abandon(&mut self);
    fn next_wake(&mut self);
    fn has_unrouted(&mut self, destination: u16);
    fn has_unicast_awaiting_poll(&mut self, address: u64);
    fn unrouted_destinations(&mut self);
    fn broadcasts_awaiting_quorum(&mut self);
    /// Under a map of the extended addresses 1 and 2 to the short ones 31 and 32.
    fn poll_addresses(&mut self);
}
