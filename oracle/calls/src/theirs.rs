//! The same calls of the Rust at the commit, on its own tables, with plain numbers for frame and waiter.

use given::constants::Tunables;
use given::sends::{
    ApsAckData, Broadcast, Confirm, Schedule, SendFailure, SendId, Sends, TxPriority, Unicast, UnroutedUnicast,
};
use given::types::{Eui64, Nwk};
use given::{Ieee802154Address, Instant};

/// A failure of the tables, or a caller's code.
#[allow(dead_code)]
pub enum Fault {
    Failure(SendFailure),
    Code(u16),
}

impl From<SendFailure> for Fault {
    fn from(failure: SendFailure) -> Self {
        Self::Failure(failure)
    }
}

pub struct Tables {
    sends: Sends<u32, u32, Fault>,
    tunables: Tunables,
    next: u32,
}

const ZERO: Instant = Instant::from_micros(0);
const ONE: Instant = Instant::from_micros(1);

impl Tables {
    fn fresh() -> Self {
        Self { sends: Sends::default(), tunables: Tunables::default(), next: 0 }
    }

    pub fn unicasts() -> Self {
        let mut tables = Self::fresh();
        for _ in 0..8 {
            tables.unicast();
        }
        tables
    }

    pub fn unrouted() -> Self {
        let mut tables = Self::fresh();
        for _ in 0..8 {
            tables.unrouted_send();
        }
        tables
    }

    pub fn broadcasts() -> Self {
        let mut tables = Self::fresh();
        for _ in 0..8 {
            tables.broadcast();
        }
        tables
    }

    fn unicast(&mut self) -> SendId {
        let id = self.next;
        self.next += 1;
        let unicast = Unicast {
            frame: id,
            priority: TxPriority::UserNormal,
            waiter: id,
            confirm: Confirm::OnHandoff,
            next_hop: Nwk(1),
            poll_address: Some(Ieee802154Address::Eui64(extended(u64::from(id % 8)))),
        };
        self.sends.enqueue_unicast(unicast, ZERO, &self.tunables).0
    }

    fn unrouted_send(&mut self) -> SendId {
        let id = self.next;
        self.next += 1;
        let send = UnroutedUnicast {
            frame: id,
            priority: TxPriority::UserNormal,
            waiter: id,
            confirm: Confirm::OnHandoff,
            destination: Nwk(5),
        };
        self.sends.enqueue_unrouted_unicast(send, ZERO, &self.tunables).0
    }

    fn broadcast(&mut self) -> SendId {
        let id = self.next;
        self.next += 1;
        let schedule = Schedule::PassiveAck {
            key: (Nwk((id % 8) as u16), 1),
            copies_remaining: 3,
            next_attempt: Instant::from_micros(5000),
        };
        self.sends
            .enqueue_broadcast(
                Broadcast { frame: id, priority: TxPriority::UserNormal, waiter: id, schedule },
                ZERO,
                &self.tunables,
            )
            .0
    }

    pub fn poll(&mut self, address: u64) -> bool {
        self.sends.poll(Some(extended(address)), None, ONE).0
    }

    pub fn ack(&mut self, src: u16) -> usize {
        let key = ApsAckData {
            src: Nwk(src),
            destination_endpoint: None,
            cluster_id: None,
            profile_id: None,
            source_endpoint: None,
            counter: 1,
        };
        self.sends.aps_ack_received(&key).into_iter().count()
    }

    pub fn dequeue(&mut self) -> bool {
        self.sends.dequeue(ONE).is_some()
    }

    pub fn tick(&mut self) -> usize {
        self.sends.tick(ONE).into_iter().count()
    }

    pub fn delivered(&mut self, src: u16) -> usize {
        self.sends.broadcast_delivered((Nwk(src), 1)).into_iter().count()
    }

    fn cancelled(&mut self, id: SendId) -> usize {
        self.sends.cancel(id).map_or(0, |actions| actions.into_iter().count())
    }

    pub fn unicast_cancel(&mut self) -> usize {
        let id = self.unicast();
        self.cancelled(id)
    }

    pub fn unrouted_cancel(&mut self) -> usize {
        let id = self.unrouted_send();
        self.cancelled(id)
    }

    pub fn broadcast_cancel(&mut self) -> usize {
        let id = self.broadcast();
        self.cancelled(id)
    }
}

fn extended(number: u64) -> Eui64 {
    Eui64(number.to_le_bytes())
}
