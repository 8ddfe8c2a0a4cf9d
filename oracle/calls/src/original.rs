//! The calls of the Rust at the commit, on its own tables, with plain numbers for frame and waiter.

use std::hint::black_box as shown;
use std::time::Duration;

use given::constants::Tunables;
use given::flat_map::FlatMap;
use given::sends::{
    Action, Actions, ApsAckData, Broadcast, Confirm, InFlight, Schedule, SendFailure, SendId, Sends, Transmit,
    TxPriority, Unicast, UnroutedUnicast,
};
use given::types::{Eui64, Nwk};
use given::{Ieee802154Address, Instant};

use crate::tables::{
    BROADCAST, DONE, HANDED_OFF, ISSUED, ITEM, NOTHING, Notes, REFUSED, REPLIED, SETTLED, TIME, Tables, UNICAST,
};
use crate::theirs::Fault;

const ZERO: Instant = Instant::from_micros(0);
const ONE: Instant = Instant::from_micros(1);

/// A microsecond of the Rust stands for a millisecond of the proved calls.
const DELAY: Duration = Duration::from_micros(50);
const WAIT: Duration = Duration::from_micros(5000);

pub struct Original {
    sends: Sends<u32, u32, Fault>,
    tunables: Tunables,
    map: FlatMap<Eui64, Nwk>,
    next: u32,
    lent: Option<InFlight<u32>>,
    notes: Notes,
}

/// The settings that the exports of the proved calls hand in.
fn settings() -> Tunables {
    let tunables = Tunables::default();
    for (name, value) in [
        ("handoff_timeout", 8000),
        ("transaction_persistence_time", 7680),
        ("unicast_retries", 3),
        ("pending_route_discovery_attempts", 3),
    ] {
        tunables.set(name, value).expect("a setting of the Rust");
    }
    tunables
}

impl Original {
    fn drawn(&mut self) -> u32 {
        self.next += 1;
        self.next - 1
    }

    fn unicast(&mut self, address: u64, src: u16) -> Unicast<u32, u32> {
        let handle = self.drawn();
        Unicast {
            frame: handle,
            priority: TxPriority::UserNormal,
            waiter: handle,
            confirm: if src == 0 { Confirm::OnHandoff } else { Confirm::ApsAck { ack: ack_key(src), wait: WAIT } },
            next_hop: Nwk(1),
            poll_address: (address != 0).then(|| Ieee802154Address::Eui64(extended(address))),
        }
    }

    fn issued(&mut self, (id, actions): (SendId, Actions<u32, u32, Fault>)) -> SendId {
        self.note(ISSUED, &[id.as_u32().into()], actions);
        id
    }

    fn note(&mut self, kind: u64, numbers: &[u64], actions: Actions<u32, u32, Fault>) {
        let actions = shown(actions);
        if self.notes.on {
            self.notes.answer(kind, numbers);
            actions.into_iter().for_each(|action| self.note_action(action));
        }
    }

    fn note_action(&mut self, action: Action<u32, u32, Fault>) {
        match action {
            Action::HandedOff(waiter) => self.notes.line(HANDED_OFF, &[waiter.into()]),
            Action::Settled { waiter, result, frame, failed_hop } => {
                let (verdict, number) = verdict(result);
                let hop = failed_hop.map_or(0, |hop| u64::from(hop.0) + 1);
                self.notes.line(SETTLED, &[waiter.into(), frame.into(), verdict, number, hop]);
            }
        }
    }

    fn note_one(&mut self, kind: u64, number: u64) {
        shown(number);
        if self.notes.on {
            self.notes.answer(kind, &[number]);
        }
    }

    fn note_list(&mut self, list: impl Iterator<Item = u64>) {
        if self.notes.on {
            self.notes.calls += 1;
            list.for_each(|item| self.notes.line(ITEM, &[item]));
        }
    }

    fn note_flight(&mut self) {
        if self.notes.on {
            match &mut self.lent {
                None => self.notes.answer(NOTHING, &[]),
                Some(lent) => {
                    let frame = u64::from(*lent.frame_mut());
                    match lent.transmit() {
                        Transmit::Broadcast => self.notes.answer(BROADCAST, &[frame, frame]),
                        Transmit::Unicast { next_hop, frame_pending } => {
                            self.notes.answer(UNICAST, &[frame, frame, next_hop.0.into(), frame_pending.into()]);
                        }
                    }
                }
            }
        }
    }
}

impl Tables for Original {
    type Id = SendId;

    fn fresh() -> Self {
        Self {
            sends: Sends::default(),
            tunables: settings(),
            map: [(extended(1), Nwk(31)), (extended(2), Nwk(32))].into(),
            next: 0,
            lent: None,
            notes: Notes::default(),
        }
    }

    fn notes(&mut self) -> &mut Notes {
        &mut self.notes
    }

    fn enqueue_unicast(&mut self, address: u64, src: u16) -> SendId {
        let unicast = self.unicast(address, src);
        let returned = self.sends.enqueue_unicast(unicast, ZERO, &self.tunables);
        self.issued(returned)
    }

    fn enqueue_broadcast_copy(&mut self, broadcast: SendId, address: u64) -> SendId {
        let unicast = self.unicast(address, 0);
        let returned = self.sends.enqueue_broadcast_copy(broadcast, unicast, ZERO, &self.tunables);
        self.issued(returned)
    }

    fn enqueue_unrouted_unicast(&mut self, destination: u16) -> SendId {
        let handle = self.drawn();
        let send = UnroutedUnicast {
            frame: handle,
            priority: TxPriority::UserNormal,
            waiter: handle,
            confirm: Confirm::OnHandoff,
            destination: Nwk(destination),
        };
        let returned = self.sends.enqueue_unrouted_unicast(send, ZERO, &self.tunables);
        self.issued(returned)
    }

    fn enqueue_broadcast(&mut self, src: u16, attempt: u64) -> SendId {
        let handle = self.drawn();
        let schedule = if src == 0 {
            Schedule::Once
        } else {
            Schedule::PassiveAck {
                key: (Nwk(src), 1),
                copies_remaining: 3,
                next_attempt: Instant::from_micros(attempt),
            }
        };
        let broadcast = Broadcast { frame: handle, priority: TxPriority::UserNormal, waiter: handle, schedule };
        let returned = self.sends.enqueue_broadcast(broadcast, ZERO, &self.tunables);
        self.issued(returned)
    }

    fn dequeue(&mut self) {
        self.lent = shown(self.sends.dequeue(ONE));
        self.note_flight();
    }

    fn transmitted(&mut self, sent: bool) {
        let lent = self.lent.take().expect("a send was dequeued");
        let result = if sent { Ok(()) } else { Err(Fault::Code(7)) };
        let actions = self.sends.transmitted(lent, result, ONE, DELAY, DELAY);
        self.note(DONE, &[], actions);
    }

    fn poll(&mut self, address: u64) {
        let (found, actions) = self.sends.poll(Some(extended(address)), None, ONE);
        self.note(REPLIED, &[found.into()], actions);
    }

    fn aps_ack_received(&mut self, src: u16) {
        let actions = self.sends.aps_ack_received(&ack_key(src));
        self.note(DONE, &[], actions);
    }

    fn retry_discovery(&mut self, destination: u16) {
        let again = self.sends.retry_discovery(Nwk(destination));
        self.note_one(REPLIED, again.into());
    }

    fn fail_unrouted(&mut self, destination: u16) {
        let actions = self.sends.fail_unrouted(Nwk(destination));
        self.note(DONE, &[], actions);
    }

    fn route_unicasts(&mut self, destination: u16) {
        let resolve = |_: &mut u32| Ok((Nwk(1), None));
        let actions = self.sends.route_unicasts(Nwk(destination), ONE, &self.tunables, resolve);
        self.note(DONE, &[], actions);
    }

    fn broadcast_delivered(&mut self, src: u16) {
        let actions = self.sends.broadcast_delivered((Nwk(src), 1));
        self.note(DONE, &[], actions);
    }

    fn drop_indirect_unicasts(&mut self, address: u64, short: u16) {
        let actions = self.sends.drop_indirect_unicasts(Some(extended(address)), Nwk(short));
        self.note(DONE, &[], actions);
    }

    /// The Rust's `None` does not say why; here it is only ever a send that no table has.
    fn cancel(&mut self, id: SendId) {
        match self.sends.cancel(id) {
            Some(actions) => self.note(DONE, &[], actions),
            None => self.note_one(REFUSED, 5),
        }
    }

    fn tick(&mut self) {
        let actions = self.sends.tick(ONE);
        self.note(DONE, &[], actions);
    }

    fn abandon(&mut self) {
        let waiters = shown(self.sends.abandon());
        if self.notes.on {
            self.notes.answer(DONE, &[]);
            waiters.iter().for_each(|waiter| self.notes.line(ITEM, &[(*waiter).into()]));
        }
    }

    fn next_wake(&mut self) {
        let time = self.sends.next_wake().map_or(u64::MAX, |time| time.as_micros());
        self.note_one(TIME, time);
    }

    fn has_unrouted(&mut self, destination: u16) {
        let yes = self.sends.has_unrouted(Nwk(destination));
        self.note_one(REPLIED, yes.into());
    }

    fn has_unicast_awaiting_poll(&mut self, address: u64) {
        let yes = self.sends.has_unicast_awaiting_poll(Ieee802154Address::Eui64(extended(address)));
        self.note_one(REPLIED, yes.into());
    }

    fn unrouted_destinations(&mut self) {
        let list = shown(self.sends.unrouted_destinations());
        self.note_list(list.iter().map(|destination| destination.0.into()));
    }

    fn broadcasts_awaiting_quorum(&mut self) {
        let list = shown(self.sends.broadcasts_awaiting_quorum());
        self.note_list(list.iter().map(|(src, sequence)| u64::from(src.0) + 65536 * u64::from(*sequence)));
    }

    fn poll_addresses(&mut self) {
        let table = shown(self.sends.poll_addresses(&self.map));
        self.note_list(table.short_addresses.iter().map(|short| short.0.into()));
        self.note_list(table.extended_addresses.iter().map(|long| u64::from_le_bytes(long.0)));
    }
}

fn extended(number: u64) -> Eui64 {
    Eui64(number.to_le_bytes())
}

fn ack_key(src: u16) -> ApsAckData {
    ApsAckData {
        src: Nwk(src),
        destination_endpoint: None,
        cluster_id: None,
        profile_id: None,
        source_endpoint: None,
        counter: 1,
    }
}

/// A verdict's number, and the number that goes with it: an address or a code.
fn verdict(result: Result<(), Fault>) -> (u64, u64) {
    let failure = match result {
        Ok(()) => return (0, 0),
        Err(Fault::Code(code)) => return (7, code.into()),
        Err(Fault::Failure(failure)) => failure,
    };
    match failure {
        SendFailure::HandoffTimeout => (1, 0),
        SendFailure::ApsAckTimeout => (2, 0),
        SendFailure::IndirectExpired { destination: Ieee802154Address::Nwk(short) } => (3, short.0.into()),
        SendFailure::IndirectExpired { destination: Ieee802154Address::Eui64(long) } => (3, u64::from_le_bytes(long.0)),
        SendFailure::RouteDiscoveryTimeout => (4, 0),
        SendFailure::BroadcastQuorumNotReached => (5, 0),
        SendFailure::Cancelled => (6, 0),
    }
}
