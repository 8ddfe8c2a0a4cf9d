//! Calls on which the Rust itself panics, and where a trace is refused instead. The wrapper never makes them.

use std::panic::{AssertUnwindSafe, catch_unwind};

use given::Instant;
use given::constants::Tunables;
use given::sends::{Broadcast, Confirm, InFlight, Schedule, Sends, TxPriority, Unicast};
use given::types::Nwk;
use run::answer::{Fault, Frame, Waiter};

type Tables = Sends<Frame, Waiter, Fault>;
type Call = fn(&mut Tables);

const NOW: Instant = Instant::from_micros(0);
const FRAME: Frame = Frame { id: 0, handle: 0 };
const WAITER: Waiter = Waiter { id: 0, handle: 0 };

fn broadcast(tables: &mut Tables, schedule: Schedule) {
    let broadcast = Broadcast { frame: FRAME, priority: TxPriority::UserNormal, waiter: WAITER, schedule };
    let _ = tables.enqueue_broadcast(broadcast, NOW, &Tunables::default());
}

fn unicast(tables: &mut Tables) {
    let unicast = Unicast {
        frame: FRAME,
        priority: TxPriority::UserNormal,
        waiter: WAITER,
        confirm: Confirm::OnHandoff,
        next_hop: Nwk(0),
        poll_address: None,
    };
    let _ = tables.enqueue_unicast(unicast, NOW, &Tunables::default());
}

/// Repeating broadcasts without copies, ticked when they are due (refusal 3 of their enqueue).
fn no_passive_copies(tables: &mut Tables) {
    let key = (Nwk(0), 0);
    broadcast(tables, Schedule::PassiveAck { key, copies_remaining: 0, next_attempt: NOW });
    let _ = tables.tick(NOW);
}

fn no_fixed_copies(tables: &mut Tables) {
    broadcast(tables, Schedule::FixedInterval { interval: Default::default(), copies_remaining: 0, next_attempt: NOW });
    let _ = tables.tick(NOW);
}

/// A discovery retried for a destination that is not held (refusal 9).
fn not_held(tables: &mut Tables) {
    tables.retry_discovery(Nwk(4));
}

/// A report on what was abandoned while it was in the radio (refusal 5).
fn report_after_abandon(tables: &mut Tables) {
    let lent: InFlight<Frame> = tables.dequeue(NOW).expect("a queued send");
    tables.abandon();
    let _ = tables.transmitted(lent, Ok(()), NOW, Default::default(), Default::default());
}

fn unicast_abandoned(tables: &mut Tables) {
    unicast(tables);
    report_after_abandon(tables);
}

fn broadcast_abandoned(tables: &mut Tables) {
    broadcast(tables, Schedule::Once);
    report_after_abandon(tables);
}

/// Every call above panics.
pub fn all() -> Result<String, String> {
    let calls: [(&str, Call); 5] = [
        ("a passive broadcast without copies, ticked", no_passive_copies),
        ("a fixed-interval broadcast without copies, ticked", no_fixed_copies),
        ("a retry of what is not held", not_held),
        ("a report on an abandoned unicast", unicast_abandoned),
        ("a report on an abandoned broadcast", broadcast_abandoned),
    ];
    let quiet = std::panic::take_hook();
    std::panic::set_hook(Box::new(|_| {}));
    let calm = calls.iter().find(|(_, call)| catch_unwind(AssertUnwindSafe(|| call(&mut Tables::default()))).is_ok());
    std::panic::set_hook(quiet);
    match calm {
        Some((name, _)) => Err(format!("the Rust does not panic on {name}")),
        None => Ok(format!("the Rust panics on {} calls that a trace is refused", calls.len())),
    }
}
