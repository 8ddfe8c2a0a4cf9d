//! The calls of the send tables in cycles that leave the tables as they were, but for the next id. First it is checked
//! that every side answers alike and comes back to where it was, then each side is timed.

use std::hint::black_box as shown;

use crate::least;
use crate::original::Original;
use crate::proved::{ByValue, InPlace};
use crate::tables::{Line, Tables};

/// The same calls on any side; the id is what `ready` answered.
trait Cycle {
    fn ready<T: Tables>(tables: &mut T) -> T::Id;
    fn turn<T: Tables>(tables: &mut T, id: T::Id);
}

/// Four unicasts that await polls, one of them an ack too; two unrouted sends; two broadcasts, idle until 5000.
/// Answers the id of the last.
fn eight<T: Tables>(t: &mut T) -> T::Id {
    for address in 1..4 {
        t.enqueue_unicast(address, 0);
    }
    t.enqueue_unicast(4, 9);
    t.enqueue_unrouted_unicast(5);
    t.enqueue_unrouted_unicast(6);
    t.enqueue_broadcast(21, 5000);
    t.enqueue_broadcast(22, 5000)
}

/// The same, and the discovery of 5 may not be started again.
fn spent<T: Tables>(t: &mut T) -> T::Id {
    let id = eight(t);
    t.retry_discovery(5);
    t.retry_discovery(5);
    id
}

/// The same eight, and the id of a send that no table has any more.
fn gone<T: Tables>(t: &mut T) -> T::Id {
    eight(t);
    let id = t.enqueue_unicast(3, 0);
    t.cancel(id);
    id
}

/// What all questions answer.
fn questions<T: Tables>(t: &mut T) -> Vec<Line> {
    let start = t.notes().lines.len();
    t.next_wake();
    (1..9).for_each(|address| t.has_unicast_awaiting_poll(address));
    t.unrouted_destinations();
    t.broadcasts_awaiting_quorum();
    t.poll_addresses();
    t.notes().lines[start..].to_vec()
}

/// What is still live, and then the deadlines of sends in empty tables.
fn leave<T: Tables>(t: &mut T) {
    t.abandon();
    t.enqueue_unrouted_unicast(5);
    t.next_wake();
    t.enqueue_unicast(1, 0);
    t.next_wake();
}

/// What three turns answer and leave, and how many calls one turn has.
fn answers<T: Tables, C: Cycle>() -> (usize, Vec<Line>) {
    let mut tables = T::fresh();
    tables.notes().on = true;
    let id = C::ready(&mut tables);
    let before = questions(&mut tables);
    tables.notes().calls = 0;
    (0..3).for_each(|_| C::turn(&mut tables, id));
    let calls = tables.notes().calls / 3;
    assert_eq!(before, questions(&mut tables), "a cycle comes back to where it began");
    leave(&mut tables);
    (calls, std::mem::take(&mut tables.notes().lines))
}

fn time<T: Tables, C: Cycle>() -> f64 {
    let mut tables = T::fresh();
    let id = C::ready(&mut tables);
    least(|| C::turn(shown(&mut tables), id))
}

fn row<C: Cycle>(name: &str) {
    let (calls, lines) = answers::<Original, C>();
    assert_eq!(answers::<InPlace, C>(), (calls, lines.clone()), "{name}: in place, and the Rust");
    assert_eq!(answers::<ByValue, C>(), (calls, lines), "{name}: by value, and the Rust");
    let (lent, value, rust) = (time::<InPlace, C>(), time::<ByValue, C>(), time::<Original, C>());
    println!("| {name} | {calls} | {lent:.1} | {value:.1} | {rust:.1} | {:.2} | {:.2} |", lent / rust, value / rust);
}

macro_rules! rows {
    ($($name:literal, $ready:ident, |$t:ident, $id:pat_param| $turn:block)*) => {
        fn rows() {
            $({
                struct Row;
                impl Cycle for Row {
                    fn ready<T: Tables>(tables: &mut T) -> T::Id {
                        $ready(tables)
                    }
                    fn turn<T: Tables>($t: &mut T, $id: T::Id) $turn
                }
                row::<Row>($name);
            })*
        }
    };
}

rows! {
    "enqueue_unicast, cancel", eight, |t, _| {
        let id = t.enqueue_unicast(3, 0);
        t.cancel(id);
    }
    "enqueue_broadcast_copy, cancel", eight, |t, id| {
        let copy = t.enqueue_broadcast_copy(id, 3);
        t.cancel(copy);
    }
    "enqueue_unrouted_unicast (destination held), cancel", eight, |t, _| {
        let id = t.enqueue_unrouted_unicast(5);
        t.cancel(id);
    }
    "enqueue_broadcast, cancel", eight, |t, _| {
        let id = t.enqueue_broadcast(23, 5000);
        t.cancel(id);
    }
    "enqueue_broadcast, enqueue_broadcast_copy, cancel (of both)", eight, |t, _| {
        let id = t.enqueue_broadcast(23, 5000);
        t.enqueue_broadcast_copy(id, 3);
        t.cancel(id);
    }
    "cancel, no such send", gone, |t, id| { t.cancel(id); }
    "dequeue, nothing queued", eight, |t, _| { t.dequeue(); }
    "poll (hit), dequeue, transmitted (failed: held again)", eight, |t, _| {
        t.poll(3);
        t.dequeue();
        t.transmitted(false);
    }
    "enqueue_unicast (direct), dequeue, transmitted (sent: settled)", eight, |t, _| {
        t.enqueue_unicast(0, 0);
        t.dequeue();
        t.transmitted(true);
    }
    "enqueue_broadcast (once), dequeue, transmitted (sent: settled)", eight, |t, _| {
        t.enqueue_broadcast(0, 0);
        t.dequeue();
        t.transmitted(true);
    }
    "poll, miss", eight, |t, _| { t.poll(99); }
    "enqueue_unicast (ack awaited), aps_ack_received (hit: settled)", eight, |t, _| {
        t.enqueue_unicast(0, 8);
        t.aps_ack_received(8);
    }
    "aps_ack_received, miss", eight, |t, _| { t.aps_ack_received(7); }
    "enqueue_unrouted_unicast (new destination), fail_unrouted", eight, |t, _| {
        t.enqueue_unrouted_unicast(7);
        t.fail_unrouted(7);
    }
    "enqueue_unrouted_unicast (new destination), retry_discovery (granted), fail_unrouted", eight, |t, _| {
        t.enqueue_unrouted_unicast(7);
        t.retry_discovery(7);
        t.fail_unrouted(7);
    }
    "retry_discovery, declined", spent, |t, _| { t.retry_discovery(5); }
    "fail_unrouted, miss", eight, |t, _| { t.fail_unrouted(99); }
    "enqueue_unrouted_unicast (new destination), route_unicasts (its one send), cancel", eight, |t, _| {
        let id = t.enqueue_unrouted_unicast(7);
        t.route_unicasts(7);
        t.cancel(id);
    }
    "enqueue_broadcast, broadcast_delivered (before any handoff), cancel", eight, |t, _| {
        let id = t.enqueue_broadcast(23, 5000);
        t.broadcast_delivered(23);
        t.cancel(id);
    }
    "enqueue_broadcast, tick (due), dequeue, transmitted (sent), broadcast_delivered (settled)", eight, |t, _| {
        t.enqueue_broadcast(23, 0);
        t.tick();
        t.dequeue();
        t.transmitted(true);
        t.broadcast_delivered(23);
    }
    "broadcast_delivered, miss", eight, |t, _| { t.broadcast_delivered(99); }
    "enqueue_unicast (held), drop_indirect_unicasts (hit: settled)", eight, |t, _| {
        t.enqueue_unicast(8, 0);
        t.drop_indirect_unicasts(8, 99);
    }
    "drop_indirect_unicasts, miss", eight, |t, _| { t.drop_indirect_unicasts(99, 99); }
    "tick, idle", eight, |t, _| { t.tick(); }
    "next_wake", eight, |t, _| { t.next_wake(); }
    "has_unrouted, yes", eight, |t, _| { t.has_unrouted(6); }
    "has_unrouted, no", eight, |t, _| { t.has_unrouted(99); }
    "has_unicast_awaiting_poll, yes (the last)", eight, |t, _| { t.has_unicast_awaiting_poll(4); }
    "has_unicast_awaiting_poll, no", eight, |t, _| { t.has_unicast_awaiting_poll(99); }
    "unrouted_destinations", eight, |t, _| { t.unrouted_destinations(); }
    "broadcasts_awaiting_quorum", eight, |t, _| { t.broadcasts_awaiting_quorum(); }
    "poll_addresses (short and extended: two calls of the proved)", eight, |t, _| { t.poll_addresses(); }
    "abandon, and the eight enqueues again", eight, |t, _| {
        t.abandon();
        eight(t);
    }
}

/// Prints the table of calls.
pub fn table() {
    println!(
        "| Calls, eight live sends | calls | in place, ns | by value, ns | Rust, ns | in place, ratio | by value |"
    );
    println!("|---|---:|---:|---:|---:|---:|---:|");
    let (mut lent, mut value) = (InPlace::fresh(), ByValue::fresh());
    eight(&mut lent);
    eight(&mut value);
    let (lent, value) = (least(|| lent.carry()), least(|| value.carry()));
    println!("| (an export that makes no call) | 1 | {lent:.1} | {value:.1} | | | |");
    rows();
}
