//! Traces written by hand, each for one rule. What they are answered is the Rust's to say.

use run::form::LAST_TIME;

use crate::make::{Addr, Key, Plan, Routed};
use crate::script::{BACKGROUND, BARE, CRITICAL, HIGH, LOW, NORMAL, STACK, Script, key};

pub type Named = (&'static str, Script);

const CHILD: Addr = Addr::Short(5);
const LONG: Addr = Addr::Long(0x0102_0304_0506_0708);
const EUI: u64 = 0x0102_0304_0506_0708;
const QUORUM: (u16, u8) = (3, 1);
const OK: Routed = Ok((9, Addr::None));

fn new() -> Script {
    Script::new()
}

fn settings() -> Vec<Named> {
    vec![
        ("settings are for later calls: a live deadline stays", new().direct(0).settings(10, 10, 0, 0).tick(10)
            .direct(0).tick(10)),
        ("no handoff time: a send lapses as it enters", new().settings(0, 0, 0, 0).direct(5).dequeue(5).wake().tick(5)),
        ("no persistence: a held send is never polled", new().settings(9, 0, 0, 0).held(5, CHILD).poll(5, None, Some(5))
            .tick(4).tick(5)),
        ("settings may come twice", new().settings(1, 1, 1, 1).settings(2, 2, 0, 0).direct(0).wake().held(0, CHILD)
            .tick(1).tick(2)),
        ("the longest spans", new().settings(u32::MAX, u32::MAX, 255, 255).direct(0).held(0, CHILD).wake()
            .tick(u64::from(u32::MAX) - 1).tick(u32::MAX.into())),
        ("before any settings: handoff 8000", new().once(0).wake().tick(7999).tick(8000)),
        ("before any settings: persistence 7680", new().held(0, CHILD).wake().tick(7679).tick(7680)),
        ("before any settings: three retries", new().direct(0).each(0..4, |s, i| s.dequeue(i.into())
            .lost(0, 7, i.into(), 0).tick(i.into()))),
        ("before any settings: three attempts", new().unrouted(0, 4, None).retry(4).retry(4).retry(4)),
        ("a live send keeps the retries it began with", new().settings(100, 100, 1, 1).direct(0)
            .settings(100, 100, 0, 1).dequeue(0).lost(0, 7, 0, 0).tick(0).dequeue(0).lost(0, 7, 1, 0)),
    ]
}

fn dequeues() -> Vec<Named> {
    let every = [BACKGROUND, LOW, NORMAL, HIGH, CRITICAL, STACK];
    let six = every.iter().fold(new(), |s, priority| s.unicast(0, *priority, Addr::None, None));
    vec![
        ("nothing to dequeue", new().dequeue(0).dequeue(LAST_TIME)),
        ("six priorities, the highest first", six.each(0..7, |s, _| s.dequeue(0))),
        ("a unicast and a broadcast of one priority: the lower id", new().once(0).direct(0).dequeue(0).dequeue(0)),
        ("a broadcast of the higher priority", new().direct(0).broadcast(0, HIGH, Plan::default()).dequeue(0).dequeue(0)),
        ("a lapsed send of the higher priority is passed over", new().settings(5, 5, 0, 0)
            .unicast(0, STACK, Addr::None, None).settings(9, 9, 0, 0).direct(0).dequeue(5).dequeue(5)),
        ("a lapsed broadcast is passed over", new().settings(5, 5, 0, 0).once(0).dequeue(5).dequeue(4)),
        ("in the radio a send is not lent twice", new().direct(0).dequeue(0).dequeue(0)),
        ("a clock that goes back finds the send again", new().settings(5, 5, 0, 0).direct(0).dequeue(5).dequeue(4)),
        ("an idle broadcast is not queued before a tick", new().passive(0, QUORUM, 1, 0).dequeue(0).tick(0).dequeue(0)),
        ("a held send is not queued before a poll", new().held(0, CHILD).dequeue(0).poll(0, None, Some(5)).dequeue(0)),
    ]
}

fn polls() -> Vec<Named> {
    let both = || new().held(0, CHILD).held(0, LONG);
    vec![
        ("a poll of nobody", both().poll(0, None, None)),
        ("a poll under the extended address", both().poll(0, Some(EUI), None).dequeue(0)),
        ("a poll under both takes the oldest", both().poll(0, Some(EUI), Some(5)).dequeue(0).poll(0, Some(EUI), Some(5))
            .dequeue(0).poll(0, Some(EUI), Some(5))),
        ("a poll by a stranger", both().poll(0, Some(EUI + 1), Some(6))),
        ("a poll makes the send stack critical", new().unicast(0, STACK, Addr::None, None)
            .unicast(0, BACKGROUND, CHILD, None).unicast(0, CRITICAL, Addr::None, None).poll(0, None, Some(5))
            .each(0..3, |s, _| s.dequeue(0))),
        ("a polled send overtakes an older one below the stack's priority", new().unicast(0, CRITICAL, Addr::None, None)
            .unicast(0, BACKGROUND, CHILD, None).poll(0, None, Some(5)).dequeue(0).dequeue(0)),
        ("a poll at the deadline", new().settings(9, 9, 0, 0).held(0, CHILD).poll(9, None, Some(5)).poll(8, None, Some(5))),
        ("a poll passes the lapsed and takes the next", new().settings(9, 9, 0, 0).held(0, CHILD).held(1, CHILD)
            .poll(9, None, Some(5)).dequeue(9)),
        ("a polled send lapses in the queue", new().settings(9, 9, 0, 0).held(0, CHILD).poll(0, None, Some(5))
            .dequeue(9).tick(9)),
        ("a polled send is not polled again", new().held(0, CHILD).poll(0, None, Some(5)).poll(0, None, Some(5))),
        ("address 0 is an address", new().held(0, Addr::Short(0)).held(0, Addr::Long(0)).poll(0, None, Some(0))
            .poll(0, Some(0), None).poll(0, Some(0), Some(0))),
        ("a short address is no extended one", new().held(0, Addr::Short(7)).poll(0, Some(7), None).poll(0, None, Some(7))),
    ]
}

fn pending() -> Vec<Named> {
    vec![
        ("frame pending: another awaits", new().held(0, CHILD).held(0, CHILD).poll(0, None, Some(5)).dequeue(0)
            .sent(0, 0).poll(0, None, Some(5)).dequeue(0)),
        ("frame pending: another is queued", new().held(0, CHILD).held(0, CHILD).poll(0, None, Some(5))
            .poll(0, None, Some(5)).dequeue(0)),
        ("frame pending: another is in the radio", new().held(0, CHILD).held(0, CHILD).poll(0, None, Some(5)).dequeue(0)
            .poll(0, None, Some(5)).dequeue(0)),
        ("frame pending: the other has lapsed", new().settings(9, 5, 0, 0).held(0, CHILD).settings(9, 50, 0, 0)
            .held(0, CHILD).poll(6, None, Some(5)).dequeue(6)),
        ("frame pending: not for another address", new().held(0, CHILD).held(0, Addr::Short(6)).poll(0, None, Some(5))
            .dequeue(0)),
        ("frame pending: not for the mapped address", new().map(EUI, 5).held(0, CHILD).held(0, LONG)
            .poll(0, None, Some(5)).dequeue(0)),
        ("frame pending: not for one that awaits its ack", new().unicast(0, NORMAL, CHILD, Some((key(1), 50)))
            .held(0, CHILD).poll(0, None, Some(5)).dequeue(0).sent(0, 0).poll(0, None, Some(5)).dequeue(0)),
        ("frame pending: a direct send says none", new().direct(0).direct(0).dequeue(0)),
    ]
}

fn reports() -> Vec<Named> {
    let lent = || new().settings(100, 50, 1, 1).direct(0).dequeue(0);
    vec![
        ("a report on a success", lent().sent(0, 0).sent(0, 0)),
        ("a report on an unknown id", new().sent(0, 0).aired(0, 0, 0)),
        ("a report on a send that is not in the radio", new().direct(0).sent(0, 0)),
        ("a report with another frame", lent().report_frame(false, 0, 17, 0).report_frame(false, 0, 16, 0)),
        ("a broadcast's report with another frame", new().once(0).dequeue(0).report_frame(true, 0, 17, 0)
            .report_frame(true, 0, 16, 0)),
        ("not in the radio stands before another frame", new().direct(0).report_frame(false, 0, 99, 0)),
        ("a unicast's report names the broadcasts", lent().aired(0, 0, 0).sent(0, 0)),
        ("a broadcast's report names the unicasts", new().once(0).dequeue(0).sent(0, 0).aired(0, 0, 0)),
        ("an unrouted send cannot be reported on", new().unrouted(0, 4, None).sent(0, 0).aired(0, 0, 0)),
        ("an abandoned send cannot be reported on", lent().abandon().sent(0, 0)),
    ]
}

fn outcomes() -> Vec<Named> {
    let lent = || new().settings(100, 50, 1, 1).direct(0).dequeue(0);
    let polled = || new().settings(100, 50, 1, 1).held(0, CHILD).poll(0, None, Some(5)).dequeue(0);
    vec![
        ("a failure, a retry, a failure: the hop is named", lent().lost(0, 7, 1, 2).tick(3).dequeue(3).lost(0, 8, 4, 2)),
        ("code 0 is an error", new().settings(9, 9, 0, 0).direct(0).dequeue(0).lost(0, 0, 1, 0)),
        ("a retry after the deadline waits, and the tick fails it", lent().lost(0, 7, 100, 0).wake().dequeue(100)
            .tick(100)),
        ("a retry due beyond the deadline", lent().lost(0, 7, 60, 60).wake().tick(99).tick(100)),
        ("a retry due on the deadline's tick is failed", lent().lost(0, 7, 60, 40).tick(100)),
        ("an ack while it waits for a retry settles it", new().acked(0, key(1), 9).dequeue(0).lost(0, 7, 0, 5)
            .ack(key(1)).tick(5)),
        ("a held send that failed is polled again", polled().lost(0, 7, 1, 9).wake().poll(2, None, Some(5)).dequeue(2)
            .sent(0, 2)),
        ("a held send fails past its deadline without a hop", polled().lost(0, 7, 51, 9)),
        ("a held send needs no retries", new().settings(9, 9, 0, 0).held(0, CHILD)
            .each(0..3, |s, i| s.poll(i.into(), None, Some(5)).dequeue(i.into()).lost(0, 7, i.into(), 0))),
        ("a polled send stays stack critical after a failure", new().unicast(0, BACKGROUND, CHILD, None)
            .poll(0, None, Some(5)).dequeue(0).lost(0, 7, 0, 0).unicast(0, CRITICAL, Addr::None, None)
            .poll(0, None, Some(5)).dequeue(0)),
        ("in the radio a deadline does not count", lent().tick(1000).wake().sent(0, 1000)),
        ("a handed-off send waits for its ack by the report's time", new().acked(0, key(1), 30).dequeue(0).sent(0, 500)
            .wake().tick(529).tick(530)),
        ("a wait of nothing", new().acked(0, key(1), 0).dequeue(0).sent(0, 5).tick(4).tick(5)),
        ("a success past the deadline is a success", lent().sent(0, 5000)),
        ("two frames with one handle", new().raw(&twin_frames()).dequeue(0).dequeue(0).report_frame(false, 1, 9, 0)
            .report_frame(false, 0, 9, 0)),
    ]
}

/// Two unicasts whose frames carry the handle 9.
fn twin_frames() -> Vec<u8> {
    let mut record = vec![2; 1];
    record.extend([0; 43]);
    record[9] = 9;
    record.repeat(2)
}

fn acks() -> Vec<Named> {
    let short = Key { presence: 14, destination_endpoint: 0, ..key(1) };
    let zero = Key { destination_endpoint: 0, ..key(1) };
    let waits = || new().acked(0, key(1), 30).dequeue(0).sent(0, 1);
    vec![
        ("an ack that nobody awaits", new().direct(0).ack(key(1))),
        ("an ack after the handoff repeats it", waits().ack(key(1)).ack(key(1))),
        ("an ack of another counter", waits().ack(key(2)).tick(31)),
        ("an ack settles a queued send", new().acked(0, key(1), 30).ack(key(1)).dequeue(0)),
        ("an ack settles a held send", new().unicast(0, NORMAL, CHILD, Some((key(1), 30))).ack(key(1))
            .poll(0, None, Some(5))),
        ("an ack in the radio, then success: no handoff is told", new().acked(0, key(1), 30).dequeue(0).ack(key(1))
            .sent(0, 1).wake()),
        ("two acks in the radio mark one send", new().acked(0, key(1), 30).dequeue(0).ack(key(1)).ack(key(1))
            .lost(0, 7, 1, 1)),
        ("the oldest is sought in any stage", new().acked(0, key(1), 30).acked(0, key(1), 30).dequeue(0).sent(0, 0)
            .dequeue(0).sent(1, 0).ack(key(1)).ack(key(1)).ack(key(1))),
        ("an older send in the queue goes before one that waits", new().unicast(0, LOW, Addr::None, Some((key(1), 30)))
            .unicast(0, HIGH, Addr::None, Some((key(1), 30))).dequeue(0).sent(1, 0).ack(key(1)).dequeue(0)),
        ("an older send in the radio takes the ack", new().acked(0, key(1), 30).acked(0, key(1), 30).dequeue(0)
            .dequeue(0).sent(1, 0).ack(key(1)).ack(key(1)).sent(0, 0).tick(30)),
        ("a part that is absent is not one that is 0", new().acked(0, short, 30).ack(zero).ack(key(1)).ack(short)),
        ("keys that differ in one part", new().acked(0, key(1), 30).ack(Key { src: 6, ..key(1) })
            .ack(Key { cluster: 7, ..key(1) }).ack(Key { profile: 0, ..key(1) })
            .ack(Key { source_endpoint: 9, ..key(1) }).ack(key(1))),
        ("an ack before the route is not heard", new().unrouted(0, 4, Some((key(1), 30))).ack(key(1)).route(0, 4, &[OK])
            .ack(key(1))),
        ("the ack wait lapses with its handoff told again", waits().tick(30).tick(31)),
        ("an acked report hands off under a failure of a held send", new().settings(99, 9, 0, 0)
            .unicast(0, NORMAL, CHILD, Some((key(1), 30))).poll(0, None, Some(5)).dequeue(0).ack(key(1)).lost(0, 7, 50, 0)),
        ("no key part present", new().acked(0, BARE, 3).ack(key(1)).dequeue(0).sent(0, 0).ack(BARE)),
    ]
}

fn broadcasts() -> Vec<Named> {
    let passive = |copies| new().settings(1000, 9, 0, 0).passive(0, QUORUM, copies, 0).tick(0).dequeue(0);
    let fixed = |copies| new().settings(1000, 9, 0, 0).fixed(0, 20, copies, 0).tick(0).dequeue(0);
    vec![
        ("once: its report settles it, without a handoff", new().once(0).dequeue(0).aired(0, 1, 0).once(1).dequeue(1)
            .unaired(1, 7, 2, 0)),
        ("once: it lapses in the queue", new().settings(9, 9, 0, 0).once(0).tick(8).tick(9)),
        ("once: past its deadline in the radio", new().settings(9, 9, 0, 0).once(0).dequeue(8).tick(100)
            .unaired(0, 7, 100, 0)),
        ("passive: the first success hands off, the second says nothing", passive(2).aired(0, 5, 10).tick(14).tick(15)
            .dequeue(15).aired(0, 16, 10).tick(26)),
        ("passive: copies spent after a handoff", passive(1).aired(0, 5, 10).wake().tick(14).tick(15)),
        ("passive: copies spent, never on the air", passive(2).unaired(0, 7, 5, 10).tick(15).dequeue(15)
            .unaired(0, 8, 16, 10).tick(25).tick(26)),
        ("passive: a failure after a handoff", passive(2).aired(0, 5, 10).tick(15).dequeue(15).unaired(0, 8, 16, 10)
            .tick(26)),
        ("passive: the deadline before the handoff", new().settings(30, 9, 0, 0).passive(0, QUORUM, 9, 0).tick(0)
            .dequeue(0).unaired(0, 7, 5, 100).wake().tick(29).tick(30)),
        ("passive: the deadline after the handoff", new().settings(30, 9, 0, 0).passive(0, QUORUM, 9, 0).tick(0)
            .dequeue(0).aired(0, 5, 100).tick(29).tick(30)),
        ("fixed: its own interval counts, the report's delay does not", fixed(2).aired(0, 5, 999).wake().tick(24)
            .tick(25).dequeue(25).aired(0, 26, 0).tick(45).tick(46)),
        ("fixed: never on the air", fixed(1).unaired(0, 7, 5, 0).tick(24).tick(25)),
        ("fixed: the deadline after the handoff is a success", new().settings(30, 9, 0, 0).fixed(0, 100, 9, 0).tick(0)
            .dequeue(0).aired(0, 5, 0).tick(30)),
        ("fixed: the deadline before the handoff", new().settings(30, 9, 0, 0).fixed(0, 100, 9, 40).wake().tick(29)
            .tick(30)),
        ("over and the deadline at once: over", new().settings(15, 9, 0, 0).passive(0, QUORUM, 1, 0).tick(0).dequeue(0)
            .unaired(0, 7, 5, 10).tick(15)),
        ("a copy falls due on the deadline's tick", new().settings(15, 9, 0, 0).passive(0, QUORUM, 2, 0).tick(0)
            .dequeue(0).unaired(0, 7, 5, 10).tick(15)),
        ("a queued copy at the deadline", new().settings(15, 9, 0, 0).fixed(0, 5, 2, 0).tick(0).tick(14).tick(15)),
        ("in the radio a tick leaves it alone", passive(1).tick(5000).wake().aired(0, 5001, 1).tick(5002)),
        ("no copies: refused", new().passive(0, QUORUM, 0, 0).fixed(0, 9, 0, 0).once(0)),
        ("a next attempt in the future", new().fixed(0, 5, 1, 100).wake().tick(99).dequeue(99).tick(100).dequeue(100)),
        ("255 copies", new().fixed(0, 0, 255, 0).each(0..3, |s, i| s.tick(i.into()).dequeue(i.into())
            .aired(0, i.into(), 0))),
        ("an interval of nothing", new().fixed(0, 0, 1, 0).tick(0).dequeue(0).aired(0, 5, 9).tick(4).tick(5)),
    ]
}

fn quorums() -> Vec<Named> {
    let lent = || new().settings(1000, 9, 0, 0).passive(0, QUORUM, 3, 0).tick(0).dequeue(0);
    let other = (3, 2);
    vec![
        ("delivered to nobody", new().delivered(QUORUM).passive(0, QUORUM, 1, 0).delivered(other).lists()),
        ("delivered while idle after a handoff", lent().aired(0, 5, 10).delivered(QUORUM).delivered(QUORUM)),
        ("delivered in the queue after a handoff", lent().aired(0, 5, 10).tick(15).delivered(QUORUM).dequeue(15)),
        ("delivered in the radio after a handoff: any report settles it", lent().aired(0, 5, 10).tick(15).dequeue(15)
            .delivered(QUORUM).unaired(0, 7, 16, 1)),
        ("delivered in the radio, then failures, then a success", lent().delivered(QUORUM).unaired(0, 7, 5, 10).tick(15)
            .dequeue(15).aired(0, 16, 10)),
        ("delivered before the first copy", new().passive(0, QUORUM, 2, 5).delivered(QUORUM).lists().tick(5).dequeue(5)
            .aired(0, 6, 1)),
        ("delivered, and never on the air", new().passive(0, QUORUM, 1, 0).delivered(QUORUM).tick(0).dequeue(0)
            .unaired(0, 7, 1, 1).tick(2)),
        ("delivered, then the deadline", new().settings(9, 9, 0, 0).passive(0, QUORUM, 1, 0).delivered(QUORUM).tick(9)),
        ("the oldest of two with one key, marked or not", new().passive(0, QUORUM, 1, 0).passive(0, QUORUM, 1, 0)
            .lists().delivered(QUORUM).delivered(QUORUM).lists().tick(0).dequeue(0).aired(0, 0, 1).dequeue(0)
            .aired(1, 0, 1).delivered(QUORUM)),
        ("keys by id, one twice", new().passive(0, other, 1, 0).passive(0, QUORUM, 1, 0).passive(0, other, 1, 0)
            .fixed(0, 1, 1, 0).once(0).lists()),
        ("a quorum's key is both its parts", new().passive(0, (1, 3), 1, 0).delivered(QUORUM).delivered((1, 4)).lists()
            .delivered((1, 3)).lists()),
    ]
}

fn unrouted() -> Vec<Named> {
    let short = || new().settings(9, 9, 0, 2);
    vec![
        ("no destination is held", new().has_unrouted(4).fail(4).lists().retry(4)),
        ("a destination is held from its first send", short().unrouted(0, 4, None).has_unrouted(4).has_unrouted(5).lists()),
        ("a retry is spent, then no", short().unrouted(0, 4, None).retry(4).retry(4)),
        ("a held destination keeps its count", short().unrouted(0, 4, None).retry(4).settings(9, 9, 0, 9)
            .unrouted(0, 4, None).retry(4)),
        ("attempts of 0 and of 1 leave no retry", new().settings(9, 9, 0, 0).unrouted(0, 4, None).retry(4)
            .settings(9, 9, 0, 1).unrouted(0, 5, None).retry(5)),
        ("a lapsed send still waits for its retry", new().settings(0, 9, 0, 2).unrouted(5, 4, None).retry(4).tick(5)
            .retry(4)),
        ("after the tick it is held without a send", short().unrouted(0, 4, None).tick(9).has_unrouted(4).retry(4)
            .lists().wake()),
        ("after a cancel too", short().unrouted(0, 4, None).cancel(0).has_unrouted(4).retry(4).unrouted(0, 4, None)
            .retry(4)),
        ("a fail settles by id and drops the destination", short().unrouted(0, 4, None).unrouted(0, 5, None)
            .unrouted(0, 4, None).fail(4).has_unrouted(4).has_unrouted(5).fail(4)),
        ("a fail settles a lapsed send as well", new().settings(0, 9, 0, 2).unrouted(5, 4, None).fail(4)),
        ("a tick at the deadline", short().unrouted(0, 4, None).wake().tick(8).tick(9)),
        ("destinations rise", short().unrouted(0, 0xFFFF, None).unrouted(0, 0, None).unrouted(0, 256, None)
            .unrouted(0, 1, None).lists()),
        ("a destination returns with a fresh count", short().unrouted(0, 4, None).retry(4).fail(4).unrouted(0, 4, None)
            .retry(4).retry(4)),
    ]
}

fn routes() -> Vec<Named> {
    let two = || new().settings(20, 7, 0, 2).unrouted(0, 4, None).unrouted(0, 4, None);
    let held: Routed = Ok((9, CHILD));
    vec![
        ("a route takes its sends to the unicasts", two().route(1, 4, &[OK, held]).has_unrouted(4).wake().dequeue(1)
            .poll(1, None, Some(5)).dequeue(1)),
        ("an error settles with its code", two().route(1, 4, &[Err(0), Err(77)]).lists()),
        ("one good, one bad", two().route(1, 4, &[Err(7), OK]).dequeue(1).sent(1, 1)),
        ("too few and too many results", two().route(1, 4, &[OK]).route(1, 4, &[OK, OK, OK]).route(1, 4, &[])
            .has_unrouted(4)),
        ("results for the sends that are left after the tick", two().settings(30, 7, 0, 2).unrouted(0, 4, None)
            .route(20, 4, &[OK, OK, OK]).route(20, 4, &[OK]).dequeue(20)),
        ("all have lapsed", two().route(20, 4, &[]).has_unrouted(4).lists()),
        ("a refused route ticks nothing", two().route(20, 4, &[OK]).tick(19).cancel(0).tick(20)),
        ("the tick reaches other destinations", two().unrouted(0, 5, None).route(20, 6, &[]).has_unrouted(4)
            .has_unrouted(5).lists()),
        ("a route of what is not held", new().route(0, 4, &[]).route(0, 4, &[OK])),
        ("a held destination without sends is dropped", two().cancel(0).cancel(1).route(1, 4, &[]).has_unrouted(4)),
        ("the admitted deadline stays", two().route(19, 4, &[OK, OK]).wake().dequeue(20).tick(20)),
        ("a held one's deadline is the sooner of the two", two().route(1, 4, &[held, OK]).wake().tick(8)
            .has_awaiting(CHILD)),
        ("a held one's deadline is at most the admitted one", two().route(15, 4, &[held, held]).tick(19).tick(20)),
        ("retries as they are at the route", two().settings(20, 7, 1, 2).route(1, 4, &[OK, OK]).dequeue(1)
            .lost(0, 7, 1, 1).tick(2).dequeue(2).dequeue(2)),
        ("a routed send keeps its place by its id", new().unrouted(0, 4, None).direct(0).route(0, 4, &[OK]).dequeue(0)
            .dequeue(0)),
        ("a routed send takes the ack before a later one", new().unrouted(0, 4, Some((key(1), 9))).acked(0, key(1), 9)
            .route(0, 4, &[OK]).ack(key(1))),
        ("hop 0 is a hop", new().settings(9, 9, 0, 2).unrouted(0, 4, None).route(0, 4, &[Ok((0, Addr::None))])
            .dequeue(0).lost(0, 7, 0, 0)),
        ("a route of one destination among three", two().unrouted(0, 5, None).unrouted(0, 3, None).route(1, 5, &[OK])
            .lists().dequeue(1)),
        ("the tick's lapsed come before this destination's errors", new().settings(30, 9, 0, 2).unrouted(0, 4, None)
            .settings(5, 9, 0, 2).unrouted(0, 5, None).unrouted(0, 4, None).route(5, 4, &[Err(7)])),
    ]
}

fn cancels() -> Vec<Named> {
    let copies = || new().passive(0, QUORUM, 2, 0).copy(0, 0, CHILD).copy(0, 0, Addr::None);
    vec![
        ("cancel an unknown id", new().cancel(0).cancel(u32::MAX).direct(0).cancel(1)),
        ("cancel a queued, a held and an unrouted send", new().direct(0).held(0, CHILD).unrouted(0, 4, None).cancel(0)
            .cancel(1).cancel(2).cancel(0).lists()),
        ("cancel one that awaits its ack: the handoff is told again", new().acked(0, key(1), 9).dequeue(0).sent(0, 0)
            .cancel(0)),
        ("cancel one that waits for a retry", new().direct(0).dequeue(0).lost(0, 7, 0, 9).cancel(0)),
        ("in the radio a unicast is not cancelled", new().direct(0).dequeue(0).cancel(0).sent(0, 0).cancel(0)),
        ("in the radio a broadcast is not cancelled", new().once(0).dequeue(0).cancel(0).aired(0, 0, 0)),
        ("a broadcast and its copies, by id", copies().cancel(0).dequeue(0).poll(0, None, Some(5))),
        ("a handed-off broadcast tells so first", new().passive(0, QUORUM, 2, 0).tick(0).dequeue(0).aired(0, 0, 9)
            .cancel(0)),
        ("a copy is cancelled alone", copies().cancel(1).cancel(0)),
        ("nothing is settled while a copy is in the radio", copies().dequeue(0).cancel(0).cancel(1).sent(2, 0).cancel(0)),
        ("the broadcast in the radio, its copies not", new().once(0).copy(0, 0, CHILD).dequeue(0).cancel(0).cancel(1)),
        ("copies that outlive their broadcast", new().once(0).copy(0, 0, CHILD).dequeue(0).aired(0, 0, 0).cancel(0)
            .cancel(1)),
        ("a live copy in the radio of what is gone: unknown", new().once(0).copy(0, 0, Addr::None).dequeue(0)
            .aired(0, 0, 0).dequeue(0).cancel(0)),
        ("a copy of its own id", new().copy(0, 0, Addr::None).cancel(0)),
        ("a copy of a unicast is not cancelled with it", new().direct(0).copy(0, 0, Addr::None).cancel(0).cancel(1)),
        ("a copy of an id that is drawn later", new().copy(1, 0, CHILD).once(0).cancel(1).cancel(0)),
        ("a copy in the radio of a unicast's id does not stand before it", new().direct(0).copy(0, 0, CHILD)
            .poll(0, None, Some(5)).dequeue(0).cancel(0)),
        ("a copy of the last id", new().copy(u32::MAX, 0, CHILD).cancel(u32::MAX).cancel(0)),
        ("an abandoned id is unknown", new().direct(0).abandon().cancel(0)),
    ]
}

fn wakes() -> Vec<Named> {
    vec![
        ("nothing to wake for", new().wake().direct(0).dequeue(0).wake()),
        ("the least over the three tables", new().settings(30, 9, 0, 2).once(0).wake().unrouted(0, 4, None)
            .settings(20, 9, 0, 2).direct(0).wake().held(0, CHILD).wake()),
        ("an idle broadcast's next attempt", new().fixed(0, 5, 1, 77).wake().tick(77).wake()),
        ("a next attempt past the deadline", new().settings(9, 9, 0, 2).fixed(0, 5, 1, 77).wake()),
        ("a retry's time", new().direct(0).dequeue(0).lost(0, 7, 5, 6).wake()),
        ("a time that has passed", new().settings(1, 1, 0, 0).direct(0).tick(0).wake().direct(500).wake()),
        ("past the last time", new().settings(u32::MAX, 1, 0, 0).direct(LAST_TIME).wake().tick(LAST_TIME)
            .acked(LAST_TIME, key(1), u32::MAX).dequeue(LAST_TIME).dequeue(LAST_TIME).sent(1, LAST_TIME).cancel(0).wake()),
        ("a retry past the last time", new().direct(LAST_TIME).dequeue(LAST_TIME).lost(0, 7, LAST_TIME, u32::MAX).wake()),
    ]
}

fn questions() -> Vec<Named> {
    let awaiting = |addr| new().held(0, addr).has_awaiting(CHILD).has_awaiting(LONG);
    vec![
        ("has awaiting: short and extended", awaiting(CHILD).lists()),
        ("has awaiting: the extended one", awaiting(LONG).lists()),
        ("has awaiting: queued and in the radio", new().held(0, CHILD).poll(0, None, Some(5)).has_awaiting(CHILD)
            .dequeue(0).has_awaiting(CHILD).lists().sent(0, 0).has_awaiting(CHILD).lists()),
        ("has awaiting: not while the ack is awaited", new().unicast(0, NORMAL, CHILD, Some((key(1), 9)))
            .poll(0, None, Some(5)).dequeue(0).sent(0, 0).has_awaiting(CHILD).lists()),
        ("has awaiting: a lapsed one still counts", new().settings(0, 0, 0, 0).held(5, CHILD).has_awaiting(CHILD)
            .lists().tick(5).has_awaiting(CHILD)),
        ("has awaiting: not by the map", new().map(EUI, 5).held(0, LONG).has_awaiting(CHILD).has_awaiting(LONG)),
        ("a mapped address adds its short one", new().map(EUI, 6).held(0, LONG).held(0, CHILD).lists().map(EUI, 5).lists()),
        ("a map without the address", new().map(EUI + 1, 6).held(0, LONG).lists()),
        ("each address once", new().held(0, CHILD).held(0, CHILD).held(0, LONG).held(0, LONG).lists()),
        ("extended addresses rise as numbers", new().held(0, Addr::Long(1)).held(0, Addr::Long(256))
            .held(0, Addr::Long(u64::MAX)).held(0, Addr::Long(1 << 56)).lists()),
        ("short addresses rise", new().held(0, Addr::Short(0xFFFF)).held(0, Addr::Short(256)).held(0, Addr::Short(1))
            .held(0, Addr::Short(0)).lists()),
        ("lists of nothing", new().lists().direct(0).lists()),
        ("all four lists", new().unrouted(0, 9, None).passive(0, QUORUM, 1, 0).held(0, CHILD).held(0, LONG).map(EUI, 8)
            .lists()),
    ]
}

fn drops() -> Vec<Named> {
    let both = || new().held(0, CHILD).held(0, LONG).held(0, Addr::Short(6)).held(0, CHILD);
    vec![
        ("drop a child under its short address", both().drop_child(None, 5).lists()),
        ("drop a child under either address", both().drop_child(Some(EUI), 5).lists()),
        ("drop a stranger", both().drop_child(Some(1), 7).lists()),
        ("a drop leaves the queued and the lent", both().poll(0, None, Some(5)).dequeue(0).poll(0, None, Some(5))
            .drop_child(Some(EUI), 5).dequeue(0)),
        ("a drop leaves one that awaits its ack", new().unicast(0, NORMAL, CHILD, Some((key(1), 9)))
            .poll(0, None, Some(5)).dequeue(0).sent(0, 0).drop_child(None, 5).ack(key(1))),
        ("a drop takes the lapsed", new().settings(0, 0, 0, 0).held(5, CHILD).drop_child(None, 5)),
    ]
}

fn abandons() -> Vec<Named> {
    vec![
        ("abandon nothing", new().abandon().abandon()),
        ("abandon all: unicasts, unrouted, broadcasts, each by id", new().once(0).unrouted(0, 4, None).direct(0)
            .passive(0, QUORUM, 1, 0).held(0, CHILD).abandon().has_unrouted(4).lists().wake()),
        ("abandon what is in the radio", new().direct(0).once(0).dequeue(0).dequeue(0).abandon().sent(0, 0)
            .aired(1, 0, 0).dequeue(0)),
        ("ids, settings and map stay", new().settings(7, 7, 0, 2).map(EUI, 6).direct(0).abandon().held(0, LONG).wake()
            .lists()),
    ]
}

fn times() -> Vec<Named> {
    let late = LAST_TIME + 1;
    vec![
        ("the last time is good", new().direct(LAST_TIME).dequeue(LAST_TIME).sent(0, LAST_TIME).tick(LAST_TIME)
            .poll(LAST_TIME, None, None)),
        ("one more is late, for every enqueue", new().direct(late).refused().held(late, CHILD).refused()
            .copy(0, late, CHILD).refused().unrouted(late, 4, None).refused().once(late).refused().direct(0)),
        ("late calls", new().dequeue(late).poll(late, None, None).tick(late).route(late, 4, &[]).sent(0, late)),
        ("the latest number", new().dequeue(u64::MAX).tick(u64::MAX).direct(u64::MAX)),
        ("a late next attempt", new().passive(0, QUORUM, 1, late).refused().fixed(0, 1, 1, late).refused()
            .fixed(0, 1, 1, LAST_TIME).wake()),
        ("late stands before no copies", new().passive(late, QUORUM, 0, 0).refused().passive(0, QUORUM, 0, late)
            .refused().passive(0, QUORUM, 0, 0)),
        ("late stands before an unknown id", new().sent(3, late)),
        ("late stands before the route count", new().unrouted(0, 4, None).route(late, 4, &[])),
        ("times go back", new().settings(10, 10, 0, 0).direct(100).tick(5).dequeue(50).lost(0, 7, 20, 3).direct(0)
            .tick(10).wake()),
    ]
}

/// Tables filled to their room, and what is then refused.
pub fn full() -> Vec<Named> {
    let unicasts = |n| new().each(0..n, |s, _| s.direct(0));
    let awaiting = unicasts(0).each(0..32, |s, i| s.acked(0, key(i as u8), 50).dequeue(0).sent(i, 0));
    let busy = awaiting.each(32..48, |s, i| s.unrouted(0, i as u16, None));
    let aired = |s: Script, i: u32| s.passive(0, (i as u16, 1), 9, 0).tick(0).dequeue(0).aired(i, 0, 9999);
    let busy = busy.each(48..64, aired);
    let child = |s: Script, i: u32| s.held(0, Addr::Long(u64::from(i) << 40)).map(u64::from(i) << 40, 500 - i as u16);
    vec![
        ("32 unicasts, and a 33rd", unicasts(31).lists().direct(0).direct(0).refused().copy(0, 0, CHILD).refused()
            .held(0, CHILD).refused().dequeue(0).sent(0, 0).direct(0)),
        ("a place is not freed by time", unicasts(32).direct(9000).tick(9000).direct(9000)),
        ("16 broadcasts, and a 17th", new().each(0..17, |s, _| s.once(0)).refused().passive(0, QUORUM, 0, 0).cancel(15)
            .once(0)),
        ("late and no copies stand before a full table", new().each(0..16, |s, _| s.once(0)).once(LAST_TIME + 1)
            .refused().fixed(0, 1, 0, 0).refused().once(0)),
        ("16 unrouted sends, and a 17th", new().each(0..17, |s, _| s.unrouted(0, 4, None)).refused().fail(4)
            .unrouted(0, 5, None)),
        ("16 destinations, and a 17th", new().settings(5, 5, 0, 2).each(0..16, |s, i| s.unrouted(0, i as u16 * 3, None))
            .tick(5).unrouted(6, 1, None).refused().unrouted(6, 3, None).lists().fail(0).unrouted(6, 1, None)),
        ("a route finds too few free unicasts", unicasts(31).unrouted(0, 4, None).unrouted(0, 4, None)
            .route(0, 4, &[OK, OK]).route(0, 4, &[OK]).route(0, 4, &[OK, Err(7)])),
        ("a route of errors needs no place", unicasts(32).unrouted(0, 4, None).route(0, 4, &[Err(7)])),
        ("sixteen results", new().each(0..16, |s, _| s.unrouted(0, 4, None)).route(0, 4, &[OK; 16])
            .each(0..3, |s, _| s.dequeue(0))),
        ("32 map keys, and a 33rd", new().each(0..33, |s, i| s.map(u64::from(i), i as u16)).map(0, 77).map(31, 78)
            .held(0, Addr::Long(32)).held(0, Addr::Long(31)).lists()),
        ("every table full, and 112 actions of one tick", busy.clone().tick(20_000).wake()),
        ("every table full, and all abandoned", busy.abandon().wake()),
        ("32 short and 32 extended addresses", new().each(0..32, child).lists()),
        ("32 in the radio", unicasts(32).each(0..33, |s, _| s.dequeue(0)).tick(9000).cancel(31).wake()
            .each(0..32, |s, i| s.sent(31 - i, 9000))),
        ("ids go on as places are used again", new().each(0..40, |s, i| s.direct(0).cancel(i))),
        ("a broadcast with 31 copies", new().once(0).each(0..31, |s, _| s.copy(0, 0, CHILD)).copy(0, 0, CHILD).cancel(0)),
    ]
}

/// Where a run stops, and how much of it counts.
fn ends() -> Vec<Named> {
    vec![
        ("the empty trace", new()),
        ("an unknown kind alone", new().raw(&[0])),
        ("the first unknown kind past the events", new().raw(&[23])),
        ("an answer's kind is no event", new().raw(&[128]).lists()),
        ("an unknown kind behind records", new().direct(0).wake().raw(&[255]).wake()),
        ("a kind without its body", new().wake().raw(&[6])),
        ("a body that lacks a byte", new().wake().raw(&[6, 0, 0, 0, 0, 0, 0, 0])),
        ("the longest record, cut by one", new().raw(&[12]).raw(&[0; 234])),
        ("a refused record counts as consumed", new().cancel(9).raw(&[22; 1]).raw(&[0; 9]).raw(&[99])),
    ]
}

/// Every small trace. The full tables stand apart.
pub fn all() -> Vec<Named> {
    let groups: [fn() -> Vec<Named>; 17] = [
        settings, dequeues, polls, pending, reports, outcomes, acks, broadcasts, quorums, unrouted, routes, cancels, wakes,
        questions, drops, abandons, times,
    ];
    groups.iter().flat_map(|group| group()).chain(ends()).collect()
}
