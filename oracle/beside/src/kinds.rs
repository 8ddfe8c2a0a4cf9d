//! A row or two for each kind of event: what it costs where it finds nothing, and where it finds something.

use oracle::make::{Addr, Plan};
use oracle::script::{NORMAL, Script, key};

use crate::row::Row;

/// Rows that leave the tables as they are have so many events, as long as they fit.
const MANY: u32 = 2000;
/// A time before every deadline.
const NOW: u64 = 1;
/// When the broadcasts that stay idle are due.
const LATER: u64 = 1 << 40;
/// Nobody has this number: no destination, child, source or counter.
const STRANGER: u16 = 999;

/// Spans so long that nothing lapses, and retries and attempts as many as there can be.
fn fresh() -> Script {
    Script::new().settings(u32::MAX, u32::MAX, 255, 255)
}

/// Every table full: unicasts that await polls, unrouted sends of destinations of their own, idle broadcasts.
fn full(script: Script) -> Script {
    let unicasts = script.each(0..32, |s, n| s.held(0, Addr::Long(u64::from(n))));
    let unrouted = unicasts.each(0..16, |s, n| s.unrouted(0, n as u16, None));
    unrouted.each(0..16, |s, n| s.passive(0, (n as u16, 1), 3, LATER))
}

/// Eight live sends: four unicasts that await polls, one of them an ack too, two unrouted ones, two idle broadcasts.
fn eight(script: Script) -> Script {
    let unicasts = script.each(0..3, |s, n| s.held(0, Addr::Long(100 + u64::from(n))));
    let acked = unicasts.unicast(0, NORMAL, Addr::Long(103), Some((key(100), 50)));
    acked.unrouted(0, 100, None).unrouted(0, 101, None).passive(0, (100, 1), 3, LATER).passive(0, (101, 1), 3, LATER)
}

/// Eight live sends and so many more, one for each turn of a step; and the id of the first of these.
fn besides(script: Script, sends: u32, step: impl Fn(Script, u32) -> Script) -> (Script, u32) {
    let base = eight(script);
    let first = base.drawn();
    (base.each(0..sends, step), first)
}

fn many(name: &str, step: impl Fn(Script, u32) -> Script) -> Row {
    Row::often(name, MANY, eight(fresh()), step)
}

/// The rows that both tables of misses have, over some base.
fn misses(name: &str, base: fn(Script) -> Script) -> Vec<Row> {
    let row = |event: &str, goal: f64, step: fn(Script, u32) -> Script| {
        Row::often(&format!("{event}, {name}"), MANY, base(fresh()), step).goal(goal)
    };
    vec![
        row("16 tick, idle", 1.0, |s, _| s.tick(NOW)),
        row("8 poll, a miss", 2.5, |s, _| s.poll(NOW, Some(STRANGER.into()), Some(STRANGER))),
        row("6 dequeue, nothing queued", 2.5, |s, _| s.dequeue(NOW)),
    ]
}

/// Idle ticks, poll misses and empty dequeues.
pub fn idle() -> Vec<Row> {
    let mut rows = misses("eight live sends", eight);
    rows.extend(misses("full tables", full));
    rows
}

/// Enqueues behind eight live sends. The same ones came in and were abandoned once before, so that the Rust's lists have
/// their room already, as those of a stack that has run for a while.
fn enqueue(name: &str, sends: u32, step: impl Fn(Script, u32) -> Script) -> Row {
    let warm = fresh().each(0..sends, &step).abandon();
    Row::once(name, eight(warm), |s| s.each(0..sends, &step))
}

fn enqueues() -> Vec<Row> {
    let broadcast = 24 + 8 - 1; // the last of the eight
    vec![
        enqueue("2 unicast, direct", 24, |s, _| s.direct(0)),
        enqueue("2 unicast, held for a poll", 24, |s, n| s.held(0, Addr::Long(n.into()))),
        enqueue("2 unicast, an ack awaited", 24, |s, n| s.acked(0, key(n as u8), 50)),
        enqueue("3 broadcast's copy", 24, |s, n| s.copy(broadcast, 0, Addr::Long(n.into()))),
        enqueue("4 unrouted unicast, new destinations", 14, |s, n| s.unrouted(0, n as u16, None)),
        enqueue("4 unrouted unicast, a held destination", 14, |s, _| s.unrouted(0, 100, None)),
        enqueue("5 broadcast, passive ack", 14, |s, n| s.passive(0, (n as u16, 1), 3, LATER)),
        enqueue("5 broadcast, once", 14, |s, _| s.once(0)),
    ]
}

/// Sends that the sender takes, and its reports.
fn radio() -> Vec<Row> {
    let (queued, first) = besides(fresh(), 8, |s, _| s.direct(0));
    let (called, _) = besides(fresh(), 8, |s, _| s.once(0));
    let lent = |script: &Script| script.clone().each(0..8, |s, _| s.dequeue(NOW));
    vec![
        Row::once("6 dequeue, a unicast", queued.clone(), |s| s.each(0..8, |s, _| s.dequeue(NOW))),
        Row::once("6 dequeue, a broadcast", called.clone(), |s| s.each(0..8, |s, _| s.dequeue(NOW))),
        Row::once("7 report, sent: settled", lent(&queued), |s| s.each(0..8, |s, n| s.sent(first + n, NOW))),
        Row::once("7 report, failed: tried again", lent(&queued), |s| {
            s.each(0..8, |s, n| s.lost(first + n, 7, NOW, 5))
        }),
        Row::once("7 report, a broadcast's: settled", lent(&called), |s| {
            s.each(0..8, |s, n| s.aired(first + n, NOW, 5))
        }),
    ]
}

fn polls() -> Vec<Row> {
    let (held, first) = besides(fresh(), 8, |s, n| s.held(0, Addr::Long(n.into())));
    let acked = besides(fresh(), 8, |s, n| s.acked(0, key(n as u8), 5000)).0.each(0..8, |s, _| s.dequeue(NOW));
    let awaiting = acked.each(0..8, |s, n| s.sent(first + n, NOW));
    vec![
        Row::once("8 poll, a hit", held.clone(), |s| s.each(0..8, |s, n| s.poll(NOW, Some(n.into()), None))),
        many("9 ack, a miss", |s, _| s.ack(key(200))),
        Row::once("9 ack, a hit: settled", awaiting, |s| s.each(0..8, |s, n| s.ack(key(n as u8)))),
        many("14 drop, a miss", |s, _| s.drop_child(Some(STRANGER.into()), STRANGER)),
        Row::once("14 drop, a hit: settled", held, |s| s.each(0..8, |s, n| s.drop_child(Some(n.into()), STRANGER))),
    ]
}

fn discoveries() -> Vec<Row> {
    let (waiting, _) = besides(fresh(), 8, |s, n| s.unrouted(0, n as u16, None));
    let spent = Script::new().settings(u32::MAX, u32::MAX, 255, 1);
    vec![
        Row::often("10 retry, granted", 200, eight(fresh()), |s, _| s.retry(100)),
        Row::often("10 retry, declined", MANY, eight(spent), |s, _| s.retry(100)),
        many("11 fail, a miss", |s, _| s.fail(STRANGER)),
        Row::once("11 fail, a hit: settled", waiting.clone(), |s| s.each(0..8, |s, n| s.fail(n as u16))),
        many("12 route, a miss", |s, _| s.route(NOW, STRANGER, &[])),
        Row::once("12 route, one send moved", waiting, |s| {
            s.each(0..8, |s, n| s.route(NOW, n as u16, &[Ok((9, Addr::None))]))
        }),
        many("21 has unrouted, yes", |s, _| s.has_unrouted(101)),
        many("21 has unrouted, no", |s, _| s.has_unrouted(STRANGER)),
    ]
}

fn broadcasts() -> Vec<Row> {
    let due = |s: Script, n: u32| {
        s.broadcast(0, NORMAL, Plan { tag: 1, src: n as u16, sequence: 1, copies: 3, ..Plan::default() })
    };
    let (idle, first) = besides(fresh(), 8, due);
    let aired = idle.tick(NOW).each(0..8, |s, _| s.dequeue(NOW)).each(0..8, |s, n| s.aired(first + n, NOW, 5));
    vec![
        many("13 delivered, a miss", |s, _| s.delivered((STRANGER, 1))),
        Row::once("13 delivered, a hit: settled", aired, |s| s.each(0..8, |s, n| s.delivered((n as u16, 1)))),
    ]
}

/// What ends sends, and the timer.
fn ends() -> Vec<Row> {
    let (direct, first) = besides(fresh(), 8, |s, _| s.direct(0));
    let (called, _) = besides(fresh(), 8, |s, _| s.once(0));
    let failed = direct.clone().each(0..8, |s, _| s.dequeue(NOW)).each(0..8, |s, n| s.lost(first + n, 7, NOW, 5));
    let short = eight(fresh()).settings(5, 5, 3, 3).each(0..8, |s, _| s.direct(0));
    vec![
        Row::once("15 cancel, a unicast", direct.clone(), |s| s.each(0..8, |s, n| s.cancel(first + n))),
        Row::once("15 cancel, a broadcast", called, |s| s.each(0..8, |s, n| s.cancel(first + n))),
        Row::once("16 tick, eight sends queued again", failed, |s| s.tick(9)),
        Row::once("16 tick, eight sends settled", short, |s| s.tick(9)),
        Row::once("17 abandon, sixteen sends", direct, Script::abandon),
        Row::often("17 abandon, no sends", MANY, fresh(), |s, _| s.abandon()),
    ]
}

fn questions() -> Vec<Row> {
    let known = fresh().each(0..32, |s, n| s.map(n.into(), n as u16));
    vec![
        many("1 settings", |s, _| s.settings(u32::MAX, u32::MAX, 255, 255)),
        many("18 next wake", |s, _| s.wake()),
        Row::once("19 map, new addresses", fresh(), |s| s.each(0..32, |s, n| s.map(n.into(), n as u16))),
        Row::often("19 map, a known address", MANY, known.clone(), |s, n| s.map((n % 32).into(), n as u16)),
        Row::often("20 lists, eight live sends", MANY, eight(known.clone()), |s, _| s.lists()),
        Row::often("20 lists, full tables", 100, full(known), |s, _| s.lists()),
        many("22 has awaiting, yes", |s, _| s.has_awaiting(Addr::Long(103))),
        many("22 has awaiting, no", |s, _| s.has_awaiting(Addr::Long(STRANGER.into()))),
    ]
}

/// Every row of a kind, but for those of `idle`.
pub fn all() -> Vec<Row> {
    let mut rows = Vec::new();
    for group in [enqueues, radio, polls, discoveries, broadcasts, ends, questions] {
        rows.extend(group());
    }
    rows.sort_by_key(|row| row.name.split_once(' ').and_then(|(kind, _)| kind.parse::<u8>().ok()));
    rows
}
