//! Traces about the form of records: each byte of a good record of each kind, changed, so that refusal 14 meets each field.

use run::form::event;

use crate::make::{Addr, Bytes, Key, Load, Plan, Report, Routed};
use crate::script::{BARE, key};

/// A name and a good record.
type Sample = (&'static str, Bytes);

const LOAD: Load = Load { now: 0, frame: 1, waiter: 2, priority: 2 };

fn sample(name: &'static str, write: impl FnOnce(&mut Bytes)) -> Sample {
    let mut bytes = Bytes::default();
    write(&mut bytes);
    (name, bytes)
}

fn enqueues() -> Vec<Sample> {
    let passive = Plan { tag: 1, src: 3, sequence: 1, copies: 2, ..Plan::default() };
    let fixed = Plan { tag: 2, interval: 9, copies: 2, ..Plan::default() };
    vec![
        sample("unicast to a hop", |b| b.unicast(LOAD, 7, Addr::None, None)),
        sample("unicast for a short address and a full key", |b| b.unicast(LOAD, 7, Addr::Short(5), Some((key(1), 9)))),
        sample("unicast for an extended address and a bare key", |b| {
            b.unicast(LOAD, 7, Addr::Long(5), Some((BARE, 9)))
        }),
        sample("copy", |b| b.copy(0, LOAD, 7, Addr::Short(5), None)),
        sample("unrouted", |b| b.unrouted(LOAD, 4, None)),
        sample("unrouted with a key", |b| b.unrouted(LOAD, 4, Some((Key { presence: 5, ..BARE }, 9)))),
        sample("once", |b| b.broadcast(LOAD, Plan::default())),
        sample("passive", |b| b.broadcast(LOAD, passive)),
        sample("fixed", |b| b.broadcast(LOAD, fixed)),
    ]
}

fn calls() -> Vec<Sample> {
    let report = |broadcast, result| Report { broadcast, id: 0, frame: 1, result, now: 0, delay: 0 };
    vec![
        sample("settings", |b| b.settings(8000, 7680, 3, 3)),
        sample("dequeue", |b| b.at(event::DEQUEUE, 0)),
        sample("report of a success", |b| b.report(report(false, Ok(())))),
        sample("report of an error", |b| b.report(report(true, Err(7)))),
        sample("poll of nobody", |b| b.poll(0, None, None)),
        sample("poll under both addresses", |b| b.poll(0, Some(5), Some(5))),
        sample("ack", |b| b.ack(key(1))),
        sample("ack of a bare key", |b| b.ack(BARE)),
        sample("delivered", |b| b.delivered(3, 1)),
        sample("drop", |b| b.drop(Some(5), 5)),
        sample("drop under the short address", |b| b.drop(None, 5)),
        sample("cancel", |b| b.cancel(0)),
        sample("tick", |b| b.at(event::TICK, 0)),
        sample("map", |b| b.map(5, 5)),
        sample("has awaiting a short address", |b| b.has_awaiting(Addr::Short(5))),
        sample("has awaiting an extended address", |b| b.has_awaiting(Addr::Long(5))),
        sample("has awaiting nobody", |b| b.has_awaiting(Addr::None)),
    ]
}

fn routes() -> Vec<Sample> {
    let good: Routed = Ok((9, Addr::Short(5)));
    vec![
        sample("route without results", |b| b.route(0, 4, 0, &[])),
        sample("route with a hop", |b| b.route(0, 4, 1, &[good])),
        sample("route with an error", |b| b.route(0, 4, 1, &[Err(7)])),
    ]
}

/// One byte of the record changed: its lowest bit, its fifth or its highest, by the place.
fn changed(record: &[u8], place: usize, turn: usize) -> Vec<u8> {
    let mut bytes = record.to_vec();
    bytes[place] ^= [0x01, 0x10, 0x80][(place + turn) % 3];
    bytes
}

/// The places of a route that are worth a change: its head, its first two entries and its last.
fn places(record: &[u8]) -> Vec<usize> {
    let all = 1..record.len();
    if record[0] == event::ROUTE { all.filter(|place| !(39..222).contains(place)).collect() } else { all.collect() }
}

/// Traces of some changed records each. A good send stands first, so that some calls find it.
fn spoiled((name, record): &Sample, turn: usize, traces: &mut Vec<(String, Vec<u8>)>) {
    let each = if record.0.len() > 100 { 3 } else { 12 };
    for (part, places) in places(&record.0).chunks(each).enumerate() {
        let mut first = Bytes::default();
        first.unicast(LOAD, 7, Addr::Short(5), None);
        let mut trace = first.0;
        for place in places {
            trace.extend(changed(&record.0, *place, turn));
        }
        traces.push((format!("form of {name}, pass {turn}, part {part}"), trace));
    }
}

/// Fields set to values beside their limits: the largest good one and the least bad one.
fn limits() -> Vec<(String, Vec<u8>)> {
    let mut traces = Vec::new();
    let mut limit = |name: &str, record: &Bytes, place: usize, values: &[u8]| {
        let mut trace = Vec::new();
        for value in values {
            let mut bytes = record.0.clone();
            bytes[place] = *value;
            trace.extend(bytes);
        }
        traces.push((format!("limits of {name}"), trace));
    };
    let samples = enqueues();
    limit("a priority", &samples[0].1, 17, &[0, 5, 6, 255]);
    limit("an address tag without an address", &samples[0].1, 20, &[0, 1, 2, 3, 255]);
    limit("an address tag with one", &samples[1].1, 20, &[0, 1, 2, 3]);
    limit("a short address's third byte", &samples[1].1, 23, &[0, 1]);
    limit("a confirm tag without a key", &samples[0].1, 29, &[0, 1, 2, 255]);
    limit("a confirm tag with one", &samples[1].1, 29, &[0, 1, 2]);
    limit("presence bits of a full key", &samples[1].1, 30, &[15, 14, 7, 16, 31, 255]);
    limit("presence bits of a bare key", &samples[2].1, 30, &[0, 1, 8, 15, 16]);
    limit("a schedule tag without a schedule", &samples[6].1, 18, &[0, 1, 2, 3]);
    limit("a schedule tag of a passive one", &samples[7].1, 18, &[0, 1, 2, 3]);
    limit("a schedule tag of a fixed one", &samples[8].1, 18, &[0, 1, 2, 3]);
    let calls = calls();
    limit("a report's table", &calls[2].1, 1, &[0, 1, 2]);
    limit("a report's result", &calls[3].1, 10, &[0, 1, 2]);
    limit("a poll's first flag", &calls[5].1, 9, &[0, 1, 2]);
    limit("a poll's second flag", &calls[5].1, 18, &[0, 1, 2]);
    limit("a drop's flag", &calls[9].1, 1, &[0, 1, 2]);
    let routes = routes();
    limit("a route's count", &routes[0].1, 11, &[0, 1, 16, 17, 255]);
    limit("a route's count beside a result", &routes[1].1, 11, &[0, 1, 2]);
    limit("a route's tag", &routes[1].1, 12, &[0, 1, 2]);
    traces
}

/// Every trace about form.
pub fn all() -> Vec<(String, Vec<u8>)> {
    let mut traces = limits();
    for sample in enqueues().iter().chain(&calls()) {
        for turn in 0..2 {
            spoiled(sample, turn, &mut traces);
        }
    }
    for sample in &routes() {
        spoiled(sample, 0, &mut traces);
    }
    traces
}
