//! Cases in full: every short string of bytes, and every short sequence of a few events that bear on each other.

use crate::case::Case;
use crate::make::{Addr, Bytes};
use crate::script::{NORMAL, Script, key};

/// Every trace of up to two bytes, into outputs of up to 14.
pub fn short() -> impl Iterator<Item = Case> {
    let traces =
        (0..=2).flat_map(|length| (0..256usize.pow(length)).map(move |n| n.to_le_bytes()[..length as usize].to_vec()));
    traces.flat_map(|trace| (0..=14).map(move |capacity| Case { what: "short".into(), capacity, trace: trace.clone() }))
}

/// Events over ids 0 and 1, times 0 to 2, one key, one destination, one quorum and one child.
fn alphabet() -> Vec<Vec<u8>> {
    let new = Script::new;
    let child = Addr::Short(5);
    let quorum = (3, 1);
    let events = [
        new().unicast(0, NORMAL, Addr::None, Some((key(1), 1))),
        new().unicast(0, NORMAL, child, Some((key(1), 1))),
        new().copy(0, 0, child),
        new().unrouted(0, 4, Some((key(1), 1))),
        new().passive(0, quorum, 1, 0),
        new().fixed(1, 1, 2, 1),
        new().once(0),
        new().dequeue(0),
        new().dequeue(1),
        new().report(false, 0, Ok(()), 0, 1),
        new().report(false, 0, Err(7), 1, 0),
        new().report(true, 0, Ok(()), 0, 1),
        new().report(true, 0, Err(7), 1, 0),
        new().report_frame(false, 1, 16, 1),
        new().poll(1, None, Some(5)),
        new().ack(key(1)),
        new().retry(4),
        new().route(1, 4, &[Ok((9, child))]),
        new().delivered(quorum),
        new().cancel(0),
        new().tick(0),
        new().tick(1),
        new().tick(2),
    ];
    events.into_iter().map(|script| script.bytes.0).collect()
}

/// Every sequence of so many of these events, behind settings that make time short. Questions end each.
pub fn sequences(length: u32) -> impl Iterator<Item = Case> {
    let alphabet = alphabet();
    let letters = alphabet.len() as u64;
    let head = Script::new().settings(2, 2, 1, 2).bytes.0;
    let tail = Script::new().lists().wake().bytes.0;
    (0..letters.pow(length)).map(move |number| {
        let mut trace = Bytes(head.clone());
        let mut rest = number;
        for _ in 0..length {
            trace.0.extend(&alphabet[(rest % letters) as usize]);
            rest /= letters;
        }
        trace.0.extend(&tail);
        Case { what: format!("sequence {number}"), capacity: 512, trace: trace.0 }
    })
}
