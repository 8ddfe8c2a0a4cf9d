//! The worked example and the nine stories of the scope, with the answers worked out by hand.

use crate::make::Addr;
use crate::script::{HIGH, Script, Told, key};

/// A name, a trace and what must come of it in ample room.
pub struct Known {
    pub name: &'static str,
    pub trace: Vec<u8>,
    pub answers: Vec<u8>,
}

fn known(name: &'static str, script: Script, told: Told) -> Known {
    let trace = script.bytes.0;
    let answers = told.end(trace.len());
    Known { name, trace, answers }
}

/// The bytes as the scope prints them.
fn worked_example() -> Known {
    let mut trace = vec![0x05];
    trace.extend([0; 8]);
    trace.extend([0x07, 0, 0, 0, 0x09, 0, 0, 0, 0x02]);
    trace.extend([0; 17]);
    trace.push(0x06);
    trace.extend([0; 8]);
    let answers =
        vec![0x82, 0, 0, 0, 0, 0x81, 0x85, 0, 0, 0, 0, 0x07, 0, 0, 0, 0x01, 0, 0, 0, 0x81, 0x8D, 0, 0x2C, 0, 0, 0];
    Known { name: "the worked example", trace, answers }
}

fn deadlines() -> Vec<Known> {
    let unicast = || Script::new().direct(0);
    vec![
        known(
            "C1: a dequeue just before the deadline",
            unicast().dequeue(7999),
            Told::new().id(0).in_flight(0, false, false),
        ),
        known(
            "C1: at the deadline nothing, and the tick fails it",
            unicast().dequeue(8000).tick(8000),
            Told::new().id(0).done().settled(0, 1).done(),
        ),
        known(
            "C2: of equal priority the lower id first",
            unicast().direct(0).dequeue(0).dequeue(0),
            Told::new().ids(0..2).in_flight(0, false, false).in_flight(1, false, false),
        ),
        known(
            "C2: the higher priority first",
            unicast().unicast(0, HIGH, Addr::None, None).dequeue(0).dequeue(0),
            Told::new().ids(0..2).in_flight(1, false, false).in_flight(0, false, false),
        ),
    ]
}

fn unicasts() -> Vec<Known> {
    let child = Addr::Short(5);
    let polled = || Script::new().held(0, child).poll(0, None, Some(5)).dequeue(0);
    let polled_told = || Told::new().id(0).yes_no(true).in_flight(0, false, false);
    vec![
        known(
            "C3: an ack in the radio, then a failed report, is one success",
            Script::new().acked(0, key(1), 100).dequeue(0).ack(key(1)).lost(0, 9, 1, 50).tick(8000),
            Told::new().id(0).in_flight(0, false, false).done().settled(0, 0).done().done(),
        ),
        known(
            "C4: held and failed just before the deadline, it awaits its poll again",
            polled().lost(0, 9, 7679, 50).has_awaiting(child).dequeue(7679).poll(7679, None, Some(5)),
            polled_told().done().yes_no(true).done().yes_no(true),
        ),
        known(
            "C4: held and failed at the deadline, it settles without a hop",
            polled().lost(0, 9, 7680, 50).has_awaiting(child),
            polled_told().verdict(0, 7, Addr::None, 9).done().yes_no(false),
        ),
        known(
            "C5: a retry is not due before its time",
            Script::new().direct(0).dequeue(100).lost(0, 9, 100, 50).tick(149).dequeue(149),
            Told::new().id(0).in_flight(0, false, false).done().done().done(),
        ),
        known(
            "C5: a retry is due at its time",
            Script::new().direct(0).dequeue(100).lost(0, 9, 100, 50).tick(150).dequeue(150),
            Told::new().id(0).in_flight(0, false, false).done().done().in_flight(0, false, false),
        ),
        shared_key(),
    ]
}

/// Three sends stand before the two that share a key, so that these have the ids 3 and 4.
fn shared_key() -> Known {
    let script = Script::new().direct(0).direct(0).direct(0).acked(0, key(7), 100).acked(0, key(7), 100);
    let script = script.each(0..5, |script, _| script.dequeue(0));
    let told = (0..5).fold(Told::new().ids(0..5), |told, id| told.in_flight(id, false, false));
    known(
        "C6: two acks mark only the older of two in the radio",
        script.ack(key(7)).ack(key(7)).lost(4, 9, 1, 50).lost(3, 9, 1, 50).tick(51).dequeue(51),
        told.done().done().done().settled(3, 0).done().done().in_flight(4, false, false),
    )
}

fn broadcasts() -> Vec<Known> {
    let quorum = (3, 1);
    let aired = || Script::new().passive(0, quorum, 1, 0).tick(0).dequeue(0);
    let aired_told = || Told::new().id(0).done().in_flight(0, true, false);
    vec![
        known(
            "C7: its copies spent, a broadcast is not over before its next attempt",
            aired().unaired(0, 9, 10, 500).tick(509),
            aired_told().done().done(),
        ),
        known(
            "C7: at its next attempt it is over, with the radio's error",
            aired().unaired(0, 9, 10, 500).tick(510),
            aired_told().done().verdict(0, 7, Addr::None, 9).done(),
        ),
        known(
            "C8: a broadcast with a copy in the radio is not cancelled",
            Script::new().passive(0, quorum, 1, 0).copy(0, 0, Addr::None).dequeue(0).cancel(0).sent(1, 0).cancel(0),
            Told::new().ids(0..2).in_flight(1, false, false).refused(6).settled(1, 0).done().settled(0, 6).done(),
        ),
        known(
            "C9: delivered before the first success",
            aired().delivered(quorum).aired(0, 1, 500),
            aired_told().done().handed_off(0).settled(0, 0).done(),
        ),
    ]
}

pub fn all() -> Vec<Known> {
    let mut all = vec![worked_example()];
    all.extend(deadlines());
    all.extend(unicasts());
    all.extend(broadcasts());
    all
}
