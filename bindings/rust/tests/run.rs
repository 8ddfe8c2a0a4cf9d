//! The wrapper on the worked example of docs/TRACE.md, on outputs with and without room, and on slices of length 0.

use sends_run::run;

/// A broadcast that is sent once, enqueued and dequeued at 0.
fn worked() -> (Vec<u8>, Vec<u8>) {
    let mut trace = vec![0; 44];
    (trace[0], trace[9], trace[13], trace[17], trace[35]) = (5, 7, 9, 2, 6);
    let answers = [0x82, 0, 0, 0, 0, 0x81, 0x85, 0, 0, 0, 0, 7, 0, 0, 0, 1, 0, 0, 0, 0x81, 0x8D, 0, 44, 0, 0, 0];
    (trace, answers.to_vec())
}

#[test]
fn the_worked_example() {
    let (trace, answers) = worked();
    let mut out = [0xAA; 64];
    assert_eq!(run(&trace, &mut out), answers);
    assert!(out[answers.len()..].iter().all(|&byte| byte == 0xAA));
}

#[test]
fn room_decides() {
    let (trace, answers) = worked();
    for room in 0..=answers.len() {
        let mut out = vec![0xAA; room];
        let given = run(&trace, &mut out).to_vec();
        match room {
            0..6 => assert!(given.is_empty() && out.iter().all(|&byte| byte == 0xAA)),
            26 => assert_eq!(given, answers),
            _ => assert_eq!((given[given.len() - 6], given[given.len() - 5]), (141, 15)),
        }
    }
}

#[test]
fn nothing_to_read_or_nowhere_to_write() {
    assert_eq!(run(&[], &mut [0xAA; 9]), [141, 0, 0, 0, 0, 0]);
    assert!(run(&worked().0, &mut []).is_empty());
}
