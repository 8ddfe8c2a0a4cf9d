//! Compares what the wrapper keeps with the Rust's own tables, which show themselves whole in their debug text.

use crate::machine::{Machine, Row, Table};

/// One live send, as either side sees it.
#[derive(Debug, PartialEq, Eq)]
struct Seen {
    table: Table,
    id: u32,
    in_radio: bool,
    frame: Option<u32>,
    copy_of: Option<u32>,
    /// Of an unrouted send: destination and deadline.
    unrouted: Option<(u16, u64)>,
}

/// Panics where the two differ.
pub fn check(machine: &Machine) {
    let text = format!("{:?}", machine.sends);
    assert_eq!(number(field(&text, "next_id: ")), Some(u64::from(machine.next_id())), "the next id");
    assert_eq!(kept(machine), shown(&text), "the live sends kept and those in the Rust's tables");
    let lent: Vec<u32> = machine.radio().iter().map(|lent| lent.id).collect();
    assert!(lent.iter().all(|id| machine.live().iter().any(|row| row.id == *id)), "a lent frame is a live send's");
}

fn kept(machine: &Machine) -> Vec<Seen> {
    let seen = |row: &Row| {
        let in_radio = machine.in_radio(row.id);
        let unrouted = (row.destination.0, row.deadline.as_micros());
        Seen {
            table: row.table,
            id: row.id,
            in_radio,
            frame: (!in_radio).then_some(row.frame),
            copy_of: row.copy_of,
            unrouted: (row.table == Table::Unrouted).then_some(unrouted),
        }
    };
    let mut all: Vec<Seen> = machine.live().iter().map(seen).collect();
    all.sort_by_key(|seen| (seen.table as u8, seen.id));
    all
}

fn shown(text: &str) -> Vec<Seen> {
    let (unicasts, rest) = text.split_once(", unrouted_unicasts: ").expect("the second table");
    let (unrouted, broadcasts) = rest.split_once(", broadcasts: ").expect("the third table");
    let mut all = Vec::new();
    for (table, part) in [(Table::Unicasts, unicasts), (Table::Unrouted, unrouted), (Table::Broadcasts, broadcasts)] {
        // Each piece ends with the next record's key, up to its closing parenthesis.
        let pieces: Vec<&str> = part.split("): Record { ").collect();
        for pair in pieces.windows(2) {
            let key = pair[0].rsplit('(').next().expect("a key");
            all.push(record(table, key.parse().expect("an id"), pair[1]));
        }
    }
    all
}

fn record(table: Table, id: u32, text: &str) -> Seen {
    assert_eq!(number(field(text, "waiter: Waiter { id: ")), Some(u64::from(id)), "a waiter under its own id");
    let in_radio = text.contains("stage: Transmitting") || text.contains("copy: Transmitting");
    let frame = field(text, "frame: ");
    let unrouted = || {
        let destination = field(text, "destination: Nwk(0x");
        let destination = u16::from_str_radix(&destination[..4], 16).expect("four digits");
        (destination, number(field(text, "deadline: Instant { micros: ")).expect("a time"))
    };
    Seen {
        table,
        id,
        in_radio,
        frame: (!frame.starts_with("None")).then(|| number(field(frame, "handle: ")).expect("a handle") as u32),
        copy_of: text.split_once("copy_of: Some(SendId(").and_then(|(_, of)| number(of)).map(|of| of as u32),
        unrouted: (table == Table::Unrouted).then(unrouted),
    }
}

/// The text behind the first `name`.
fn field<'a>(text: &'a str, name: &str) -> &'a str {
    text.split_once(name).unwrap_or_else(|| panic!("no {name} in {text}")).1
}

/// The number that a text begins with.
fn number(text: &str) -> Option<u64> {
    text.split(|c: char| !c.is_ascii_digit()).next()?.parse().ok()
}
