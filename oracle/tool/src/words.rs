//! Traces and answers in words, one record a line, for people who look at a difference.

use run::form::{self, Standing, answer, standing};

/// A field of a body.
#[derive(Clone, Copy)]
enum Part {
    /// A plain number of so many bytes.
    Number(usize),
    Address,
    Key,
    Confirm,
    Result,
    /// A flag, and a number of so many bytes that it speaks of.
    Maybe(usize),
    Results,
}

use Part::{Address, Confirm, Key, Maybe, Number, Result, Results};

type Layout = (&'static str, &'static [(&'static str, Part)]);

const TIME: (&str, Part) = ("now", Number(8));
const ID: (&str, Part) = ("id", Number(4));
const FRAME: (&str, Part) = ("frame", Number(4));
const WAITER: (&str, Part) = ("waiter", Number(4));
const PRIORITY: (&str, Part) = ("priority", Number(1));
const DESTINATION: (&str, Part) = ("destination", Number(2));
const HOP: (&str, Part) = ("hop", Number(2));
const ADDRESS: (&str, Part) = ("address", Address);
const CONFIRM: (&str, Part) = ("confirm", Confirm);
const SHORT: (&str, Part) = ("short", Number(2));
const LONG: (&str, Part) = ("extended", Number(8));
const SRC: (&str, Part) = ("src", Number(2));
const SEQUENCE: (&str, Part) = ("sequence", Number(1));

const EVENTS: [Layout; 22] = [
    (
        "settings",
        &[("handoff", Number(4)), ("persistence", Number(4)), ("retries", Number(1)), ("attempts", Number(1))],
    ),
    ("unicast", &[TIME, FRAME, WAITER, PRIORITY, HOP, ADDRESS, CONFIRM]),
    ("copy", &[("of", Number(4)), TIME, FRAME, WAITER, PRIORITY, HOP, ADDRESS, CONFIRM]),
    ("unrouted", &[TIME, FRAME, WAITER, PRIORITY, DESTINATION, CONFIRM]),
    (
        "broadcast",
        &[
            TIME,
            FRAME,
            WAITER,
            PRIORITY,
            ("schedule", Number(1)),
            SRC,
            SEQUENCE,
            ("interval", Number(4)),
            ("copies", Number(1)),
            ("next", Number(8)),
        ],
    ),
    ("dequeue", &[TIME]),
    ("report", &[("broadcast", Number(1)), ID, FRAME, ("result", Result), TIME, ("delay", Number(4))]),
    ("poll", &[TIME, ("extended", Maybe(8)), ("short", Maybe(2))]),
    ("ack", &[("key", Key)]),
    ("retry", &[DESTINATION]),
    ("fail", &[DESTINATION]),
    ("route", &[TIME, DESTINATION, ("results", Results)]),
    ("delivered", &[SRC, SEQUENCE]),
    ("drop", &[("extended", Maybe(8)), SHORT]),
    ("cancel", &[ID]),
    ("tick", &[TIME]),
    ("abandon", &[]),
    ("next wake", &[]),
    ("map", &[LONG, SHORT]),
    ("lists", &[]),
    ("has unrouted", &[DESTINATION]),
    ("has awaiting", &[ADDRESS]),
];

const ANSWERS: [Layout; 14] = [
    ("refused", &[("number", Number(1))]),
    ("done", &[]),
    ("id", &[ID]),
    ("handed off", &[ID, WAITER]),
    ("settled", &[ID, WAITER, FRAME, ("verdict", Number(1)), ADDRESS, ("code", Number(2)), ("hop", Maybe(2))]),
    ("in flight", &[ID, FRAME, ("broadcast", Number(1)), HOP, ("pending", Number(1))]),
    ("yes/no", &[("yes", Number(1))]),
    ("time", &[("at", Number(8))]),
    ("short", &[SHORT]),
    ("extended", &[LONG]),
    ("key", &[SRC, SEQUENCE]),
    ("abandoned", &[ID, WAITER]),
    ("destination", &[DESTINATION]),
    ("end", &[("status", Number(1)), ("consumed", Number(4))]),
];

const REFUSALS: [&str; 17] = [
    "end of the trace",
    "time too late",
    "ids spent",
    "no copies",
    "no free place",
    "unknown id",
    "in the radio",
    "not in the radio",
    "another frame",
    "not held",
    "route count",
    "map slices",
    "unknown kind",
    "record cut short",
    "field out of form",
    "no room for answers",
    "trace too long",
];

const VERDICTS: [&str; 8] = [
    "success",
    "handoff timeout",
    "ack timeout",
    "indirect expired",
    "route discovery timeout",
    "quorum not reached",
    "cancelled",
    "caller's code",
];

pub fn event_name(kind: u8) -> &'static str {
    EVENTS[usize::from(kind) - 1].0
}

pub fn answer_name(kind: u8) -> &'static str {
    ANSWERS[usize::from(kind) - 128].0
}

pub fn refusal_name(number: u8) -> &'static str {
    REFUSALS.get(usize::from(number)).unwrap_or(&"?")
}

pub fn verdict_name(verdict: u8) -> &'static str {
    VERDICTS.get(usize::from(verdict)).unwrap_or(&"?")
}

/// Takes a little-endian number off the front.
fn number(body: &mut &[u8], width: usize) -> u64 {
    let (head, rest) = body.split_at(width);
    *body = rest;
    head.iter().rev().fold(0, |sum, byte| (sum << 8) | u64::from(*byte))
}

fn numbers(body: &mut &[u8], widths: &[usize]) -> Vec<String> {
    widths.iter().map(|width| number(body, *width).to_string()).collect()
}

fn part(body: &mut &[u8], part: Part) -> String {
    match part {
        Number(width) => number(body, width).to_string(),
        Address => match (number(body, 1), number(body, 8)) {
            (0, 0) => "none".into(),
            (1, short) => format!("short:{short}"),
            (2, long) => format!("extended:{long}"),
            (tag, value) => format!("tag{tag}:{value}"),
        },
        Key => format!("key({})", numbers(body, &[1, 2, 1, 2, 2, 1, 1]).join(" ")),
        Confirm => match body[0] {
            0 if body[..15].iter().all(|byte| *byte == 0) => {
                number(body, 15);
                "handoff".into()
            }
            _ => format!("tag{} {} wait={}", number(body, 1), self::part(body, Key), number(body, 4)),
        },
        Result => match (number(body, 1), number(body, 2)) {
            (0, 0) => "ok".into(),
            (1, code) => format!("error:{code}"),
            (tag, code) => format!("tag{tag}:{code}"),
        },
        Maybe(width) => match (number(body, 1), number(body, width)) {
            (0, 0) => "none".into(),
            (1, value) => value.to_string(),
            (flag, value) => format!("flag{flag}:{value}"),
        },
        Results => results(body),
    }
}

fn results(body: &mut &[u8]) -> String {
    let count = number(body, 1);
    let mut shown = Vec::new();
    for place in 0..form::RESULTS as u64 {
        let blank = body[..14].iter().all(|byte| *byte == 0);
        let tag = number(body, 1);
        let hop = number(body, 2);
        let address = part(body, Address);
        let code = number(body, 2);
        match (tag, place < count) {
            (_, false) if blank => {}
            (0, true) if code == 0 => shown.push(format!("hop={hop} address={address}")),
            (1, true) if hop == 0 && address == "none" => shown.push(format!("error:{code}")),
            _ => shown.push(format!("#{place}: tag{tag} hop={hop} address={address} code={code}")),
        }
    }
    format!("{count}[{}]", shown.join("; "))
}

fn line((name, parts): &Layout, mut body: &[u8]) -> String {
    let mut text = (*name).to_string();
    for (label, kind) in *parts {
        text += &format!(" {label}={}", part(&mut body, *kind));
    }
    text
}

fn hex(bytes: &[u8]) -> String {
    bytes.iter().map(|byte| format!("{byte:02X}")).collect::<Vec<_>>().join(" ")
}

/// Each record of a trace in words; what is no record as bytes.
pub fn trace(bytes: &[u8]) -> Vec<String> {
    let mut rest = bytes;
    let mut lines = Vec::new();
    loop {
        let shown = &rest[..rest.len().min(48)];
        match standing(rest) {
            Standing::Record { kind, body } => {
                lines.push(line(&EVENTS[usize::from(kind) - 1], body));
                rest = &rest[1 + body.len()..];
                continue;
            }
            Standing::Unknown => lines.push(format!("unknown kind: {}", hex(shown))),
            Standing::Cut => lines.push(format!("cut short: {}", hex(shown))),
            Standing::End => {}
        }
        return lines;
    }
}

/// Each answer in words, with the name of a refusal, a verdict or a status.
pub fn answers(bytes: &[u8]) -> Vec<String> {
    let mut rest = bytes;
    let mut lines = Vec::new();
    while let Some((&kind, after)) = rest.split_first() {
        let Some(length) = form::answer_body(kind).filter(|length| *length <= after.len()) else {
            lines.push(format!("no answer: {}", hex(&rest[..rest.len().min(32)])));
            break;
        };
        let body = &after[..length];
        let named = match kind {
            answer::REFUSED | answer::END => format!(" ({})", refusal_name(body[0])),
            answer::SETTLED => format!(" ({})", verdict_name(body[12])),
            _ => String::new(),
        };
        lines.push(line(&ANSWERS[usize::from(kind) - 128], body) + &named);
        rest = &after[length..];
    }
    lines
}

/// A trace with the answers under each of its records.
pub fn dialogue(bytes: &[u8], told: &[u8]) -> String {
    let mut text = String::new();
    let mut told = answers(told).into_iter().peekable();
    for record in trace(bytes) {
        if told.peek().is_none_or(|line| line.starts_with("end")) {
            text += &format!("{record}   -- not answered\n");
            continue;
        }
        text += &format!("{record}\n");
        for line in told.by_ref() {
            text += &format!("    {line}\n");
            if line.starts_with("done") || line.starts_with("refused") {
                break;
            }
        }
    }
    told.fold(text, |text, line| text + &format!("{line}\n"))
}
