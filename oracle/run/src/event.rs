//! Events read out of a record's body. A field outside its stated form gives nothing, which is refusal 14.

use std::time::Duration;

use given::Ieee802154Address;
use given::sends::{ApsAckData, Confirm, TxPriority};
use given::types::{Eui64, Nwk};

use crate::form::{RESULTS, event};

/// What every enqueue hands in.
pub struct Load {
    pub now: u64,
    pub frame: u32,
    pub waiter: u32,
    pub priority: TxPriority,
}

/// A broadcast's schedule, its next attempt still a plain number that may be too late.
#[derive(Clone, Copy)]
pub enum Plan {
    Once,
    Passive { key: (Nwk, u8), copies: u8, next: u64 },
    Fixed { interval: Duration, copies: u8, next: u64 },
}

/// Where a routed send goes, or the code that ends it.
pub type Routed = Result<(Nwk, Option<Ieee802154Address>), u16>;

/// A unicast's hop, its poll address and what confirms it.
pub struct Way {
    pub hop: Nwk,
    pub address: Option<Ieee802154Address>,
    pub confirm: Confirm,
}

/// The sender's word on a frame that it had.
pub struct Report {
    pub broadcast: bool,
    pub id: u32,
    pub frame: u32,
    pub result: Result<(), u16>,
    pub now: u64,
    pub delay: Duration,
}

pub enum Event {
    Settings { handoff: u32, persistence: u32, retries: u8, attempts: u8 },
    Unicast { load: Load, way: Way },
    Copy { of: u32, load: Load, way: Way },
    Unrouted { load: Load, destination: Nwk, confirm: Confirm },
    Broadcast { load: Load, plan: Plan },
    Dequeue { now: u64 },
    Report(Report),
    Poll { now: u64, extended: Option<Eui64>, short: Option<Nwk> },
    Ack(ApsAckData),
    Retry(Nwk),
    Fail(Nwk),
    Route { now: u64, destination: Nwk, results: Vec<Routed> },
    Delivered((Nwk, u8)),
    Drop { extended: Option<Eui64>, short: Nwk },
    Cancel(u32),
    Tick { now: u64 },
    Abandon,
    NextWake,
    Map { extended: Eui64, short: Nwk },
    Lists,
    HasUnrouted(Nwk),
    HasAwaiting(Ieee802154Address),
}

/// A body read from its front, little-endian. Its length was fixed by the kind, so a read never runs out.
struct Body<'a>(&'a [u8]);

impl Body<'_> {
    fn take<const N: usize>(&mut self) -> [u8; N] {
        let (head, rest) = self.0.split_first_chunk().expect("the kind fixed the length");
        self.0 = rest;
        *head
    }

    fn u8(&mut self) -> u8 {
        self.take::<1>()[0]
    }

    fn u16(&mut self) -> u16 {
        u16::from_le_bytes(self.take())
    }

    fn u32(&mut self) -> u32 {
        u32::from_le_bytes(self.take())
    }

    fn u64(&mut self) -> u64 {
        u64::from_le_bytes(self.take())
    }

    fn nwk(&mut self) -> Nwk {
        Nwk(self.u16())
    }

    fn span(&mut self) -> Duration {
        Duration::from_micros(self.u32().into())
    }

    fn flag(&mut self) -> Option<bool> {
        match self.u8() {
            0 => Some(false),
            1 => Some(true),
            _ => None,
        }
    }

    fn priority(&mut self) -> Option<TxPriority> {
        Some(match self.u8() {
            0 => TxPriority::Background,
            1 => TxPriority::UserLow,
            2 => TxPriority::UserNormal,
            3 => TxPriority::UserHigh,
            4 => TxPriority::UserCritical,
            5 => TxPriority::StackCritical,
            _ => return None,
        })
    }

    fn load(&mut self) -> Option<Load> {
        Some(Load { now: self.u64(), frame: self.u32(), waiter: self.u32(), priority: self.priority()? })
    }

    fn address(&mut self) -> Option<Option<Ieee802154Address>> {
        let tag = self.u8();
        let value = self.u64();
        match tag {
            0 => absent(value == 0, None),
            1 => Some(Some(Ieee802154Address::Nwk(Nwk(u16::try_from(value).ok()?)))),
            2 => Some(Some(Ieee802154Address::Eui64(extended(value)))),
            _ => None,
        }
    }

    fn key(&mut self) -> Option<ApsAckData> {
        let presence = self.u8();
        let src = self.nwk();
        let key = ApsAckData {
            src,
            destination_endpoint: part(presence & 1, self.u8())?,
            cluster_id: part(presence & 2, self.u16())?,
            profile_id: part(presence & 4, self.u16())?,
            source_endpoint: part(presence & 8, self.u8())?,
            counter: self.u8(),
        };
        absent(presence < 16, key)
    }

    fn confirm(&mut self) -> Option<Confirm> {
        match self.u8() {
            0 => absent(self.take::<14>() == [0; 14], Confirm::OnHandoff),
            1 => Some(Confirm::ApsAck { ack: self.key()?, wait: self.span() }),
            _ => None,
        }
    }

    fn way(&mut self) -> Option<Way> {
        Some(Way { hop: self.nwk(), address: self.address()?, confirm: self.confirm()? })
    }

    fn result(&mut self) -> Option<Result<(), u16>> {
        let failed = self.flag()?;
        let code = self.u16();
        if failed { Some(Err(code)) } else { absent(code == 0, Ok(())) }
    }

    fn maybe_extended(&mut self) -> Option<Option<Eui64>> {
        let there = self.flag()?;
        part(u8::from(there), self.u64()).map(|value| value.map(extended))
    }

    fn plan(&mut self) -> Option<Plan> {
        let tag = self.u8();
        let key = (self.nwk(), self.u8());
        let interval = self.u32();
        let copies = self.u8();
        let next = self.u64();
        let no_key = key == (Nwk(0), 0);
        match tag {
            0 => absent(no_key && interval == 0 && copies == 0 && next == 0, Plan::Once),
            1 => absent(interval == 0, Plan::Passive { key, copies, next }),
            2 => {
                let interval = Duration::from_micros(interval.into());
                absent(no_key, Plan::Fixed { interval, copies, next })
            }
            _ => None,
        }
    }

    fn routed(&mut self) -> Option<Routed> {
        let failed = self.flag()?;
        let hop = self.nwk();
        let address = self.address()?;
        let code = self.u16();
        if failed {
            absent(hop == Nwk(0) && address.is_none(), Err(code))
        } else {
            absent(code == 0, Ok((hop, address)))
        }
    }

    fn results(&mut self) -> Option<Vec<Routed>> {
        let count = usize::from(self.u8());
        if count > RESULTS {
            return None;
        }
        let results = (0..count).map(|_| self.routed()).collect::<Option<_>>()?;
        absent(self.0.iter().all(|byte| *byte == 0), results)
    }

    fn report(&mut self) -> Option<Report> {
        Some(Report {
            broadcast: self.flag()?,
            id: self.u32(),
            frame: self.u32(),
            result: self.result()?,
            now: self.u64(),
            delay: self.span(),
        })
    }
}

/// The value if the parts beside it that must be absent are.
fn absent<T>(zero: bool, value: T) -> Option<T> {
    zero.then_some(value)
}

/// A part that is there by its bit or flag, and zero where it is not.
fn part<T: Default + PartialEq>(bit: u8, value: T) -> Option<Option<T>> {
    if bit != 0 { Some(Some(value)) } else { absent(value == T::default(), None) }
}

/// An extended address, whose bytes the Rust keeps in the order of the air: the lowest first.
pub fn extended(value: u64) -> Eui64 {
    Eui64(value.to_le_bytes())
}

/// The event of a record, or nothing where a field is outside its form.
pub fn read(kind: u8, body: &[u8]) -> Option<Event> {
    let b = &mut Body(body);
    Some(match kind {
        event::SETTINGS => {
            Event::Settings { handoff: b.u32(), persistence: b.u32(), retries: b.u8(), attempts: b.u8() }
        }
        event::UNICAST => Event::Unicast { load: b.load()?, way: b.way()? },
        event::COPY => Event::Copy { of: b.u32(), load: b.load()?, way: b.way()? },
        event::UNROUTED => Event::Unrouted { load: b.load()?, destination: b.nwk(), confirm: b.confirm()? },
        event::BROADCAST => Event::Broadcast { load: b.load()?, plan: b.plan()? },
        event::DEQUEUE => Event::Dequeue { now: b.u64() },
        event::REPORT => Event::Report(b.report()?),
        event::POLL => Event::Poll {
            now: b.u64(),
            extended: b.maybe_extended()?,
            short: {
                let there = b.flag()?;
                part(u8::from(there), b.u16())?.map(Nwk)
            },
        },
        event::ACK => Event::Ack(b.key()?),
        event::RETRY => Event::Retry(b.nwk()),
        event::FAIL => Event::Fail(b.nwk()),
        event::ROUTE => Event::Route { now: b.u64(), destination: b.nwk(), results: b.results()? },
        event::DELIVERED => Event::Delivered((b.nwk(), b.u8())),
        event::DROP => Event::Drop { extended: b.maybe_extended()?, short: b.nwk() },
        event::CANCEL => Event::Cancel(b.u32()),
        event::TICK => Event::Tick { now: b.u64() },
        event::ABANDON => Event::Abandon,
        event::NEXT_WAKE => Event::NextWake,
        event::MAP => Event::Map { extended: extended(b.u64()), short: b.nwk() },
        event::LISTS => Event::Lists,
        event::HAS_UNROUTED => Event::HasUnrouted(b.nwk()),
        event::HAS_AWAITING => Event::HasAwaiting(b.address()??),
        _ => return None,
    })
}
