//! The Rust's tables behind the trace's events: refusals decided here, answers taken from what the Rust returns.

use given::Instant;
use given::constants::Tunables;
use given::flat_map::FlatMap;
use given::sends::{Action, Actions, Broadcast, Confirm, InFlight, Schedule, SendId, Sends, Unicast, UnroutedUnicast};
use given::types::{Eui64, Nwk};

use crate::answer::{Answers, Fault, Frame, Waiter, number as as_number};
use crate::event::{Event, Load, Plan, Report, Routed, Way, read};
use crate::form::{self, number};
use crate::inspect;

/// Which of the three tables a live send is in.
#[derive(Debug, Clone, Copy, PartialEq, Eq)]
pub enum Table {
    Unicasts,
    Unrouted,
    Broadcasts,
}

/// What is kept of a live send, for refusals that the Rust does not know.
#[derive(Debug, Clone, Copy)]
pub struct Row {
    pub id: u32,
    pub table: Table,
    pub frame: u32,
    pub copy_of: Option<u32>,
    /// Of an unrouted send: where it goes, and until when.
    pub destination: Nwk,
    pub deadline: Instant,
}

/// A frame on loan: the Rust's own token, kept until its report.
#[derive(Debug)]
pub struct Lent {
    pub id: u32,
    pub frame: u32,
    token: InFlight<Frame>,
}

/// The number of the refusal, where one is due.
type Step = Result<(), u8>;

pub struct Machine {
    pub(crate) sends: Sends<Frame, Waiter, Fault>,
    tunables: Tunables,
    map: FlatMap<Eui64, Nwk>,
    next_id: u32,
    live: Vec<Row>,
    radio: Vec<Lent>,
    watched: bool,
}

impl Machine {
    /// Fresh tables under the default settings. A watched machine compares what it keeps with the Rust after each event.
    pub fn new(watched: bool) -> Self {
        Self {
            sends: Sends::default(),
            tunables: tunables(),
            map: FlatMap::new(),
            next_id: 0,
            live: Vec::new(),
            radio: Vec::new(),
            watched,
        }
    }

    pub fn next_id(&self) -> u32 {
        self.next_id
    }

    pub fn live(&self) -> &[Row] {
        &self.live
    }

    pub fn radio(&self) -> &[Lent] {
        &self.radio
    }

    pub fn map(&self) -> &FlatMap<Eui64, Nwk> {
        &self.map
    }

    /// The Rust's next wake, for a driver of traces.
    pub fn wake(&self) -> Option<u64> {
        self.sends.next_wake().map(|at| at.as_micros())
    }

    pub fn in_radio(&self, id: u32) -> bool {
        self.radio.iter().any(|lent| lent.id == id)
    }

    /// How many destinations the Rust holds.
    pub fn held(&self) -> usize {
        self.sends.unrouted_destinations().len()
    }

    pub fn count(&self, table: Table) -> usize {
        self.live.iter().filter(|row| row.table == table).count()
    }

    /// Applies one record and writes all its answers: items and done, or one refusal alone.
    pub fn answer(&mut self, kind: u8, body: &[u8], answers: &mut Answers) {
        let start = answers.0.len();
        let step = match read(kind, body) {
            None => Err(number::BAD_FORM),
            Some(event) => self.step(event, answers),
        };
        match step {
            Ok(()) => answers.done(),
            Err(number) => {
                assert_eq!(answers.0.len(), start, "a refused event answers nothing else");
                answers.refused(number);
            }
        }
        if self.watched {
            inspect::check(self);
        }
    }

    fn step(&mut self, event: Event, answers: &mut Answers) -> Step {
        match event {
            Event::Settings { handoff, persistence, retries, attempts } => {
                set(&self.tunables, handoff, persistence, retries, attempts);
                Ok(())
            }
            Event::Unicast { load, way } => self.unicast(None, load, way, answers),
            Event::Copy { of, load, way } => self.unicast(Some(of), load, way, answers),
            Event::Unrouted { load, destination, confirm } => self.unrouted(load, destination, confirm, answers),
            Event::Broadcast { load, plan } => self.broadcast(load, plan, answers),
            Event::Dequeue { now } => self.dequeue(now, answers),
            Event::Report(report) => self.report(report, answers),
            Event::Poll { now, extended, short } => {
                let (found, actions) = self.sends.poll(extended, short, time(now)?);
                self.tell(actions, answers);
                answers.yes_no(found);
                Ok(())
            }
            Event::Route { now, destination, results } => self.route(now, destination, &results, answers),
            Event::Cancel(id) => self.cancel(id, answers),
            Event::Abandon => {
                self.abandon(answers);
                Ok(())
            }
            Event::Map { extended, short } => self.pair(extended, short),
            other => self.act(other, answers),
        }
    }

    /// Calls that only return actions; what is left are questions.
    fn act(&mut self, event: Event, answers: &mut Answers) -> Step {
        let actions = match event {
            Event::Ack(key) => self.sends.aps_ack_received(&key),
            Event::Fail(destination) => self.sends.fail_unrouted(destination),
            Event::Delivered(key) => self.sends.broadcast_delivered(key),
            Event::Drop { extended, short } => self.sends.drop_indirect_unicasts(extended, short),
            Event::Tick { now } => self.sends.tick(time(now)?),
            question => return self.ask(question, answers),
        };
        self.tell(actions, answers);
        Ok(())
    }

    fn ask(&mut self, event: Event, answers: &mut Answers) -> Step {
        match event {
            Event::Retry(destination) if !self.sends.has_unrouted(destination) => return Err(number::NOT_HELD),
            Event::Retry(destination) => answers.yes_no(self.sends.retry_discovery(destination)),
            Event::NextWake => self.wake().into_iter().for_each(|at| answers.time(at)),
            Event::Lists => self.lists(answers),
            Event::HasUnrouted(destination) => answers.yes_no(self.sends.has_unrouted(destination)),
            Event::HasAwaiting(address) => answers.yes_no(self.sends.has_unicast_awaiting_poll(address)),
            _ => unreachable!("every other event is taken above"),
        }
        Ok(())
    }

    /// An id is left to draw, and then the table has room for one more.
    fn admit(&self, table: Table, room: usize) -> Step {
        if self.next_id == u32::MAX {
            return Err(number::IDS_SPENT);
        }
        if self.count(table) >= room {
            return Err(number::FULL);
        }
        Ok(())
    }

    /// The frame and the waiter of the next enqueue, with the id that it will draw.
    fn handles(&self, load: &Load) -> (Frame, Waiter) {
        let id = self.next_id;
        (Frame { id, handle: load.frame }, Waiter { id, handle: load.waiter })
    }

    /// Takes in what an enqueue returned.
    fn drawn(
        &mut self,
        table: Table,
        load: &Load,
        returned: (SendId, Actions<Frame, Waiter, Fault>),
        answers: &mut Answers,
    ) {
        let (id, actions) = returned;
        assert_eq!(id.as_u32(), self.next_id, "the Rust draws ids one after the other");
        self.live.push(Row {
            id: self.next_id,
            table,
            frame: load.frame,
            copy_of: None,
            destination: Nwk(0),
            deadline: Instant::from_micros(0),
        });
        self.next_id += 1;
        answers.id(id.as_u32());
        self.tell(actions, answers);
    }

    fn newest(&mut self) -> &mut Row {
        self.live.last_mut().expect("a send was just drawn")
    }

    fn unicast(&mut self, of: Option<u32>, load: Load, way: Way, answers: &mut Answers) -> Step {
        let now = time(load.now)?;
        self.admit(Table::Unicasts, form::UNICASTS)?;
        let (frame, waiter) = self.handles(&load);
        let unicast = Unicast {
            frame,
            priority: load.priority,
            waiter,
            confirm: way.confirm,
            next_hop: way.hop,
            poll_address: way.address,
        };
        let returned = match of {
            None => self.sends.enqueue_unicast(unicast, now, &self.tunables),
            Some(of) => self.sends.enqueue_broadcast_copy(send_id(of), unicast, now, &self.tunables),
        };
        self.drawn(Table::Unicasts, &load, returned, answers);
        self.newest().copy_of = of;
        Ok(())
    }

    fn unrouted(&mut self, load: Load, destination: Nwk, confirm: Confirm, answers: &mut Answers) -> Step {
        let now = time(load.now)?;
        self.admit(Table::Unrouted, form::UNROUTED)?;
        if self.held() >= form::DESTINATIONS && !self.sends.has_unrouted(destination) {
            return Err(number::FULL);
        }
        let (frame, waiter) = self.handles(&load);
        let send = UnroutedUnicast { frame, priority: load.priority, waiter, confirm, destination };
        let returned = self.sends.enqueue_unrouted_unicast(send, now, &self.tunables);
        let deadline = now + self.tunables.handoff_timeout();
        self.drawn(Table::Unrouted, &load, returned, answers);
        let row = self.newest();
        row.destination = destination;
        row.deadline = deadline;
        Ok(())
    }

    fn broadcast(&mut self, load: Load, plan: Plan, answers: &mut Answers) -> Step {
        let now = time(load.now)?;
        let schedule = schedule(plan)?;
        self.admit(Table::Broadcasts, form::BROADCASTS)?;
        let (frame, waiter) = self.handles(&load);
        let broadcast = Broadcast { frame, priority: load.priority, waiter, schedule };
        let returned = self.sends.enqueue_broadcast(broadcast, now, &self.tunables);
        self.drawn(Table::Broadcasts, &load, returned, answers);
        Ok(())
    }

    fn dequeue(&mut self, now: u64, answers: &mut Answers) -> Step {
        let Some(mut token) = self.sends.dequeue(time(now)?) else {
            return Ok(());
        };
        let frame = *token.frame_mut();
        answers.in_flight(frame, token.transmit());
        self.radio.push(Lent { id: frame.id, frame: frame.handle, token });
        Ok(())
    }

    fn report(&mut self, report: Report, answers: &mut Answers) -> Step {
        let now = time(report.now)?;
        let named = if report.broadcast { Table::Broadcasts } else { Table::Unicasts };
        if !self.live.iter().any(|row| row.id == report.id && row.table == named) {
            return Err(number::UNKNOWN_ID);
        }
        let Some(place) = self.radio.iter().position(|lent| lent.id == report.id) else {
            return Err(number::NOT_IN_RADIO);
        };
        if self.radio[place].frame != report.frame {
            return Err(number::OTHER_FRAME);
        }
        let token = self.radio.swap_remove(place).token;
        let result = report.result.map_err(Fault::Code);
        let actions = self.sends.transmitted(token, result, now, report.delay, report.delay);
        self.tell(actions, answers);
        Ok(())
    }

    /// The sends that a route of `destination` at `now` has left after its tick.
    pub fn left_to_route(&self, destination: Nwk, now: Instant) -> usize {
        let left = |row: &&Row| row.table == Table::Unrouted && row.destination == destination && now < row.deadline;
        self.live.iter().filter(left).count()
    }

    fn route(&mut self, now: u64, destination: Nwk, results: &[Routed], answers: &mut Answers) -> Step {
        let now = time(now)?;
        if results.len() != self.left_to_route(destination, now) {
            return Err(number::ROUTE_COUNT);
        }
        let free = form::UNICASTS - self.count(Table::Unicasts);
        if free < results.iter().filter(|result| result.is_ok()).count() {
            return Err(number::FULL);
        }
        let mut moved = Vec::new();
        let mut rest = results.iter();
        let resolve = |frame: &mut Frame| {
            let result = *rest.next().expect("the Rust routes as many sends as were left");
            if result.is_ok() {
                moved.push(frame.id);
            }
            result.map_err(Fault::Code)
        };
        let actions = self.sends.route_unicasts(destination, now, &self.tunables, resolve);
        assert!(rest.next().is_none(), "the Rust routes as many sends as were left");
        for row in self.live.iter_mut().filter(|row| moved.contains(&row.id)) {
            row.table = Table::Unicasts;
        }
        self.tell(actions, answers);
        Ok(())
    }

    /// The Rust says whether; what is kept says why not.
    fn cancel(&mut self, id: u32, answers: &mut Answers) -> Step {
        let row = self.live.iter().find(|row| row.id == id).copied();
        let Some(actions) = self.sends.cancel(send_id(id)) else {
            let Some(row) = row else {
                return Err(number::UNKNOWN_ID);
            };
            let copy =
                |other: &Row| row.table == Table::Broadcasts && other.copy_of == Some(id) && self.in_radio(other.id);
            assert!(self.in_radio(id) || self.live.iter().any(copy), "a live send is refused for the radio alone");
            return Err(number::IN_RADIO);
        };
        self.tell(actions, answers);
        Ok(())
    }

    /// One pair of the address map.
    fn pair(&mut self, extended: Eui64, short: Nwk) -> Step {
        if self.map.len() >= form::MAP_KEYS && !self.map.contains_key(&extended) {
            return Err(number::FULL);
        }
        self.map.insert(extended, short);
        Ok(())
    }

    fn abandon(&mut self, answers: &mut Answers) {
        let waiters = self.sends.abandon();
        assert_eq!(waiters.len(), self.live.len(), "every live send is abandoned");
        for waiter in waiters {
            answers.abandoned(waiter);
        }
        self.live.clear();
        self.radio.clear();
    }

    fn lists(&self, answers: &mut Answers) {
        for destination in self.sends.unrouted_destinations() {
            answers.destination(destination);
        }
        for key in self.sends.broadcasts_awaiting_quorum() {
            answers.key(key);
        }
        let table = self.sends.poll_addresses(&self.map);
        for short in table.short_addresses.iter() {
            answers.short(*short);
        }
        // The Rust keeps these by their bytes; the trace wants them as numbers, rising.
        let mut extended: Vec<u64> = table.extended_addresses.iter().map(|address| as_number(*address)).collect();
        extended.sort_unstable();
        for value in extended {
            answers.extended(value);
        }
    }

    /// Writes actions in their order and forgets what they settled.
    fn tell(&mut self, actions: Actions<Frame, Waiter, Fault>, answers: &mut Answers) {
        for action in actions {
            match action {
                Action::HandedOff(waiter) => answers.handed_off(waiter),
                Action::Settled { waiter, result, frame, failed_hop } => {
                    assert_eq!(waiter.id, frame.id, "a send's frame and waiter stay together");
                    answers.settled(waiter, frame, result, failed_hop);
                    self.forget(waiter.id);
                }
            }
        }
    }

    fn forget(&mut self, id: u32) {
        let place = self.live.iter().position(|row| row.id == id);
        let row = self.live.remove(place.expect("a settled send was live"));
        assert!(!self.in_radio(row.id), "a send in the radio is not settled");
    }
}

/// The Rust's settings as a run begins with them.
pub fn tunables() -> Tunables {
    let tunables = Tunables::default();
    let (handoff, persistence, retries, attempts) = form::DEFAULTS;
    set(&tunables, handoff, persistence, retries, attempts);
    tunables
}

/// The settings of a record, under the Rust's names.
pub fn set(tunables: &Tunables, handoff: u32, persistence: u32, retries: u8, attempts: u8) {
    for (name, value) in [
        ("handoff_timeout", u64::from(handoff)),
        ("transaction_persistence_time", u64::from(persistence)),
        ("unicast_retries", u64::from(retries)),
        ("pending_route_discovery_attempts", u64::from(attempts)),
    ] {
        tunables.set(name, value).expect("every value of its width is good");
    }
}

/// A time handed in, or refusal 1. One microsecond of the Rust stands for one millisecond.
fn time(now: u64) -> Result<Instant, u8> {
    if now > form::LAST_TIME {
        return Err(number::LATE_TIME);
    }
    Ok(Instant::from_micros(now))
}

/// The Rust's schedule, or refusal 1 for the next attempt, or 3 for no copies.
fn schedule(plan: Plan) -> Result<Schedule, u8> {
    let (copies, next) = match plan {
        Plan::Once => return Ok(Schedule::Once),
        Plan::Passive { copies, next, .. } | Plan::Fixed { copies, next, .. } => (copies, time(next)?),
    };
    if copies == 0 {
        return Err(number::NO_COPIES);
    }
    Ok(match plan {
        Plan::Passive { key, .. } => Schedule::PassiveAck { key, copies_remaining: copies, next_attempt: next },
        Plan::Fixed { interval, .. } => {
            Schedule::FixedInterval { interval, copies_remaining: copies, next_attempt: next }
        }
        Plan::Once => Schedule::Once,
    })
}

/// The Rust's id of a number. It hands ids out and takes them back, but makes none from a number, and a trace may name any.
pub fn send_id(number: u32) -> SendId {
    const { assert!(size_of::<SendId>() == size_of::<u32>() && align_of::<SendId>() == align_of::<u32>()) };
    // SAFETY: a SendId is one u32 and nothing else, as the sizes and the next line say, and every u32 is one.
    let id: SendId = unsafe { std::mem::transmute(number) };
    assert_eq!(id.as_u32(), number);
    id
}
