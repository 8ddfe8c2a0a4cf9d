//! The Rust at the commit, driven by a trace with nothing beside it: a record is read, the call made, the answers written.
//! No form, time, room or id is checked that the Rust does not check, so it is right only where no event is refused.

use given::constants::Tunables;
use given::flat_map::FlatMap;
use given::sends::{Action, Actions, Broadcast, InFlight, SendId, Sends, Unicast, UnroutedUnicast};
use given::types::{Eui64, Nwk};
use run::answer::{Fault, Frame, Waiter, number};
use run::event::extended;
use run::form::{BROADCASTS, UNICASTS, event};
use run::machine::{send_id, set, tunables};

use crate::read::{Body, Rest};
use crate::write::Out;

/// Runs a trace without a refused event into ample room; gives the length written.
pub fn run(trace: &[u8], out: &mut [u8]) -> usize {
    let mut lean = Lean::new();
    let mut rest = Rest(trace);
    let mut out = Out::new(out);
    while let Some(kind) = rest.kind() {
        lean.event(kind, &mut rest, &mut out);
        out.done();
    }
    out.end(trace.len())
}

/// The tables, and what any driver of them needs: the settings, the address map, and the tokens of frames in the radio.
struct Lean {
    sends: Sends<Frame, Waiter, Fault>,
    tunables: Tunables,
    map: FlatMap<Eui64, Nwk>,
    radio: Vec<(u32, InFlight<Frame>)>,
    /// The id that the next enqueue draws: the Rust's actions name none, so frame and waiter carry it.
    next: u32,
    /// Extended addresses while they are sorted. This list and the tokens' have their room from the start.
    sorted: Vec<u64>,
}

impl Lean {
    fn new() -> Self {
        Self {
            sends: Sends::default(),
            tunables: tunables(),
            map: FlatMap::new(),
            radio: Vec::with_capacity(UNICASTS + BROADCASTS),
            next: 0,
            sorted: Vec::with_capacity(UNICASTS),
        }
    }

    // Inlined by order: into its one caller the compiler would not, and the run takes a tenth longer.
    #[inline(always)]
    fn event(&mut self, kind: u8, rest: &mut Rest, out: &mut Out) {
        match kind {
            event::SETTINGS => self.settings(rest.body()),
            event::UNICAST => self.unicast(rest.body(), out),
            event::COPY => self.copy(rest.body(), out),
            event::UNROUTED => self.unrouted(rest.body(), out),
            event::BROADCAST => self.broadcast(rest.body(), out),
            event::DEQUEUE => self.dequeue(rest.body(), out),
            event::REPORT => self.report(rest.body(), out),
            event::POLL => self.poll(rest.body(), out),
            event::ACK => tell(self.sends.aps_ack_received(&rest.body::<10>().key(0)), out),
            event::RETRY => out.yes_no(self.sends.retry_discovery(rest.body::<2>().nwk(0))),
            event::FAIL => tell(self.sends.fail_unrouted(rest.body::<2>().nwk(0)), out),
            event::ROUTE => self.route(rest.body(), out),
            event::DELIVERED => {
                let body = rest.body::<3>();
                tell(self.sends.broadcast_delivered((body.nwk(0), body.u8(2))), out);
            }
            event::DROP => {
                let body = rest.body::<11>();
                tell(self.sends.drop_indirect_unicasts(body.maybe_extended(0), body.nwk(9)), out);
            }
            event::CANCEL => tell(self.sends.cancel(send_id(rest.body::<4>().u32(0))).expect("no refusal"), out),
            event::TICK => tell(self.sends.tick(rest.body::<8>().time(0)), out),
            event::ABANDON => self.abandon(out),
            _ => self.ask(kind, rest, out),
        }
    }

    /// The address map and the questions.
    fn ask(&mut self, kind: u8, rest: &mut Rest, out: &mut Out) {
        match kind {
            event::NEXT_WAKE => self.sends.next_wake().into_iter().for_each(|at| out.time(at.as_micros())),
            event::MAP => {
                let body = rest.body::<10>();
                self.map.insert(extended(body.u64(0)), body.nwk(8));
            }
            event::LISTS => self.lists(out),
            event::HAS_UNROUTED => out.yes_no(self.sends.has_unrouted(rest.body::<2>().nwk(0))),
            event::HAS_AWAITING => {
                let address = rest.body::<9>().address(0).expect("no refusal");
                out.yes_no(self.sends.has_unicast_awaiting_poll(address));
            }
            _ => panic!("the lean run is for known kinds"),
        }
    }

    fn settings(&self, body: Body<10>) {
        set(&self.tunables, body.u32(0), body.u32(4), body.u8(8), body.u8(9));
    }

    /// The frame and the waiter of an enqueue, whose body has them at `at`.
    #[inline(always)]
    fn handles<const N: usize>(&mut self, body: Body<N>, at: usize) -> (Frame, Waiter) {
        let id = self.next;
        self.next += 1;
        (Frame { id, handle: body.u32(at) }, Waiter { id, handle: body.u32(at + 4) })
    }

    /// The body of a unicast, which begins at `at`.
    #[inline(always)]
    fn body_of<const N: usize>(&mut self, body: Body<N>, at: usize) -> Unicast<Frame, Waiter> {
        let (frame, waiter) = self.handles(body, at + 8);
        Unicast {
            frame,
            priority: body.priority(at + 16),
            waiter,
            confirm: body.confirm(at + 28),
            next_hop: body.nwk(at + 17),
            poll_address: body.address(at + 19),
        }
    }

    fn unicast(&mut self, body: Body<43>, out: &mut Out) {
        let unicast = self.body_of(body, 0);
        drawn(self.sends.enqueue_unicast(unicast, body.time(0), &self.tunables), out);
    }

    fn copy(&mut self, body: Body<47>, out: &mut Out) {
        let unicast = self.body_of(body, 4);
        let of = send_id(body.u32(0));
        drawn(self.sends.enqueue_broadcast_copy(of, unicast, body.time(4), &self.tunables), out);
    }

    fn unrouted(&mut self, body: Body<34>, out: &mut Out) {
        let (frame, waiter) = self.handles(body, 8);
        let (priority, destination, confirm) = (body.priority(16), body.nwk(17), body.confirm(19));
        let send = UnroutedUnicast { frame, priority, waiter, confirm, destination };
        drawn(self.sends.enqueue_unrouted_unicast(send, body.time(0), &self.tunables), out);
    }

    fn broadcast(&mut self, body: Body<34>, out: &mut Out) {
        let (frame, waiter) = self.handles(body, 8);
        let broadcast = Broadcast { frame, priority: body.priority(16), waiter, schedule: body.schedule(17) };
        drawn(self.sends.enqueue_broadcast(broadcast, body.time(0), &self.tunables), out);
    }

    fn dequeue(&mut self, body: Body<8>, out: &mut Out) {
        if let Some(mut token) = self.sends.dequeue(body.time(0)) {
            let frame = *token.frame_mut();
            out.in_flight(frame, token.transmit());
            self.radio.push((frame.id, token));
        }
    }

    fn report(&mut self, body: Body<24>, out: &mut Out) {
        let id = body.u32(1);
        let place = self.radio.iter().position(|(other, _)| *other == id).expect("no refusal");
        let (_, token) = self.radio.swap_remove(place);
        let result = if body.u8(9) == 0 { Ok(()) } else { Err(Fault::Code(body.u16(10))) };
        let delay = body.span(20);
        tell(self.sends.transmitted(token, result, body.time(12), delay, delay), out);
    }

    fn poll(&mut self, body: Body<20>, out: &mut Out) {
        let (found, actions) = self.sends.poll(body.maybe_extended(8), body.maybe_nwk(17), body.time(0));
        tell(actions, out);
        out.yes_no(found);
    }

    /// Results are read as the Rust asks for them.
    fn route(&mut self, body: Body<235>, out: &mut Out) {
        let mut at = 11;
        let resolve = |_: &mut Frame| {
            let result = body.routed(at);
            at += 14;
            result.map_err(Fault::Code)
        };
        tell(self.sends.route_unicasts(body.nwk(8), body.time(0), &self.tunables, resolve), out);
    }

    fn abandon(&mut self, out: &mut Out) {
        self.sends.abandon().into_iter().for_each(|waiter| out.abandoned(waiter));
        self.radio.clear();
    }

    fn lists(&mut self, out: &mut Out) {
        self.sends.unrouted_destinations().into_iter().for_each(|destination| out.destination(destination));
        self.sends.broadcasts_awaiting_quorum().into_iter().for_each(|key| out.key(key));
        let table = self.sends.poll_addresses(&self.map);
        table.short_addresses.iter().for_each(|short| out.short(*short));
        self.sorted.clear();
        self.sorted.extend(table.extended_addresses.iter().map(|extended| number(*extended)));
        self.sorted.sort_unstable();
        self.sorted.iter().for_each(|number| out.extended(*number));
    }
}

#[inline(always)]
fn drawn((id, actions): (SendId, Actions<Frame, Waiter, Fault>), out: &mut Out) {
    out.id(id.as_u32());
    tell(actions, out);
}

fn tell(actions: Actions<Frame, Waiter, Fault>, out: &mut Out) {
    for action in actions {
        match action {
            Action::HandedOff(waiter) => out.handed_off(waiter),
            Action::Settled { waiter, result, frame, failed_hop } => out.settled(waiter, frame, result, failed_hop),
        }
    }
}
