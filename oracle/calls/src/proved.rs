//! The proved calls through C, in place and by value, on tables that these calls made, so that their premise holds.

use std::hint::black_box as shown;

use crate::tables::{BROADCAST, HANDED_OFF, ISSUED, ITEM, Notes, REFUSED, REPLIED, SETTLED, TIME, Tables, UNICAST};

const MAP: (&[u64], &[u16]) = (&[1, 2], &[31, 32]);

/// The words of the tables, and what a call told and answered.
struct Words {
    unicasts: [u64; 320],
    unrouted: [u64; 112],
    held: [u64; 32],
    broadcasts: [u64; 112],
    told: [u64; 560],
    /// The next id, four counts, how many actions were told, the answer's kind and its numbers.
    out: [u64; 11],
    abandoned: [u64; 128],
    notes: Notes,
}

impl Words {
    fn fresh() -> Self {
        Self {
            unicasts: [0; 320],
            unrouted: [0; 112],
            held: [0; 32],
            broadcasts: [0; 112],
            told: [0; 560],
            out: [0; 11],
            abandoned: [0; 128],
            notes: Notes::default(),
        }
    }

    /// The id that the last call issued.
    fn issued(&self) -> u32 {
        self.out[7] as u32
    }

    fn note(&mut self) {
        if self.notes.on {
            self.note_answer();
            for place in 0..self.out[5] as usize {
                self.note_action(place);
            }
        }
    }

    /// Of the answer's numbers a call leaves those alone that its kind has not.
    fn note_answer(&mut self) {
        let kind = self.out[6];
        let numbers = match kind {
            UNICAST => 4,
            BROADCAST => 2,
            REFUSED | ISSUED | REPLIED => 1,
            _ => 0,
        };
        self.notes.answer(kind, &self.out[7..7 + numbers]);
    }

    /// An action lies in five words (the crate `actions`); ids are frames here.
    fn note_action(&mut self, place: usize) {
        let [id, waiter, frame, tags, address] = std::array::from_fn(|word| self.told[place * 5 + word]);
        assert_eq!(id, waiter);
        if tags % 2 == 0 {
            return self.notes.line(HANDED_OFF, &[waiter]);
        }
        let (verdict, code, hop) = (tags / 2 % 8, tags / 64 % 65536, tags / 4_194_304);
        self.notes.line(SETTLED, &[waiter, frame, verdict, address + code, hop]);
    }

    fn note_abandoned(&mut self) {
        if self.notes.on {
            self.notes.answer(self.out[6], &[]);
            for place in 0..self.out[5] as usize {
                self.notes.line(ITEM, &[self.abandoned[place * 2 + 1]]);
            }
        }
    }

    fn note_one(&mut self, kind: u64, number: u64) {
        shown(number);
        if self.notes.on {
            self.notes.answer(kind, &[number]);
        }
    }

    fn note_list<T: Copy + Into<u64>>(&mut self, list: &[T]) {
        shown(list);
        if self.notes.on {
            self.notes.calls += 1;
            list.iter().for_each(|item| self.notes.line(ITEM, &[(*item).into()]));
        }
    }
}

/// One function of C, called with the counts, the tables, and what is given.
macro_rules! called {
    ($prefix:literal, $side:ident, $call:ident($($name:ident: $kind:ty = $value:expr),*) $(-> $answer:ty)?) => {{
        unsafe extern "C" {
            #[link_name = concat!($prefix, stringify!($call))]
            fn call(
                next: u32,
                unicast_count: usize,
                unrouted_count: usize,
                held_count: usize,
                broadcast_count: usize,
                unicasts: *mut [u64; 320],
                unrouted: *mut [u64; 112],
                held: *mut [u64; 32],
                broadcasts: *mut [u64; 112],
                $($name: $kind),*
            ) $(-> $answer)?;
        }
        let [next, a, b, c, d, ..] = $side.0.out;
        // SAFETY: the tables are those that earlier calls left, with the counts that the last one answered.
        unsafe {
            call(
                next as u32,
                a as usize,
                b as usize,
                c as usize,
                d as usize,
                &raw mut $side.0.unicasts,
                &raw mut $side.0.unrouted,
                &raw mut $side.0.held,
                &raw mut $side.0.broadcasts,
                $($value),*
            )
        }
    }};
}

/// A call that tells actions and answers.
macro_rules! acts {
    ($prefix:literal, $side:ident, $call:ident($($name:ident: $kind:ty = $value:expr),*)) => {{
        called!($prefix, $side, $call(
            told: *mut [u64; 560] = &raw mut $side.0.told,
            out: *mut [u64; 11] = &raw mut $side.0.out
            $(, $name: $kind = $value)*
        ));
        $side.0.note();
    }};
}

/// The send tables through the functions of C with that prefix.
macro_rules! face {
    ($face:ident, $prefix:literal) => {
        pub struct $face(Words);

        impl $face {
            /// The way through C alone, with no call. The word is what lies there, past the live records.
            pub fn carry(&mut self) {
                acts!($prefix, self, carry(at: usize = shown(31), word: u64 = shown(0)));
            }
        }

        impl Tables for $face {
            type Id = u32;

            fn fresh() -> Self {
                Self(Words::fresh())
            }

            fn notes(&mut self) -> &mut Notes {
                &mut self.0.notes
            }

            fn enqueue_unicast(&mut self, address: u64, src: u16) -> u32 {
                acts!($prefix, self, enqueue_unicast(address: u64 = address, src: u16 = src, clock: u64 = 0));
                self.0.issued()
            }

            fn enqueue_broadcast_copy(&mut self, of: u32, address: u64) -> u32 {
                acts!($prefix, self, enqueue_broadcast_copy(of: u32 = of, address: u64 = address, clock: u64 = 0));
                self.0.issued()
            }

            fn enqueue_unrouted_unicast(&mut self, destination: u16) -> u32 {
                acts!($prefix, self, enqueue_unrouted_unicast(destination: u16 = destination, clock: u64 = 0));
                self.0.issued()
            }

            fn enqueue_broadcast(&mut self, src: u16, attempt: u64) -> u32 {
                acts!($prefix, self, enqueue_broadcast(src: u16 = src, attempt: u64 = attempt, clock: u64 = 0));
                self.0.issued()
            }

            fn dequeue(&mut self) {
                acts!($prefix, self, dequeue(clock: u64 = 1));
            }

            fn transmitted(&mut self, sent: bool) {
                let [.., kind, id, frame, _, _] = self.0.out;
                acts!($prefix, self, transmitted(
                    broadcast: bool = kind == BROADCAST,
                    id: u32 = id as u32,
                    frame: u32 = frame as u32,
                    sent: bool = sent,
                    clock: u64 = 1
                ));
            }

            fn poll(&mut self, address: u64) {
                acts!($prefix, self, poll(address: u64 = address, clock: u64 = 1));
            }

            fn aps_ack_received(&mut self, src: u16) {
                acts!($prefix, self, aps_ack_received(src: u16 = src));
            }

            fn retry_discovery(&mut self, destination: u16) {
                acts!($prefix, self, retry_discovery(destination: u16 = destination));
            }

            fn fail_unrouted(&mut self, destination: u16) {
                acts!($prefix, self, fail_unrouted(destination: u16 = destination));
            }

            fn route_unicasts(&mut self, destination: u16) {
                acts!($prefix, self, route_unicasts(destination: u16 = destination, clock: u64 = 1));
            }

            fn broadcast_delivered(&mut self, src: u16) {
                acts!($prefix, self, broadcast_delivered(src: u16 = src));
            }

            fn drop_indirect_unicasts(&mut self, address: u64, short: u16) {
                acts!($prefix, self, drop_indirect_unicasts(address: u64 = address, short: u16 = short));
            }

            fn cancel(&mut self, id: u32) {
                acts!($prefix, self, cancel(id: u32 = id));
            }

            fn tick(&mut self) {
                acts!($prefix, self, tick(clock: u64 = 1));
            }

            fn abandon(&mut self) {
                called!($prefix, self, abandon(
                    list: *mut [u64; 128] = &raw mut self.0.abandoned,
                    out: *mut [u64; 11] = &raw mut self.0.out
                ));
                self.0.note_abandoned();
            }

            fn next_wake(&mut self) {
                let time = called!($prefix, self, next_wake() -> u64);
                self.0.note_one(TIME, time);
            }

            fn has_unrouted(&mut self, destination: u16) {
                let yes = called!($prefix, self, has_unrouted(destination: u16 = destination) -> bool);
                self.0.note_one(REPLIED, yes.into());
            }

            fn has_unicast_awaiting_poll(&mut self, address: u64) {
                let yes = called!($prefix, self, has_unicast_awaiting_poll(address: u64 = address) -> bool);
                self.0.note_one(REPLIED, yes.into());
            }

            fn unrouted_destinations(&mut self) {
                let mut list = [0; 16];
                let count = called!($prefix, self, unrouted_destinations(list: *mut [u16; 16] = &mut list) -> usize);
                self.0.note_list(&list[..count]);
            }

            fn broadcasts_awaiting_quorum(&mut self) {
                let mut list = [0; 16];
                let count =
                    called!($prefix, self, broadcasts_awaiting_quorum(list: *mut [u64; 16] = &mut list) -> usize);
                self.0.note_list(&list[..count]);
            }

            fn poll_addresses(&mut self) {
                for longs in [false, true] {
                    let mut list = [0; 32];
                    let count = called!($prefix, self, poll_addresses(
                        longs: bool = longs,
                        eui: *const u64 = MAP.0.as_ptr(),
                        eui_count: usize = MAP.0.len(),
                        nwk: *const u16 = MAP.1.as_ptr(),
                        nwk_count: usize = MAP.1.len(),
                        list: *mut [u64; 32] = &mut list
                    ) -> usize);
                    self.0.note_list(&list[..count]);
                }
            }
        }
    };
}

face!(InPlace, "lent_");
face!(ByValue, "sends_");
