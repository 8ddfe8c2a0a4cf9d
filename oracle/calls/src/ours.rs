//! The proved calls, through C, on tables that these calls made themselves, so that their one premise holds.

unsafe extern "C" {
    fn unicast_enqueue(w: *mut [u64; 320], n: usize, id: u32, address: u64, clock: u64) -> usize;
    fn unicast_cancel(w: *mut [u64; 320], n: usize, told: *mut [u64; 560], id: u32) -> usize;
    fn unicast_poll(w: *mut [u64; 320], n: usize, address: u64, clock: u64) -> bool;
    fn unicast_ack(w: *mut [u64; 320], n: usize, told: *mut [u64; 560], src: u16) -> usize;
    fn unicast_best(w: *const [u64; 320], n: usize, clock: u64) -> u32;
    fn unicast_tick(w: *mut [u64; 320], n: usize, told: *mut [u64; 560], clock: u64) -> usize;
    fn unrouted_enqueue(
        w: *mut [u64; 112],
        n: usize,
        d: *mut [u64; 32],
        k: usize,
        id: u32,
        destination: u16,
        clock: u64,
    ) -> usize;
    fn unrouted_cancel(w: *mut [u64; 112], n: usize, told: *mut [u64; 560], id: u32) -> usize;
    fn unrouted_tick(w: *mut [u64; 112], n: usize, told: *mut [u64; 560], clock: u64) -> usize;
    fn broadcast_enqueue(w: *mut [u64; 112], n: usize, id: u32, src: u16, clock: u64) -> usize;
    fn broadcast_cancel(w: *mut [u64; 112], n: usize, told: *mut [u64; 560], id: u32) -> usize;
    fn broadcast_delivered(w: *mut [u64; 112], n: usize, told: *mut [u64; 560], src: u16) -> usize;
    fn broadcast_tick(w: *mut [u64; 112], n: usize, told: *mut [u64; 560], clock: u64) -> usize;
}

pub struct Unicasts {
    words: [u64; 320],
    told: [u64; 560],
    count: usize,
    next: u32,
}

impl Unicasts {
    /// Eight sends that await their polls.
    pub fn eight() -> Self {
        let mut table = Self { words: [0; 320], told: [0; 560], count: 0, next: 0 };
        for _ in 0..8 {
            table.enqueue();
        }
        assert_eq!(table.count, 8);
        table
    }

    fn enqueue(&mut self) {
        let id = self.next;
        self.count = unsafe { unicast_enqueue(&mut self.words, self.count, id, u64::from(id % 8), 0) };
        self.next += 1;
    }

    pub fn poll(&mut self, address: u64) -> bool {
        unsafe { unicast_poll(&mut self.words, self.count, address, 1) }
    }

    pub fn ack(&mut self, src: u16) -> usize {
        unsafe { unicast_ack(&mut self.words, self.count, &mut self.told, src) }
    }

    pub fn best(&self) -> u32 {
        unsafe { unicast_best(&self.words, self.count, 1) }
    }

    pub fn tick(&mut self) -> usize {
        unsafe { unicast_tick(&mut self.words, self.count, &mut self.told, 1) }
    }

    pub fn enqueue_cancel(&mut self) -> usize {
        self.enqueue();
        self.count = unsafe { unicast_cancel(&mut self.words, self.count, &mut self.told, self.next - 1) };
        self.count
    }
}

pub struct Unrouted {
    words: [u64; 112],
    held: [u64; 32],
    told: [u64; 560],
    count: usize,
    destinations: usize,
    next: u32,
}

impl Unrouted {
    /// Eight sends to one destination.
    pub fn eight() -> Self {
        let mut table = Self { words: [0; 112], held: [0; 32], told: [0; 560], count: 0, destinations: 0, next: 0 };
        for _ in 0..8 {
            table.enqueue();
            table.destinations = 1;
        }
        assert_eq!(table.count, 8);
        table
    }

    fn enqueue(&mut self) {
        self.count = unsafe {
            unrouted_enqueue(&mut self.words, self.count, &mut self.held, self.destinations, self.next, 5, 0)
        };
        self.next += 1;
    }

    pub fn tick(&mut self) -> usize {
        unsafe { unrouted_tick(&mut self.words, self.count, &mut self.told, 1) }
    }

    pub fn enqueue_cancel(&mut self) -> usize {
        self.enqueue();
        self.count = unsafe { unrouted_cancel(&mut self.words, self.count, &mut self.told, self.next - 1) };
        self.count
    }
}

pub struct Broadcasts {
    words: [u64; 112],
    told: [u64; 560],
    count: usize,
    next: u32,
}

impl Broadcasts {
    /// Eight passive-ack broadcasts, idle until 5000.
    pub fn eight() -> Self {
        let mut table = Self { words: [0; 112], told: [0; 560], count: 0, next: 0 };
        for _ in 0..8 {
            table.enqueue();
        }
        assert_eq!(table.count, 8);
        table
    }

    fn enqueue(&mut self) {
        self.count = unsafe { broadcast_enqueue(&mut self.words, self.count, self.next, (self.next % 8) as u16, 0) };
        self.next += 1;
    }

    pub fn delivered(&mut self, src: u16) -> usize {
        unsafe { broadcast_delivered(&mut self.words, self.count, &mut self.told, src) }
    }

    pub fn tick(&mut self) -> usize {
        unsafe { broadcast_tick(&mut self.words, self.count, &mut self.told, 1) }
    }

    pub fn enqueue_cancel(&mut self) -> usize {
        self.enqueue();
        self.count = unsafe { broadcast_cancel(&mut self.words, self.count, &mut self.told, self.next - 1) };
        self.count
    }
}
