//! A play by hand, in one thread and with a thread for each slave, to see what threads can gain.
//!
//!     rustc --edition 2021 -O bench/reference/plays.rs -o plays && ./plays [RUNS]
//!
//! The line is that of `bench/plays`: 16 slaves of 350 output and 350 input bytes, eight frames a tick with two datagrams each, but for
//! a slave that goes every 31st tick and one that goes every 33rd; 1,023 ticks. Each frame is made anew, sent as a copy, judged when it
//! is back, and its inputs are taken. Three ways, run in turn RUNS (15) times; printed are the medians in ms, and how many times as
//! long as in one thread they take:
//!
//! - in one thread;
//! - a thread for each slave, and a ring of boxed frames from each to the next; up to 512 frames are under way, as in `ec_player_threads`;
//! - the same, but the frames of 16 ticks go from thread to thread in one piece, four pieces under way.
use std::cell::{Cell, UnsafeCell};
use std::collections::VecDeque;
use std::mem::MaybeUninit;
use std::sync::atomic::{AtomicBool, AtomicUsize, Ordering::*};
use std::sync::Arc;
use std::thread::{self, Thread};
use std::time::Instant;

const TICKS: u32 = 1023;
const SLOTS: usize = 8;
const SLAVES: usize = 16;
const HALF: usize = 350;
const FIRST: u32 = 0x10000;
/// Looks before a thread sleeps.
const LOOKS: usize = 50;

// ---- frames

struct Frame {
    len: usize,
    bytes: [u8; 1514],
}

/// A frame that was sent, and the counters that are wanted of it.
struct Trip {
    frame: Box<Frame>,
    wants: Vec<u16>,
}

fn number(bytes: &[u8], at: usize) -> u16 {
    u16::from_le_bytes([bytes[at], bytes[at + 1]])
}

fn goes(slave: usize, tick: u32) -> bool {
    tick % (if slave == 13 { 31 } else if slave == 15 { 33 } else { 1 }) == 0
}

/// Calls with the place and the length of each datagram.
fn datagrams(frame: &Frame, mut each: impl FnMut(usize, usize)) {
    let mut at = 16;
    loop {
        let word = number(&frame.bytes, at + 6);
        let len = usize::from(word & 0x7ff);
        each(at, len);
        at += 12 + len;
        if word & 0x8000 == 0 {
            return;
        }
    }
}

fn write(frame: &mut Frame, sent: &[u8], tick: u32, slot: usize) -> Vec<u16> {
    let there: Vec<usize> = (2 * slot..2 * slot + 2).filter(|slave| goes(*slave, tick)).collect();
    let bytes = &mut frame.bytes;
    bytes[..6].fill(0xff);
    bytes[6..12].fill(2);
    bytes[12..14].copy_from_slice(&[0x88, 0xa4]);
    let mut at = 16;
    for (index, slave) in there.iter().enumerate() {
        let from = slave * 2 * HALF;
        let more = if index + 1 < there.len() { 0x8000 } else { 0 };
        bytes[at..at + 2].copy_from_slice(&[12, index as u8]);
        bytes[at + 2..at + 6].copy_from_slice(&(FIRST + from as u32).to_le_bytes());
        bytes[at + 6..at + 8].copy_from_slice(&(2 * HALF as u16 | more).to_le_bytes());
        bytes[at + 8..at + 10].fill(0);
        bytes[at + 10..at + 10 + 2 * HALF].copy_from_slice(&sent[from..from + 2 * HALF]);
        bytes[at + 10 + 2 * HALF..at + 12 + 2 * HALF].fill(0);
        at += 12 + 2 * HALF;
    }
    bytes[14..16].copy_from_slice(&((at - 16) as u16 | 0x1000).to_le_bytes());
    frame.len = at;
    vec![3; there.len()]
}

// ---- slaves

struct Slave {
    memory: Vec<u8>,
    address: u32,
}

impl Slave {
    fn pass(&mut self, frame: &mut Frame) {
        let mut found = None;
        datagrams(frame, |at, _| {
            let address = u32::from_le_bytes(frame.bytes[at + 2..at + 6].try_into().unwrap());
            if address == self.address {
                found = Some(at);
            }
        });
        if let Some(at) = found {
            let data = &mut frame.bytes[at + 10..at + 12 + 2 * HALF];
            self.memory[0x1000..0x1000 + HALF].copy_from_slice(&data[..HALF]);
            data[HALF..2 * HALF].copy_from_slice(&self.memory[0x2000..0x2000 + HALF]);
            let counter = number(data, 2 * HALF) + 3;
            data[2 * HALF..].copy_from_slice(&counter.to_le_bytes());
        }
    }
}

fn slaves() -> Vec<Slave> {
    (0..SLAVES).map(|slave| Slave { memory: vec![0; 65536], address: FIRST + (slave * 2 * HALF) as u32 }).collect()
}

// ---- the master

struct Master {
    image: Vec<u8>,
    came: Vec<u8>,
    spare: Vec<Box<Frame>>,
    rows: Vec<Vec<u16>>,
}

impl Master {
    fn new() -> Master {
        Master { image: vec![0; SLAVES * 2 * HALF], came: vec![0; SLAVES * 2 * HALF], spare: vec![], rows: vec![] }
    }

    fn empty(&mut self) -> Box<Frame> {
        self.spare.pop().unwrap_or_else(|| Box::new(Frame { len: 0, bytes: [0; 1514] }))
    }

    fn trips(&mut self, tick: u32) -> Vec<Trip> {
        let mut sent = self.image.clone();
        sent.chunks_mut(2 * HALF).for_each(|unit| unit[HALF..].fill(0));
        let mut trips = Vec::with_capacity(SLOTS);
        for slot in 0..SLOTS {
            let mut frame = self.empty();
            let wants = write(&mut frame, &sent, tick, slot);
            trips.push(Trip { frame, wants });
        }
        trips
    }

    fn copy_of(&mut self, frame: &Frame) -> Box<Frame> {
        let mut copy = self.empty();
        copy.bytes[..frame.len].copy_from_slice(&frame.bytes[..frame.len]);
        copy.len = frame.len;
        copy
    }

    fn judge(&mut self, trip: Trip, back: Box<Frame>, row: &mut Vec<u16>) {
        assert!(trip.frame.len == back.len && trip.frame.bytes[..16] == back.bytes[..16]);
        let mut place = 0;
        datagrams(&trip.frame, |at, len| {
            assert!(trip.frame.bytes[at..at + 10] == back.bytes[at..at + 10]);
            let counter = number(&back.bytes, at + 10 + len);
            assert!(counter == trip.wants[place]);
            row.push(counter);
            place += 1;
            let from = (u32::from_le_bytes(back.bytes[at + 2..at + 6].try_into().unwrap()) - FIRST) as usize;
            self.came[from..from + len].copy_from_slice(&back.bytes[at + 10..at + 10 + len]);
        });
        self.spare.push(trip.frame);
        self.spare.push(back);
    }
}

fn alone() -> usize {
    let (mut master, mut line) = (Master::new(), slaves());
    for tick in 0..TICKS {
        let mut row = vec![];
        for trip in master.trips(tick) {
            let mut frame = master.copy_of(&trip.frame);
            line.iter_mut().for_each(|slave| slave.pass(&mut frame));
            master.judge(trip, frame, &mut row);
        }
        master.rows.push(row);
    }
    master.rows.len()
}

// ---- rings and sleep

#[repr(align(128))]
struct Line<T>(T);

struct Ring<T> {
    head: Line<AtomicUsize>,
    tail: Line<AtomicUsize>,
    gone: AtomicBool,
    slots: Vec<UnsafeCell<MaybeUninit<T>>>,
}

unsafe impl<T: Send> Sync for Ring<T> {}

/// One end of a ring, with what it saw last of both places.
struct End<T> {
    ring: Arc<Ring<T>>,
    head: Cell<usize>,
    tail: Cell<usize>,
}

fn ring<T>(room: usize) -> (End<T>, End<T>) {
    let slots = (0..room).map(|_| UnsafeCell::new(MaybeUninit::uninit())).collect();
    let ring = Arc::new(Ring { head: Line(AtomicUsize::new(0)), tail: Line(AtomicUsize::new(0)), gone: AtomicBool::new(false), slots });
    let end = |ring| End { ring, head: Cell::new(0), tail: Cell::new(0) };
    (end(ring.clone()), end(ring))
}

impl<T> End<T> {
    fn push(&self, item: T) {
        let (tail, room) = (self.tail.get(), self.ring.slots.len());
        while tail - self.head.get() == room {
            self.head.set(self.ring.head.0.load(Acquire));
            if tail - self.head.get() == room {
                thread::yield_now();
            }
        }
        unsafe { (*self.ring.slots[tail % room].get()).write(item) };
        self.tail.set(tail + 1);
        self.ring.tail.0.store(tail + 1, Release);
    }

    fn is_empty(&self) -> bool {
        if self.tail.get() == self.head.get() {
            self.tail.set(self.ring.tail.0.load(Acquire));
        }
        self.tail.get() == self.head.get()
    }

    fn pop(&self) -> Option<T> {
        if self.is_empty() {
            return None;
        }
        let head = self.head.get();
        let item = unsafe { (*self.ring.slots[head % self.ring.slots.len()].get()).assume_init_read() };
        self.head.set(head + 1);
        self.ring.head.0.store(head + 1, Release);
        Some(item)
    }
}

/// Where a thread sleeps while nothing comes.
#[repr(align(128))]
struct Seat {
    sleeps: AtomicBool,
    thread: UnsafeCell<Option<Thread>>,
}

unsafe impl Sync for Seat {}

impl Seat {
    fn sit(&self) {
        unsafe { *self.thread.get() = Some(thread::current()) };
    }

    fn wake(&self) {
        if self.sleeps.swap(false, SeqCst) {
            if let Some(thread) = unsafe { &*self.thread.get() } {
                thread.unpark();
            }
        }
    }

    /// Waits for an item; whether none is there and none can come.
    fn is_over<T>(&self, taken: &End<T>) -> bool {
        for _ in 0..LOOKS {
            if !taken.is_empty() {
                return false;
            }
            std::hint::spin_loop();
        }
        self.sleeps.swap(true, SeqCst);
        let gone = taken.ring.gone.load(SeqCst);
        let is_empty = taken.is_empty();
        while is_empty && !gone && self.sleeps.load(SeqCst) {
            thread::park();
        }
        self.sleeps.swap(false, SeqCst);
        is_empty && gone
    }
}

fn carry(mut slave: Slave, taken: End<Vec<Box<Frame>>>, put: End<Vec<Box<Frame>>>, seats: &[Seat], at: usize) {
    seats[at].sit();
    loop {
        match taken.pop() {
            Some(mut frames) => {
                frames.iter_mut().for_each(|frame| slave.pass(frame));
                put.push(frames);
                seats[at + 1].wake();
            }
            None if seats[at].is_over(&taken) => break,
            None => {}
        }
    }
    put.ring.gone.store(true, SeqCst);
    seats[at + 1].wake();
}

/// Sends the frames of so many ticks in one piece, or with 0 those of one tick one by one.
fn send_piece(master: &mut Master, ticks: u32, next: &mut u32, due: &mut VecDeque<Vec<Trip>>, first: &End<Vec<Box<Frame>>>) {
    let mut piece = vec![];
    for _ in 0..ticks.max(1).min(TICKS - *next) {
        let trips = master.trips(*next);
        *next += 1;
        for trip in &trips {
            piece.push(master.copy_of(&trip.frame));
            if ticks == 0 {
                first.push(std::mem::take(&mut piece));
            }
        }
        due.push_back(trips);
    }
    if !piece.is_empty() {
        first.push(piece);
    }
}

/// Plays with a thread for each slave. A piece has the frames of so many ticks, or with 0 ticks one frame; at most so many ticks are under
/// way, and at least half of them.
fn with_threads(ticks: u32, most: usize) -> usize {
    let mut master = Master::new();
    let seats: Vec<Seat> = (0..=SLAVES).map(|_| Seat { sleeps: AtomicBool::new(false), thread: UnsafeCell::new(None) }).collect();
    let (own, seats) = (&seats[SLAVES], &seats);
    own.sit();
    thread::scope(|scope| {
        let (first, mut last) = ring(512);
        for (at, slave) in slaves().into_iter().enumerate() {
            let (put, next) = ring(512);
            let taken = std::mem::replace(&mut last, next);
            scope.spawn(move || carry(slave, taken, put, seats, at));
        }
        let (mut due, mut next): (VecDeque<Vec<Trip>>, u32) = (VecDeque::new(), 0);
        let mut backs: VecDeque<Box<Frame>> = VecDeque::new();
        while (master.rows.len() as u32) < TICKS {
            if due.len() <= most / 2 {
                while next < TICKS && due.len() < most {
                    send_piece(&mut master, ticks, &mut next, &mut due, &first);
                }
                seats[0].wake();
            }
            let mut row = vec![];
            for trip in due.pop_front().unwrap() {
                while backs.is_empty() {
                    match last.pop() {
                        Some(frames) => backs.extend(frames),
                        None => _ = own.is_over(&last),
                    }
                }
                master.judge(trip, backs.pop_front().unwrap(), &mut row);
            }
            master.rows.push(row);
        }
        first.ring.gone.store(true, SeqCst);
        seats[0].wake();
        while !own.is_over(&last) {}
    });
    master.rows.len()
}

fn main() {
    let runs = std::env::args().nth(1).map_or(15, |word| word.parse().expect("RUNS is a number"));
    let ways: [(&str, fn() -> usize); 3] = [
        ("in one thread", alone),
        ("a thread for each slave", || with_threads(0, 64)),
        ("a thread for each slave, 16 ticks in a piece", || with_threads(16, 64)),
    ];
    let mut times = vec![vec![]; ways.len()];
    for _ in 0..runs {
        for (way, took) in ways.iter().zip(&mut times) {
            let began = Instant::now();
            assert!(way.1() == TICKS as usize);
            took.push(began.elapsed().as_secs_f64() * 1000.0);
        }
    }
    let medians: Vec<f64> = times.iter_mut().map(|took| { took.sort_by(f64::total_cmp); took[took.len() / 2] }).collect();
    for (way, took) in ways.iter().zip(&medians) {
        println!("{}: {took:.1} ms, {:.2} times", way.0, took / medians[0]);
    }
}
