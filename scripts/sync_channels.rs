//! Times messages between threads over `std::sync::mpsc::sync_channel`, as bench/post_speed does over
//! posts: one way between two, and an exchange among eight. `bare` only hands them over. `logged`
//! also keeps what went by, as a program that wants to recover would write it by hand: each worker
//! has a log of its own, to which it appends each message that it sent, with its bytes, and the name
//! of each that it received.
//!
//! Each line has what was timed, the capacity, how many messages were received, and the microseconds
//! from the start of the threads to the end of the last.

use std::sync::mpsc::{Receiver, SyncSender, sync_channel};
use std::thread;
use std::time::Instant;

const RUNS: u32 = 9;
type Body = [u8; 40];

#[derive(Clone, Copy)]
struct Message {
    number: u32,
    body: Body,
}

/// What a worker did.
#[allow(dead_code)]
enum Event {
    Sent { to: u32, body: Body },
    Received { from: u32, number: u32 },
}

/// What a worker keeps of what went by.
trait Log: Send + 'static {
    const NAME: &'static str;
    fn new() -> Self;
    fn add(&mut self, event: Event);
    fn len(&self) -> usize;
}

/// Only how many there were.
struct Bare(usize);

impl Log for Bare {
    const NAME: &'static str = "bare";
    fn new() -> Bare {
        Bare(0)
    }
    fn add(&mut self, _event: Event) {
        self.0 += 1;
    }
    fn len(&self) -> usize {
        self.0
    }
}

impl Log for Vec<Event> {
    const NAME: &'static str = "logged";
    fn new() -> Vec<Event> {
        Vec::new()
    }
    fn add(&mut self, event: Event) {
        self.push(event);
    }
    fn len(&self) -> usize {
        Vec::len(self)
    }
}

/// A worker, with its ends by the number of the worker at the other end, and none to itself.
struct Worker<L> {
    outs: Vec<Option<SyncSender<Message>>>,
    ins: Vec<Option<Receiver<Message>>>,
    sent: u32,
    log: L,
}

impl<L: Log> Worker<L> {
    fn send(&mut self, to: usize, body: Body) {
        if let Some(end) = &self.outs[to] {
            end.send(Message { number: self.sent, body }).expect("the other end is there");
            self.sent += 1;
            self.log.add(Event::Sent { to: to as u32, body });
        }
    }

    fn receive(&mut self, from: usize) {
        if let Some(end) = &self.ins[from] {
            let message = end.recv().expect("the other end is there");
            assert!(message.body[39] == 7);
            self.log.add(Event::Received { from: from as u32, number: message.number });
        }
    }
}

/// So many workers, with a channel from each to each other one.
fn crew<L: Log>(n: usize, capacity: usize) -> Vec<Worker<L>> {
    let mut workers: Vec<Worker<L>> = (0..n)
        .map(|_| Worker { outs: Vec::new(), ins: Vec::new(), sent: 0, log: L::new() })
        .collect();
    for p in 0..n {
        for q in 0..n {
            let (out, inside) = sync_channel(capacity);
            let is_other = p != q;
            workers[p].outs.push(is_other.then_some(out));
            workers[q].ins.push(is_other.then_some(inside));
        }
    }
    workers
}

/// Runs each worker in a thread, and tells how many messages they received, and how long it took.
fn time<L: Log>(kind: &str, n: usize, capacity: usize, work: fn(usize, &mut Worker<L>, u32), k: u32) {
    let workers = crew::<L>(n, capacity);
    let start = Instant::now();
    let threads: Vec<_> = workers
        .into_iter()
        .enumerate()
        .map(|(p, mut worker)| {
            thread::spawn(move || {
                work(p, &mut worker, k);
                worker
            })
        })
        .collect();
    let back: Vec<Worker<L>> = threads.into_iter().map(|it| it.join().expect("it ends")).collect();
    let took = start.elapsed().as_micros();
    let events: usize = back.iter().map(|it| it.log.len()).sum();
    println!("{kind} {},{capacity},{},{took}", L::NAME, events / 2);
}

/// Worker 0 sends, and worker 1 receives.
fn one_way<L: Log>(p: usize, worker: &mut Worker<L>, count: u32) {
    for _ in 0..count {
        if p == 0 { worker.send(1, [7; 40]) } else { worker.receive(0) }
    }
}

/// In each turn a message to each other one, and then one of each.
fn exchange<L: Log>(_p: usize, worker: &mut Worker<L>, turns: u32) {
    let n = worker.outs.len();
    for _ in 0..turns {
        (0..n).for_each(|q| worker.send(q, [7; 40]));
        (0..n).for_each(|p| worker.receive(p));
    }
}

fn all<L: Log>() {
    for (capacity, count, turns) in [(1, 200_000, 1_000), (1_024, 900_000, 20_000)] {
        time::<L>("one way", 2, capacity, one_way, count);
        time::<L>("exchange", 8, capacity, exchange, turns);
    }
}

fn main() {
    for _ in 0..RUNS {
        all::<Bare>();
        all::<Vec<Event>>();
    }
}
