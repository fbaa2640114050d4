//! Strays, closes in mid-answer, and numbers that are used again: two requests, and all combinations of the closed
//! handle, the messages before and after that, reads in between, and the next request's number. The outcome of each
//! step follows from the owner of a message's number on its arrival, and not from lists.

use super::script::Step::{Close, Come, Next, Read, Send};
use super::script::Told::{Done, End, InUse, Message, NoHandle, Sent, Stray, Waits};
use super::script::{Step, Told, play};
use std::alloc::Global;
use std::process::Abort;

/// The port of the routers.
const PORT: u32 = 7;

/// A message of type 16 with the flag MULTI, so that its handle waits for more: its bytes, its number and its port, and
/// the mask of its groups.
type Coming = (&'static str, u32, u32, u32);

/// The number of the first request, that of the second, and the messages that may arrive: for the first request, for
/// the second, with a number that no request has, with another port, and for a group.
const NUMBERS: [(u32, u32, [Coming; 5]); 3] = [
    (
        0,
        1,
        [
            ("10000000100002000000000007000000", 0, PORT, 0),
            ("10000000100002000100000007000000", 1, PORT, 0),
            ("10000000100002000900000007000000", 9, PORT, 0),
            ("10000000100002000000000000000000", 0, 0, 0),
            ("10000000100002000100000007000000", 1, PORT, 1),
        ],
    ),
    (
        4294967294,
        4294967295,
        [
            ("1000000010000200feffffff07000000", 4294967294, PORT, 0),
            ("1000000010000200ffffffff07000000", 4294967295, PORT, 0),
            ("10000000100002000000000007000000", 0, PORT, 0),
            ("1000000010000200ffffffff08000000", 4294967295, 8, 0),
            ("1000000010000200feffffff07000000", 4294967294, PORT, 1),
        ],
    ),
    (
        4294967295,
        0,
        [
            ("1000000010000200ffffffff07000000", 4294967295, PORT, 0),
            ("10000000100002000000000007000000", 0, PORT, 0),
            ("1000000010000200feffffff07000000", 4294967294, PORT, 0),
            ("10000000100002000000000000000000", 0, 0, 0),
            ("10000000100002000000000000000000", 0, 0, 0x8000_0000),
        ],
    ),
];

/// A handle: the number of its request, or none for that of multicast; whether it is open; whether it has returned its
/// last item.
#[derive(Clone, Copy)]
struct Asked {
    number: Option<u32>,
    is_open: bool,
    has_ended: bool,
}

/// The steps so far with the outcome of each, the handles, and what waits for each of them.
#[derive(Drop)]
struct Expected {
    steps: Vec<(Step, Told)>,
    handles: Vec<Asked>,
    waiting: Vec<(usize, Told)>,
}

/// A new handle for this number, or for multicast.
fn new_handle(number: Option<u32>) -> Asked {
    Asked {
        number,
        is_open: true,
        has_ended: false,
    }
}

impl Expected {
    /// Before the first step there is the handle for multicast.
    fn new(rt: &impl Abort, alloc: Global) -> Expected {
        let mut handles = Vec::new(alloc);
        handles.push(new_handle(None)).expect(rt, "memory");
        Expected {
            steps: Vec::new(alloc),
            handles,
            waiting: Vec::new(alloc),
        }
    }

    fn step(&mut self, rt: &impl Abort, step: Step, told: Told) {
        self.steps.push((step, told)).expect(rt, "memory");
    }

    /// Whether an open handle has this number.
    fn is_taken(&self, number: u32) -> bool {
        self.handles
            .iter()
            .any(|it| it.is_open && it.number == Some(number))
    }

    /// A request with this number.
    fn send(&mut self, rt: &impl Abort, number: u32) {
        self.step(rt, Next(number), Done);
        if self.is_taken(number) {
            self.step(rt, Send(16, 0, ""), InUse(number));
        } else {
            self.step(rt, Send(16, 0, ""), Sent(number, PORT));
            self.handles
                .push(new_handle(Some(number)))
                .expect(rt, "memory");
        }
    }

    /// The item that a handle gets from a message, if any.
    fn share(&self, handle: Asked, message: Coming) -> Option<Told> {
        let (_, number, port, groups) = message;
        let is_whole = Message(16, number, 0);
        match handle.number {
            _ if !handle.is_open => None,
            None => (groups != 0).then_some(is_whole),
            Some(_) if groups != 0 => None,
            Some(_) if port != PORT || !self.is_taken(number) => Some(Stray(number, port)),
            Some(own) => (own == number).then_some(is_whole),
        }
    }

    /// A message arrives.
    fn come(&mut self, rt: &impl Abort, message: Coming) {
        self.step(rt, Come(message.0, message.3), Done);
        for place in 0..self.handles.len() {
            if let Some(handle) = self.handles.get(place)
                && let Some(told) = self.share(*handle, message)
            {
                self.waiting.push((place, told)).expect(rt, "memory");
            }
        }
    }

    /// The first delivery that waits for a handle. It is removed.
    fn first(&mut self, place: usize) -> Told {
        match self.waiting.iter().position(|it| it.0 == place) {
            Some(at) if at < self.waiting.len() => self.waiting.remove(at).1,
            _ => Waits,
        }
    }

    /// A handle is read. A stray is the last item of its answers.
    fn read(&mut self, rt: &impl Abort, place: usize) {
        let told = match self.handles.get(place).copied() {
            Some(handle) if handle.is_open && handle.has_ended => End,
            Some(handle) if handle.is_open => self.first(place),
            _ => NoHandle,
        };
        if let Stray(_, _) = told
            && let Some(handle) = self.handles.get_mut(place)
        {
            handle.has_ended = true;
        }
        self.step(rt, Read(place), told);
    }

    /// Each handle is read so many times, and one that does not exist.
    fn read_all(&mut self, rt: &impl Abort, times: usize) {
        for place in 0..=self.handles.len() {
            for _ in 0..times {
                self.read(rt, place);
            }
        }
    }

    /// A handle is closed.
    fn close(&mut self, rt: &impl Abort, place: usize) {
        let told = match self.handles.get_mut(place) {
            Some(handle) if handle.is_open => {
                handle.is_open = false;
                Done
            }
            _ => NoHandle,
        };
        self.step(rt, Close(place), told);
    }
}

/// The handle that is closed; one that does not exist in the last.
const CLOSED: [usize; 4] = [0, 1, 2, 3];

/// How often each handle is read before one is closed.
const READS: [usize; 3] = [0, 1, 2];

/// Plays two requests of these numbers: messages before and after the close, then a request for each of the numbers
/// again, and the messages for these.
fn play_one(
    rt: &impl Abort,
    alloc: Global,
    numbers: (u32, u32, [Coming; 5]),
    closed: (usize, usize),
    comes: (Coming, Coming),
) {
    let (first, second, all) = numbers;
    let mut expected = Expected::new(rt, alloc);
    expected.send(rt, first);
    expected.send(rt, second);
    expected.come(rt, comes.0);
    expected.read_all(rt, closed.1);
    expected.close(rt, closed.0);
    expected.come(rt, comes.1);
    expected.send(rt, first);
    expected.come(rt, all[0]);
    expected.send(rt, second);
    expected.come(rt, all[1]);
    expected.read_all(rt, 5);
    play(rt, alloc, "strays", PORT, &expected.steps);
}

/// Plays two requests of these numbers with each close, and each pair of messages before and after it.
fn play_pairs(rt: &impl Abort, alloc: Global, numbers: (u32, u32, [Coming; 5]), times: usize) {
    for closed in CLOSED {
        for before in numbers.2 {
            for after in numbers.2 {
                play_one(rt, alloc, numbers, (closed, times), (before, after));
            }
        }
    }
}

#[test]
fn strays_and_closes_and_numbers_that_are_used_again(rt: HostRuntime) {
    for numbers in NUMBERS {
        for times in READS {
            play_pairs(&rt, rt.alloc(), numbers, times);
        }
    }
}
