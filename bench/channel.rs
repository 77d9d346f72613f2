//! The same letters over a channel of Rust's standard library, in the same item as a carrier's ('channel'), and with a vector of
//! bytes in place of its body ('channel of vectors'): on standard error, in nanoseconds a letter.
use std::env;
use std::hint::black_box;
use std::sync::mpsc::{Receiver, SyncSender, TryRecvError, TrySendError, sync_channel};
use std::thread;
use std::time::{Duration, Instant};

const CAPACITY: usize = 64;

const SIZES: [usize; 3] = [8, 64, 1024];

const FILLED: [u8; 1024] = [b'x'; 1024];

trait Body: Send + 'static {
    const NAME: &'static str;

    fn from_bytes(bytes: &[u8]) -> Self;

    fn as_bytes(&self) -> &[u8];
}

/// Up to 30 bytes inline, more in one block of the heap.
enum Small {
    Inline(u8, [u8; 30]),
    Block(Vec<u8>),
}

impl Body for Small {
    const NAME: &'static str = "channel";

    fn from_bytes(bytes: &[u8]) -> Small {
        if bytes.len() > 30 {
            return Small::Block(bytes.to_vec());
        }
        let mut inline = [0; 30];
        inline[..bytes.len()].copy_from_slice(bytes);
        Small::Inline(bytes.len() as u8, inline)
    }

    fn as_bytes(&self) -> &[u8] {
        match self {
            Small::Inline(used, bytes) => &bytes[..usize::from(*used)],
            Small::Block(block) => block,
        }
    }
}

impl Body for Vec<u8> {
    const NAME: &'static str = "channel of vectors";

    fn from_bytes(bytes: &[u8]) -> Vec<u8> {
        bytes.to_vec()
    }

    fn as_bytes(&self) -> &[u8] {
        self
    }
}

/// As large as an item of the carriers, where its body is `Small`.
#[allow(dead_code)]
enum Item<B> {
    Letter { context: u8, source: u8, tag: u16, body: B },
    Gone,
    Revoke(u8),
    Enter { context: u8, known: u8 },
}

const _: () = assert!(size_of::<Item<Small>>() == 40);

struct Way<B> {
    out: SyncSender<Item<B>>,
    inlet: Receiver<Item<B>>,
}

impl<B: Body> Way<B> {
    fn send(&self, bytes: &[u8]) {
        let body = B::from_bytes(black_box(bytes));
        let mut item = Item::Letter { context: 0, source: 0, tag: 1, body };
        loop {
            match self.out.try_send(item) {
                Ok(()) => return,
                Err(TrySendError::Full(back)) => item = back,
                Err(TrySendError::Disconnected(_)) => panic!("no receiver"),
            }
            thread::yield_now();
        }
    }

    fn receive(&self, room: &mut [u8]) -> usize {
        loop {
            match self.inlet.try_recv() {
                Ok(Item::Letter { body, .. }) => {
                    let bytes = body.as_bytes();
                    room[..bytes.len()].copy_from_slice(bytes);
                    black_box(&*room);
                    return bytes.len();
                }
                Ok(_) => panic!("no letter"),
                Err(TryRecvError::Empty) => thread::yield_now(),
                Err(TryRecvError::Disconnected) => panic!("no sender"),
            }
        }
    }
}

fn ways<B>() -> (Way<B>, Way<B>) {
    let (there, arriving) = sync_channel(CAPACITY);
    let (back, returning) = sync_channel(CAPACITY);
    (
        Way { out: there, inlet: returning },
        Way { out: back, inlet: arriving },
    )
}

fn one_way<B: Body>(length: usize, count: u32) -> Duration {
    let (zero, one) = ways::<B>();
    let mut room = [0; 1024];
    let start = Instant::now();
    let child = thread::spawn(move || {
        for _ in 0..count {
            zero.send(&FILLED[..length]);
        }
        zero
    });
    for _ in 0..count {
        assert_eq!(one.receive(&mut room), length);
    }
    child.join().expect("the sender panicked");
    start.elapsed()
}

fn there_and_back<B: Body>(length: usize, count: u32) -> Duration {
    let (zero, one) = ways::<B>();
    let mut room = [0; 1024];
    let start = Instant::now();
    let child = thread::spawn(move || {
        let mut room = [0; 1024];
        for _ in 0..count {
            assert_eq!(one.receive(&mut room), length);
            one.send(&room[..length]);
        }
        one
    });
    for _ in 0..count {
        zero.send(&FILLED[..length]);
        assert_eq!(zero.receive(&mut room), length);
    }
    child.join().expect("the answerer panicked");
    start.elapsed()
}

fn tell(name: &str, trip: &str, length: usize, count: u32, time: Duration) {
    let each = time.as_nanos() as f64 / f64::from(count.max(1));
    eprintln!("{name}, {trip}, {length} bytes: {each:.1} ns a letter");
}

fn each<B: Body>(length: usize, count: u32) {
    tell(B::NAME, "one way", length, count, one_way::<B>(length, count));
    tell(B::NAME, "there and back", length, count, there_and_back::<B>(length, count));
}

fn main() {
    let mut words = env::args().skip(1).map(|word| word.parse::<usize>().ok());
    let count = words.next().flatten().unwrap_or(20_000) as u32;
    let only = words.next().flatten();
    for length in SIZES.into_iter().filter(|length| only.is_none_or(|only| only == *length)) {
        each::<Small>(length, count);
        each::<Vec<u8>>(length, count);
    }
}
