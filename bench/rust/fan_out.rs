//! Prints the nanoseconds in which a plain fan-out gives items to subscribers that count them: a buffer behind a Mutex with two Condvars for
//! each subscriber, which has a thread of its own, and a lock over all for the order of the items. It promises far less than a publisher: no
//! demand, no cancel, no errors, no drops.
//! Usage: fan_out SUBMITTERS SUBSCRIBERS CAPACITY BYTES ITEMS
use std::collections::VecDeque;
use std::sync::{Arc, Condvar, Mutex};
use std::thread;
use std::time::Instant;

struct Buffer {
    items: VecDeque<Arc<[u8]>>,
    is_closed: bool,
}

struct Subscription {
    capacity: usize,
    buffer: Mutex<Buffer>,
    has_items: Condvar,
    has_room: Condvar,
}

impl Subscription {
    fn put(&self, item: Arc<[u8]>) {
        let mut buffer = self.buffer.lock().unwrap();
        while buffer.items.len() == self.capacity {
            buffer = self.has_room.wait(buffer).unwrap();
        }
        buffer.items.push_back(item);
        self.has_items.notify_one();
    }

    fn take(&self) -> Option<Arc<[u8]>> {
        let mut buffer = self.buffer.lock().unwrap();
        loop {
            if let Some(item) = buffer.items.pop_front() {
                self.has_room.notify_one();
                return Some(item);
            }
            if buffer.is_closed {
                return None;
            }
            buffer = self.has_items.wait(buffer).unwrap();
        }
    }

    fn close(&self) {
        self.buffer.lock().unwrap().is_closed = true;
        self.has_items.notify_one();
    }
}

fn main() {
    let words: Vec<usize> = std::env::args().skip(1).map(|word| word.parse().unwrap()).collect();
    let [submitters, subscribers, capacity, bytes, items] = words[..] else {
        panic!("usage: fan_out SUBMITTERS SUBSCRIBERS CAPACITY BYTES ITEMS");
    };
    let share = items / submitters;
    let text = vec![0u8; bytes];
    let subscriptions: Vec<Subscription> = (0..subscribers)
        .map(|_| Subscription {
            capacity,
            buffer: Mutex::new(Buffer { items: VecDeque::with_capacity(capacity), is_closed: false }),
            has_items: Condvar::new(),
            has_room: Condvar::new(),
        })
        .collect();
    let order = Mutex::new(());
    let start = Instant::now();
    thread::scope(|scope| {
        let counters: Vec<_> = subscriptions
            .iter()
            .map(|subscription| scope.spawn(|| std::iter::from_fn(|| subscription.take()).count()))
            .collect();
        let senders: Vec<_> = (0..submitters)
            .map(|_| {
                scope.spawn(|| {
                    for _ in 0..share {
                        let item: Arc<[u8]> = Arc::from(&text[..]);
                        let _order = order.lock().unwrap();
                        for subscription in &subscriptions {
                            subscription.put(Arc::clone(&item));
                        }
                    }
                })
            })
            .collect();
        for sender in senders {
            sender.join().unwrap();
        }
        subscriptions.iter().for_each(Subscription::close);
        for counter in counters {
            assert_eq!(counter.join().unwrap(), share * submitters);
        }
    });
    println!("{}", start.elapsed().as_nanos());
}
