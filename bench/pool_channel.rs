// Prints the nanoseconds in which threads run short jobs that they take from a channel of Rust's std: the work of bench/pool.sh with no
// pool. `pool_channel WORKERS CALLERS JOBS AGAIN`, the jobs of all callers; each job is run again AGAIN times. It goes to the
// back of the channel in between, and is run on at once if that is full. The workers take turns at the receiver, behind a lock.
use std::env;
use std::sync::atomic::{AtomicU64, Ordering::SeqCst};
use std::sync::mpsc::{Receiver, SyncSender, sync_channel};
use std::sync::Mutex;
use std::thread;
use std::time::Instant;

const CAPACITY: usize = 1024;

enum Message {
    Job(u64),
    End,
}

// Runs a job, and again if it can't go back. Whether it was put back.
fn run(to: &SyncSender<Message>, again: u64, ran: &mut u64) -> bool {
    for left in (0..again).rev() {
        *ran = ran.wrapping_add(1);
        if to.try_send(Message::Job(left)).is_ok() {
            return true;
        }
    }
    *ran = ran.wrapping_add(1);
    false
}

fn work(from: &Mutex<Receiver<Message>>, to: &SyncSender<Message>, left: &AtomicU64, workers: u64) -> u64 {
    let mut ran = 0;
    loop {
        let message = from.lock().unwrap().recv();
        let Ok(Message::Job(again)) = message else {
            return ran;
        };
        if !run(to, again, &mut ran) && left.fetch_sub(1, SeqCst) == 1 {
            for _ in 0..workers {
                to.send(Message::End).unwrap();
            }
        }
    }
}

fn main() {
    let words: Vec<u64> = env::args().skip(1).map(|word| word.parse().unwrap()).collect();
    let [workers, callers, jobs, again] = words[..] else {
        panic!("four numbers are wanted");
    };
    let start = Instant::now();
    let (to, from) = sync_channel(CAPACITY);
    let (from, left) = (Mutex::new(from), AtomicU64::new(jobs / callers * callers));
    let ran: u64 = thread::scope(|scope| {
        let running: Vec<_> = (0..workers).map(|_| scope.spawn(|| work(&from, &to, &left, workers))).collect();
        for _ in 0..callers {
            scope.spawn(|| (0..jobs / callers).for_each(|_| to.send(Message::Job(again)).unwrap()));
        }
        running.into_iter().map(|it| it.join().unwrap()).sum()
    });
    assert_eq!(ran, jobs / callers * callers * (again + 1));
    println!("{}", start.elapsed().as_nanos());
}
