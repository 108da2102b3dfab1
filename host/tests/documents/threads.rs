//! A port in the hands of several threads.

use std::thread;

use bunnysolder::{Lookup, Queue, Sent, Status, StreamCounts};

use crate::{joined, reserved, ADDRESS, STREAM};

/// A port goes to another thread with the frames that wait in it.
#[test]
fn a_port_is_sent_to_another_thread() {
    let mut port = reserved();
    assert_eq!(port.arrive(STREAM, 120, 7), joined(Queue::Current, 80));
    let sent = thread::spawn(move || port.transmit()).join().expect("the thread ends");
    assert_eq!(sent, Ok(Sent::Reserved { stream: STREAM, tag: 7 }));
}

/// The registers and the counts of a port are read by several threads at a time.
#[test]
fn registers_are_read_by_several_threads() {
    let mut port = reserved();
    assert_eq!(port.arrive(STREAM, 120, 7), joined(Queue::Current, 80));
    thread::scope(|scope| {
        let readers = [0; 4].map(|_| scope.spawn(|| (port.status(), port.stream_counts(), port.frames_sent())));
        for reader in readers {
            let (status, counts, sent) = reader.join().expect("the thread ends");
            assert_eq!(status, Status { open: true, interrupt: false });
            assert_eq!((counts[usize::from(STREAM)], sent), (StreamCounts { accepted: 1, discarded: 0 }, 0));
        }
    });
}

/// The bindings of a port are looked up by several threads at a time.
#[test]
fn bindings_are_looked_up_by_several_threads() {
    let mut port = reserved();
    assert_eq!(port.bind(STREAM, &ADDRESS, 1), Ok(()));
    thread::scope(|scope| {
        let seekers = [0; 4].map(|_| scope.spawn(|| port.lookup(&ADDRESS, 1)));
        for seeker in seekers {
            assert_eq!(seeker.join().expect("the thread ends"), Lookup { stream: Some(STREAM), compared: 6 });
        }
    });
}
