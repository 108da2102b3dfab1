//! The exported calls of the proved port, as a host in Rust declares them: a slice is a pointer and a length; and the rule of one stream by itself.

use crate::call::{Call, Given, Reply, Stream};

/// Declares each call in both sorts, with its port, its memory and its own arguments between those that all calls have.
macro_rules! declare {
    ($($call:ident, $unscanned:ident: $port:ty, $memory:ty, ($($argument:ident: $number:ty),*);)*) => {
        extern "C" {$(
            fn $call(
                port: $port, port_length: usize, memory: $memory, memory_length: usize, $($argument: $number,)* first: &mut u32, second: &mut u32,
            ) -> u8;
            fn $unscanned(
                port: $port, port_length: usize, memory: $memory, memory_length: usize, $($argument: $number,)* first: &mut u32, second: &mut u32,
            ) -> u8;
        )*}
    };
}

declare! {
    bunnysolder_open, bunnysolder_open_unscanned: *mut u8, *const u8, (link: u32, delay: u32);
    bunnysolder_reserve, bunnysolder_reserve_unscanned: *mut u8, *const u8, (stream: u8, permitted: u32);
    bunnysolder_arrive, bunnysolder_arrive_unscanned: *mut u8, *mut u8, (stream: u8, charge: u32, tag: u32);
    bunnysolder_tick, bunnysolder_tick_unscanned: *mut u8, *const u8, ();
    bunnysolder_transmit, bunnysolder_transmit_unscanned: *mut u8, *const u8, ();
    bunnysolder_best_effort, bunnysolder_best_effort_unscanned: *mut u8, *mut u8, (charge: u32, tag: u32);
    bunnysolder_bind, bunnysolder_bind_unscanned: *mut u8, *const u8, (stream: u8, address: *const u8, vid: u32);
    bunnysolder_frame, bunnysolder_frame_unscanned: *mut u8, *mut u8, (octets: *const u8, octets_length: usize, tag: u32);
    bunnysolder_withdraw, bunnysolder_withdraw_unscanned: *mut u8, *const u8, (stream: u8);
    bunnysolder_register_read, bunnysolder_register_read_unscanned: *const u8, *const u8, (offset: u32);
    bunnysolder_register_write, bunnysolder_register_write_unscanned: *mut u8, *const u8, (offset: u32, value: u32);
}

extern "C" {
    fn bunnysolder_lookup(port: *const u8, port_length: usize, address: *const u8, vid: u32, first: &mut u32, second: &mut u32) -> u8;
    fn bunnysolder_stream_counts(port: *const u8, port_length: usize, stream: u8, first: &mut u32, second: &mut u32) -> u8;
}

/// The calls as functions of C; Tick and Transmit have no arguments of their own.
type Open = unsafe extern "C" fn(*mut u8, usize, *const u8, usize, u32, u32, &mut u32, &mut u32) -> u8;
type Reserve = unsafe extern "C" fn(*mut u8, usize, *const u8, usize, u8, u32, &mut u32, &mut u32) -> u8;
type Arrive = unsafe extern "C" fn(*mut u8, usize, *mut u8, usize, u8, u32, u32, &mut u32, &mut u32) -> u8;
type BestEffort = unsafe extern "C" fn(*mut u8, usize, *mut u8, usize, u32, u32, &mut u32, &mut u32) -> u8;
type Bind = unsafe extern "C" fn(*mut u8, usize, *const u8, usize, u8, *const u8, u32, &mut u32, &mut u32) -> u8;
type Frame = unsafe extern "C" fn(*mut u8, usize, *mut u8, usize, *const u8, usize, u32, &mut u32, &mut u32) -> u8;
type Withdraw = unsafe extern "C" fn(*mut u8, usize, *const u8, usize, u8, &mut u32, &mut u32) -> u8;
type ReadRegister = unsafe extern "C" fn(*const u8, usize, *const u8, usize, u32, &mut u32, &mut u32) -> u8;
type WriteRegister = unsafe extern "C" fn(*mut u8, usize, *const u8, usize, u32, u32, &mut u32, &mut u32) -> u8;
type Plain = unsafe extern "C" fn(*mut u8, usize, *const u8, usize, &mut u32, &mut u32) -> u8;

/// One sort of call.
struct Sort {
    open: Open,
    reserve: Reserve,
    arrive: Arrive,
    tick: Plain,
    transmit: Plain,
    best_effort: BestEffort,
    bind: Bind,
    frame: Frame,
    withdraw: Withdraw,
    register_read: ReadRegister,
    register_write: WriteRegister,
}

/// The calls with all of the rule's checks.
const CALLS: Sort = Sort {
    open: bunnysolder_open,
    reserve: bunnysolder_reserve,
    arrive: bunnysolder_arrive,
    tick: bunnysolder_tick,
    transmit: bunnysolder_transmit,
    best_effort: bunnysolder_best_effort,
    bind: bunnysolder_bind,
    frame: bunnysolder_frame,
    withdraw: bunnysolder_withdraw,
    register_read: bunnysolder_register_read,
    register_write: bunnysolder_register_write,
};

/// The quick calls: nothing is scanned.
const UNSCANNED: Sort = Sort {
    open: bunnysolder_open_unscanned,
    reserve: bunnysolder_reserve_unscanned,
    arrive: bunnysolder_arrive_unscanned,
    tick: bunnysolder_tick_unscanned,
    transmit: bunnysolder_transmit_unscanned,
    best_effort: bunnysolder_best_effort_unscanned,
    bind: bunnysolder_bind_unscanned,
    frame: bunnysolder_frame_unscanned,
    withdraw: bunnysolder_withdraw_unscanned,
    register_read: bunnysolder_register_read_unscanned,
    register_write: bunnysolder_register_write_unscanned,
};

/// What the two reply numbers hold before each call, so that a number which a call leaves unwritten shows.
const UNWRITTEN: u32 = 0xA5A5_5A5A;

impl Sort {
    /// A call of this sort; a Lookup and a StreamCounts, which scan nothing and take no memory, are the same in both.
    #[inline(always)]
    fn play(&self, call: &Given, port: &mut [u8], memory: &mut [u8]) -> Reply {
        let (mut first, mut second) = (UNWRITTEN, UNWRITTEN);
        let (p, n) = (port.as_mut_ptr(), port.len());
        let (m, k) = (memory.as_mut_ptr(), memory.len());
        // Each pointer and length is that of a slice; record and memory this function alone holds, address and octets nobody writes, and the two
        // numbers are its own.
        let refusal = unsafe {
            match *call {
                Call::Open { link, delay } => (self.open)(p, n, m, k, link, delay, &mut first, &mut second),
                Call::Reserve { stream, permitted } => (self.reserve)(p, n, m, k, stream, permitted, &mut first, &mut second),
                Call::Arrive { stream, charge, tag } => (self.arrive)(p, n, m, k, stream, charge, tag, &mut first, &mut second),
                Call::Tick => (self.tick)(p, n, m, k, &mut first, &mut second),
                Call::Transmit => (self.transmit)(p, n, m, k, &mut first, &mut second),
                Call::BestEffort { charge, tag } => (self.best_effort)(p, n, m, k, charge, tag, &mut first, &mut second),
                Call::Bind { stream, address, vid } => (self.bind)(p, n, m, k, stream, address.as_ptr(), vid, &mut first, &mut second),
                Call::Frame { octets, tag } => (self.frame)(p, n, m, k, octets.as_ptr(), octets.len(), tag, &mut first, &mut second),
                Call::Withdraw { stream } => (self.withdraw)(p, n, m, k, stream, &mut first, &mut second),
                Call::ReadRegister { offset } => (self.register_read)(p, n, m, k, offset, &mut first, &mut second),
                Call::WriteRegister { offset, value } => (self.register_write)(p, n, m, k, offset, value, &mut first, &mut second),
                Call::Lookup { address, vid } => bunnysolder_lookup(p, n, address.as_ptr(), vid, &mut first, &mut second),
                Call::StreamCounts { stream } => bunnysolder_stream_counts(p, n, stream, &mut first, &mut second),
            }
        };
        Reply { refusal, first, second }
    }
}

/// The call with all of the rule's checks.
#[inline]
pub fn call(call: &Given, port: &mut [u8], memory: &mut [u8]) -> Reply {
    CALLS.play(call, port, memory)
}

/// The quick call: nothing is scanned.
#[inline]
pub fn unscanned(call: &Given, port: &mut [u8], memory: &mut [u8]) -> Reply {
    UNSCANNED.play(call, port, memory)
}

extern "C" {
    fn bunnysolder_stream_arrive(stream: &mut Stream, charge: u16, first: &mut u32, second: &mut u32) -> u8;
}

/// A frame of this charge arrives on a stream that is kept by itself.
#[inline]
pub fn stream_arrive(stream: &mut Stream, charge: u16) -> Reply {
    let (mut first, mut second) = (UNWRITTEN, UNWRITTEN);
    // The stream is lent whole, with a mark that is a bool of Rust's, and the two numbers are this function's own.
    let refusal = unsafe { bunnysolder_stream_arrive(stream, charge, &mut first, &mut second) };
    Reply { refusal, first, second }
}
