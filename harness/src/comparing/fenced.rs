//! Slices that lie flush against an unreadable page, so that a read or write outside them traps; a trap is noted and the test goes on.
//! The calls of the C library are those of Linux.

use std::ffi::c_void;
use std::ptr::{null_mut, read_volatile};
use std::slice::{from_raw_parts, from_raw_parts_mut};
use std::sync::atomic::{compiler_fence, AtomicBool, AtomicUsize, Ordering::SeqCst};

use crate::comparing::lent::Lend;

extern "C" {
    fn mmap(address: *mut c_void, length: usize, protection: i32, flags: i32, file: i32, offset: i64) -> *mut c_void;
    fn mprotect(address: *mut c_void, length: usize, protection: i32) -> i32;
    fn munmap(address: *mut c_void, length: usize) -> i32;
    fn signal(number: i32, handler: usize) -> usize;
}

/// Pages that no one may touch.
const UNREADABLE: i32 = 0;
/// Pages that may be read alone.
const READABLE: i32 = 1;
/// Pages that may be read and written.
const WRITABLE: i32 = 1 | 2;
/// A mapping of this process's own that no file stands behind.
const PRIVATE_ANONYMOUS: i32 = 0x02 | 0x20;
/// What mmap answers if it fails.
const MAP_FAILED: usize = usize::MAX;
/// The signal of a touch of an unreadable page.
const SEGMENT_VIOLATION: i32 = 11;
/// The handler that ends the process.
const DEFAULT_HANDLER: usize = 0;

/// The octets of a fence, and of what stands between two: a multiple of every size of a page, and longer than every lent slice.
const FENCE: usize = 131_072;
/// The octets of a mapping: a fence, the lent octets, a fence.
const MAPPING: usize = 3 * FENCE;

thread_local! {
    /// Where the mappings begin between whose fences this thread lends now: those of a record, a memory, and what one call is given to read.
    static MAPPINGS: [AtomicUsize; 3] = const { [AtomicUsize::new(0), AtomicUsize::new(0), AtomicUsize::new(0)] };
    /// Whether this thread touched a fence since it last lent.
    static TRAPPED: AtomicBool = const { AtomicBool::new(false) };
}

/// Which end of a slice lies against its fence.
#[derive(Clone, Copy, Debug)]
pub enum Edge {
    Front,
    Back,
}

/// Both edges.
pub const EDGES: [Edge; 2] = [Edge::Front, Edge::Back];

/// A slice with an unreadable page right before its first octet or right after its last.
pub struct Fenced {
    mapping: *mut u8,
    first: usize,
    length: usize,
}

/// Lends copies of a record and a memory between fences; only the pair that a thread lent last notes its traps.
pub fn lend_pair(record: &[u8], memory: &[u8], edges: [Edge; 2]) -> (Fenced, Fenced) {
    let pair = (Fenced::new(record, edges[0]), Fenced::new(memory, edges[1]));
    pair.0.note(0);
    pair.1.note(1);
    TRAPPED.with(|trapped| trapped.store(false, SeqCst));
    // The handler touches nothing but this thread's cells and mappings.
    unsafe { signal(SEGMENT_VIOLATION, on_trap as extern "C" fn(i32) as usize) };
    pair
}

/// Lends a copy of what one call is given to read, an address or a frame, between fences; its traps are noted beside those of the pair that was
/// lent last.
pub fn lend_given(octets: &[u8], edge: Edge) -> Fenced {
    let given = Fenced::new(octets, edge);
    given.note(2);
    given
}

/// Notes a touch of a fence and opens the fences, so that the call can go on; a second touch of what is no fence ends the process.
extern "C" fn on_trap(_number: i32) {
    let again = TRAPPED.with(|trapped| trapped.swap(true, SeqCst));
    for mapping in MAPPINGS.with(|mappings| mappings.each_ref().map(|mapping| mapping.load(SeqCst))) {
        // The address 0, of a mapping that is no more, is refused by mprotect.
        unsafe { mprotect(mapping as *mut c_void, MAPPING, WRITABLE) };
    }
    if again {
        unsafe { signal(SEGMENT_VIOLATION, DEFAULT_HANDLER) };
    }
}

impl Fenced {
    /// Maps fences and copies the octets between them.
    fn new(octets: &[u8], edge: Edge) -> Fenced {
        assert!(octets.len() <= FENCE, "a lent slice fits between its fences");
        let first = match edge {
            Edge::Front => FENCE,
            Edge::Back => 2 * FENCE - octets.len(),
        };
        // A new mapping at an address of the system's choice, of which the middle part alone is made writable.
        let mapping = unsafe { mmap(null_mut(), MAPPING, UNREADABLE, PRIVATE_ANONYMOUS, -1, 0) };
        assert!(mapping as usize != MAP_FAILED, "the system maps pages");
        let opened = unsafe { mprotect(mapping.byte_add(FENCE), FENCE, WRITABLE) };
        assert!(opened == 0, "the system opens the middle part");
        let mut fenced = Fenced { mapping: mapping.cast(), first, length: octets.len() };
        fenced.octets_mut().copy_from_slice(octets);
        fenced
    }

    /// Lets traps at its fences be noted, as those of the mapping of a number.
    fn note(&self, number: usize) {
        MAPPINGS.with(|mappings| mappings[number].store(self.mapping as usize, SeqCst));
    }

    /// Lets the slice be read alone from now on, so that a write of any octet is noted as a touch of a fence is.
    pub fn read_only(&self) {
        // The middle part is this value's own.
        let closed = unsafe { mprotect(self.mapping.add(FENCE).cast(), FENCE, READABLE) };
        assert!(closed == 0, "the system lets the middle part be read alone");
    }

    /// Reads the octet right outside the slice at the edge: what no call may do, to see that the fence notes it.
    pub fn touch_outside(&self, edge: Edge) {
        let outside = match edge {
            Edge::Front => self.first - 1,
            Edge::Back => self.first + self.length,
        };
        // The octet is one of the mapping.
        unsafe { read_volatile(self.mapping.add(outside)) };
        compiler_fence(SeqCst);
    }
}

impl Lend for Fenced {
    fn octets(&self) -> &[u8] {
        // The octets are those of the mapping's middle part, which lives as long as this value.
        unsafe { from_raw_parts(self.mapping.add(self.first), self.length) }
    }

    fn octets_mut(&mut self) -> &mut [u8] {
        // As above, and this value alone holds them.
        unsafe { from_raw_parts_mut(self.mapping.add(self.first), self.length) }
    }

    fn outside_kept(&self) -> bool {
        !TRAPPED.with(|trapped| trapped.load(SeqCst))
    }
}

impl Drop for Fenced {
    fn drop(&mut self) {
        MAPPINGS.with(|mappings| {
            let noted = mappings.iter().filter(|mapping| mapping.load(SeqCst) == self.mapping as usize);
            noted.for_each(|mapping| mapping.store(0, SeqCst));
        });
        // The mapping is this value's own.
        unsafe { munmap(self.mapping.cast(), MAPPING) };
    }
}
