//! The registers of the quick calls: what their replies do to the register block, the counts of each stream in it, quick reads, and quick writes, of
//! which one to control makes the quick Tick and then the quick Transmit. The block may have any content.

use super::fields::{four, put_four};
use super::traffic::{tick, transmit};
use super::{refuse, Memory, Record};
use crate::call::{Call, Given, Reply};
use crate::layout::{counts, in_block, ACCEPTED, BLOCK_MASK, CHOICE, DISCARDED, FLAG_DISCARD, FLAG_NOTHING, FLAG_PURGE, OPEN, SENT};
use crate::model::octets::{BLOCK_OCTETS, PORT_OCTETS};
use crate::model::port::{MARK_NO, MARK_YES, NOTHING, STREAMS};

/// The octets of a register block.
pub type Block = [u8; BLOCK_OCTETS];

/// Whether a call names an offset that is no multiple of 4 or is above 60.
#[inline(always)]
pub fn offset_is_wrong(call: &Given) -> bool {
    match *call {
        Call::ReadRegister { offset } | Call::WriteRegister { offset, .. } => offset % 4 != 0 || offset > 60,
        _ => false,
    }
}

/// What a call that names no register does to the block, by its reply or the number of its refusal; an arrival does it as soon as it has its reply.
#[inline(always)]
pub fn follow(block: &mut Block, call: &Given, reply: &Result<Reply, u8>) {
    match (call, reply) {
        (Call::Open { .. }, Ok(_)) => block.fill(0),
        (Call::Withdraw { stream }, Ok(_)) => block[counts(*stream as usize)..counts(*stream as usize + 1)].fill(0),
        (Call::Tick, Ok(reply)) => ticked(block, reply),
        (Call::Transmit, Ok(reply)) => transmitted(block, reply),
        _ => (),
    }
}

/// What an arrival on a stream does to the block, by its reply or the number of its refusal.
#[inline(always)]
pub fn arrived(block: &mut Block, stream: u8, reply: &Result<Reply, u8>) {
    match reply {
        Ok(_) => count(block, counts(stream as usize) + ACCEPTED),
        Err(14) => {
            block[FLAG_DISCARD] = MARK_YES;
            count(block, counts(stream as usize) + DISCARDED);
        }
        Err(_) => (),
    }
}

/// StreamCounts(s) on a port that may be too short: 19, 5, then both counts of the stream.
#[inline(always)]
pub fn stream_counts(port: &[u8], stream: u8) -> Result<Reply, u8> {
    let port: &[u8; PORT_OCTETS] = port.first_chunk().ok_or(19)?;
    refuse(5, stream as usize >= STREAMS)?;
    let at = in_block(counts(stream as usize));
    Ok(Reply::granted(four(port, at + ACCEPTED), four(port, at + DISCARDED)))
}

/// A count with one more, 4,294,967,295 to 0.
#[inline(always)]
fn count(block: &mut Block, at: usize) {
    let count = four(block, at).wrapping_add(1);
    put_four(block, at, count);
}

/// What a granted Tick does to the block.
#[inline(always)]
fn ticked(block: &mut Block, reply: &Reply) {
    if reply.first > 0 {
        block[FLAG_PURGE] = MARK_YES;
    }
}

/// What a granted Transmit does to the block.
#[inline(always)]
fn transmitted(block: &mut Block, reply: &Reply) {
    match reply.first {
        NOTHING => block[FLAG_NOTHING] = MARK_YES,
        _ => count(block, SENT),
    }
}

/// The flags as the bits of their register.
#[inline(always)]
fn flags(block: &Block) -> u32 {
    let bit = |at: usize, bit: u32| u32::from(block[at] == MARK_YES) << bit;
    bit(FLAG_DISCARD, 0) | bit(FLAG_PURGE, 1) | bit(FLAG_NOTHING, 2)
}

/// A quick read of a register: it replies the register and 0.
#[inline(always)]
pub fn read(record: &Record, block: &Block, offset: u32) -> Reply {
    let register = match offset {
        4 => u32::from(record[OPEN] == MARK_YES) | u32::from(flags(block) & four(block, BLOCK_MASK) != 0) << 1,
        8 => flags(block),
        12 => four(block, BLOCK_MASK),
        16 => chosen(block, ACCEPTED),
        20 => chosen(block, DISCARDED),
        24 => four(block, SENT),
        28 => four(block, CHOICE),
        _ => 0,
    };
    Reply::granted(register, 0)
}

/// One of the counts of the stream that is chosen, 0 where the choice is above 63.
#[inline(always)]
fn chosen(block: &Block, field: usize) -> u32 {
    let choice = four(block, CHOICE) as usize;
    if choice >= STREAMS {
        return 0;
    }
    four(block, counts(choice) + field)
}

/// A quick write of a register: to control, the flags, the mask or the choice; one to another does nothing.
#[inline(always)]
pub fn write(record: &mut Record, memory: &mut Memory, block: &mut Block, offset: u32, value: u32) -> Result<Reply, u8> {
    match offset {
        0 => return control(record, memory, block, value),
        8 => clear(block, value),
        12 => put_four(block, BLOCK_MASK, value),
        28 => put_four(block, CHOICE, value),
        _ => (),
    }
    Ok(Reply::granted(0, 0))
}

/// Lowers the flags whose bits are ones; the others keep their octets.
#[inline(always)]
fn clear(block: &mut Block, ones: u32) {
    for (bit, at) in [FLAG_DISCARD, FLAG_PURGE, FLAG_NOTHING].into_iter().enumerate() {
        if ones >> bit & 1 == 1 {
            block[at] = MARK_NO;
        }
    }
}

/// A quick write of control: the quick Tick for bit 0, then the quick Transmit for bit 1; the reply is the last one's.
#[inline(always)]
fn control(record: &mut Record, memory: &mut Memory, block: &mut Block, value: u32) -> Result<Reply, u8> {
    let mut reply = Reply::granted(0, 0);
    if value & 1 != 0 {
        reply = tick(record, memory)?;
        ticked(block, &reply);
    }
    if value & 2 != 0 {
        reply = transmit(record, memory)?;
        transmitted(block, &reply);
    }
    Ok(reply)
}
