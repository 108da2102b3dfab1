//! The refusal numbers of document 01, "Who can bring a call to grief", and of document 02's requests, each named once, and what the documents say of
//! each.

/// "1 port closed".
pub const PORT_CLOSED: u8 = 1;
/// "2 open already".
pub const OPEN_ALREADY: u8 = 2;
/// "3 L outside its range".
pub const LINK_OUTSIDE: u8 = 3;
/// "4 K outside its range".
pub const DELAY_OUTSIDE: u8 = 4;
/// "5 stream above 63".
pub const STREAM_ABOVE: u8 = 5;
/// "6 reserved already".
pub const RESERVED_ALREADY: u8 = 6;
/// "7 P below 84".
pub const PERMITTED_BELOW: u8 = 7;
/// "8 sum of P above the share".
pub const SHARE_EXCEEDED: u8 = 8;
/// "9 VID outside 1 to 4,094".
pub const VID_OUTSIDE: u8 = 9;
/// "10 stream bound already".
pub const BOUND_ALREADY: u8 = 10;
/// "11 pair bound already".
pub const PAIR_BOUND_ALREADY: u8 = 11;
/// "12 stream not reserved".
pub const NOT_RESERVED: u8 = 12;
/// "13 charge outside 84 to 2,020".
pub const CHARGE_OUTSIDE: u8 = 13;
/// "14 discard".
pub const DISCARD: u8 = 14;
/// "15 256 best-effort frames waiting".
pub const BEST_EFFORT_FULL: u8 = 15;
/// "16 W + a above K × (L − R)".
pub const BEST_EFFORT_EXCEEDED: u8 = 16;
/// "17 frame outside 60 to 1,996 octets".
pub const FRAME_LENGTH: u8 = 17;
/// "18 lent memory under 1,280 places".
pub const MEMORY_SHORT: u8 = 18;
/// "19 port record unfit".
pub const RECORD_UNFIT: u8 = 19;
/// "20 the chosen queue holds 256".
pub const QUEUE_FULL: u8 = 20;
/// "21 file length not a multiple of 16, under 16 or over 65,536".
pub const CAPTURE_LENGTH: u8 = 21;
/// "22 header letters or zero octets".
pub const CAPTURE_HEADER: u8 = 22;
/// "23 first or next index".
pub const CAPTURE_INDEX: u8 = 23;
/// "24 kind, stream octet, unused number or zero octets".
pub const CAPTURE_RECORD: u8 = 24;
/// 25, "an arrival, reservation, binding or withdrawal of a draining stream".
pub const DRAINING: u8 = 25;
/// 26, "an offset that is no multiple of 4 or is above 60".
pub const REGISTER_OFFSET: u8 = 26;

/// What the documents say of each refusal, in the order of the numbers, with the ends of a range that they name elsewhere.
const WORDS: [(u8, &str); 26] = [
    (PORT_CLOSED, "port closed"),
    (OPEN_ALREADY, "open already"),
    (LINK_OUTSIDE, "L outside its range, 2,104 to 23,524"),
    (DELAY_OUTSIDE, "K outside its range, 1 to 16"),
    (STREAM_ABOVE, "stream above 63"),
    (RESERVED_ALREADY, "reserved already"),
    (PERMITTED_BELOW, "P below 84"),
    (SHARE_EXCEEDED, "sum of P above the share, which is L less 2,020"),
    (VID_OUTSIDE, "VID outside 1 to 4,094"),
    (BOUND_ALREADY, "stream bound already"),
    (PAIR_BOUND_ALREADY, "pair bound already"),
    (NOT_RESERVED, "stream not reserved"),
    (CHARGE_OUTSIDE, "charge outside 84 to 2,020"),
    (DISCARD, "discard"),
    (BEST_EFFORT_FULL, "256 best-effort frames waiting"),
    (BEST_EFFORT_EXCEEDED, "W + charge above K × (L − R)"),
    (FRAME_LENGTH, "frame outside 60 to 1,996 octets"),
    (MEMORY_SHORT, "lent memory under 1,280 places"),
    (RECORD_UNFIT, "port record unfit"),
    (QUEUE_FULL, "the chosen queue holds 256"),
    (CAPTURE_LENGTH, "file length not a multiple of 16, under 16 or over 65,536"),
    (CAPTURE_HEADER, "header letters or zero octets"),
    (CAPTURE_INDEX, "first or next index"),
    (CAPTURE_RECORD, "kind, stream octet, unused number or zero octets"),
    (DRAINING, "stream draining"),
    (REGISTER_OFFSET, "register offset that is no multiple of 4 or is above 60"),
];

/// What the documents say of a refusal; of a number that is none, nothing.
pub fn words(refusal: u8) -> Option<&'static str> {
    WORDS.iter().find(|(number, _)| *number == refusal).map(|&(_, words)| words)
}

/// A refusal in words: its number, and what the documents say of it.
pub fn told(refusal: u8) -> String {
    match words(refusal) {
        Some(words) => format!("refused with {refusal}: {words}"),
        None => format!("refused with {refusal}, which is no refusal's number"),
    }
}
