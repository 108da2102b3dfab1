//! The checksum that POSIX's command `cksum` prints, so that anyone can hold a file of the set against its line in conformance/sums.

use std::fmt;
use std::str::FromStr;

/// The generator of the cyclic redundancy check, its term of degree 32 left out.
const GENERATOR: u32 = 0x04C1_1DB7;
/// How many bits an octet has.
const OCTET: u32 = 8;
/// What each octet adds to the remainder when it is shifted out of it.
const SHIFTED_OUT: [u32; 256] = shifted_out();

/// What `cksum` prints of octets: the check and how many they are.
#[derive(Clone, Copy, Debug, PartialEq, Eq)]
pub struct Checksum {
    pub check: u32,
    pub octets: usize,
}

impl Checksum {
    /// The checksum of octets: of them and of their number, low octet first and without leading zero octets, the remainder's complement.
    pub fn of(octets: &[u8]) -> Checksum {
        let length = octets.len().to_le_bytes();
        let digits = length.iter().rposition(|&octet| octet != 0).map_or(0, |last| last + 1);
        let remainder = octets.iter().chain(&length[..digits]).fold(0, |remainder, &octet| with(remainder, octet));
        Checksum { check: !remainder, octets: octets.len() }
    }
}

/// The remainder with an octet more.
fn with(remainder: u32, octet: u8) -> u32 {
    let out = remainder.to_be_bytes()[0] ^ octet;
    remainder << OCTET ^ SHIFTED_OUT[usize::from(out)]
}

/// The remainder of each octet followed by four zero octets.
const fn shifted_out() -> [u32; 256] {
    let mut remainders = [0; 256];
    let mut octet = 0;
    while octet < remainders.len() {
        remainders[octet] = remainder(octet as u32);
        octet += 1;
    }
    remainders
}

/// The remainder of one octet followed by four zero octets, bit by bit.
const fn remainder(octet: u32) -> u32 {
    let mut remainder = octet << (u32::BITS - OCTET);
    let mut bit = 0;
    while bit < OCTET {
        let out = remainder >> (u32::BITS - 1);
        remainder = remainder << 1 ^ if out == 1 { GENERATOR } else { 0 };
        bit += 1;
    }
    remainder
}

impl fmt::Display for Checksum {
    fn fmt(&self, f: &mut fmt::Formatter<'_>) -> fmt::Result {
        write!(f, "{} {}", self.check, self.octets)
    }
}

impl FromStr for Checksum {
    type Err = String;

    /// Reads what `cksum` prints: two numbers with a space between.
    fn from_str(text: &str) -> Result<Checksum, String> {
        let numbers = text.split_once(' ').and_then(|(check, octets)| Some((check.parse().ok()?, octets.parse().ok()?)));
        let (check, octets) = numbers.ok_or_else(|| format!("'{text}' is no checksum and number of octets"))?;
        Ok(Checksum { check, octets })
    }
}

#[cfg(test)]
mod tests {
    use super::*;

    /// Holds the checksum of octets against what `cksum` prints of them.
    #[track_caller]
    fn prints(octets: &[u8], printed: &str) {
        assert_eq!(Checksum::of(octets).to_string(), printed);
    }

    #[test]
    fn it_is_what_cksum_prints() {
        prints(b"", "4294967295 0");
        prints(b"123456789", "930766865 9");
        prints(b"a\n", "2418082923 2");
        prints(&[0; 16], "3018728591 16");
        prints(&[255; 256], "3565725333 256");
        prints(&[b'x'; 65_536], "1281127553 65536");
    }

    #[test]
    fn it_is_read_as_it_is_written() {
        assert_eq!("930766865 9".parse(), Ok(Checksum::of(b"123456789")));
        for text in ["", "1", "1 2 3", "a 2", "1 b", "4294967296 1"] {
            assert_eq!(text.parse::<Checksum>(), Err(format!("'{text}' is no checksum and number of octets")));
        }
    }
}
