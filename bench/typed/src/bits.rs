//! Bits in octets, the most significant first.

use std::io::{self, BufRead};

/// Reads the bits of one packet.
pub struct BitReader<'a, R> {
    input: &'a mut R,
    waiting: u64,
    count: u32,
}

impl<'a, R: BufRead> BitReader<'a, R> {
    /// A reader of the packet that comes next.
    pub fn new(input: &'a mut R) -> Self {
        BitReader {
            input,
            waiting: 0,
            count: 0,
        }
    }

    /// The next `n` bits, at most 32.
    pub fn take(&mut self, n: u32) -> io::Result<u32> {
        while self.count < n {
            let mut octet = [0];
            self.input.read_exact(&mut octet)?;
            self.waiting = self.waiting << 8 | u64::from(octet[0]);
            self.count += 8;
        }
        self.count -= n;
        Ok((self.waiting >> self.count & ((1 << n) - 1)) as u32)
    }

    /// The next bit.
    pub fn flag(&mut self) -> io::Result<bool> {
        Ok(self.take(1)? == 1)
    }
}

/// Writes the bits of one packet behind what the octets hold.
pub struct BitWriter<'a> {
    octets: &'a mut Vec<u8>,
    waiting: u64,
    count: u32,
}

impl<'a> BitWriter<'a> {
    /// A writer of a packet.
    pub fn new(octets: &'a mut Vec<u8>) -> Self {
        BitWriter {
            octets,
            waiting: 0,
            count: 0,
        }
    }

    /// Puts a number below 2 to the power of `n`, which is at most 32.
    pub fn put(&mut self, n: u32, number: u32) {
        self.waiting = self.waiting << n | u64::from(number);
        self.count += n;
        while self.count >= 8 {
            self.count -= 8;
            self.octets.push((self.waiting >> self.count) as u8);
        }
    }

    /// Fills up the last octet.
    pub fn end(mut self) {
        self.put((8 - self.count) % 8, 0);
    }
}
