//! The packet of examples/first.

use crate::bits::BitWriter;
use crate::members::{above, Members};
use crate::Packet;
use serde::Serialize;
use serde_json::Value;
use std::io::{self, BufRead};

#[derive(Serialize)]
pub struct Two {
    a: u8,
    b: u8,
}

impl Packet for Two {
    fn read(input: &mut impl BufRead) -> io::Result<Two> {
        let mut octets = [0; 2];
        input.read_exact(&mut octets)?;
        Ok(Two {
            a: octets[0],
            b: octets[1] >> 5,
        })
    }

    fn write(value: &Value, octets: &mut Vec<u8>) -> io::Result<()> {
        let mut members = Members::new(value)?;
        let mut bits = BitWriter::new(octets);
        bits.put(8, above(members.get("a")?, 0..=255)?);
        bits.put(3, above(members.get("b")?, 0..=7)?);
        bits.end();
        members.end()
    }
}
