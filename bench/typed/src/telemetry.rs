//! The packet of examples/telemetry.

use crate::bits::BitWriter;
use crate::members::{above, Members};
use crate::{refused, Packet};
use serde::{Deserialize, Serialize};
use serde_json::Value;
use std::io::{self, BufRead};

/// What the header's flags hold.
const FLAGS: u16 = 3;
/// What the length holds: one less than the octets of the body.
const LENGTH: u16 = 2;

#[derive(Serialize)]
pub struct Telemetry {
    apid: u16,
    body: Body,
    count: u16,
}

#[derive(Serialize)]
struct Body {
    mode: Mode,
    temp: i8,
    time: u16,
}

#[derive(Clone, Copy, Serialize, Deserialize)]
#[serde(rename_all = "lowercase")]
enum Mode {
    Off,
    Safe,
    Nominal,
}

impl Mode {
    const ALL: [Mode; 3] = [Mode::Off, Mode::Safe, Mode::Nominal];
}

impl Body {
    fn read(octets: [u8; 3]) -> io::Result<Body> {
        let [first, second, third] = octets;
        let bits = u32::from_be_bytes([0, first, second, third]);
        Ok(Body {
            mode: *Mode::ALL
                .get((bits >> 10 & 3) as usize)
                .ok_or_else(refused)?,
            temp: ((bits >> 3 & 127) as i16 - 40) as i8,
            time: (bits >> 12) as u16,
        })
    }

    fn write(value: &Value, bits: &mut BitWriter) -> io::Result<()> {
        let mut members = Members::new(value)?;
        bits.put(12, above(members.get("time")?, 0..=4095)?);
        bits.put(2, Mode::deserialize(members.get("mode")?)? as u32);
        bits.put(7, above(members.get("temp")?, -40..=87)?);
        members.end()
    }
}

impl Packet for Telemetry {
    fn read(input: &mut impl BufRead) -> io::Result<Telemetry> {
        let mut octets = [0; 9];
        input.read_exact(&mut octets)?;
        let [a, b, c, d, e, f, body @ ..] = octets;
        let (apid, count) = (u16::from_be_bytes([a, b]), u16::from_be_bytes([c, d]));
        if apid >> 11 != 0 || count >> 14 != FLAGS || u16::from_be_bytes([e, f]) != LENGTH {
            return Err(refused());
        }
        Ok(Telemetry {
            apid,
            body: Body::read(body)?,
            count: count & 0x3fff,
        })
    }

    fn write(value: &Value, octets: &mut Vec<u8>) -> io::Result<()> {
        let mut members = Members::new(value)?;
        let mut bits = BitWriter::new(octets);
        bits.put(16, above(members.get("apid")?, 0..=2047)?);
        bits.put(2, FLAGS.into());
        bits.put(14, above(members.get("count")?, 0..=16383)?);
        bits.put(16, LENGTH.into());
        Body::write(members.get("body")?, &mut bits)?;
        bits.end();
        members.end()
    }
}
