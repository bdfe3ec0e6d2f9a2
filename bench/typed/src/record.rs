//! The packet of bench/record.asn, of some 200 octets.

use crate::bits::{BitReader, BitWriter};
use crate::members::{above, Members};
use crate::{refused, Packet};
use serde::{Deserialize, Serialize, Serializer};
use serde_json::Value;
use std::io::{self, BufRead};

const MOST_PARTS: usize = 15;
const MOST_CHARACTERS: usize = 15;
const MOST_OCTETS: usize = 31;
const DIGITS: &[u8; 16] = b"0123456789abcdef";

#[derive(Serialize)]
pub struct Message {
    kind: Kind,
    list: Vec<Part>,
    seq: u32,
}

#[derive(Clone, Copy, Serialize, Deserialize)]
#[serde(rename_all = "lowercase")]
enum Kind {
    Data,
    Command,
    Event,
    Report,
}

#[derive(Serialize)]
struct Part {
    #[serde(skip_serializing_if = "Option::is_none")]
    blob: Option<Octets>,
    id: u16,
    #[serde(skip_serializing_if = "Option::is_none")]
    level: Option<i8>,
    name: String,
    ok: bool,
}

/// Octets, each of which is two digits in a line.
struct Octets(Vec<u8>);

impl Kind {
    const ALL: [Kind; 4] = [Kind::Data, Kind::Command, Kind::Event, Kind::Report];
}

impl Serialize for Octets {
    fn serialize<S: Serializer>(&self, serializer: S) -> Result<S::Ok, S::Error> {
        let mut text = String::with_capacity(2 * self.0.len());
        for octet in &self.0 {
            text.push(DIGITS[usize::from(octet >> 4)].into());
            text.push(DIGITS[usize::from(octet & 15)].into());
        }
        serializer.serialize_str(&text)
    }
}

impl Octets {
    fn read(bits: &mut BitReader<impl BufRead>) -> io::Result<Octets> {
        let mut octets = vec![0; bits.take(5)? as usize];
        for octet in &mut octets {
            *octet = bits.take(8)? as u8;
        }
        Ok(Octets(octets))
    }

    fn write(value: &Value, bits: &mut BitWriter) -> io::Result<()> {
        let text = value.as_str().ok_or_else(refused)?;
        if text.len() % 2 != 0 || text.len() > 2 * MOST_OCTETS {
            return Err(refused());
        }
        bits.put(5, text.len() as u32 / 2);
        for pair in text.as_bytes().chunks_exact(2) {
            bits.put(8, digit(pair[0])? << 4 | digit(pair[1])?);
        }
        Ok(())
    }
}

fn digit(character: u8) -> io::Result<u32> {
    char::from(character).to_digit(16).ok_or_else(refused)
}

fn read_name(bits: &mut BitReader<impl BufRead>) -> io::Result<String> {
    let count = bits.take(4)?;
    let mut name = String::with_capacity(count as usize);
    for _ in 0..count {
        name.push(char::from(bits.take(7)? as u8));
    }
    Ok(name)
}

fn write_name(value: &Value, bits: &mut BitWriter) -> io::Result<()> {
    let name = value.as_str().ok_or_else(refused)?;
    if name.len() > MOST_CHARACTERS || !name.is_ascii() {
        return Err(refused());
    }
    bits.put(4, name.len() as u32);
    for character in name.bytes() {
        bits.put(7, character.into());
    }
    Ok(())
}

fn read_level(bits: &mut BitReader<impl BufRead>) -> io::Result<i8> {
    Ok((bits.take(8)? as i16 - 128) as i8)
}

impl Part {
    fn read(bits: &mut BitReader<impl BufRead>) -> io::Result<Part> {
        let (has_blob, has_level) = (bits.flag()?, bits.flag()?);
        let id = bits.take(12)? as u16;
        let name = read_name(bits)?;
        let blob = if has_blob {
            Some(Octets::read(bits)?)
        } else {
            None
        };
        let level = if has_level {
            Some(read_level(bits)?)
        } else {
            None
        };
        Ok(Part {
            blob,
            id,
            level,
            name,
            ok: bits.flag()?,
        })
    }

    fn write(value: &Value, bits: &mut BitWriter) -> io::Result<()> {
        let mut members = Members::new(value)?;
        let (blob, level) = (members.optional("blob"), members.optional("level"));
        bits.put(1, blob.is_some().into());
        bits.put(1, level.is_some().into());
        bits.put(12, above(members.get("id")?, 0..=4095)?);
        write_name(members.get("name")?, bits)?;
        if let Some(blob) = blob {
            Octets::write(blob, bits)?;
        }
        if let Some(level) = level {
            bits.put(8, above(level, -128..=127)?);
        }
        bits.put(1, members.get("ok")?.as_bool().ok_or_else(refused)?.into());
        members.end()
    }
}

impl Packet for Message {
    fn read(input: &mut impl BufRead) -> io::Result<Message> {
        let mut bits = BitReader::new(input);
        let seq = bits.take(32)?;
        let kind = Kind::ALL[bits.take(2)? as usize];
        let count = bits.take(4)?;
        let list = (0..count)
            .map(|_| Part::read(&mut bits))
            .collect::<io::Result<_>>()?;
        Ok(Message { kind, list, seq })
    }

    fn write(value: &Value, octets: &mut Vec<u8>) -> io::Result<()> {
        let mut members = Members::new(value)?;
        let mut bits = BitWriter::new(octets);
        let list = members.get("list")?.as_array().ok_or_else(refused)?;
        if list.len() > MOST_PARTS {
            return Err(refused());
        }
        bits.put(32, above(members.get("seq")?, 0..=u32::MAX.into())?);
        bits.put(2, Kind::deserialize(members.get("kind")?)? as u32);
        bits.put(4, list.len() as u32);
        for part in list {
            Part::write(part, &mut bits)?;
        }
        bits.end();
        members.end()
    }
}
