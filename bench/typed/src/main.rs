//! What `bench/table` compares the program with: packets of three types, decoded by way of structs
//! that derive `Serialize`, and encoded by way of a `serde_json::Value` of each line. The words are
//! `decode` or `encode`, then `two`, `telemetry` or `record`.

mod bits;
mod members;
mod record;
mod telemetry;
mod two;

use serde::Serialize;
use serde_json::Value;
use std::io::{self, BufRead, BufReader, BufWriter, Write};

use record::Message;
use telemetry::Telemetry;
use two::Two;

const BUFFER: usize = 1 << 16;

/// A type of packets. Members are declared in byte order of their names, in which lines have them.
trait Packet: Serialize + Sized {
    /// Reads the next packet, which is there.
    fn read(input: &mut impl BufRead) -> io::Result<Self>;
    /// Writes the packet of a line's value, behind what the octets hold.
    fn write(value: &Value, octets: &mut Vec<u8>) -> io::Result<()>;
}

/// A packet or a line that isn't one of its type.
fn refused() -> io::Error {
    io::ErrorKind::InvalidData.into()
}

fn decode<P: Packet>() -> io::Result<()> {
    let mut input = BufReader::with_capacity(BUFFER, io::stdin().lock());
    let mut out = BufWriter::with_capacity(BUFFER, io::stdout().lock());
    while !input.fill_buf()?.is_empty() {
        serde_json::to_writer(&mut out, &P::read(&mut input)?)?;
        out.write_all(b"\n")?;
    }
    out.flush()
}

fn encode<P: Packet>() -> io::Result<()> {
    let mut input = BufReader::with_capacity(BUFFER, io::stdin().lock());
    let mut out = BufWriter::with_capacity(BUFFER, io::stdout().lock());
    let mut line = String::new();
    let mut octets = Vec::new();
    while input.read_line(&mut line)? > 0 {
        P::write(&serde_json::from_str(&line)?, &mut octets)?;
        out.write_all(&octets)?;
        octets.clear();
        line.clear();
    }
    out.flush()
}

fn run<P: Packet>(command: &str) -> io::Result<()> {
    match command {
        "decode" => decode::<P>(),
        "encode" => encode::<P>(),
        _ => Err(refused()),
    }
}

fn main() -> io::Result<()> {
    let words: Vec<String> = std::env::args().skip(1).collect();
    match words.iter().map(String::as_str).collect::<Vec<_>>()[..] {
        [command, "two"] => run::<Two>(command),
        [command, "telemetry"] => run::<Telemetry>(command),
        [command, "record"] => run::<Message>(command),
        _ => Err(refused()),
    }
}
