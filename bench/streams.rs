//! What `bench/streams` compares the program with: recordings of two worked packets, made, decoded and encoded by code that was written
//! for these types alone. `make`, `decode` or `encode`, then `two` or `telemetry`, then for `make` the number of packets.
//!
//! A packet of `two` is that of examples/first, one of `telemetry` that of examples/telemetry.

use std::fmt::{self, Display};
use std::io::{self, BufRead, BufReader, BufWriter, Read, Write};

const BUFFER: usize = 1 << 16;

/// Numbers of a linear congruence, the upper 32 bits of each.
struct Draw(u64);

impl Draw {
    fn below(&mut self, n: u64) -> u64 {
        self.0 = self.0.wrapping_mul(6364136223846793005).wrapping_add(1442695040888963407);
        (self.0 >> 32) % n
    }
}

trait Packet: Display + Sized {
    const OCTETS: usize;
    fn draw(draw: &mut Draw) -> Self;
    fn read(octets: &[u8]) -> Option<Self>;
    fn write(&self, octets: &mut Vec<u8>);
    /// Reads a line as `Display` prints it, and no other.
    fn parse(line: &str) -> Option<Self>;
}

struct Two {
    a: u8,
    b: u8,
}

impl Display for Two {
    fn fmt(&self, f: &mut fmt::Formatter<'_>) -> fmt::Result {
        write!(f, "{{\"a\":{},\"b\":{}}}", self.a, self.b)
    }
}

impl Packet for Two {
    const OCTETS: usize = 2;

    fn draw(draw: &mut Draw) -> Two {
        Two { a: draw.below(256) as u8, b: draw.below(8) as u8 }
    }

    fn read(octets: &[u8]) -> Option<Two> {
        Some(Two { a: octets[0], b: octets[1] >> 5 })
    }

    fn write(&self, octets: &mut Vec<u8>) {
        octets.extend_from_slice(&[self.a, self.b << 5]);
    }

    fn parse(line: &str) -> Option<Two> {
        let (a, b) = line.strip_prefix("{\"a\":")?.strip_suffix('}')?.split_once(",\"b\":")?;
        Some(Two { a: a.parse().ok()?, b: b.parse().ok().filter(|b| *b < 8)? })
    }
}

#[derive(Clone, Copy)]
enum Mode {
    Off,
    Safe,
    Nominal,
}

impl Mode {
    fn at(index: u64) -> Option<Mode> {
        [Mode::Off, Mode::Safe, Mode::Nominal].get(index as usize).copied()
    }

    fn name(self) -> &'static str {
        match self {
            Mode::Off => "off",
            Mode::Safe => "safe",
            Mode::Nominal => "nominal",
        }
    }
}

struct Telemetry {
    apid: u16,
    count: u16,
    time: u16,
    mode: Mode,
    temp: i8,
}

impl Display for Telemetry {
    fn fmt(&self, f: &mut fmt::Formatter<'_>) -> fmt::Result {
        write!(
            f,
            "{{\"apid\":{},\"body\":{{\"mode\":\"{}\",\"temp\":{},\"time\":{}}},\"count\":{}}}",
            self.apid,
            self.mode.name(),
            self.temp,
            self.time,
            self.count
        )
    }
}

impl Packet for Telemetry {
    const OCTETS: usize = 9;

    fn draw(draw: &mut Draw) -> Telemetry {
        Telemetry {
            apid: draw.below(2048) as u16,
            count: draw.below(16384) as u16,
            time: draw.below(4096) as u16,
            mode: Mode::at(draw.below(3)).unwrap_or(Mode::Off),
            temp: (draw.below(128) as i64 - 40) as i8,
        }
    }

    fn read(octets: &[u8]) -> Option<Telemetry> {
        let header = u64::from(u16::from_be_bytes([octets[0], octets[1]]));
        let flags = u16::from_be_bytes([octets[2], octets[3]]);
        let body = u32::from_be_bytes([0, octets[6], octets[7], octets[8]]);
        if header >> 11 != 0 || flags >> 14 != 3 || octets[4..6] != [0, 2] {
            return None;
        }
        Some(Telemetry {
            apid: (header & 2047) as u16,
            count: flags & 16383,
            time: (body >> 12) as u16,
            mode: Mode::at(u64::from(body >> 10 & 3))?,
            temp: ((body >> 3 & 127) as i16 - 40) as i8,
        })
    }

    fn write(&self, octets: &mut Vec<u8>) {
        let body = u32::from(self.time) << 12 | (self.mode as u32) << 10 | ((i32::from(self.temp) + 40) as u32) << 3;
        octets.extend_from_slice(&self.apid.to_be_bytes());
        octets.extend_from_slice(&(0xc000 | self.count).to_be_bytes());
        octets.extend_from_slice(&[0, 2]);
        octets.extend_from_slice(&body.to_be_bytes()[1..]);
    }

    fn parse(line: &str) -> Option<Telemetry> {
        let (apid, rest) = line.strip_prefix("{\"apid\":")?.split_once(",\"body\":{\"mode\":\"")?;
        let (mode, rest) = rest.split_once("\",\"temp\":")?;
        let (temp, rest) = rest.split_once(",\"time\":")?;
        let (time, count) = rest.strip_suffix('}')?.split_once("},\"count\":")?;
        Some(Telemetry {
            apid: apid.parse().ok().filter(|apid| *apid < 2048)?,
            count: count.parse().ok().filter(|count| *count < 16384)?,
            time: time.parse().ok().filter(|time| *time < 4096)?,
            mode: (0..3).filter_map(Mode::at).find(|each| each.name() == mode)?,
            temp: temp.parse().ok().filter(|temp| (-40..88).contains(temp))?,
        })
    }
}

fn make<P: Packet>(count: u64) -> io::Result<()> {
    let mut out = BufWriter::with_capacity(BUFFER, io::stdout().lock());
    let mut draw = Draw(1);
    let mut octets = Vec::new();
    for _ in 0..count {
        octets.clear();
        P::draw(&mut draw).write(&mut octets);
        out.write_all(&octets)?;
    }
    out.flush()
}

fn refused<T>() -> io::Result<T> {
    Err(io::Error::from(io::ErrorKind::InvalidData))
}

fn decode<P: Packet>() -> io::Result<()> {
    let mut input = BufReader::with_capacity(BUFFER, io::stdin().lock());
    let mut out = BufWriter::with_capacity(BUFFER, io::stdout().lock());
    let mut octets = vec![0; P::OCTETS];
    while !input.fill_buf()?.is_empty() {
        input.read_exact(&mut octets)?;
        match P::read(&octets) {
            Some(packet) => writeln!(out, "{packet}")?,
            None => return refused(),
        }
    }
    out.flush()
}

fn encode<P: Packet>() -> io::Result<()> {
    let mut input = BufReader::with_capacity(BUFFER, io::stdin().lock());
    let mut out = BufWriter::with_capacity(BUFFER, io::stdout().lock());
    let mut line = String::new();
    let mut octets = Vec::new();
    while input.read_line(&mut line)? > 0 {
        match P::parse(line.trim_end()) {
            Some(packet) => packet.write(&mut octets),
            None => return refused(),
        }
        out.write_all(&octets)?;
        octets.clear();
        line.clear();
    }
    out.flush()
}

fn run<P: Packet>(command: &str, count: Option<&str>) -> io::Result<()> {
    match (command, count.map(str::parse)) {
        ("make", Some(Ok(count))) => make::<P>(count),
        ("decode", None) => decode::<P>(),
        ("encode", None) => encode::<P>(),
        _ => refused(),
    }
}

fn main() -> io::Result<()> {
    let words: Vec<String> = std::env::args().skip(1).collect();
    let words: Vec<&str> = words.iter().map(String::as_str).collect();
    match words[..] {
        [command, "two", ref rest @ ..] => run::<Two>(command, rest.first().copied()),
        [command, "telemetry", ref rest @ ..] => run::<Telemetry>(command, rest.first().copied()),
        _ => refused(),
    }
}
