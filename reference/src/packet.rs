//! 01, "Circuits and records" and "Messages and packets": circuit lists, headers, segments, packets, and packets taken apart.

use crate::lent::is_long;

/// An address byte, with or without one extension byte.
#[derive(Clone, Copy, Debug, PartialEq, Eq)]
pub struct Circuit {
    pub address: u8,
    pub extension: Option<u8>,
}

/// The circuits of a list of three bytes each, or the number of listing's refusal.
pub fn listed(list: &[u8]) -> Result<Vec<Circuit>, u32> {
    if ![3, 6, 9, 12].contains(&list.len()) {
        return Err(1);
    }
    let circuits: Vec<&[u8]> = list.chunks(3).collect();
    if circuits.iter().any(|bytes| bytes[0] == 0xFF) {
        return Err(2);
    }
    if circuits
        .iter()
        .any(|bytes| bytes[1] > 1 || bytes[1] == 0 && bytes[2] != 0)
    {
        return Err(3);
    }
    if (0..circuits.len()).any(|number| circuits[..number].contains(&circuits[number])) {
        return Err(4);
    }
    let circuit = |bytes: &&[u8]| Circuit {
        address: bytes[0],
        extension: (bytes[1] == 1).then_some(bytes[2]),
    };
    Ok(circuits.iter().map(circuit).collect())
}

/// What the header of every long message holds (02, ask 7).
pub const LONG_HEADER: usize = 4095;

/// The header of a message: one byte up to 15, else two; A4 of the first tells which, and the length's high bits stand first. That of a long message
/// does not tell its length.
pub fn header(length: usize) -> Vec<u8> {
    if length <= 15 {
        return vec![length as u8];
    }
    let held = if is_long(length) { LONG_HEADER } else { length };
    vec![0x10 | (held >> 8) as u8, held as u8]
}

/// Header and message cut into segments of 16 bytes, the last 1 to 16.
pub fn segments(message: &[u8]) -> Vec<Vec<u8>> {
    let whole = [&header(message.len()), message].concat();
    whole.chunks(16).map(<[u8]>::to_vec).collect()
}

/// The number of packets of a message, which is that of its segments.
pub fn packet_count(length: usize) -> usize {
    (header(length).len() + length).div_ceil(16)
}

/// Which of a message's packets a packet is, as its link bits tell.
#[derive(Clone, Copy, Debug, PartialEq, Eq)]
pub enum Link {
    /// First or only.
    First,
    /// Neither first nor last.
    Between,
    /// Last of several.
    Last,
}

/// A control byte without the bit for the extension.
pub fn control(link: Link, index: u8, priority: u8) -> u8 {
    let links = match link {
        Link::First => 0b10,
        Link::Last => 0b01,
        Link::Between => 0b00,
    };
    links << 6 | index << 2 | priority
}

/// The packets of a message; `index` is the continuity index of the first.
pub fn packets(circuit: Circuit, message: &[u8], index: u8, priority: u8) -> Vec<Vec<u8>> {
    let segments = segments(message);
    let last = segments.len() - 1;
    let packet = |(number, segment): (usize, &Vec<u8>)| {
        let link = match number {
            0 => Link::First,
            _ if number == last => Link::Last,
            _ => Link::Between,
        };
        let index = ((usize::from(index) + number) % 8) as u8;
        let control = control(link, index, priority);
        let mut packet = match circuit.extension {
            None => vec![circuit.address, control],
            Some(extension) => vec![circuit.address, control | 0x20, extension],
        };
        packet.extend_from_slice(segment);
        packet
    };
    segments.iter().enumerate().map(packet).collect()
}

/// What a system packet tells, or shall tell.
#[derive(Clone, Copy, Debug, PartialEq, Eq)]
pub struct System<'a> {
    /// Bit p enables priority p.
    pub enable: u64,
    pub code: u64,
    pub information: &'a [u8],
}

impl System<'_> {
    /// Whether a packet can hold it (refusal 13 where not).
    pub fn in_range(&self) -> bool {
        self.enable <= 15 && self.code <= 8 && self.information.len() <= 15
    }

    /// The packet, without extension.
    pub fn packet(&self) -> Vec<u8> {
        let descriptor = (self.code as u8) << 4 | self.information.len() as u8;
        [
            &[0xFF, 0xC0 | self.enable as u8, descriptor],
            self.information,
        ]
        .concat()
    }
}

/// A packet taken apart.
#[derive(Clone, Copy, Debug, PartialEq, Eq)]
pub enum Packet<'a> {
    Malformed,
    System(System<'a>),
    Ordinary {
        circuit: Circuit,
        link: Link,
        index: u8,
        segment: &'a [u8],
    },
}

/// Takes a packet of two bytes or more apart.
pub fn parse(packet: &[u8]) -> Packet<'_> {
    let (address, control) = (packet[0], packet[1]);
    let extended = control & 0x20 != 0;
    let segment = packet.get(if extended { 3 } else { 2 }..).unwrap_or(&[]);
    if segment.is_empty() || segment.len() > 16 {
        return Packet::Malformed;
    }
    let link = match (address, control >> 6) {
        (0xFF, 0b11) => return parse_system(control, segment),
        (0xFF, _) | (_, 0b11) => return Packet::Malformed,
        (_, 0b10) => Link::First,
        (_, 0b01) => Link::Last,
        _ => Link::Between,
    };
    Packet::Ordinary {
        circuit: Circuit {
            address,
            extension: extended.then(|| packet[2]),
        },
        link,
        index: control >> 2 & 7,
        segment,
    }
}

/// The system packet with this control byte, whose segment is descriptor and information.
fn parse_system(control: u8, segment: &[u8]) -> Packet<'_> {
    let (descriptor, information) = (segment[0], &segment[1..]);
    let system = System {
        enable: u64::from(control & 15),
        code: u64::from(descriptor >> 4),
        information,
    };
    let length = usize::from(descriptor & 15);
    if control & 0x10 != 0 || length != information.len() || !system.in_range() {
        return Packet::Malformed;
    }
    Packet::System(system)
}
