//! A serial line being read.

use aes18::{LineRead, LineReader, LONGEST_LINE_FRAME};

use super::form::Rest;
use crate::frames::FLAG;
use crate::gaps::{Gap, Gaps};

/// The most bytes that a line which begins inside a frame has before the flag behind it.
const LONGEST_PART: u64 = LONGEST_LINE_FRAME as u64 - 2;

/// The library's reader, and what gave it no packet.
#[derive(Default)]
pub struct Line {
    reader: LineReader,
    /// Bytes read.
    at: u64,
    /// The first byte behind the last flag; 0 where there is none.
    from: u64,
    /// Whether a flag was read.
    inside: bool,
    dropped: u64,
    gaps: Gaps,
}

impl Line {
    /// Reads up to behind the next packet, or to the end of the bytes.
    pub fn read(&mut self, bytes: &[u8]) -> LineRead {
        let read = self.reader.read(bytes);
        let bytes = &bytes[..read.bytes];
        for (place, _) in bytes.iter().enumerate().filter(|(_, byte)| **byte == FLAG) {
            let last = place + 1 == bytes.len();
            self.flag(self.at + place as u64, read.packet.is_some() && last);
        }
        self.at += bytes.len() as u64;
        read
    }

    /// A flag at that byte, which closes a packet's frame or not.
    fn flag(&mut self, at: u64, packet: bool) {
        if packet {
            self.gaps.bound();
        } else if self.from < at {
            match self.inside {
                true => self.gaps.add(self.from, at),
                false => self.gaps.before(self.from, at, at <= LONGEST_PART),
            }
            self.dropped += u64::from(self.inside);
        }
        self.gaps.flag(at, at + 1);
        self.from = at + 1;
        self.inside = true;
    }

    /// Ends the reading, when all bytes are read.
    pub fn end(&mut self) {
        if self.from < self.at {
            self.gaps.add(self.from, self.at);
        }
        self.gaps.end();
    }

    /// The stretches in no frame known since this was asked last.
    pub fn gaps(&mut self) -> Vec<Gap> {
        self.gaps.take()
    }

    /// How many bytes stand in no frame by now, without those before the first flag.
    pub fn free(&self) -> u64 {
        self.gaps.total()
    }

    /// What gave no packet in the bytes read so far.
    pub fn rest(&self) -> Rest {
        Rest {
            dropped: self.dropped,
            behind: match self.inside {
                true => self.at - self.from,
                false => 0,
            },
        }
    }
}

#[cfg(test)]
mod tests {
    use super::*;
    use crate::frames::on_line;

    /// Reads a line given in parts: its packets, how often bytes between two flags were dropped, how many stand behind the last flag, and the stretches
    /// in no frame, of which the one before the first flag has `b` in front, or `B` where no line may begin with it.
    fn read(parts: &[&[u8]]) -> (Vec<Vec<u8>>, [u64; 2], String) {
        let mut line = Line::default();
        let mut packets = Vec::new();
        for part in parts {
            let mut at = 0;
            while let LineRead {
                packet: Some(packet),
                bytes,
            } = line.read(&part[at..])
            {
                packets.push(packet.to_vec());
                at += bytes;
            }
        }
        let rest = line.rest();
        line.end();
        let gaps = line.gaps();
        let gaps = gaps.iter().map(|gap| {
            let first = match (gap.first, gap.wrong) {
                (true, false) => "b",
                (true, true) => "B",
                (false, _) => "",
            };
            format!("{first}{}..{}", gap.from, gap.to)
        });
        let gaps = gaps.collect::<Vec<_>>().join(" ");
        (packets, [rest.dropped, rest.behind], gaps)
    }

    /// Bytes before the first flag and none between two are nothing that is dropped, nor are those behind the last flag.
    #[test]
    fn what_gives_no_packet() {
        let cases: [(&[u8], [u64; 2], &str); 14] = [
            (b"", [0, 0], ""),
            (b"before", [0, 0], "0..6"),
            (b"before~", [0, 0], "b0..6 6..7"),
            (b"before~}behind", [0, 7], "b0..6 6..14"),
            (b"before~~", [0, 0], "b0..6"),
            (b"~~~~", [0, 0], ""),
            (b"~behind", [0, 6], "0..7"),
            (b"~~behind}", [0, 7], "2..9"),
            (b"~no FCS~", [1, 0], "0..8"),
            (b"~no FCS~~~none~", [2, 0], "0..7 10..15"),
            (b"}~no FCS~behind", [1, 6], "b0..1 1..15"),
            (b"~a flag}~", [1, 0], "0..9"),
            (b"~}~", [1, 0], "0..3"),
            (b"~\0\0~", [1, 0], "0..4"),
        ];
        for (line, rest, gaps) in cases {
            let expected = (Vec::new(), rest, gaps.to_string());
            assert_eq!(read(&[line]), expected, "{line:?}");
        }
    }

    /// A line may begin inside a frame, which has 42 bytes at most between its flags.
    #[test]
    fn where_a_line_may_begin() {
        let longest = on_line(&[FLAG; 19]).unwrap();
        assert!(longest.len() as u64 <= LONGEST_PART + 2);
        for (length, letter) in [(42, 'b'), (43, 'B')] {
            let line = [&vec![0; length][..], b"~~"].concat();
            assert_eq!(read(&[&line]).2, format!("{letter}0..{length}"));
        }
    }

    #[test]
    fn cut_at_every_byte() {
        let (first, second) = (&b"}~} first"[..], &b"second"[..]);
        let frames = [first, second].map(|packet| on_line(packet).unwrap());
        let line = [
            b"before}~wrong",
            &frames[0][..],
            b"~short~",
            &frames[1],
            b"}~last",
        ]
        .concat();
        let packets = vec![first.to_vec(), second.to_vec()];
        let start = 13 + frames[0].len();
        let last = start + 7 + frames[1].len();
        let gaps = format!(
            "b0..7 7..13 {}..{} {last}..{}",
            start + 1,
            start + 6,
            last + 6
        );
        let expected = (packets, [3, 4], gaps);
        for cut in 0..=line.len() {
            let (start, end) = line.split_at(cut);
            assert_eq!(read(&[start, end]), expected, "{cut}");
        }
        let bytes: Vec<&[u8]> = line.chunks(1).collect();
        assert_eq!(read(&bytes), expected);
    }
}
