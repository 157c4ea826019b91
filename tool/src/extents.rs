//! Where the flags and bodies of a pass lie. What a body is, the library's notice says; its extent is that between the last two flags,
//! which are looked for here in the same bits.

use aes18::Notice;

use crate::account::Heard;
use crate::frames::{unstuffed_bits, FLAG, FLAG_BITS};

/// Flags behind each other, eight of them: of eight bits each, and of seven where each begins with the last bit of the one before it.
const WHOLE: u64 = u64::from_le_bytes([FLAG; 8]);
const WHOLE_BITS: u64 = 8 * FLAG_BITS;
const SHARED: u64 = 0x7E_FDFB_F7EF_DFBF;
const SHARED_BITS: u64 = 7 * FLAG_BITS;
/// The most bits that a recording which begins inside a frame has before the flag behind it: all but the first bit of a flag, and the longest body, of 21
/// bytes with 33 stuffed zeros.
const LONGEST_PART: u64 = FLAG_BITS - 1 + 201;

/// What a stretch of bits is.
#[derive(Clone, Copy, Debug, PartialEq, Eq)]
pub enum Kind {
    /// The bits before the first flag; whether a recording may begin with them, inside a frame or inside closing ones.
    Before { cut: bool },
    /// The closing ones of a block: ones directly behind a flag, up to the block's end where its length is known.
    Idle,
    /// Other bits that gave no notice: void, too few, or behind the last flag. Where there is no flag, all are.
    Void,
    /// A flag or, where not each is a stretch of its own, flags behind each other.
    Flag,
    /// The bits between two flags that gave this notice.
    Body(Heard),
}

/// Neighbouring bits `from..to` of one kind, numbered from 0 over the whole pass.
#[derive(Clone, Copy, Debug, PartialEq, Eq)]
pub struct Stretch {
    pub from: u64,
    pub to: u64,
    pub kind: Kind,
}

impl Stretch {
    /// At a frame whose packet is told the stuffed zeros: what its body has beyond the bits of packet and FCS, which is what unstuffing drops.
    pub fn zeros(&self) -> Option<u64> {
        let Kind::Body(heard) = self.kind else {
            return None;
        };
        let bits = self.to - self.from;
        heard.bytes.map(|bytes| bits - unstuffed_bits(bytes))
    }

    /// At a packet of a circuit before which packets were lost, or whose loss is known only modulo 8: the circuit's number, the loss, and whether it
    /// is known only so.
    pub fn loss(&self) -> Option<(usize, u8, bool)> {
        let Kind::Body(heard) = self.kind else {
            return None;
        };
        match (heard.notice, heard.doubt.is_some()) {
            (Notice::Circuit { loss: 0, .. }, false) => None,
            (Notice::Circuit { number, loss, .. }, modulo) => Some((number, loss, modulo)),
            _ => None,
        }
    }
}

/// Where the bits stand that are in no known stretch.
#[derive(Clone, Copy, Debug, Default, PartialEq, Eq)]
enum Position {
    /// No flag was read yet.
    #[default]
    Before,
    /// Nor was one, but seven ones in a row, which no frame has.
    Unframed,
    /// Behind a flag.
    Body,
    /// Among closing ones, seven or more.
    Idle,
    /// Behind closing ones.
    Behind,
    /// In a body that seven ones voided.
    Void,
}

/// Cuts the bits into stretches. A stretch is known when the flag behind it is read; closing ones, seven or more, when they end.
pub struct Extents {
    pub known: Vec<Stretch>,
    /// Bits of a block, where that is known.
    block: Option<u64>,
    /// Whether the last byte may have spare bits.
    spare: bool,
    /// Whether each flag is a stretch of its own.
    pub each_flag: bool,
    /// How many bits are followed.
    at: u64,
    /// The first bit that is in no known stretch.
    from: u64,
    place: Position,
    /// The first zero from there on; `u64::MAX` where there is none yet.
    zero: u64,
    /// Ones in a row before `at`, and zeros.
    ones: u64,
    zeros: u64,
}

impl Extents {
    /// Nothing followed yet. Blocks are counted from bit 0.
    pub fn new(block: Option<u64>, spare: bool) -> Extents {
        Extents {
            known: Vec::new(),
            block,
            spare,
            each_flag: false,
            at: 0,
            from: 0,
            place: Position::Before,
            zero: u64::MAX,
            ones: 0,
            zeros: 0,
        }
    }

    /// Whether closing ones are read.
    pub fn is_idle(&self) -> bool {
        self.place == Position::Idle
    }

    /// Follows the bits `from..to` of the bytes, of which the last one gave the notice, if there is one.
    pub fn follow(&mut self, bytes: &[u8], from: u64, to: u64, notice: Option<Notice>) {
        let mut bit = from;
        while bit < to {
            let (bits, most) = window(bytes, bit, to);
            let at_once = match most >= FLAG_BITS as u32 && bits.to_le_bytes()[0] == FLAG {
                true => self.take_flag(bits, most, notice.filter(|_| bit + FLAG_BITS == to)),
                false => self.take_plain(bits, most),
            };
            bit += match bits & 1 == 1 {
                _ if at_once > 0 => at_once,
                true => self.ones(most.min(bits.trailing_ones()).into()),
                false => {
                    let zeros = most.min(bits.trailing_zeros()).into();
                    self.zeros(zeros, notice.filter(|_| bit + 1 == to))
                }
            };
        }
    }

    /// Follows at once what stands before six ones in a row among so many bits, or flags behind each other; answers how many bits that was.
    fn take_plain(&mut self, bits: u64, most: u32) -> u64 {
        let flags = if most == 64 { self.take_flags(bits) } else { 0 };
        if flags > 0 {
            return flags;
        }
        let two = bits & bits >> 1;
        let six = two & two >> 2 & two >> 4;
        let count = most.min(six.trailing_zeros());
        match count > 0 && self.take(bits & u64::MAX >> (64 - count), count) {
            true => count.into(),
            false => 0,
        }
    }

    /// Follows at once the flag, or flags, with which so many bits begin, unless its first bit ends a flag too; answers how many bits that was.
    fn take_flag(&mut self, bits: u64, most: u32, notice: Option<Notice>) -> u64 {
        let flags = if most == 64 { self.take_flags(bits) } else { 0 };
        if flags > 0 || self.ones == 6 {
            return flags;
        }
        if self.place == Position::Idle {
            self.end_ones();
        }
        self.zero = self.zero.min(self.at);
        self.at += FLAG_BITS - 1;
        self.flag(notice);
        self.at += 1;
        self.ones = 0;
        FLAG_BITS
    }

    /// Follows so many bits, the first in the lowest, among which no six ones stand in a row, unless together with those before they end a flag, void a
    /// body or end seven or more ones.
    fn take(&mut self, bits: u64, count: u32) -> bool {
        let first = bits.trailing_ones();
        if first == count || self.ones + u64::from(first) >= 6 {
            return false;
        }
        let last = bits << (64 - count);
        self.zero = self.zero.min(self.at + u64::from(first));
        self.ones = last.leading_ones().into();
        self.zeros = match bits {
            0 => self.zeros + u64::from(count),
            _ => last.leading_zeros().into(),
        };
        self.at += u64::from(count);
        true
    }

    /// Follows flags behind a flag at once, which are one stretch, where these bits are nothing else; answers how many bits that was.
    fn take_flags(&mut self, bits: u64) -> u64 {
        let begun = self.at - self.from;
        if self.each_flag || self.place != Position::Body || begun >= FLAG_BITS {
            return 0;
        }
        let whole = begun == 0 || self.zero == self.from && self.ones == begun - 1;
        let shared = self.zero == u64::MAX && self.ones == begun;
        let count = if whole && bits == WHOLE.rotate_right(begun as u32) {
            WHOLE_BITS
        } else if shared && bits << 8 == shared_from(begun) << 8 {
            SHARED_BITS
        } else {
            return 0;
        };
        self.join_flags(self.from + count);
        self.at += count;
        self.zero = self.zero.saturating_add(count);
        count
    }

    /// The bits up to the bit `to` are flags, in one stretch with others that are more than one.
    fn join_flags(&mut self, to: u64) {
        match self.known.last_mut() {
            Some(last) if last.kind == Kind::Flag && last.to - last.from > FLAG_BITS => {
                last.to = to;
                self.from = to;
            }
            _ => self.cut(to, Kind::Flag),
        }
    }

    /// So many ones. The seventh in a row voids a body, and is in none before the first flag; where they stand directly behind the flag they are closing
    /// ones.
    fn ones(&mut self, count: u64) -> u64 {
        let first = self.at - self.ones;
        self.ones += count;
        self.zeros = 0;
        self.at += count;
        if self.ones >= 7 {
            self.place = match self.place {
                Position::Before => Position::Unframed,
                Position::Body if first == self.from && self.from < self.block_end() => {
                    Position::Idle
                }
                Position::Body => Position::Void,
                other => other,
            };
        }
        count
    }

    /// So many zeros. The first, behind exactly six ones with a zero before them, ends a flag.
    fn zeros(&mut self, count: u64, notice: Option<Notice>) -> u64 {
        if self.place == Position::Idle {
            self.end_ones();
        }
        let behind = match self.ones == 6 && self.at > 6 {
            true => {
                self.flag(notice);
                self.at + 1
            }
            false => self.at,
        };
        self.at += count;
        self.ones = 0;
        if behind < self.at {
            self.zero = self.zero.min(behind);
            self.zeros += self.at - behind;
        }
        count
    }

    /// The last bit of a flag, whose first bit may be the last of the flag before it.
    fn flag(&mut self, notice: Option<Notice>) {
        let first = self.at - 7;
        match (notice, self.place) {
            (Some(notice), _) => self.cut(first, Kind::Body(Heard::plain(notice))),
            (None, Position::Before | Position::Unframed) => {
                let cut = self.may_begin(first);
                self.cut(first, Kind::Before { cut });
            }
            (None, Position::Body) if self.zero >= first => self.cut_ones(first),
            (None, _) => self.cut(first, Kind::Void),
        }
        self.cut(self.at + 1, Kind::Flag);
        self.place = Position::Body;
        self.zero = u64::MAX;
        self.zeros = 0;
    }

    /// Whether a recording may begin with bit 0 where the first flag begins with this bit: inside a frame, or inside closing ones, of which a block has
    /// some before its end and a flag before them.
    fn may_begin(&self, flag: u64) -> bool {
        let in_frame = self.place == Position::Before && flag <= LONGEST_PART;
        let in_ones = self.zero >= flag && self.block.is_none_or(|bits| flag < bits);
        in_frame || in_ones
    }

    /// Seven or more ones end before this bit. Those behind the block's end are no closing ones, and nor is what stands behind them.
    fn end_ones(&mut self) {
        self.place = match self.at <= self.block_end() {
            true => Position::Behind,
            false => Position::Void,
        };
        self.cut(self.at.min(self.block_end()), Kind::Idle);
    }

    /// The bits not yet in a stretch, up to the bit `to`, are ones behind a flag.
    fn cut_ones(&mut self, to: u64) {
        self.cut(to.min(self.block_end()), Kind::Idle);
        self.cut(to, Kind::Void);
    }

    /// The last stretches.
    pub fn end(&mut self) {
        match self.place {
            Position::Idle => {
                self.end_ones();
                self.cut(self.at, Kind::Void);
            }
            Position::Body if self.is_closed(self.zero) => self.cut_ones(self.zero.min(self.at)),
            Position::Behind if self.is_closed(self.from) => {}
            _ => self.cut(self.at, Kind::Void),
        }
    }

    /// Whether from this bit on, behind closing ones or a flag, there are no bits but spare ones of the last byte, which are in no stretch: up to seven
    /// zeros.
    fn is_closed(&self, zero: u64) -> bool {
        let rest = self.at.saturating_sub(zero);
        let spare = self.spare && rest < 8 && zero <= self.block_end();
        rest == 0 || rest == self.zeros && spare
    }

    /// The end of the block that the last bit of a known stretch is in.
    fn block_end(&self) -> u64 {
        self.block
            .map_or(u64::MAX, |bits| self.from.div_ceil(bits) * bits)
    }

    /// The bits not yet in a stretch are one up to, and not with, the bit `to`, if any are before it.
    fn cut(&mut self, to: u64, kind: Kind) {
        if self.from < to {
            let from = self.from;
            self.known.push(Stretch { from, to, kind });
            self.from = to;
        }
    }
}

/// The next bits of the bytes before the bit `to`, the first in the lowest, the others 0, and how many they are.
fn window(bytes: &[u8], bit: u64, to: u64) -> (u64, u32) {
    let here = &bytes[(bit / 8) as usize..];
    let begun = (bit % 8) as u32;
    let (bits, most) = match here.first_chunk::<9>() {
        Some([eight @ .., ninth]) => {
            let nine = u128::from(*ninth) << 64 | u128::from(u64::from_le_bytes(*eight));
            ((nine >> begun) as u64, 64)
        }
        None => (u64::from(here[0]) >> begun, 8 - begun),
    };
    let most = most.min((to - bit).min(64) as u32);
    (bits & u64::MAX >> (64 - most), most)
}

/// Flags that share zeros, from that bit of the first on, its shared zero not counted.
fn shared_from(bit: u64) -> u64 {
    SHARED >> bit | SHARED << (SHARED_BITS - bit)
}

#[cfg(test)]
mod tests {
    use super::*;

    /// The stretches that were cut, each as its kind's letter and its length.
    fn letters(extents: &Extents) -> String {
        let mut end = 0;
        let letters = extents.known.iter().map(|stretch| {
            assert_eq!(stretch.from, end);
            end = stretch.to;
            let letter = match stretch.kind {
                Kind::Before { cut: true } => 's',
                Kind::Before { cut: false } => 'n',
                Kind::Idle => 'i',
                Kind::Void => 'v',
                Kind::Flag => 'f',
                Kind::Body(_) => 'b',
            };
            format!("{letter}{}", stretch.to - stretch.from)
        });
        letters.collect::<Vec<_>>().join(" ")
    }

    /// The stretches of bits written as text, where `|` behind a bit says that it gave the notice Spoilt. Spaces are left out.
    fn cut_with(block: Option<u64>, spare: bool, text: &str) -> String {
        let mut extents = Extents::new(block, spare);
        let mut bits = text.chars().filter(|c| *c != ' ').peekable();
        while let Some(bit) = bits.next() {
            let notice = bits.next_if_eq(&'|').map(|_| Notice::Spoilt);
            extents.follow(&[u8::from(bit == '1')], 0, 1, notice);
        }
        extents.end();
        letters(&extents)
    }

    fn cut(text: &str) -> String {
        cut_with(None, true, text)
    }

    fn cut_in_blocks(block: u64, text: &str) -> String {
        cut_with(Some(block), true, text)
    }

    #[test]
    fn flags() {
        assert_eq!(cut("01111110"), "f8");
        assert_eq!(cut("01111110 01111110"), "f8 f8");
        assert_eq!(cut("01111110 1111110"), "f8 f7");
        assert_eq!(cut("1111110 1"), "v8");
        assert_eq!(cut("1111110 1111110"), "s6 f8");
        assert_eq!(cut("01111111 0"), "v9");
        assert_eq!(cut("01111111 01111110"), "n8 f8");
    }

    #[test]
    fn between_flags() {
        assert_eq!(cut("01111110 0101 01111110|"), "f8 b4 f8");
        assert_eq!(cut("01111110 0101 01111110"), "f8 v4 f8");
        assert_eq!(cut("01111110 111 01111110"), "f8 i3 f8");
        assert_eq!(cut("01111110 11111 01111110"), "f8 i5 f8");
        assert_eq!(cut("01111110 11111111111 01111110"), "f8 i11 f8");
    }

    /// Ones are closing ones only directly behind a flag, and only where they are all of the body or void it.
    #[test]
    fn ones_that_close_nothing() {
        assert_eq!(cut("01111110 0100 1111111 00 01111110"), "f8 v13 f8");
        assert_eq!(cut("01111110 0 1111111 01111110"), "f8 v8 f8");
        assert_eq!(cut("01111110 1111111 00 01111110"), "f8 i7 v2 f8");
        assert_eq!(cut("01111110 1111111 0 11111111 01111110"), "f8 i7 v9 f8");
        assert_eq!(cut("01111110 111 00 01111110"), "f8 v5 f8");
        assert_eq!(cut("01111110 111 00 01111110|"), "f8 b5 f8");
        assert_eq!(cut("11111111111 01111110"), "s11 f8");
    }

    #[test]
    fn before_the_first_flag() {
        assert_eq!(cut("0101 01111110 1"), "s4 f8 i1");
        assert_eq!(cut("0000 0000"), "v8");
        assert_eq!(cut("1111 1111"), "v8");
        assert_eq!(cut("000"), "v3");
    }

    /// A recording may begin inside a frame, which has no seven ones and 208 bits at most before its flag, or inside closing ones.
    #[test]
    fn where_a_recording_may_begin() {
        let before = |bits: &str| cut(&format!("{bits} 01111110"));
        let zeros = |count| "0".repeat(count);
        let ones = |count| "1".repeat(count);
        assert_eq!(before(&zeros(208)), "s208 f8");
        assert_eq!(before(&zeros(209)), "n209 f8");
        assert_eq!(before(&format!("1111110 {}", zeros(201))), "s208 f8");
        assert_eq!(before("1111110 11111"), "s12 f8");
        for count in [1, 6, 7, 208, 209, 5000] {
            assert_eq!(before(&ones(count)), format!("s{count} f8"));
        }
        assert_eq!(before("0 1111111"), "n8 f8");
        assert_eq!(before("0 1111111 000"), "n11 f8");
        assert_eq!(before("1111111 0"), "n8 f8");
        assert_eq!(before(&format!("1111111 {}", zeros(300))), "n307 f8");
        for (count, expected) in [(19, "s19 f8"), (20, "n20 f8"), (21, "n21 f8")] {
            let bits = format!("{} 01111110", ones(count));
            assert_eq!(cut_in_blocks(20, &bits), expected);
        }
        assert_eq!(
            cut_in_blocks(20, &format!("{} 01111110", zeros(50))),
            "s50 f8"
        );
    }

    #[test]
    fn ends() {
        assert_eq!(cut(""), "");
        assert_eq!(cut("01111110 1111"), "f8 i4");
        assert_eq!(cut("01111110 11111111"), "f8 i8");
        assert_eq!(cut("01111110 1111 0000000"), "f8 i4");
        assert_eq!(cut("01111110 1111 00000000"), "f8 v12");
        assert_eq!(cut("01111110 11111111 000"), "f8 i8");
        assert_eq!(cut("01111110 11111111 0000000"), "f8 i8");
        assert_eq!(cut("01111110 11111111 00000000"), "f8 i8 v8");
        assert_eq!(cut("01111110 11111111 0100"), "f8 i8 v4");
        assert_eq!(cut("01111110 01011 000"), "f8 v8");
        assert_eq!(cut("01111110 0101 1111111 000"), "f8 v14");
        assert_eq!(cut("01111110 000"), "f8");
        assert_eq!(cut("01111110 0000000"), "f8");
        assert_eq!(cut("01111110 00000000"), "f8 v8");
    }

    /// A capture has no spare bits.
    #[test]
    fn ends_without_spare_bits() {
        let cut = |text| cut_with(None, false, text);
        assert_eq!(cut("01111110 1111"), "f8 i4");
        assert_eq!(cut("01111110 1111 0"), "f8 v5");
        assert_eq!(cut("01111110 11111111 000"), "f8 i8 v3");
        assert_eq!(cut("01111110 000"), "f8 v3");
    }

    /// Closing ones end where their block does, which is the one that has the last bit of the flag.
    #[test]
    fn blocks() {
        let ones = "01111110 1111 11111111 01111110";
        assert_eq!(cut_in_blocks(20, ones), "f8 i12 f8");
        assert_eq!(cut_in_blocks(12, ones), "f8 i4 v8 f8");
        assert_eq!(cut_in_blocks(11, ones), "f8 i3 v9 f8");
        assert_eq!(cut_in_blocks(8, ones), "f8 v12 f8");
        assert_eq!(cut_in_blocks(7, ones), "f8 i6 v6 f8");
        let three = "01111110 111 01111110";
        assert_eq!(cut_in_blocks(11, three), "f8 i3 f8");
        assert_eq!(cut_in_blocks(10, three), "f8 i2 v1 f8");
        assert_eq!(cut_in_blocks(8, three), "f8 v3 f8");
        assert_eq!(cut_in_blocks(10, "01111110 11111111"), "f8 i2 v6");
        assert_eq!(cut_in_blocks(10, "01111110 11111111 000"), "f8 i2 v9");
        assert_eq!(cut_in_blocks(16, "01111110 11111111 000"), "f8 i8");
        assert_eq!(cut_in_blocks(8, "01111110 000"), "f8");
        assert_eq!(cut_in_blocks(10, "01111110 111 000"), "f8 v6");
        assert_eq!(cut_in_blocks(10, "01111110 111 00 01111110|"), "f8 b5 f8");
    }

    /// Bytes at once and bit by bit, in calls that end anywhere, cut the same.
    #[test]
    fn bytes_at_once() {
        let mut state = 1u32;
        let mut random = move || {
            state = state.wrapping_mul(1_664_525).wrapping_add(1_013_904_223);
            state >> 16
        };
        let mut joins = 0;
        for trial in 0..400 {
            // Bytes with many flags, ones and zeros in them, at all places.
            let mut bytes: Vec<u8> = (0..100)
                .map(|_| {
                    [0x7E, 0xFF, 0x00, 0x3F, 0xF8, 0x1F, 0xFC, random() as u8]
                        [random() as usize % 8]
                })
                .collect();
            let start = random() as usize % 80;
            bytes[start..start + 20].fill([0x00, 0xFF, 0x55][trial % 3]);
            fill_with_flags(&mut bytes, trial, random() as usize % 700);
            let block = [None, Some(64), Some(100)][random() as usize % 3];
            let [mut at_once, mut by_bits, mut joined] = [0; 3].map(|_| Extents::new(block, true));
            at_once.each_flag = true;
            let mut from = 0;
            while from < 800 {
                let to = (from + 1 + u64::from(random() % 300)).min(800);
                at_once.follow(&bytes, from, to, None);
                joined.follow(&bytes, from, to, None);
                (from..to).for_each(|bit| by_bits.follow(&bytes, bit, bit + 1, None));
                assert_eq!(at_once.is_idle(), by_bits.is_idle());
                assert_eq!(joined.is_idle(), by_bits.is_idle());
                from = to;
            }
            at_once.end();
            by_bits.end();
            joined.end();
            assert_eq!(letters(&at_once), letters(&by_bits), "{bytes:02X?}");
            assert_eq!(in_runs(&joined.known), in_runs(&by_bits.known));
            joins += usize::from(joined.known.len() < by_bits.known.len());
        }
        assert!(joins > 300, "{joins}");
    }

    /// Flags of eight bits, or such as share zeros, from that bit on.
    fn fill_with_flags(bytes: &mut [u8], trial: usize, from: usize) {
        let flag = [0, 1, 1, 1, 1, 1, 1, 0];
        let period = 7 + trial % 2;
        for number in 0..90 + trial % 100 {
            let (byte, place) = ((from + number) / 8, (from + number) % 8);
            if let Some(byte) = bytes.get_mut(byte) {
                *byte = *byte & !(1 << place) | flag[number % period] << place;
            }
        }
    }

    /// Stretches in which flags behind each other are one; of these it counts whether they are one or more.
    fn in_runs(stretches: &[Stretch]) -> Vec<(u64, u64, Kind, bool)> {
        let mut runs: Vec<(u64, u64, Kind, bool)> = Vec::new();
        for Stretch { from, to, kind } in stretches.iter().copied() {
            match runs.last_mut() {
                Some(last) if kind == Kind::Flag && last.2 == Kind::Flag => {
                    (last.1, last.3) = (to, true);
                }
                _ => runs.push((from, to, kind, to - from > FLAG_BITS)),
            }
        }
        runs
    }
}
