//! Long messages: whole through blocks and reads at the edges of their lengths, mixed with shorter ones, ended wrongly, and every refusal of the calls
//! that are given a long buffer.

use aes18::{
    ffi, Circuit, Fate, Figures, Notice, Open, Receiver, Refusal, Sender, SystemPacket, Totals,
};
use aes18::{
    LONGEST_LONG_MESSAGE, LONGEST_MESSAGE, LONG_BUFFER, RECEIVER_STORE, REGION, SENDER_STORE,
    SHORTEST_LONG_MESSAGE,
};

use super::frames::{bits_of, bytes_of, framed, plain};

/// Links of a packet's control byte.
const FIRST: u8 = 0b1000_0000;
const LAST: u8 = 0b0100_0000;
const BETWEEN: u8 = 0;

/// The priority of every message at circuit 0.
const PRIORITY: u8 = 2;

/// What stores and buffers hold at first, and how many bytes more than it needs a buffer has here.
const OLD: u8 = 0xAA;
const BEHIND: usize = 5;

/// Lengths of long messages, and their packets: a header of two bytes and the message are cut into segments of 16 bytes.
const MESSAGES: [(usize, usize); 5] = [
    (4095, 257),
    (4110, 257),
    (4111, 258),
    (65_534, 4096),
    (65_535, 4097),
];

/// A message of so many bytes, with bytes of ones that stuffing adds to.
fn text(length: usize) -> Vec<u8> {
    let byte = |at: usize| if at % 7 == 3 { 0xFF } else { at * at % 257 };
    (0..length).map(|at| byte(at) as u8).collect()
}

fn circuits() -> [Circuit; 2] {
    let extended = Circuit {
        address: 0x02,
        extension: Some(0x07),
    };
    [plain(0x01), extended]
}

/// A packet of circuit 0: its link, its index modulo 8 and its segment. All have the same priority.
fn packet(link: u8, index: usize, segment: &[u8]) -> Vec<u8> {
    let index = (index % 8) as u8;
    [&[0x01, link | index << 2 | PRIORITY], segment].concat()
}

/// The packets of a long message, the first of which has index 0.
fn packets(message: &[u8]) -> Vec<Vec<u8>> {
    let bytes = [&[0x1F, 0xFF], message].concat();
    let segments: Vec<&[u8]> = bytes.chunks(16).collect();
    let link = |at| match at {
        0 => FIRST,
        at if at + 1 == segments.len() => LAST,
        _ => BETWEEN,
    };
    let numbered = segments.iter().enumerate();
    let packets = numbered.map(|(at, segment)| packet(link(at), at, segment));
    packets.collect()
}

/// A notice of circuit 0.
fn told(loss: u8, fate: Fate) -> Notice {
    Notice::Circuit {
        number: 0,
        loss,
        fate,
    }
}

/// An end that sends, and what is lent to it.
struct Sending {
    sender: Sender,
    store: Vec<u8>,
    buffer: Vec<u8>,
}

impl Sending {
    fn new() -> Sending {
        Sending {
            sender: Sender::list(&circuits()).unwrap(),
            store: vec![OLD; SENDER_STORE],
            buffer: vec![OLD; LONG_BUFFER + BEHIND],
        }
    }

    /// Offers a message at circuit 0, in the way of its length.
    fn offer(&mut self, repetition: u64, message: &[u8]) -> Result<(), Refusal> {
        let (sender, priority) = (&mut self.sender, u64::from(PRIORITY));
        if message.len() > LONGEST_MESSAGE {
            let (store, buffer) = (&self.store, &mut self.buffer);
            sender.offer_long(store, buffer, priority, repetition, message)
        } else {
            let (store, buffer) = (&mut self.store, &self.buffer);
            sender.offer_beside(store, buffer, 0, priority, repetition, message)
        }
    }

    /// Makes a block of so many bits, and answers it with the frames placed.
    fn block(&mut self, n: u64) -> (Vec<u8>, usize) {
        let mut bits = vec![OLD; n.div_ceil(8) as usize];
        let made = self
            .sender
            .block_beside(&self.store, &self.buffer, n, n, None, &mut bits);
        (bits, made.unwrap().placed as usize)
    }
}

/// An end that receives, what is lent to it, and its totals.
struct Receiving {
    receiver: Receiver,
    store: Vec<u8>,
    buffer: Vec<u8>,
    totals: Totals,
}

impl Receiving {
    fn new() -> Receiving {
        Receiving {
            receiver: Receiver::list(&circuits()).unwrap(),
            store: vec![OLD; RECEIVER_STORE],
            buffer: vec![OLD; LONG_BUFFER + BEHIND],
            totals: Totals::empty(),
        }
    }

    /// Reads so many bits, and answers their notices before End, each with the message that is handed over.
    fn read(&mut self, bits: &[u8], to: u64) -> Vec<(Notice, Option<Vec<u8>>)> {
        let mut heard = Vec::new();
        let mut from = 0;
        loop {
            let (store, buffer) = (&mut self.store, &mut self.buffer);
            let read = self.receiver.read_beside(store, buffer, bits, from, to);
            let read = read.unwrap();
            from += read.bits;
            self.totals.note(&read.notice);
            if read.notice == Notice::End {
                return heard;
            }
            let message = read.notice.message_beside(&self.store, &self.buffer);
            heard.push((read.notice, message.map(<[u8]>::to_vec)));
        }
    }

    /// Hears a packet in its frame.
    fn hear(&mut self, packet: &[u8]) -> Notice {
        let bits = framed(&[packet]);
        let heard = self.read(&bytes_of(&bits), bits.len() as u64);
        assert_eq!(heard.len(), 1);
        heard[0].0
    }

    /// Hears the first packets of a message, the first of which has this index, up to so many of its bytes: 14 and a multiple of 16. The next index.
    fn collect(&mut self, index: usize, message: &[u8], length: usize) -> usize {
        let segment = [&[0x1F, 0xFF], &message[..14]].concat();
        let begun = self.hear(&packet(FIRST, index, &segment));
        assert_eq!(begun, told(0, Fate::Begun));
        let mut next = index + 1;
        for segment in message[14..length].chunks(16) {
            let held = self.hear(&packet(BETWEEN, next, segment));
            assert_eq!(held, told(0, Fate::Held));
            next += 1;
        }
        self.is_open(length);
        self.is_collected(&message[..length]);
        next
    }

    /// A long message is open of which so many bytes have come.
    fn is_open(&self, received: usize) {
        let length = LONGEST_LONG_MESSAGE;
        let open = self.receiver.open(0);
        assert_eq!(open, Some(Open { length, received }));
        assert!(open.unwrap().is_long());
    }

    /// The buffer begins with these bytes, and no other of it is written, nor any of the store.
    fn is_collected(&self, bytes: &[u8]) {
        let (collected, behind) = self.buffer.split_at(bytes.len());
        assert!(collected == bytes, "other bytes are collected");
        assert!(behind.iter().all(|byte| *byte == OLD), "more is written");
        let store = &self.store;
        assert!(
            store.iter().all(|byte| *byte == OLD),
            "the store is written"
        );
    }
}

/// Sends a message in blocks of so many bits. Each block has the packets that are next, as many as fit, and the receiver makes of them what it should.
fn go_over(message: &[u8], n: u64) {
    let (mut sending, mut receiving) = (Sending::new(), Receiving::new());
    sending.offer(0, message).unwrap();
    assert!(sending.store == [OLD; SENDER_STORE], "the store is written");
    assert_eq!(sending.buffer[..message.len()], *message);
    let behind = &sending.buffer[message.len()..];
    assert!(
        behind.iter().all(|byte| *byte == OLD),
        "more than the message is written"
    );

    let packets = packets(message);
    let packets: Vec<&[u8]> = packets.iter().map(Vec::as_slice).collect();
    let mut next = 0;
    while next < packets.len() {
        assert_eq!(sending.sender.waiting(0), packets.len() - next);
        let (bits, placed) = sending.block(n);
        let behind = next + placed;
        let mut wanted = framed(&packets[next..behind]);
        let more = packets.get(next..=behind).map(framed);
        assert!(more.is_none_or(|more| more.len() as u64 > n));
        wanted.resize(n as usize, true);
        assert!(bits_of(&bits)[..n as usize] == wanted, "another block");

        let heard = receiving.read(&bits, n);
        let fates = (next..behind).map(|at| match at {
            0 => Fate::Begun,
            at if at + 1 == packets.len() => Fate::Whole(message.len()),
            _ => Fate::Held,
        });
        let notices: Vec<Notice> = heard.iter().map(|heard| heard.0).collect();
        assert_eq!(notices, fates.map(|fate| told(0, fate)).collect::<Vec<_>>());
        if behind == packets.len() {
            assert!(heard.last().unwrap().1.as_deref() == Some(message));
            receiving.is_collected(message);
            assert_eq!(receiving.receiver.open(0), None);
        } else {
            receiving.is_open(14 + 16 * (behind - 1));
            receiving.is_collected(&message[..14 + 16 * (behind - 1)]);
        }
        next = behind;
    }
    assert_eq!(sending.sender.waiting(0), 0);
    let figures = Figures {
        messages: 1,
        bytes: message.len() as u32,
        lost: 0,
        orphaned: 0,
    };
    assert_eq!(receiving.totals.circuit(0), Some(figures));
}

#[test]
fn lengths() {
    assert_eq!(SHORTEST_LONG_MESSAGE, 4095);
    assert_eq!(LONGEST_LONG_MESSAGE, 65_535);
    assert_eq!(LONG_BUFFER, 65_535);
    for (length, count) in MESSAGES {
        assert_eq!(packets(&text(length)).len(), count);
    }
}

#[test]
fn long_messages_go_over_whole() {
    for (length, _) in MESSAGES {
        for n in [1920, 27_000] {
            go_over(&text(length), n);
        }
    }
    go_over(&text(SHORTEST_LONG_MESSAGE), 256);
}

/// Each packet comes three times; the copies are told and change nothing.
#[test]
fn copies_of_a_long_message() {
    let (mut sending, mut receiving) = (Sending::new(), Receiving::new());
    let message = text(5000);
    sending.offer(2, &message).unwrap();
    let mut fates = Vec::new();
    while sending.sender.waiting(0) > 0 {
        let (bits, _) = sending.block(3000);
        let heard = receiving.read(&bits, 3000);
        fates.extend(heard.into_iter().map(|heard| heard.0));
    }
    let packets = packets(&message).len();
    for (at, fates) in fates.chunks(3).enumerate() {
        let fate = match at {
            0 => Fate::Begun,
            at if at + 1 == packets => Fate::Whole(5000),
            _ => Fate::Held,
        };
        assert_eq!(
            fates,
            [fate, Fate::Copy, Fate::Copy].map(|fate| told(0, fate))
        );
    }
    assert_eq!(fates.len(), 3 * packets);
    receiving.is_collected(&message);
}

/// Long and shorter messages in turn at circuit 0: each is handed over from its place, and what the other place holds stays.
#[test]
fn long_and_shorter_messages_in_turn() {
    let (mut sending, mut receiving) = (Sending::new(), Receiving::new());
    let long = text(LONGEST_LONG_MESSAGE);
    let lengths = [65_535, 4094, 4095, 0, 15, 20_000, 4110, 16, 4095];
    let (mut region, mut buffer) = (vec![OLD; REGION], vec![OLD; LONG_BUFFER + BEHIND]);
    for (from, length) in lengths.into_iter().enumerate() {
        let message = [&long[from..], &long].concat()[..length].to_vec();
        sending.offer(0, &message).unwrap();
        let place = match length > LONGEST_MESSAGE {
            true => &mut buffer,
            false => &mut region,
        };
        place[..length].copy_from_slice(&message);

        let mut whole = Vec::new();
        while sending.sender.waiting(0) > 0 {
            let (bits, _) = sending.block(27_000);
            whole.extend(
                receiving
                    .read(&bits, 27_000)
                    .into_iter()
                    .filter_map(|heard| heard.1),
            );
        }
        assert!(whole == [message], "another message is handed over");
        for (store, of) in [
            (&sending.store, &sending.buffer),
            (&receiving.store, &receiving.buffer),
        ] {
            assert!(store[..REGION] == region, "the region");
            assert!(*of == buffer, "the buffer");
            assert!(store[REGION..].iter().all(|byte| *byte == OLD));
        }
    }
    assert_eq!(receiving.totals.circuit(0).unwrap().messages, 9);
    assert_eq!(receiving.totals.circuit(0).unwrap().lost, 0);
}

/// A message at circuit 1 goes over between the packets of a long one.
#[test]
fn another_circuit_beside_a_long_message() {
    let (mut sending, mut receiving) = (Sending::new(), Receiving::new());
    let message = text(SHORTEST_LONG_MESSAGE);
    sending.offer(0, &message).unwrap();
    let mut whole = Vec::new();
    while sending.sender.waiting(0) > 0 {
        if sending.sender.waiting(1) == 0 {
            let (store, buffer) = (&mut sending.store, &sending.buffer);
            let offered = sending
                .sender
                .offer_beside(store, buffer, 1, 3, 0, b"shutter");
            assert_eq!(offered, Ok(()));
        }
        let (bits, _) = sending.block(1000);
        whole.extend(
            receiving
                .read(&bits, 1000)
                .into_iter()
                .filter_map(|heard| heard.1),
        );
    }
    assert_eq!(whole.pop(), Some(message));
    assert!(whole.len() > 50);
    assert!(whole.iter().all(|message| message == b"shutter"));
    assert!(receiving.store[..REGION].iter().all(|byte| *byte == OLD));
}

/// A first packet whose header has the length 4,095 begins a message if its segment has 16 bytes. The three highest bits are not looked at.
#[test]
fn first_packets() {
    let text = text(14);
    for (header, length, fate) in [
        ([0x1F, 0xFF], 16, Fate::Begun),
        ([0xFF, 0xFF], 16, Fate::Begun),
        ([0x1F, 0xFF], 15, Fate::Wrong),
        ([0x1F, 0xFF], 2, Fate::Wrong),
        ([0x1F, 0xFF], 1, Fate::Wrong),
    ] {
        let mut receiving = Receiving::new();
        let segment = [&header, &text[..]].concat();
        let first = packet(FIRST, 3, &segment[..length]);
        assert_eq!(receiving.hear(&first), told(0, fate));
        if fate == Fate::Begun {
            receiving.is_open(14);
            receiving.is_collected(&text);
        } else {
            assert_eq!(receiving.receiver.open(0), None);
            receiving.is_collected(&[]);
        }
    }
}

/// At another circuit such a packet is wrong, and no message is open behind it.
#[test]
fn at_another_circuit() {
    let mut receiving = Receiving::new();
    let fate = |notice| match notice {
        Notice::Circuit {
            number: 1, fate, ..
        } => fate,
        _ => panic!("not of circuit 1"),
    };
    let segment = [&[0x1F, 0xFF], &text(14)[..]].concat();
    let first = [&[0x02, FIRST | 0x20, 0x07], &segment[..]].concat();
    let between = [&[0x02, BETWEEN | 0x24, 0x07], &segment[..]].concat();
    assert_eq!(fate(receiving.hear(&first)), Fate::Wrong);
    assert_eq!(fate(receiving.hear(&between)), Fate::Orphan);
    assert_eq!(receiving.receiver.open(1), None);
    receiving.is_collected(&[]);
}

/// Without a buffer it is wrong at circuit 0 too.
#[test]
fn without_a_buffer() {
    let mut receiver = Receiver::list(&circuits()).unwrap();
    let mut store = [OLD; RECEIVER_STORE];
    let message = text(SHORTEST_LONG_MESSAGE);
    for (at, packet) in packets(&message).iter().enumerate() {
        let bits = framed(&[packet]);
        let read = receiver.read(&mut store, &bytes_of(&bits), 0, bits.len() as u64);
        let fate = if at == 0 { Fate::Wrong } else { Fate::Orphan };
        assert_eq!(read.unwrap().notice, told(0, fate));
        assert_eq!(receiver.open(0), None);
    }
    assert!(store == [OLD; RECEIVER_STORE], "the store is written");
}

/// Where a message ends: so many bytes are collected, and then comes a packet with so many.
#[test]
fn ends() {
    let text = text(LONGEST_LONG_MESSAGE + 16);
    for (place, link, bytes, fate) in [
        (14, LAST, 16, Fate::Wrong),
        (4078, LAST, 16, Fate::Wrong),
        (4078, BETWEEN, 15, Fate::Wrong),
        (4094, LAST, 1, Fate::Whole(4095)),
        (4094, LAST, 16, Fate::Whole(4110)),
        (65_518, LAST, 16, Fate::Whole(65_534)),
        (65_518, BETWEEN, 16, Fate::Held),
        (65_534, LAST, 1, Fate::Whole(65_535)),
        (65_534, LAST, 2, Fate::Wrong),
        (65_534, LAST, 16, Fate::Wrong),
        (65_534, BETWEEN, 16, Fate::Wrong),
    ] {
        let mut receiving = Receiving::new();
        let index = receiving.collect(0, &text, place);
        let segment = &text[place..place + bytes];
        let notice = receiving.hear(&packet(link, index, segment));
        assert_eq!(notice, told(0, fate));
        match fate {
            Fate::Held => receiving.is_open(place + bytes),
            _ => assert_eq!(receiving.receiver.open(0), None),
        }
        let kept = if fate == Fate::Wrong { 0 } else { bytes };
        receiving.is_collected(&text[..place + kept]);
        let message = notice.message_beside(&receiving.store, &receiving.buffer);
        let whole = fate == Fate::Whole(place + bytes);
        assert!(message == whole.then_some(&text[..place + bytes]));
    }
}

/// A loss, and a first packet of another message, close an open long one; a copy does not. The shorter message goes to the region.
#[test]
fn what_closes_a_long_message() {
    let text = text(100);
    let mut receiving = Receiving::new();
    let index = receiving.collect(0, &text, 46);
    let copy = packet(BETWEEN, index - 1, &text[30..46]);
    assert_eq!(receiving.hear(&copy), told(0, Fate::Copy));
    receiving.is_open(46);
    let behind = packet(BETWEEN, index + 1, &text[62..78]);
    assert_eq!(receiving.hear(&behind), told(1, Fate::Orphan));
    assert_eq!(receiving.receiver.open(0), None);
    receiving.is_collected(&text[..46]);

    let index = receiving.collect(index + 2, &text, 46);
    let index = receiving.collect(index, &text, 62);
    let short = packet(FIRST, index, b"\x02on");
    assert_eq!(receiving.hear(&short), told(0, Fate::Whole(2)));
    assert_eq!(receiving.receiver.open(0), None);
    assert_eq!(receiving.store[..3], [b'o', b'n', OLD]);
    receiving.store[..2].fill(OLD);
    receiving.is_collected(&text[..62]);
}

/// Of more than six packets lost in a row no loss is told. A shorter message is wrong then by its length; a long one has none to compare.
#[test]
fn more_lost_than_the_index_tells() {
    let message = text(4239);
    let packets = packets(&message);
    for lost in [7, 8] {
        let mut receiving = Receiving::new();
        let mut notices = Vec::new();
        for packet in packets[..2].iter().chain(&packets[2 + lost..]) {
            notices.push(receiving.hear(packet));
        }
        let second = if lost == 7 { Fate::Copy } else { Fate::Held };
        assert_eq!(notices[2], told(0, second));
        assert_eq!(notices.last(), Some(&told(0, Fate::Whole(4239 - 128))));
        receiving.is_collected(&[&message[..30], &message[30 + 128..]].concat());
    }
}

#[test]
fn messages_beside() {
    let (store, buffer) = (text(RECEIVER_STORE), text(LONG_BUFFER)[1..].to_vec());
    let message = |notice: Notice| {
        let beside = notice.message_beside(&store, &buffer);
        (notice.message(&store), beside)
    };
    let short = message(told(0, Fate::Whole(LONGEST_MESSAGE)));
    let wanted = Some(&store[..LONGEST_MESSAGE]);
    assert!(short == (wanted, wanted));
    let long = message(told(0, Fate::Whole(SHORTEST_LONG_MESSAGE)));
    assert!(long == (None, Some(&buffer[..SHORTEST_LONG_MESSAGE])));
    let at_1 = message(Notice::Circuit {
        number: 1,
        loss: 2,
        fate: Fate::Whole(3),
    });
    let wanted = Some(&store[REGION..REGION + 3]);
    assert!(at_1 == (wanted, wanted));
    assert!(message(told(0, Fate::Whole(LONG_BUFFER))) == (None, None));
    for notice in [Notice::End, Notice::Elsewhere, told(0, Fate::Begun)] {
        assert!(message(notice) == (None, None));
    }
}

/// Everything is wrong with a long offer at first.
#[test]
fn long_offers_refused() {
    let message = text(LONGEST_LONG_MESSAGE + 1);
    let none = Sender::from_bytes({
        let mut record = *Sending::new().sender.as_bytes();
        record[0] = 0;
        record
    });
    let two = Sending::new().sender;
    let wrong = Sender::from_bytes([0xFF; 55]);
    let short = LONG_BUFFER - 1;
    let cases = [
        (wrong, 0, 0, 4, 6, 0, Refusal::RecordOutOfRange),
        (none, SENDER_STORE - 1, 0, 4, 6, 0, Refusal::StoreTooShort),
        (none, SENDER_STORE, 0, 4, 6, 0, Refusal::LongBufferTooShort),
        (
            none,
            SENDER_STORE,
            short,
            4,
            6,
            0,
            Refusal::LongBufferTooShort,
        ),
        (
            none,
            SENDER_STORE,
            LONG_BUFFER,
            4,
            6,
            0,
            Refusal::CircuitNotListed,
        ),
        (
            two,
            SENDER_STORE,
            LONG_BUFFER,
            4,
            6,
            0,
            Refusal::PriorityAbove3,
        ),
        (
            two,
            SENDER_STORE,
            LONG_BUFFER,
            259,
            6,
            0,
            Refusal::PriorityAbove3,
        ),
        (
            two,
            SENDER_STORE,
            LONG_BUFFER,
            3,
            6,
            0,
            Refusal::RepetitionAbove5,
        ),
        (
            two,
            SENDER_STORE,
            LONG_BUFFER,
            3,
            261,
            0,
            Refusal::RepetitionAbove5,
        ),
        (
            two,
            SENDER_STORE,
            LONG_BUFFER,
            3,
            5,
            0,
            Refusal::LongMessageLength,
        ),
        (
            two,
            SENDER_STORE,
            LONG_BUFFER,
            3,
            5,
            4094,
            Refusal::LongMessageLength,
        ),
        (
            two,
            SENDER_STORE,
            LONG_BUFFER,
            3,
            5,
            65_536,
            Refusal::LongMessageLength,
        ),
    ];
    let store = [OLD; SENDER_STORE];
    let mut buffer = vec![OLD; LONG_BUFFER];
    for (given, room, lent, priority, repetition, length, refusal) in cases {
        let mut sender = given;
        let (store, lent) = (&store[..room], &mut buffer[..lent]);
        let offered = sender.offer_long(store, lent, priority, repetition, &message[..length]);
        assert_eq!(offered, Err(refusal));
        assert_eq!(sender, given);
        assert!(buffer.iter().all(|byte| *byte == OLD), "{refusal} wrote");
    }
    let mut sender = two;
    let mut offer = |length| sender.offer_long(&store, &mut buffer, 3, 5, &message[..length]);
    assert_eq!(offer(SHORTEST_LONG_MESSAGE), Ok(()));
    assert_eq!(offer(SHORTEST_LONG_MESSAGE), Err(Refusal::MessagePending));
    assert_eq!(offer(LONGEST_MESSAGE), Err(Refusal::LongMessageLength));
}

/// The same with the other offers of a sender that has a buffer.
#[test]
fn offers_beside_refused() {
    let message = text(SHORTEST_LONG_MESSAGE);
    let mut sending = Sending::new();
    sending.offer(0, &message).unwrap();
    let before = sending.sender;
    let short = LONG_BUFFER - 1;
    let cases = [
        (SENDER_STORE - 1, 0, 2, 4, 6, 4095, Refusal::StoreTooShort),
        (SENDER_STORE, 0, 2, 4, 6, 4095, Refusal::LongBufferTooShort),
        (
            SENDER_STORE,
            short,
            2,
            4,
            6,
            4095,
            Refusal::LongBufferTooShort,
        ),
        (
            SENDER_STORE,
            LONG_BUFFER,
            2,
            4,
            6,
            4095,
            Refusal::CircuitNotListed,
        ),
        (
            SENDER_STORE,
            LONG_BUFFER,
            0,
            4,
            6,
            4095,
            Refusal::PriorityAbove3,
        ),
        (
            SENDER_STORE,
            LONG_BUFFER,
            0,
            3,
            6,
            4095,
            Refusal::RepetitionAbove5,
        ),
        (
            SENDER_STORE,
            LONG_BUFFER,
            0,
            3,
            5,
            4095,
            Refusal::MessageTooLong,
        ),
        (
            SENDER_STORE,
            LONG_BUFFER,
            0,
            3,
            5,
            4094,
            Refusal::MessagePending,
        ),
    ];
    let (buffer, mut store) = (sending.buffer, sending.store);
    for (room, lent, circuit, priority, repetition, length, refusal) in cases {
        let offered = sending.sender.offer_beside(
            &mut store[..room],
            &buffer[..lent],
            circuit,
            priority,
            repetition,
            &message[..length],
        );
        assert_eq!(offered, Err(refusal));
        assert_eq!(sending.sender, before);
        assert!(store == [OLD; SENDER_STORE], "{refusal} wrote to the store");
    }
}

#[test]
fn blocks_beside_refused() {
    let system = Some(SystemPacket {
        enable: 16,
        code: 0,
        information: &[],
    });
    let mut sending = Sending::new();
    sending.offer(0, &text(LONGEST_LONG_MESSAGE)).unwrap();
    let before = sending.sender;
    let mut bits = [OLD; 32];
    let short = LONG_BUFFER - 1;
    let cases = [
        (SENDER_STORE - 1, 0, 255, 0, system, Refusal::StoreTooShort),
        (SENDER_STORE, 0, 255, 0, system, Refusal::LongBufferTooShort),
        (
            SENDER_STORE,
            short,
            255,
            0,
            system,
            Refusal::LongBufferTooShort,
        ),
        (
            SENDER_STORE,
            LONG_BUFFER,
            255,
            0,
            system,
            Refusal::BlockBits,
        ),
        (
            SENDER_STORE,
            LONG_BUFFER,
            256,
            31,
            system,
            Refusal::BufferTooShort,
        ),
        (
            SENDER_STORE,
            LONG_BUFFER,
            256,
            32,
            system,
            Refusal::SystemPacket,
        ),
    ];
    for (room, lent, n, length, system, refusal) in cases {
        let (store, buffer) = (&sending.store[..room], &sending.buffer[..lent]);
        let block = &mut bits[..length];
        let made = sending
            .sender
            .block_beside(store, buffer, n, n, system, block);
        assert_eq!(made, Err(refusal));
        assert_eq!(sending.sender, before);
        assert_eq!(bits, [OLD; 32]);
    }
    assert_eq!(sending.block(256).1, 1);
}

#[test]
fn reads_beside_refused() {
    let mut receiving = Receiving::new();
    receiving.collect(0, &text(50), 30);
    let before = receiving.receiver;
    let short = LONG_BUFFER - 1;
    let cases = [
        (RECEIVER_STORE - 1, 0, 1, 0, Refusal::StoreTooShort),
        (RECEIVER_STORE, 0, 1, 0, Refusal::LongBufferTooShort),
        (RECEIVER_STORE, short, 1, 0, Refusal::LongBufferTooShort),
        (RECEIVER_STORE, LONG_BUFFER, 1, 0, Refusal::BitRange),
        (RECEIVER_STORE, LONG_BUFFER, 0, 17, Refusal::BitRange),
    ];
    for (room, lent, from, to, refusal) in cases {
        let (store, buffer) = (&mut receiving.store[..room], &mut receiving.buffer[..lent]);
        let read = receiving
            .receiver
            .read_beside(store, buffer, &[0x7E; 2], from, to);
        assert_eq!(read, Err(refusal));
        assert_eq!(receiving.receiver, before);
        receiving.is_collected(&text(30));
    }
}

/// A long message is out of range for the calls without a buffer: at a sender until a shorter one is taken, at a receiver as long as it is open. A buffer
/// too short is refused by another number.
#[test]
fn a_buffer_given_and_not() {
    let mut sending = Sending::new();
    sending.offer(0, &text(SHORTEST_LONG_MESSAGE)).unwrap();
    let alone = |sending: &mut Sending| {
        let given = sending.sender;
        let made = sending
            .sender
            .block(&sending.store, 256, 256, None, &mut [0; 32]);
        let store = &mut vec![OLD; SENDER_STORE];
        let offered = { given }.offer(store, 1, 0, 0, &[]);
        assert_eq!(made.map(|_| ()), offered);
        offered
    };
    let refused = Err(Refusal::RecordOutOfRange);
    while sending.sender.waiting(0) > 0 {
        assert_eq!(alone(&mut sending), refused);
        sending.block(27_000);
    }
    assert_eq!(alone(&mut sending), refused);
    sending.offer(0, b"short").unwrap();
    assert_eq!(alone(&mut sending), Ok(()));

    let mut receiving = Receiving::new();
    let text = text(46);
    let index = receiving.collect(0, &text, 30);
    let open = receiving.receiver;
    let read = { open }.read(&mut receiving.store, &[], 0, 0);
    assert_eq!(read.map(|read| read.bits), Err(Refusal::RecordOutOfRange));
    let read = { open }.read_beside(&mut receiving.store, &mut [0; 9], &[], 0, 0);
    assert_eq!(read.map(|read| read.bits), Err(Refusal::LongBufferTooShort));
    receiving.hear(&packet(LAST, index, &text[30..]));
    let closed = receiving.receiver;
    let read = { closed }.read(&mut receiving.store, &[], 0, 0);
    assert_eq!(read.map(|read| read.bits), Ok(0));
}

/// A length above 4,094 is in range at circuit 0 beside a buffer, and nowhere else.
#[test]
fn records_in_range() {
    let (store, buffer) = ([OLD; SENDER_STORE], vec![OLD; LONG_BUFFER]);
    let mut heard = [OLD; RECEIVER_STORE];
    for (length, packets) in [(4095_u16, 257_u16), (60_000, 3751), (65_535, 4097)] {
        for circuit in [0, 1] {
            let mut record = *Sending::new().sender.as_bytes();
            let slot = &mut record[13 + 10 * circuit..];
            slot[4..6].copy_from_slice(&length.to_le_bytes());
            slot[8..10].copy_from_slice(&(packets - 1).to_le_bytes());
            let mut sender = Sender::from_bytes(record);
            let made = sender.block_beside(&store, &buffer, 256, 256, None, &mut [0; 32]);
            let inside = circuit == 0;
            assert_eq!(made.is_ok(), inside);
            let made = Sender::from_bytes(record).block(&store, 256, 256, None, &mut [0; 32]);
            assert_eq!(made, Err(Refusal::RecordOutOfRange));

            let mut record = *Receiving::new().receiver.as_bytes();
            let slot = &mut record[13 + 6 * circuit..];
            slot[2..4].copy_from_slice(&length.to_le_bytes());
            let mut receiver = Receiver::from_bytes(record);
            let read = receiver.read_beside(&mut heard, &mut buffer.clone(), &[], 0, 0);
            assert_eq!(read.is_ok(), inside);
            let read = Receiver::from_bytes(record).read(&mut heard, &[], 0, 0);
            assert_eq!(read, Err(Refusal::RecordOutOfRange));
            let open = Receiver::from_bytes(record).open(circuit).unwrap();
            assert_eq!((open.length, open.received), (length.into(), 0));
            assert!(open.is_long());
        }
    }
}

/// In a record that no call made an open message may have another length above 4,094, which is the most that it may have.
#[test]
fn another_length_is_the_most() {
    let text = text(5010);
    for (length, link, bytes, fate) in [
        (5000_u16, LAST, 9, Fate::Whole(4999)),
        (5000, LAST, 10, Fate::Whole(5000)),
        (5000, LAST, 11, Fate::Wrong),
        (5006, BETWEEN, 16, Fate::Wrong),
        (5007, BETWEEN, 16, Fate::Held),
    ] {
        let mut receiving = Receiving::new();
        let index = receiving.collect(0, &text, 4990);
        let mut record = *receiving.receiver.as_bytes();
        record[15..17].copy_from_slice(&length.to_le_bytes());
        receiving.receiver = Receiver::from_bytes(record);
        let open = receiving.receiver.open(0).unwrap();
        assert_eq!((open.length, open.received), (length.into(), 4990));
        let next = packet(link, index, &text[4990..4990 + bytes]);
        assert_eq!(receiving.hear(&next), told(0, fate));
    }
}

/// Arrays of no bytes may be anywhere.
#[test]
fn raw_calls() {
    let mut record = *Receiving::new().receiver.as_bytes();
    let mut store = [OLD; RECEIVER_STORE];
    let mut answer = [OLD; 16];
    let mut read = |buffer: &mut [u8]| {
        let at = match buffer.is_empty() {
            true => core::ptr::null_mut(),
            false => buffer.as_mut_ptr(),
        };
        // SAFETY: all slices are valid for their lengths, and those of no bytes may be null.
        unsafe {
            ffi::aes18_receiver_read_beside(
                record.as_mut_ptr(),
                record.len(),
                store.as_mut_ptr(),
                store.len(),
                at,
                buffer.len(),
                core::ptr::null(),
                0,
                0,
                0,
                answer.as_mut_ptr(),
                answer.len(),
            )
        }
    };
    assert_eq!(read(&mut []), 19);
    assert_eq!(read(&mut vec![OLD; LONG_BUFFER]), 0);
}
