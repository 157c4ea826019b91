//! Demand 3 on whole passes. A sender's blocks are joined, damaged and read; which frames came whole follows from where each bit came from. If
//! no other body passes, then at each address at which never more than six packets in a row are lost, the losses told add up to the packets
//! lost between the first and the last to come, and exactly the messages of which every packet came are handed over, in order. The totals have these
//! losses, and the number and bytes of these messages. At an address that was sent long messages (02, ask 7) what is handed over is held only if the
//! receiver has the buffer and lists that address as its circuit 0; the losses always are.

use crate::both::{differ, Both, Compared};
use crate::damage::{drop_or_double, joined, tear, values, Bit};
use crate::ends::{Reading, Sending};
use crate::inputs;
use crate::random::Random;
use aes18_reference::bits::bits_of;
use aes18_reference::calls::{BlockCall, LongOfferCall, OfferCall};
use aes18_reference::hdlc::{bodies, judge, Judged, FLAG};
use aes18_reference::lent::is_long;
use aes18_reference::packet::{packet_count, Circuit};
use aes18_reference::receiver::{Fate, Notice};
use aes18_reference::totals::Figures;
use aes18_reference::SHORTEST_LONG;
use std::collections::{HashMap, VecDeque};
use std::ops::Range;

/// What was sent at a circuit.
struct Sent {
    circuit: Circuit,
    /// The messages with the numbers of their packets, in the order of their offers.
    messages: Vec<(Vec<u8>, Range<usize>)>,
    /// The packet numbers of all copies that wait.
    waiting: VecDeque<usize>,
    /// How many packets its messages have.
    packets: usize,
}

impl Sent {
    /// Notes an accepted offer.
    fn take(&mut self, message: Vec<u8>, repetition: u64) {
        let numbers = self.packets..self.packets + packet_count(message.len());
        self.packets = numbers.end;
        for number in numbers.clone() {
            self.waiting.extend(vec![number; repetition as usize + 1]);
        }
        self.messages.push((message, numbers));
    }

    fn has_long(&self) -> bool {
        self.messages
            .iter()
            .any(|(message, _)| is_long(message.len()))
    }
}

/// A frame in the joined bits, both flags included, with circuit number and packet number (none for a system packet's).
struct Placed {
    bits: Range<usize>,
    packet: Option<(usize, usize)>,
}

/// What a sender sent.
struct Pass {
    bits: Vec<bool>,
    block_ends: Vec<usize>,
    frames: Vec<Placed>,
    sent: Vec<Sent>,
}

/// What a receiver told of one of its circuits.
#[derive(Clone, Debug, Default, PartialEq, Eq)]
struct Told {
    losses: usize,
    handed_over: Vec<Vec<u8>>,
}

pub fn pass(both: &mut Both, random: &mut Random) -> Compared<()> {
    run(both, random, false)
}

/// With long messages at the sender's circuit 0.
pub fn long_pass(both: &mut Both, random: &mut Random) -> Compared<()> {
    run(both, random, true)
}

fn run(both: &mut Both, random: &mut Random, long: bool) -> Compared<()> {
    let list = inputs::list(random);
    let before = both.tally.enabling.held_over();
    let mut sending = Sending::list(both, random, &list)?;
    if long {
        sending = sending.with_long(random);
    }
    let pass = send(both, random, &list, sending)?;
    let held_back = both.tally.enabling.held_over() > before;
    let times = random.pick(if long {
        &[0, 1, 1, 2, 6]
    } else {
        &[0, 2, 4, 8, 16]
    });
    let arrived = damaged(random, &pass, times);
    let heard = if long && random.once_in(2) {
        list.clone()
    } else {
        receiver_list(random, &list)
    };
    let mut reading = Reading::list(both, random, &heard)?;
    let takes_long = long && !random.once_in(4);
    if takes_long {
        reading = reading.with_long(random);
    }
    let told = read(both, random, reading, heard.len() / 3, &arrived)?;
    let Some(came) = came_whole(&pass, &arrived) else {
        both.tally.claim.other_frames += 1;
        return Ok(());
    };
    both.tally.claim.passes += 1;
    both.tally.claim.held_back += u64::from(held_back);
    for (number, (circuit, told)) in inputs::circuits(&heard).iter().zip(told).enumerate() {
        check(
            both,
            &pass,
            &came,
            *circuit,
            takes_long && number == 0,
            told,
        )?;
    }
    Ok(())
}

/// The receiver's list: the sender's circuits in another order, some left out, others put in.
fn receiver_list(random: &mut Random, list: &[u8]) -> Vec<u8> {
    let mut circuits: Vec<&[u8]> = list.chunks(3).collect();
    for at in (1..circuits.len()).rev() {
        circuits.swap(at, random.below(at + 1));
    }
    if random.once_in(4) && circuits.len() > 1 {
        circuits.pop();
    }
    if random.once_in(4) && circuits.len() < 4 {
        circuits.push(&[0x33, 0, 0]);
    }
    circuits.concat()
}

/// Offers and blocks, some of them refused, on a fresh sender; long messages among them if it has a long buffer.
fn send(both: &mut Both, random: &mut Random, list: &[u8], mut sending: Sending) -> Compared<Pass> {
    let sent = |circuit| Sent {
        circuit,
        messages: vec![],
        waiting: VecDeque::new(),
        packets: 0,
    };
    let mut pass = Pass {
        bits: vec![],
        block_ends: vec![],
        frames: vec![],
        sent: inputs::circuits(list).into_iter().map(sent).collect(),
    };
    let rounds = if sending.given.is_some() { 8 } else { 2 };
    for _ in 0..rounds + random.below(14) {
        if sending.given.is_some() && random.once_in(2) {
            offer_long(both, random, &mut sending, &mut pass)?;
        }
        for circuit in 0..4 {
            offer(both, random, &mut sending, &mut pass, circuit)?;
        }
        block(both, random, &mut sending, &mut pass)?;
    }
    Ok(pass)
}

/// Offers a message at this circuit, or now and then with other values.
fn offer(
    both: &mut Both,
    random: &mut Random,
    sending: &mut Sending,
    pass: &mut Pass,
    circuit: u64,
) -> Compared<()> {
    let longest = random.pick(&[16, 16, 31, 50, 600]);
    let length = random.below(longest);
    let message = inputs::message(random, length);
    let call = OfferCall {
        circuit: if random.once_in(8) {
            random.argument(3)
        } else {
            circuit
        },
        priority: random.argument(3),
        repetition: random.pick(&[0, 0, 0, 0, 0, 0, 0, 0, 1, 1, 2, 5, 6]),
        message: &message,
    };
    if sending.offer(both, call)? == 0 {
        let (circuit, repetition) = (call.circuit as usize, call.repetition);
        pass.sent[circuit].take(message, repetition);
    }
    Ok(())
}

/// Offers a long message, mostly a short one of these.
fn offer_long(
    both: &mut Both,
    random: &mut Random,
    sending: &mut Sending,
    pass: &mut Pass,
) -> Compared<()> {
    let more = random.pick(&[2, 40, 400]);
    let length = SHORTEST_LONG + random.below(more);
    let message = inputs::message(random, length);
    let call = LongOfferCall {
        priority: random.argument(3),
        repetition: random.pick(&[0, 0, 0, 0, 0, 1, 6]),
        message: &message,
    };
    if sending.offer_long(both, call)? == 0 {
        let repetition = call.repetition;
        pass.sent[0].take(message, repetition);
    }
    Ok(())
}

fn block(
    both: &mut Both,
    random: &mut Random,
    sending: &mut Sending,
    pass: &mut Pass,
) -> Compared<()> {
    let information = inputs::information(random);
    let mut call = block_call(random, &information);
    if sending.given.is_some() && !random.once_in(4) {
        (call.n, call.u) = (27_000, 26_800);
    }
    let mut buffer = inputs::buffer(random, call.n);
    let Some(made) = sending.block(both, call, &mut buffer)? else {
        return Ok(());
    };
    let start = pass.bits.len();
    pass.bits.extend(&bits_of(&buffer)[..call.n as usize]);
    pass.block_ends.push(pass.bits.len());
    for frame in made.frames {
        let packet = frame.circuit.map(|circuit| {
            let number = pass.sent[circuit].waiting.pop_front();
            (circuit, number.expect("a copy waits"))
        });
        pass.frames.push(Placed {
            bits: start + frame.bits.start..start + frame.bits.end,
            packet,
        });
    }
    Ok(())
}

/// The values of a block call, mostly for a block of some frames.
fn block_call<'a>(random: &mut Random, information: &'a [u8]) -> BlockCall<'a> {
    if random.once_in(8) {
        return inputs::block_call(random, information);
    }
    let n = 600 + random.below(2500) as u64;
    BlockCall {
        n,
        u: n - random.below(300) as u64,
        system: random.pick(&[0, 0, 0, 1]),
        enable: random.pick(&[15, 15, 15, 15, 7, 8, 3, 0, 16]),
        code: random.argument(8),
        information,
    }
}

/// The bits as they arrive: torn at so many places, or in some passes worse.
fn damaged(random: &mut Random, pass: &Pass, times: usize) -> Vec<Bit> {
    let mut bits = joined(&pass.bits);
    if random.once_in(10) && !pass.block_ends.is_empty() {
        drop_or_double(random, &mut bits, &pass.block_ends);
    }
    let longest = random.pick(&[20, 100, 300, 600, 2000]);
    for _ in 0..times {
        tear(random, &mut bits, longest);
    }
    bits
}

/// What a fresh receiver tells, for each of so many circuits.
fn read(
    both: &mut Both,
    random: &mut Random,
    mut reading: Reading,
    circuits: usize,
    arrived: &[Bit],
) -> Compared<Vec<Told>> {
    let mut told = vec![Told::default(); circuits];
    let longest = random.pick(&[50, 500, 5000, 50_000]);
    reading.read_pieces(
        both,
        random,
        &values(arrived),
        longest,
        &mut |notice, message| {
            if let Notice::Circuit { number, loss, fate } = notice {
                told[number].losses += usize::from(loss);
                if let Fate::Whole(_) = fate {
                    told[number].handed_over.push(message.to_vec());
                }
            }
        },
    )?;
    for (number, told) in told.iter().enumerate() {
        hold_totals(number, told, reading.figures(number))?;
    }
    Ok(told)
}

/// Holds a circuit's figures in the totals against what the receiver told of it.
fn hold_totals(number: usize, told: &Told, figures: Figures) -> Compared<()> {
    let [messages, bytes, lost, _] = figures;
    let lengths = told.handed_over.iter().map(Vec::len);
    let expected = [lengths.len(), lengths.sum(), told.losses].map(|figure| figure as u128);
    if [messages, bytes, lost] == expected {
        return Ok(());
    }
    let call = format!("a pass, circuit number {number}");
    let part = "messages, bytes and packets lost in the totals";
    differ(call, part, format!("{figures:?}"), format!("{expected:?}"))
}

/// The frames that came whole, by the place where their opening flag arrived.
fn whole_frames<'a>(pass: &'a Pass, arrived: &[Bit]) -> HashMap<usize, &'a Placed> {
    let placed = |(place, bit): (usize, &Bit)| Some((bit.origin?, place));
    let places: HashMap<usize, usize> = arrived.iter().enumerate().filter_map(placed).collect();
    let whole = |frame: &'a Placed| {
        let place = *places.get(&frame.bits.start)?;
        let origins = arrived[place..].iter().map(|bit| bit.origin);
        let together = origins
            .take(frame.bits.len())
            .eq(frame.bits.clone().map(Some));
        together.then_some((place, frame))
    };
    pass.frames.iter().filter_map(whole).collect()
}

/// For each circuit of the sender, which of its packets came. None if a body passes that is not one of a frame that came whole, between that
/// frame's own flags.
fn came_whole(pass: &Pass, arrived: &[Bit]) -> Option<Vec<Vec<bool>>> {
    let whole = whole_frames(pass, arrived);
    let bits = values(arrived);
    let passes = |body: &Range<usize>| matches!(judge(&bits[body.clone()]), Judged::Packet(_));
    let own = |body: Range<usize>| {
        let frame = whole.get(&(body.start - FLAG.len()));
        frame.is_some_and(|frame| frame.bits.len() == body.len() + 2 * FLAG.len())
    };
    if !bodies(&bits).into_iter().filter(passes).all(own) {
        return None;
    }
    let mut came: Vec<Vec<bool>> = pass
        .sent
        .iter()
        .map(|sent| vec![false; sent.packets])
        .collect();
    for (circuit, number) in whole.values().filter_map(|frame| frame.packet) {
        came[circuit][number] = true;
    }
    Some(came)
}

/// Holds what the receiver told of a circuit against what came there.
fn check(
    both: &mut Both,
    pass: &Pass,
    came: &[Vec<bool>],
    circuit: Circuit,
    takes_long: bool,
    mut told: Told,
) -> Compared<()> {
    let Some(number) = pass.sent.iter().position(|sent| sent.circuit == circuit) else {
        return hold(circuit, told, Told::default());
    };
    let (sent, came) = (&pass.sent[number], &came[number]);
    let messages = &sent.messages;
    let first = came.iter().position(|came| *came).unwrap_or(0);
    let behind_last = came
        .iter()
        .rposition(|came| *came)
        .map_or(0, |last| last + 1);
    let between = &came[first..behind_last];
    let claim = &mut both.tally.claim;
    if between.windows(7).any(|seven| seven == [false; 7]) {
        claim.more_than_six += 1;
        return Ok(());
    }
    let all =
        |packets: &Range<usize>, is: bool| came[packets.clone()].iter().all(|came| *came == is);
    let whole = messages.iter().filter(|(_, packets)| all(packets, true));
    let mut expected = Told {
        losses: between.iter().filter(|came| !**came).count(),
        handed_over: whole.map(|(message, _)| message.clone()).collect(),
    };
    let gone = |packets: &Range<usize>| {
        first < packets.start && packets.end < behind_last && all(packets, false)
    };
    if sent.has_long() && !takes_long {
        claim.losses_alone += 1;
        expected.handed_over.clear();
        told.handed_over.clear();
        return hold(circuit, told, expected);
    }
    claim.addresses += 1;
    claim.with_packets_lost += u64::from(expected.losses > 0);
    claim.with_messages_gone += u64::from(messages.iter().any(|(_, packets)| gone(packets)));
    claim.messages += expected.handed_over.len() as u64;
    let part = |packets: &Range<usize>| !all(packets, true);
    let lost_in_part = |(message, packets): &(Vec<u8>, _)| is_long(message.len()) && part(packets);
    claim.long += u64::from(sent.has_long());
    claim.long_lost += u64::from(messages.iter().any(lost_in_part));
    claim.handed_over(&expected.handed_over);
    hold(circuit, told, expected)
}

fn hold(circuit: Circuit, told: Told, expected: Told) -> Compared<()> {
    if told == expected {
        return Ok(());
    }
    let call = format!("demand 3 at {circuit:02x?}");
    differ(
        call,
        "losses and messages handed over",
        format!("{told:02x?}"),
        format!("{expected:02x?}"),
    )
}
