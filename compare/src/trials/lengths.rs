//! A message of each length sent and read back.

use crate::both::{differ, Both, Compared};
use crate::ends::{Reading, Sending};
use crate::inputs;
use crate::random::Random;
use aes18_reference::calls::{BlockCall, OfferCall, ReadCall};
use aes18_reference::receiver::{Fate, Notice};
use aes18_reference::LONGEST_MESSAGE;

/// Every length from 0 to 4,094, at each circuit in turn: exactly the message sent is handed over.
pub fn all(both: &mut Both, random: &mut Random) -> Compared<()> {
    let list = [0x01, 0, 0, 0x7E, 1, 0xFF, 0x02, 0, 0, 0x1F, 1, 0];
    let mut sending = Sending::list(both, random, &list)?;
    let mut reading = Reading::list(both, random, &list)?;
    for length in 0..=LONGEST_MESSAGE {
        let (circuit, message) = (length % 4, inputs::message(random, length));
        let call = OfferCall {
            circuit: circuit as u64,
            priority: random.next() % 4,
            repetition: u64::from(random.once_in(40)),
            message: &message,
        };
        sending.offer(both, call)?;
        let handed_over = handed_over(both, &mut sending, &mut reading)?;
        if handed_over != [(circuit, message)] {
            let call = format!("a message of {length} bytes at circuit {circuit}");
            return differ(
                call,
                "what is handed over",
                format!("{handed_over:02x?}"),
                "that message".to_string(),
            );
        }
    }
    Ok(())
}

/// Makes blocks until nothing waits and reads them: the messages handed over, with their circuits.
pub fn handed_over(
    both: &mut Both,
    sending: &mut Sending,
    reading: &mut Reading,
) -> Compared<Vec<(usize, Vec<u8>)>> {
    let call = BlockCall {
        n: 27_000,
        u: 27_000,
        system: 0,
        enable: 0,
        code: 0,
        information: &[],
    };
    let mut block = vec![0; 3375];
    let mut messages = vec![];
    while sending
        .block(both, call, &mut block)?
        .is_some_and(|made| made.placed() > 0)
    {
        let call = ReadCall {
            bits: &block,
            from: 0,
            to: call.n,
        };
        reading.read_all(both, call, &mut |notice, message| {
            if let Notice::Circuit {
                number,
                loss: 0,
                fate: Fate::Whole(_),
            } = notice
            {
                messages.push((number, message.to_vec()));
            }
        })?;
    }
    Ok(messages)
}
