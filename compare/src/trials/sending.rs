//! A sender from its listing on: offers and blocks, refused ones among them. The frames of each block are cut in two between their bytes.

use crate::both::{Both, Compared};
use crate::ends::Sending;
use crate::inputs;
use crate::random::Random;
use crate::stuffing;
use aes18_reference::calls::OfferCall;

pub fn run(both: &mut Both, random: &mut Random) -> Compared<()> {
    let list = inputs::list(random);
    let mut sending = Sending::list(both, random, &list)?;
    for _ in 0..40 {
        if random.once_in(2) {
            offer(both, random, &mut sending)?;
        } else {
            block(both, random, &mut sending)?;
        }
    }
    Ok(())
}

fn offer(both: &mut Both, random: &mut Random, sending: &mut Sending) -> Compared<()> {
    let length = match random.below(30) {
        0 => random.pick(&[4095, 4096, 4100, 8190, 65_536 + 20]),
        _ => inputs::length(random),
    };
    let message = inputs::message(random, length);
    let call = OfferCall {
        circuit: random.argument(3),
        priority: random.argument(3),
        repetition: random.argument(5),
        message: &message,
    };
    sending.offer(both, call)?;
    Ok(())
}

fn block(both: &mut Both, random: &mut Random, sending: &mut Sending) -> Compared<()> {
    let information = inputs::information(random);
    let call = inputs::block_call(random, &information);
    let mut buffer = inputs::buffer(random, call.n);
    match sending.block(both, call, &mut buffer)? {
        Some(made) => stuffing::in_two(both, &buffer, &made),
        None => Ok(()),
    }
}
