//! What a reading call tells.

use crate::lengths::{LONGEST_MESSAGE, REGION, SYSTEM_PLACE};

/// What a reading call stopped at.
#[derive(Clone, Copy, Debug, PartialEq, Eq)]
pub enum Notice {
    /// All bits are read and there is nothing more to tell.
    End,
    /// A body that unstuffs to 32 bits or more and does not pass: its end, its length or its FCS is wrong.
    Spoilt,
    /// A body that passes, and is no packet such as a sender makes.
    Malformed,
    /// A system packet. Its information stands in the store, see [`Notice::information`].
    System {
        /// Which priorities are enabled, in its block and in all later ones until another system packet is sent: bit 3 for priority 3 down to bit 0
        /// for priority 0.
        enable: u8,
        /// The block code, 0 to 8.
        code: u8,
        /// Bytes of information, 0 to 15.
        length: usize,
    },
    /// A packet of a circuit that is not listed.
    Elsewhere,
    /// A packet of the listed circuit of that number.
    Circuit {
        /// The circuit's number.
        number: usize,
        /// How many packets of the circuit were lost before this one, modulo 8.
        loss: u8,
        /// What became of the packet.
        fate: Fate,
    },
}

/// What became of a packet of a listed circuit.
#[derive(Clone, Copy, Debug, PartialEq, Eq)]
pub enum Fate {
    /// A copy of the circuit's last packet.
    Copy,
    /// It begins a message, and more is due.
    Begun,
    /// It goes on with the open message, and more is due.
    Held,
    /// It completes a message of this length, which stands in the store, see [`Notice::message`], or if it is a long one in the long buffer, see
    /// [`Notice::message_beside`].
    Whole(usize),
    /// It goes on with a message, and none is open.
    Orphan,
    /// It does not fit the length in the message's header or those of long messages, or that header is wrong. The message is closed.
    Wrong,
}

impl Notice {
    /// At [`Fate::Whole`] the message, at the start of its region of the receiver's store; otherwise none. A long message, of more than
    /// [`LONGEST_MESSAGE`](crate::LONGEST_MESSAGE) bytes, is not in the store, so that there is none here: [`Notice::message_beside`] has it.
    ///
    /// It is there until a later call writes the region. It is borrowed from the store, so the compiler does not let it be kept over the next read:
    ///
    /// ```compile_fail,E0502
    /// # use aes18::{Receiver, RECEIVER_STORE};
    /// # fn read_two(receiver: &mut Receiver, bits: &[u8], to: u64) -> Result<(), aes18::Refusal> {
    /// let mut store = [0; RECEIVER_STORE];
    /// let read = receiver.read(&mut store, bits, 0, to)?;
    /// let message = read.notice.message(&store);
    /// receiver.read(&mut store, bits, read.bits, to)?; // error: the store is borrowed by `message`
    /// println!("{message:?}");
    /// # Ok(())
    /// # }
    /// ```
    ///
    /// Copy it, or be done with it before that read:
    ///
    /// ```
    /// # use aes18::{Receiver, RECEIVER_STORE};
    /// # fn read_two(receiver: &mut Receiver, bits: &[u8], to: u64) -> Result<(), aes18::Refusal> {
    /// let mut store = [0; RECEIVER_STORE];
    /// let read = receiver.read(&mut store, bits, 0, to)?;
    /// let message = read.notice.message(&store).map(<[u8]>::to_vec);
    /// receiver.read(&mut store, bits, read.bits, to)?;
    /// println!("{message:?}");
    /// # Ok(())
    /// # }
    /// ```
    pub fn message<'a>(&self, store: &'a [u8]) -> Option<&'a [u8]> {
        match *self {
            Notice::Circuit {
                number,
                fate: Fate::Whole(length @ ..=LONGEST_MESSAGE),
                ..
            } => store.get(number * REGION..)?.get(..length),
            _ => None,
        }
    }

    /// At [`Fate::Whole`] the message, of a receiver that has a long buffer: a long one is at the start of the buffer, and another at the start of its
    /// region of the store, as [`Notice::message`] has it. Otherwise none.
    ///
    /// A long message is there until a later call begins another. Like any message it is borrowed from where it is.
    pub fn message_beside<'a>(&self, store: &'a [u8], buffer: &'a [u8]) -> Option<&'a [u8]> {
        match *self {
            Notice::Circuit {
                fate: Fate::Whole(length),
                ..
            } if length > LONGEST_MESSAGE => buffer.get(..length),
            _ => self.message(store),
        }
    }

    /// At [`Notice::System`] the packet's information, in the receiver's store from [`SYSTEM_PLACE`] on; otherwise none. Like a message it is borrowed
    /// from the store.
    pub fn information<'a>(&self, store: &'a [u8]) -> Option<&'a [u8]> {
        match *self {
            Notice::System { length, .. } => store.get(SYSTEM_PLACE..)?.get(..length),
            _ => None,
        }
    }

    /// The notice of a reading call's answer.
    pub(crate) fn of(answer: &[u8; 16]) -> Notice {
        match answer[0] {
            0 => Notice::End,
            1 => Notice::Spoilt,
            2 => Notice::Malformed,
            3 => Notice::System {
                enable: answer[1],
                code: answer[2],
                length: usize::from(answer[3]),
            },
            4 => Notice::Elsewhere,
            5 => Notice::Circuit {
                number: usize::from(answer[1]),
                loss: answer[2],
                fate: Fate::of(answer[3], u16::from_le_bytes([answer[4], answer[5]])),
            },
            _ => unreachable!("a reading call answers notice 0 to 5"),
        }
    }

    /// A reading call's answer with this notice and no bits read; none where the notice has a number that no answer has room for.
    pub(crate) fn answer(&self) -> Option<[u8; 16]> {
        let mut answer = [0; 16];
        answer[..6].copy_from_slice(&match *self {
            Notice::End => [0, 0, 0, 0, 0, 0],
            Notice::Spoilt => [1, 0, 0, 0, 0, 0],
            Notice::Malformed => [2, 0, 0, 0, 0, 0],
            Notice::System {
                enable,
                code,
                length,
            } => [3, enable, code, u8::try_from(length).ok()?, 0, 0],
            Notice::Elsewhere => [4, 0, 0, 0, 0, 0],
            Notice::Circuit { number, loss, fate } => {
                let (fate, length) = fate.number()?;
                let [low, high] = length.to_le_bytes();
                [5, u8::try_from(number).ok()?, loss, fate, low, high]
            }
        });
        Some(answer)
    }
}

impl Fate {
    /// The fate by its number in an answer, with the length at Whole.
    fn of(number: u8, length: u16) -> Fate {
        match number {
            0 => Fate::Copy,
            1 => Fate::Begun,
            2 => Fate::Held,
            3 => Fate::Whole(usize::from(length)),
            4 => Fate::Orphan,
            5 => Fate::Wrong,
            _ => unreachable!("a reading call answers fate 0 to 5"),
        }
    }

    /// Its number in an answer, with the length at Whole; none where that has no room.
    fn number(self) -> Option<(u8, u16)> {
        Some(match self {
            Fate::Copy => (0, 0),
            Fate::Begun => (1, 0),
            Fate::Held => (2, 0),
            Fate::Whole(length) => (3, u16::try_from(length).ok()?),
            Fate::Orphan => (4, 0),
            Fate::Wrong => (5, 0),
        })
    }
}
