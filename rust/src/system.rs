//! System packets.

/// A system packet, which a block can carry in front of its other frames.
///
/// ```
/// use aes18::{Circuit, Notice, Receiver, Sender, SystemPacket, RECEIVER_STORE, SENDER_STORE};
///
/// # fn main() -> Result<(), aes18::Refusal> {
/// let circuits = [Circuit { address: 0x01, extension: None }];
/// let mut sender = Sender::list(&circuits)?;
/// let system = SystemPacket { enable: 0b1000, code: 2, information: b"eclipse" };
/// let mut bits = [0; 40];
/// sender.block(&[0; SENDER_STORE], 320, 320, Some(system), &mut bits)?;
///
/// let mut store = [0; RECEIVER_STORE];
/// let read = Receiver::list(&circuits)?.read(&mut store, &bits, 0, 320)?;
/// assert_eq!(read.notice, Notice::System { enable: 0b1000, code: 2, length: 7 });
/// assert_eq!(read.notice.information(&store), Some(&b"eclipse"[..]));
/// # Ok(())
/// # }
/// ```
#[derive(Clone, Copy, Debug, PartialEq, Eq)]
pub struct SystemPacket<'a> {
    /// Which priorities are enabled, in its block and in all later ones until another system packet is sent: bit 3 for priority 3 down to bit 0 for
    /// priority 0. What is not enabled waits, with 0 everything.
    pub enable: u64,
    /// The block code, 0 to 8.
    pub code: u64,
    /// 0 to 15 bytes of information.
    pub information: &'a [u8],
}

impl SystemPacket<'_> {
    /// The enable bits of all four priorities, which a fresh sender has in force.
    pub const ALL_ENABLED: u64 = 0b1111;
}

/// All priorities enabled, block code 0 and no information.
impl Default for SystemPacket<'_> {
    fn default() -> Self {
        SystemPacket {
            enable: SystemPacket::ALL_ENABLED,
            code: 0,
            information: &[],
        }
    }
}
