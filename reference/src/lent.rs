//! What the calls are lent beside the record: the store, and the long buffer where one is given (02, ask 7). A message of more than 4,094 bytes stands
//! in the buffer, any other in its circuit's region.

use crate::{LONGEST_MESSAGE, LONG_BUFFER};

/// Whether a message of so many bytes is a long one.
pub fn is_long(length: usize) -> bool {
    length > LONGEST_MESSAGE
}

/// Refusal 5 for a store of fewer bytes than it must have, and behind it 19 for such a long buffer, if one is given.
pub fn long_enough(store: &[u8], least: usize, long: Option<&[u8]>) -> Result<(), u32> {
    if store.len() < least {
        return Err(5);
    }
    if long.is_some_and(|long| long.len() < LONG_BUFFER) {
        return Err(19);
    }
    Ok(())
}
