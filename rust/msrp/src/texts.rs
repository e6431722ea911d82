//! How a text is taken out of a call.

use crate::error::Error;
use crate::ffi::{self, Found};

/// Most texts but those of long traces fit at once.
const FIRST_ROOM: usize = 1 << 16;

/// The text that a call writes into a buffer. If it doesn't fit, the call is made again. A call
/// that finds something wrong can still have a text, which says what.
pub(crate) fn text_of(
    source: &[u8],
    mut call: impl FnMut(&mut [u8], &mut usize, &mut Found) -> u32,
) -> Result<String, Error> {
    let (mut text, mut needed, mut found) = (vec![0; FIRST_ROOM], 0, Found::default());
    let mut status = call(&mut text, &mut needed, &mut found);
    if status == ffi::ROOM {
        text.resize(needed, 0);
        status = call(&mut text, &mut needed, &mut found);
    }
    if status != ffi::GOOD && (status > ffi::REFUSED || needed == 0) {
        return Err(Error::of(status, found, source));
    }
    text.truncate(needed);
    text.shrink_to_fit();
    Ok(String::from_utf8(text).unwrap_or_else(|other| String::from_utf8_lossy(other.as_bytes()).into_owned()))
}
