//! The run on bytes, as it is called from C: words of 4 bytes, lowest byte first, an image and then the event words.

use crate::image::{image_length, read, write, Header};
use crate::refusal;
use crate::row::Table;
use crate::run::{take_all, MOST_WORDS};
use crate::settings::Settings;

/// The image of 16 processes and 8,192 words.
pub const MOST_BYTES: usize = 34_112;

/// An input that can be run: its table, and the bytes of its event words.
pub(crate) struct Input<'a> {
    pub table: Table,
    pub events: &'a [u8],
}

/// Why an input cannot be run.
pub(crate) enum Bad {
    Bytes,
    Image { refusal: u16, place: usize },
}

#[inline]
pub(crate) fn words(bytes: &[u8]) -> impl ExactSizeIterator<Item = u32> + '_ {
    bytes.as_chunks().0.iter().map(|&word| u32::from_le_bytes(word))
}

/// Divides an input after the words of its image, as many as its header asks for, or takes all as image if there are
/// fewer.
pub(crate) fn read_input(bytes: &[u8]) -> Result<Input<'_>, Bad> {
    if bytes.len() % 4 != 0 || bytes.len() > MOST_BYTES {
        return Err(Bad::Bytes);
    }
    let length = words(bytes).next().and_then(Header::of).map_or(1, Header::length);
    let (image, events) = bytes.split_at(bytes.len().min(4 * length));
    match read(image.as_chunks().0) {
        Ok(table) => Ok(Input { table, events }),
        Err((refusal, place)) => Err(Bad::Image { refusal, place }),
    }
}

/// The run from C: 256 times the words taken plus the refusal. The image after the taken words fills the first lent bytes;
/// with a refusal of 14, 1 to 5, 18, 12 or 13 the lent bytes stay as given.
pub fn c_call(input: &[u8], lent: &mut [u8], settings: Settings) -> u64 {
    let Input { mut table, events } = match read_input(input) {
        Ok(input) => input,
        Err(Bad::Bytes) => return refusal::INPUT_BYTES.into(),
        Err(Bad::Image { refusal, .. }) => return refusal.into(),
    };
    if settings.check() != refusal::NONE {
        return refusal::SETTINGS.into();
    }
    if events.len() > 4 * MOST_WORDS {
        return refusal::TOO_MANY_WORDS.into();
    }
    let Some(lent) = lent.as_chunks_mut().0.get_mut(..image_length(table.len())) else {
        return refusal::LENT_TOO_FEW.into();
    };
    let ran = take_all(&mut table, words(events), settings, |_| ());
    write(&table, lent);
    256 * u64::from(ran.taken) + u64::from(ran.refusal)
}
