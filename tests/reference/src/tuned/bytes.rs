//! The run on bytes, as it is called from C: words of 4 bytes, lowest byte first, an image and then the event words.

use super::image::{write, Image};
use super::run::take_all;
use crate::bytes::{words, Bad, MOST_BYTES};
use crate::image::{image_length, Header};
use crate::row::MOST;
use crate::run::MOST_WORDS;
use crate::{refusal, Row, Settings};

/// Divides an input after the words of its image, as many as its header asks for, or takes all as image if there are
/// fewer.
#[inline(always)]
pub fn divide(bytes: &[u8]) -> Result<(Image<'_, [u8; 4]>, &[u8]), Bad> {
    if bytes.len() % 4 != 0 || bytes.len() > MOST_BYTES {
        return Err(Bad::Bytes);
    }
    let length = words(bytes).next().and_then(Header::of).map_or(1, Header::length);
    let (image, events) = bytes.split_at(bytes.len().min(4 * length));
    match Image::of(image.as_chunks().0) {
        Ok(image) => Ok((image, events)),
        Err((refusal, place)) => Err(Bad::Image { refusal, place }),
    }
}

/// The run from C: 256 times the words taken plus the refusal. The image after the taken words fills the first lent bytes;
/// with a refusal of 14, 1 to 5, 18, 12 or 13 the lent bytes stay as given.
pub fn c_call(input: &[u8], lent: &mut [u8], settings: Settings) -> u64 {
    let (image, events) = match divide(input) {
        Ok(input) => input,
        Err(Bad::Bytes) => return refusal::INPUT_BYTES.into(),
        Err(Bad::Image { refusal, .. }) => return refusal.into(),
    };
    if settings.check() != refusal::NONE {
        return refusal::SETTINGS.into();
    }
    if events.len() > 4 * MOST_WORDS {
        return refusal::TOO_MANY_WORDS.into();
    }
    let Some(lent) = lent.get_mut(..4 * image_length(image.header.n)) else {
        return refusal::LENT_TOO_FEW.into();
    };
    let mut room = [Row::default(); MOST];
    let rows = &mut room[..image.header.n];
    image.read(rows);
    let answer = take(rows, events, settings);
    write(rows, lent.as_chunks_mut().0);
    answer
}

/// Takes the words and gives the answer of the call; apart from the reading and writing of images, so that it has the
/// registers to itself.
#[inline(never)]
fn take(rows: &mut [Row], events: &[u8], settings: Settings) -> u64 {
    let ran = take_all(rows, words(events), settings, |_| ());
    256 * u64::from(ran.taken) + u64::from(ran.refusal)
}
