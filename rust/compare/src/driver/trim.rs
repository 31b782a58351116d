//! One image, both ways of trimming, buffers of several lengths; and what Change 2 says of the result, by the proved
//! checker.

use super::tally::Tally;
use super::Task;
use crate::proved::{check_image, trim_image};
use reference::trim::{put, trimmed, Answer};
use sets::generate::clutter;
use sets::generate::random::Random;

/// The image trimmed.
pub const TRIM: Task =
    Task { compare, codes: &[0, 24, 25], counted: "calls", image: clutter::image };

/// So many bytes stand behind the longest buffer; none may change.
const BEHIND: usize = 32;
/// For an image that is not accepted a buffer is no longer than this.
const MOST: usize = 300;
/// How much longer than the result a buffer may be.
const SPARE: usize = 40;

fn compare(image: &[u8], seed: u64, tally: &mut Tally) -> Result<(), String> {
    let expected = trimmed(image);
    let length = expected.as_ref().map_or(image.len().min(MOST), Vec::len);
    let random = &mut Random::new(seed);
    for room in [0, length.saturating_sub(1), length, length + 1, length + SPARE] {
        let before: Vec<u8> = (0..length + SPARE + BEHIND).map(|_| random.draw() as u8).collect();
        let (mut proved, mut independent) = (before.clone(), before);
        let by_proof = trim_image(image, &mut proved[..room]);
        let by_other = put(expected.as_deref(), &mut independent[..room]);
        if (by_proof, &proved) != (by_other, &independent) {
            return Err(difference(room, (by_proof, &proved), (by_other, &independent)));
        }
        tally.count(by_proof.code);
    }
    expected.map_or(Ok(()), |result| archived(image, &result))
}

/// The result is accepted with the same count, and trimming it again gives the same bytes.
fn archived(image: &[u8], result: &[u8]) -> Result<(), String> {
    let [before, after] = [image, result].map(|bytes| {
        let mut record = [0; 22];
        (check_image(bytes, &mut record), record)
    });
    if before.0 != 0 || before != after {
        return Err(format!("the proved checker before: {before:?}, after: {after:?}"));
    }
    let mut again = vec![0; result.len()];
    let answer = trim_image(result, &mut again);
    if answer != (Answer { code: 0, length: result.len() }) || again != result {
        return Err(format!("trimmed again: {answer:?}, of {} bytes", result.len()));
    }
    Ok(())
}

/// Both answers, and the first byte that differs.
fn difference(room: usize, proved: (Answer, &[u8]), independent: (Answer, &[u8])) -> String {
    let place = proved.1.iter().zip(independent.1).position(|(one, other)| one != other);
    let byte = place.map_or("all bytes are the same".into(), |place| {
        format!("byte {place}: proved {}, independent {}", proved.1[place], independent.1[place])
    });
    format!(
        "buffer of {room} bytes\nproved: {:?}\nindependent: {:?}\n{byte}",
        proved.0, independent.0
    )
}
