//! Messages of a wrong size: refused, and nothing of the panel changes by them.

use super::calls::{add, after_start, arm, look, message, needle, send};
use super::calls::{ARM, NEEDLE, POSITION, TRANSFORM};
use super::Script;
use crate::crc::crc;
use crate::message::body::Layout;
use crate::vectors::samples::{Fields, Sample};

pub fn scripts() -> Vec<Script> {
    let wrong = wrong_sizes();
    let scripts = wrong.iter().map(|bytes| after_a_sound_one(bytes));
    scripts.chain([one_after_another(&wrong)]).collect()
}

/// Two tiles are green before the message, and as green after it; the clock is not moved.
fn after_a_sound_one(bytes: &[u8]) -> Script {
    let calls = [
        add(POSITION, NEEDLE, 400),
        send(1200, &needle(24, 6)),
        send(1300, bytes),
        look(0, 1250),
        look(1, 1250),
    ];
    after_start(&calls, 1200)
}

/// All in one script, and then a sound one.
fn one_after_another(wrong: &[Vec<u8>]) -> Script {
    let wrong = wrong.iter().map(|bytes| send(1300, bytes));
    let sound = [send(1201, &arm(9)), look(0, 1201)];
    after_start(&wrong.chain(sound).collect::<Vec<_>>(), 1201)
}

fn wrong_sizes() -> Vec<Vec<u8>> {
    [
        larger_sizes(),
        huge_sizes(),
        smaller_sizes(),
        cut_short(),
        other_lengths(),
        left_over(),
    ]
    .concat()
}

/// A message of which BODY_SIZE says this, the CRC being that of as many bytes as are there.
fn with_size(sample: &Sample, size: u64) -> Vec<u8> {
    let body = &sample.bytes()[58..];
    let length = usize::try_from(size).unwrap_or(usize::MAX);
    let mut fields = Fields::of(sample);
    fields.body_size = Some(size);
    fields.crc = Some(crc(&body[..length.min(body.len())]));
    fields.bytes()
}

fn transform() -> Sample {
    message(TRANSFORM, ARM, &[8; 48])
}

fn position() -> Sample {
    message(POSITION, NEEDLE, &[8; 28])
}

/// More than is there, up to the limit.
fn larger_sizes() -> Vec<Vec<u8>> {
    let sizes = [49, 50, 48 + 256, 48 + 65_536, 16_777_216];
    sizes.map(|size| with_size(&transform(), size)).to_vec()
}

/// Above the limit; in fewer bits some are the true one, and some together with the header's 58
/// bytes are small.
fn huge_sizes() -> Vec<Vec<u8>> {
    let sizes = [
        16_777_217,
        (1 << 32) + 48,
        (1 << 63) + 48,
        u64::MAX,
        u64::MAX - 57,
        u64::MAX - 9,
    ];
    sizes.map(|size| with_size(&transform(), size)).to_vec()
}

/// Fewer than are there: the content has another length, or is a shorter POSITION and bytes are
/// left over; the CRC is wrong; the size is that of the content without the sections around it.
fn smaller_sizes() -> Vec<Vec<u8>> {
    let transforms = [0, 1, 24, 47].map(|size| with_size(&transform(), size));
    let positions = [0, 12, 24, 27].map(|size| with_size(&position(), size));
    let mut of_another = Fields::of(&transform());
    of_another.body_size = Some(47);
    let extended = Sample {
        type_text: TRANSFORM.to_vec(),
        content: vec![8; 48],
        ..Sample::extended(Layout::New)
    };
    let rest = [of_another.bytes(), with_size(&extended, 48)];
    transforms
        .into_iter()
        .chain(positions)
        .chain(rest)
        .collect()
}

fn cut_short() -> Vec<Vec<u8>> {
    let lengths = [0, 1, 2, 42, 57, 58, 59, 105];
    lengths.map(|length| arm(8)[..length].to_vec()).to_vec()
}

/// Contents of another length, with a right size and CRC.
fn other_lengths() -> Vec<Vec<u8>> {
    let transforms = [0, 12, 47, 49, 96, 304];
    let transforms = transforms.map(|length| message(TRANSFORM, ARM, &vec![8; length]).bytes());
    let positions = [0, 11, 13, 16, 25, 29, 48].map(|length| needle(length, 8));
    let extended = [0, 47, 49].map(|length| {
        let sample = Sample {
            version: 2,
            ..message(TRANSFORM, ARM, &vec![8; length])
        };
        sample.bytes()
    });
    let streams = transforms.into_iter().chain(positions);
    streams.chain(extended).collect()
}

/// A sound message, then one byte, a header's bytes, or one more message.
fn left_over() -> Vec<Vec<u8>> {
    let next: [&[u8]; 4] = [&[0], &[255], &[0; 58], &arm(9)];
    next.map(|next| [&arm(8)[..], next].concat()).to_vec()
}

#[cfg(test)]
mod tests {
    use super::{
        after_a_sound_one, cut_short, huge_sizes, larger_sizes, left_over, one_after_another,
        other_lengths, smaller_sizes, wrong_sizes,
    };

    fn assert_refused(wrong: &[Vec<u8>], numbers: &[u8]) {
        assert_eq!(wrong.len(), numbers.len());
        for (bytes, number) in wrong.iter().zip(numbers) {
            let start = "added 0, accepted, accepted, added 1, accepted";
            let looks = "green 50 7, green 50 6 | green 0 7, green 0 6";
            let line = format!("{start}, refused {number}, {looks}");
            assert_eq!(after_a_sound_one(bytes).brief(), line);
        }
    }

    #[test]
    fn each_is_refused_by_its_number_and_the_tiles_stay_green() {
        assert_refused(&larger_sizes(), &[1; 5]);
        assert_refused(&huge_sizes(), &[3; 6]);
        assert_refused(&smaller_sizes(), &[8, 8, 8, 8, 8, 12, 12, 8, 5, 7]);
        assert_refused(&cut_short(), &[1; 8]);
        assert_refused(&other_lengths(), &[8; 16]);
        assert_refused(&left_over(), &[12; 4]);
    }

    #[test]
    fn a_sound_one_after_all_of_them_counts() {
        let brief = one_after_another(&wrong_sizes()).brief();
        assert!(brief.ends_with("refused 12, accepted, green 0 9 | green 0 9"));
    }
}
