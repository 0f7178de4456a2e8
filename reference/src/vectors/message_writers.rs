//! Cases of the writer of messages.

use super::bundles;
use super::case::Case;
use super::out::{answered, answered_with_crc, rooms, Out};
use super::patched::Patched;
use super::samples::Sample;
use super::{headers, messages, metadata, trees};
use crate::message::body::Layout;
use crate::random::Random;
use crate::writer::{write_message, Written};

const SEED: u64 = 9;
const CHANCES: usize = 100;

pub fn cases() -> Vec<Case> {
    let mut random = Random::new(SEED);
    [
        around_the_length(),
        texts(),
        sections(),
        contents(),
        by_chance(&mut random),
        of_zeros(),
        of_patches(),
    ]
    .concat()
}

pub fn written_case(sample: &Sample, out: Out) -> Case {
    let case = begun(sample, out, 'w')
        .given(&sample.further)
        .given(&sample.content)
        .given(&sample.metadata);
    case.in_both(|case, layout| answered(case, written(layout, sample, out)))
}

/// What is answered with this buffer, and the buffer afterwards.
fn written(layout: Layout, sample: &Sample, out: Out) -> (Written, Vec<u8>) {
    out.after(|out| write_message(layout, &sample.message(), out))
}

/// A case with the fields that every record of this writer begins with.
fn begun(sample: &Sample, out: Out, kind: char) -> Case {
    let fixed = [
        &sample.version.to_be_bytes()[..],
        &sample.time_stamp.to_be_bytes(),
        &sample.id.to_be_bytes(),
    ];
    out.case(kind)
        .given(&fixed.concat())
        .given(&sample.type_text)
        .given(&sample.device_name)
}

/// The bytes that a sample takes; where it is refused, about as many as it would take.
pub fn length(sample: &Sample) -> usize {
    let sections = [&sample.further, &sample.content, &sample.metadata];
    let about = 70 + sections.iter().map(|section| section.len()).sum::<usize>();
    let bytes = sample.message().encode(sample.layout);
    bytes.map_or(about, |bytes| bytes.len())
}

/// Each sample in every room.
fn around_the_length() -> Vec<Case> {
    let of_sample = |sample: &Sample| rooms(length(sample)).map(|out| written_case(sample, out));
    samples().iter().flat_map(of_sample).collect()
}

/// Sound samples and each fault, alone and with those after it in the order.
pub fn samples() -> Vec<Sample> {
    [plain_samples(), extended_samples(), large_counts()].concat()
}

fn changed<const N: usize>(sample: &Sample, changes: [fn(&mut Sample); N]) -> Vec<Sample> {
    changes.map(|change| sample.with(change)).to_vec()
}

/// What a message that is all content cannot have.
fn plain_samples() -> Vec<Sample> {
    changed(
        &Sample::plain(b"POSITION", &[9; 12]),
        [
            |_| (),
            |sample| sample.time_stamp = u64::MAX,
            |sample| sample.content.push(9),
            |sample| sample.id = 1,
            |sample| sample.id = u32::MAX,
            |sample| sample.further = vec![0],
            |sample| sample.metadata = vec![0, 0],
            |sample| sample.metadata = vec![9],
            |sample| (sample.id, sample.content) = (1, vec![]),
            |sample| (sample.metadata, sample.device_name) = (vec![0, 0], vec![b'A'; 21]),
            |sample| (sample.metadata, sample.version) = (vec![0, 0], 3),
            |sample| (sample.id, sample.metadata, sample.content) = (1, vec![9], vec![]),
            |sample| (sample.type_text, sample.content) = (b"IMAGE".to_vec(), vec![]),
            |sample| (sample.type_text, sample.content) = (b"BIND".to_vec(), vec![]),
            |sample| (sample.type_text, sample.content) = (b"BIND".to_vec(), vec![0; 4]),
            |sample| (sample.type_text, sample.content) = (b"BIND".to_vec(), deep()),
            |sample| (sample.type_text, sample.content) = (b"STATUS".to_vec(), vec![]),
        ],
    )
}

fn deep() -> Vec<u8> {
    bundles::nest(4, &[])
}

fn extended_samples() -> Vec<Sample> {
    changed(
        &Sample::extended(Layout::New),
        [
            |_| (),
            |sample| sample.id = 0,
            |sample| sample.further.clear(),
            |sample| sample.metadata.clear(),
            |sample| sample.metadata = vec![0, 0],
            |sample| sample.metadata = vec![0],
            |sample| sample.metadata.push(0),
            |sample| sample.content.push(9),
            |sample| (sample.metadata, sample.content) = (vec![0; 3], vec![9]),
            |sample| (sample.type_text, sample.metadata) = (b"IMAGE".to_vec(), vec![9]),
            |sample| (sample.type_text, sample.metadata) = (b"BIND".to_vec(), vec![9]),
            |sample| sample.type_text = b"IMAGE".to_vec(),
            |sample| sample.type_text = b"BIND".to_vec(),
            |sample| (sample.type_text, sample.content) = (b"BIND".to_vec(), deep()),
            |sample| sample.type_text = b"transform".to_vec(),
            |sample| (sample.version, sample.metadata) = (7, vec![9]),
            |sample| (sample.version, sample.content) = (0, vec![9]),
            |sample| sample.version = 3,
            |sample| sample.version = 0x0102,
            |sample| sample.version = 65_535,
            |sample| (sample.version, sample.device_name) = (3, vec![128]),
            |sample| (sample.metadata, sample.device_name) = (vec![9], vec![0]),
            |sample| *sample = everything_wrong(),
            |sample| *sample = everything_wrong().with(|sample| sample.device_name.clear()),
            |sample| *sample = nothing(),
        ],
    )
}

/// Sections whose count is around the most that the new layout has.
fn large_counts() -> Vec<Sample> {
    changed(
        &Sample::extended(Layout::New),
        [
            |sample| sample.metadata = vec![0x1F, 0xFF],
            |sample| sample.metadata = vec![0x20, 0],
            |sample| sample.metadata = vec![0xFF, 0xFF],
            |sample| sample.metadata = vec![0xFF],
            |sample| sample.metadata[0] = 0x20,
            |sample| (sample.metadata[0], sample.content) = (0x20, vec![]),
            |sample| (sample.metadata[0], sample.version) = (0x20, 1),
            |sample| (sample.metadata[0], sample.version) = (0x20, 3),
            |sample| (sample.metadata[0], sample.type_text) = (0x20, vec![b'A'; 13]),
        ],
    )
}

/// Of a version, with a name, metadata and a content that are all refused.
fn everything_wrong() -> Sample {
    Sample {
        version: 9,
        device_name: vec![255; 21],
        metadata: vec![9],
        ..Sample::plain(b"TRANSFORM", &[0; 47])
    }
}

/// Of version 0, with every field empty.
fn nothing() -> Sample {
    Sample {
        version: 0,
        device_name: vec![],
        ..Sample::plain(b"", b"")
    }
}

fn texts() -> Vec<Case> {
    let texts = headers::texts_written().into_iter();
    let cases = texts.flat_map(|[type_text, device_name]| {
        let sample = Sample {
            type_text: type_text.to_vec(),
            device_name: device_name.to_vec(),
            ..Sample::plain(b"", b"content")
        };
        [0, 64, 65, 66].map(|room| written_case(&sample, Out::new(room)))
    });
    cases.collect()
}

/// Every other sample of the metadata and one of many entries, in a room that is enough.
fn sections() -> Vec<Case> {
    let sections = metadata::samples().into_iter().step_by(2);
    let sections = sections.chain([metadata::many()]);
    let samples = sections.map(|section| messages::with_metadata(Layout::New, section));
    samples.map(|sample| exact_case(&sample)).collect()
}

fn contents() -> Vec<Case> {
    let samples = messages::contents().into_iter().step_by(3);
    samples.map(|sample| exact_case(&sample)).collect()
}

pub fn exact_case(sample: &Sample) -> Case {
    written_case(sample, Out::new(length(sample)))
}

/// By chance, into rooms around the length; now and then with one bit of the content changed.
fn by_chance(random: &mut Random) -> Vec<Case> {
    let mut case = || {
        let mut sample = Sample::by_chance(random);
        if !sample.content.is_empty() && random.below(4) == 0 {
            sample.content = trees::damaged(random, &sample.content);
        }
        let room = (length(&sample) + random.below(4)).saturating_sub(random.below(3));
        let fill = random.bytes(1)[0];
        written_case(&sample, Out { room, fill })
    };
    (0..CHANCES).map(|_| case()).collect()
}

/// A version and a type; of how many zeros each section is: further bytes, content, metadata.
type Zeros = (u16, &'static [u8], [u32; 3]);

/// Sections around the most that their size fields say.
const AROUND_SIZES: [Zeros; 27] = [
    (1, b"TRANSFORM", [0, 48, 0]),
    (2, b"TRANSFORM", [0, 48, 0]),
    (2, b"BIND", [5, 4, 2]),
    (2, b"BIND", [5, 5, 2]),
    (1, b"THIRTEEN_BYTE", [65_524, 0, 0]),
    (2, b"IMAGE", [5, 72, 2]),
    (2, b"STATUS", [65_522, 0, 0]),
    (2, b"STATUS", [65_523, 0, 0]),
    (2, b"STATUS", [65_524, 0, 0]),
    (2, b"STATUS", [65_535, 0, 0]),
    (2, b"STATUS", [65_536, 0, 0]),
    (2, b"STATUS", [65_536 + 12, 0, 2]),
    (2, b"STATUS", [65_523, 1, 2]),
    (2, b"TRANSFORM", [65_523, 48, 2]),
    (2, b"TRANSFORM", [65_523, 47, 2]),
    (2, b"STATUS", [0, 0, 65_534]),
    (2, b"STATUS", [0, 0, 65_535]),
    (2, b"STATUS", [0, 0, 65_536]),
    (2, b"STATUS", [0, 0, 65_538]),
    (2, b"TRANSFORM", [65_524, 47, 65_535]),
    (2, b"TRANSFORM", [65_523, 47, 65_536]),
    (2, b"TRANSFORM", [65_523, 47, 65_535]),
    (1, b"STATUS", [65_523, 0, 0]),
    (1, b"STATUS", [0, 0, 65_535]),
    (3, b"STATUS", [65_524, 0, 65_536]),
    (1, b"STATUS", [0, 65_536, 0]),
    (2, b"STATUS", [0, 65_536, 0]),
];

/// Messages as long as the buffer, and sections of more bytes than it has.
const LARGE: [(Zeros, usize); 5] = [
    ((1, b"STATUS", [0, 1_376_198, 0]), 1_376_256),
    ((1, b"STATUS", [0, 1_376_199, 0]), 1_376_256),
    ((2, b"STATUS", [0, 1_376_184, 2]), 1_376_256),
    ((2, b"STATUS", [65_523, 1_310_661, 2]), 1_376_256),
    ((2, b"STATUS", [1_376_256; 3]), 60),
];

fn of_zeros() -> Vec<Case> {
    let around = AROUND_SIZES.into_iter().flat_map(|zeros| {
        let length = length_of_zeros(zeros);
        [length - 1, length, length + 3].map(|room| zeros_case(zeros, room))
    });
    let large = LARGE.map(|(zeros, room)| zeros_case(zeros, room));
    around.chain(large).collect()
}

/// About as many bytes as a message of these sections takes.
fn length_of_zeros((version, _, lengths): Zeros) -> usize {
    let front = if version == 1 { 58 } else { 70 };
    front + lengths.iter().sum::<u32>() as usize
}

fn zeros_case((version, type_text, [further, content, metadata]): Zeros, room: usize) -> Case {
    let section = (
        version,
        type_text,
        [further, content],
        Patched::new(metadata, &[]),
    );
    patched_case(&section, &with_section(&section), room)
}

/// The length of a section and the patches of its zeros.
fn one_entry(length: u32) -> Patched {
    let value_size = length - 11;
    let [high, low] = [value_size >> 16, value_size & 0xFFFF].map(|half| half as u16);
    let front = [(0, 1), (2, 1), (6, high), (8, low)];
    let key = [(10, 0x6B00)];
    Patched::new(length, &[&front[..], &key].concat())
}

/// A section of so many bytes that begins with this count. The keys of its entries have no bytes.
fn with_count(count: u16, length: u32) -> Patched {
    Patched::new(length, &[(0, count)])
}

/// A version and a type; of how many zeros the further bytes and the content are; the section.
type WithSection = (u16, &'static [u8], [u32; 2], Patched);

/// Sections around the most that the size field of the old layout says, and above; counts around
/// the most that the new layout has.
fn long_sections() -> Vec<WithSection> {
    let lengths = [65_534, 65_535, 65_536, 70_000, 131_083, 1_000_000];
    let whole = lengths.map(|length| (2, &b"STATUS"[..], [0, 0], one_entry(length)));
    let counts = [
        (8_191, 65_535),
        (8_192, 65_535),
        (65_535, 65_535),
        (8_191, 73_721),
        (8_192, 73_730),
    ];
    let counts = counts.map(|(count, length)| {
        let section = with_count(count, length);
        (2, &b"STATUS"[..], [0, 0], section)
    });
    let others: [WithSection; 8] = [
        (2, b"TRANSFORM", [65_523, 48], one_entry(70_000)),
        (2, b"TRANSFORM", [65_524, 48], one_entry(70_000)),
        (2, b"TRANSFORM", [65_523, 47], one_entry(70_000)),
        (2, b"TRANSFORM", [65_523, 47], one_entry(70_000).longer(1)),
        (1, b"STATUS", [0, 0], one_entry(70_000)),
        (3, b"STATUS", [0, 0], one_entry(70_000)),
        (1, b"STATUS", [0, 0], with_count(8_192, 73_730)),
        (2, b"THIRTEEN_BYTE", [0, 0], with_count(8_192, 73_730)),
    ];
    let all = whole.into_iter().chain(counts).chain(others);
    all.collect()
}

fn of_patches() -> Vec<Case> {
    let sections = long_sections().into_iter();
    let cases = sections.flat_map(|section| {
        let sample = with_section(&section);
        let length = length(&sample);
        [length - 1, length, length + 3].map(|room| patched_case(&section, &sample, room))
    });
    cases.collect()
}

fn with_section((version, type_text, lengths, section): &WithSection) -> Sample {
    let [further, content] = lengths.map(|length| vec![0; length as usize]);
    Sample {
        version: *version,
        further,
        metadata: section.content(),
        ..Sample::plain(type_text, &content)
    }
}

fn patched_case((_, _, lengths, section): &WithSection, sample: &Sample, room: usize) -> Case {
    let out = Out::new(room);
    let lengths = lengths.map(|length| length.to_be_bytes().to_vec());
    let fields = lengths.into_iter().chain(section.fields());
    let case = fields.fold(begun(sample, out, 'W'), |case, field| case.given(&field));
    case.in_both(|case, layout| answered_with_crc(case, written(layout, sample, out)))
}

#[cfg(test)]
mod tests {
    use super::{
        extended_samples, large_counts, long_sections, plain_samples, with_section, Layout, Sample,
    };
    use crate::fault::number;

    fn answers(layout: Layout, samples: &[Sample]) -> Vec<u8> {
        let answers = samples.iter().map(|sample| sample.message().encode(layout));
        answers.map(|answer| number(&answer)).collect()
    }

    #[test]
    fn plain_samples_in_the_order_of_the_checks() {
        let expected = [0, 0, 8, 6, 6, 6, 6, 6, 6, 2, 4, 6, 9, 10, 0, 11, 0];
        for layout in Layout::BOTH {
            assert_eq!(answers(layout, &plain_samples()), expected);
        }
    }

    #[test]
    fn extended_samples_in_the_order_of_the_checks() {
        let expected = [
            0, 0, 0, 0, 0, 7, 7, 8, 7, 7, 7, 9, 10, 11, 0, 4, 4, 4, 4, 4, 2, 2, 2, 4, 4,
        ];
        for layout in Layout::BOTH {
            assert_eq!(answers(layout, &extended_samples()), expected);
        }
    }

    #[test]
    fn counts_that_only_the_old_layout_looks_up() {
        let samples = large_counts();
        let new = answers(Layout::New, &samples);
        assert_eq!(new, [7, 6, 6, 7, 6, 6, 6, 4, 2]);
        let old = answers(Layout::Old, &samples);
        assert_eq!(old, [7, 7, 7, 7, 7, 7, 6, 4, 2]);
    }

    #[test]
    fn long_sections_in_both_layouts() {
        let samples: Vec<Sample> = long_sections().iter().map(with_section).collect();
        let new = answers(Layout::New, &samples);
        let whole = [0; 6];
        let counts = [7, 6, 6, 7, 6];
        assert_eq!(
            new,
            [&whole[..], &counts, &[0, 6, 8, 7, 6, 4, 6, 2]].concat()
        );
        let old = answers(Layout::Old, &samples);
        let whole = [0, 0, 6, 6, 6, 6];
        let counts = [7, 7, 7, 6, 6];
        assert_eq!(
            old,
            [&whole[..], &counts, &[6, 6, 6, 6, 6, 4, 6, 2]].concat()
        );
    }
}
