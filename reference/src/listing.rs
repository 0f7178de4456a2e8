//! The listing (rule 8.3): what is answered at each place of a stream, up to the first step of 0.
//! The program reads messages of the new layout.

use crate::fault::number;
use crate::message::body::Layout;
use crate::message::read;

/// As many bytes as the program reads.
const LONGEST: usize = 65_536;

/// A line of the listing.
#[derive(Clone, Copy, Debug, PartialEq, Eq)]
pub struct Line {
    pub at: usize,
    pub answer: u8,
    pub step: usize,
}

pub fn lines(layout: Layout, stream: &[u8]) -> Vec<Line> {
    let first = line(layout, stream, 0);
    let lines = std::iter::successors(Some(first), |last| {
        (last.step > 0).then(|| line(layout, stream, last.at + last.step))
    });
    lines.collect()
}

fn line(layout: Layout, stream: &[u8], at: usize) -> Line {
    let reading = read(layout, &stream[at..]);
    Line {
        at,
        answer: number(&reading.message),
        step: reading.step,
    }
}

/// What the program prints.
pub fn table(input: &[u8]) -> String {
    let lines = lines(Layout::New, &input[..input.len().min(LONGEST)]).into_iter();
    let lines = lines.map(|Line { at, answer, step }| format!("{at} {answer} {step}\n"));
    "at answer step\n".to_string() + &lines.collect::<String>()
}

#[cfg(test)]
mod tests {
    use super::{lines, table, Layout, Line};

    #[test]
    fn a_stream_of_no_bytes() {
        assert_eq!(table(&[]), "at answer step\n0 1 0\n");
    }

    #[test]
    fn a_header_of_zeros_is_passed_over() {
        let last = Line {
            at: 58,
            answer: 1,
            step: 0,
        };
        for layout in Layout::BOTH {
            assert_eq!(lines(layout, &[0; 60])[1..], [last]);
        }
    }

    #[test]
    fn no_more_than_65_536_bytes_are_read() {
        for length in [58 * 1129, 58 * 1130, 58 * 1131] {
            assert!(table(&vec![0; length]).ends_with("\n65424 4 58\n65482 1 0\n"));
        }
    }
}
