//! The check of a metadata section.

use super::fields::{be16, be32, first, is_text, rest};

pub fn count(section: &[u8]) -> usize {
    usize::from(be16(section, 0))
}

pub fn index_size(section: &[u8]) -> usize {
    if section.is_empty() {
        return 0;
    }
    2 + 8 * count(section)
}

fn headers_of(section: &[u8]) -> &[u8] {
    rest(section, 2)
}

fn data_of(section: &[u8]) -> &[u8] {
    rest(section, 2 + 8 * count(section))
}

fn key_size(headers: &[u8]) -> usize {
    usize::from(be16(headers, 0))
}

fn entry_size(headers: &[u8]) -> usize {
    key_size(headers) + be32(headers, 4) as usize
}

fn entry_ok(headers: &[u8], data: &[u8]) -> bool {
    let key_size = key_size(headers);
    if key_size < 1 || data.len() < entry_size(headers) {
        return false;
    }
    is_text(first(data, key_size))
}

fn entries_ok(mut headers: &[u8], mut data: &[u8], n: usize) -> bool {
    for _ in 0..n {
        if !entry_ok(headers, data) {
            return false;
        }
        data = rest(data, entry_size(headers));
        headers = rest(headers, 8);
    }
    data.is_empty()
}

fn section_ok(section: &[u8]) -> bool {
    if section.len() < 2 {
        return false;
    }
    let n = count(section);
    if section.len() < 2 + 8 * n {
        return false;
    }
    entries_ok(headers_of(section), data_of(section), n)
}

pub fn metadata_fault(section: &[u8]) -> u8 {
    if section.is_empty() || section_ok(section) {
        0
    } else {
        7
    }
}

#[cfg(test)]
mod tests {
    use super::metadata_fault;

    #[test]
    fn sections() {
        let one = [0, 1, 0, 1, 0, 3, 0, 0, 0, 2, b'k', 5, 6];
        assert_eq!(metadata_fault(&[]), 0);
        assert_eq!(metadata_fault(&[0, 0]), 0);
        assert_eq!(metadata_fault(&one), 0);
        assert_eq!(metadata_fault(&one[..12]), 7);
        assert_eq!(metadata_fault(&[0]), 7);
    }
}
