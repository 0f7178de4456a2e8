//! Makes the vector files below a repository's root, or checks that the stored ones are up to date.
//! It is written from the customer's papers alone and shares no code with the crates.
//!
//! From the root: `CARGO_TARGET_DIR=target/reference cargo run --manifest-path reference/Cargo.toml
//! -- check .`, or `write .` to make the files again.

use reference::vectors::{self, VectorFile};
use std::path::{Path, PathBuf};
use std::process::ExitCode;
use std::{env, fs, io};

fn main() -> ExitCode {
    let words: Vec<String> = env::args().skip(1).collect();
    let words: Vec<&str> = words.iter().map(String::as_str).collect();
    match words[..] {
        ["write", root] => write(Path::new(root)),
        ["check", root] => check(Path::new(root)),
        _ => {
            eprintln!("usage: reference write DIR | reference check DIR");
            ExitCode::from(2)
        }
    }
}

/// Every file is written beside the stored one first, so that a failure leaves all of those as they
/// were.
fn write(root: &Path) -> ExitCode {
    let files = vectors::files();
    if let Err(message) = store(root, &files) {
        for file in &files {
            let _ = fs::remove_file(beside(root, file));
        }
        eprintln!("reference: {message}");
        return ExitCode::FAILURE;
    }
    println!("reference: {} vector files written", files.len());
    ExitCode::SUCCESS
}

fn store(root: &Path, files: &[VectorFile]) -> Result<(), String> {
    for file in files {
        write_beside(root, file).map_err(|error| said(file, error))?;
    }
    for file in files {
        fs::rename(beside(root, file), root.join(file.path)).map_err(|error| said(file, error))?;
    }
    Ok(())
}

fn write_beside(root: &Path, file: &VectorFile) -> io::Result<()> {
    let path = beside(root, file);
    if let Some(folder) = path.parent() {
        fs::create_dir_all(folder)?;
    }
    fs::write(path, &file.bytes)
}

/// Where a file is written before it takes the stored one's place.
fn beside(root: &Path, file: &VectorFile) -> PathBuf {
    root.join(format!("{}.new", file.path))
}

fn said(file: &VectorFile, error: io::Error) -> String {
    format!("{}: {error}", file.path)
}

fn check(root: &Path) -> ExitCode {
    let files = vectors::files();
    let faults: Vec<String> = files.iter().filter_map(|file| fault(root, file)).collect();
    for fault in &faults {
        println!("{fault}");
    }
    if faults.is_empty() {
        println!("reference: {} vector files up to date", files.len());
        ExitCode::SUCCESS
    } else {
        println!(
            "reference: {} of {} vector files out of date",
            faults.len(),
            files.len()
        );
        ExitCode::FAILURE
    }
}

/// How the stored file differs from the one that would be written, or nothing.
fn fault(root: &Path, file: &VectorFile) -> Option<String> {
    match fs::read(root.join(file.path)) {
        Ok(stored) => first_difference(&stored, &file.bytes)
            .map(|offset| format!("{}: differs at offset {offset}", file.path)),
        Err(error) if error.kind() == io::ErrorKind::NotFound => {
            Some(format!("{}: missing", file.path))
        }
        Err(error) => Some(said(file, error)),
    }
}

/// The first offset at which only one has a byte, or the two have different ones.
fn first_difference(stored: &[u8], expected: &[u8]) -> Option<usize> {
    (0..stored.len().max(expected.len())).find(|&offset| stored.get(offset) != expected.get(offset))
}

#[cfg(test)]
mod tests {
    use super::first_difference;

    #[test]
    fn difference_of_equal_bytes() {
        assert_eq!(first_difference(b"abc", b"abc"), None);
    }

    #[test]
    fn difference_of_another_byte() {
        assert_eq!(first_difference(b"abc", b"axc"), Some(1));
    }

    #[test]
    fn difference_of_a_shorter_file() {
        assert_eq!(first_difference(b"ab", b"abc"), Some(2));
    }
}
