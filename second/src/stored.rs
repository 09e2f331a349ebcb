//! Cases stored as tests: a folder of files with bytes in hex; lines that begin with # are notes.

use crate::bytes::{hex, unhex};
use std::path::{Path, PathBuf};

/// Each file's name and its bytes, in the order of names.
pub fn read(folder: &Path) -> Result<Vec<(String, Vec<u8>)>, String> {
    let files = std::fs::read_dir(folder).map_err(|e| format!("{}: {}", folder.display(), e))?;
    let mut paths: Vec<PathBuf> = files.flatten().map(|file| file.path()).collect();
    paths.retain(|path| path.extension().map_or(false, |end| end == "hex"));
    paths.sort();
    paths.iter().map(|path| read_one(path)).collect()
}

fn read_one(path: &Path) -> Result<(String, Vec<u8>), String> {
    let text = std::fs::read_to_string(path).map_err(|e| e.to_string())?;
    let digits: String = text.lines().filter(|line| !line.starts_with('#')).collect();
    let bytes = unhex(&digits).ok_or(format!("{} is not hex", path.display()))?;
    Ok((path.file_stem().unwrap_or_default().to_string_lossy().into_owned(), bytes))
}

/// Stores a case, if a folder is named, and says where.
pub fn write(folder: Option<&Path>, name: &str, note: &str, bytes: &[u8]) {
    if let Some(folder) = folder {
        let note: String = note.lines().map(|line| format!("# {}\n", line)).collect();
        let path = folder.join(format!("{}.hex", name));
        match std::fs::write(&path, format!("{}{}\n", note, hex(bytes))) {
            Ok(()) => println!("  stored as {}", path.display()),
            Err(e) => println!("  not stored as {}: {}", path.display(), e),
        }
    }
}
