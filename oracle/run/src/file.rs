//! Case files: a magic word and a count, then each case as three lengths, the trace and the answers (stored/README.md).

use std::fs;
use std::path::{Path, PathBuf};

const MAGIC: &[u8; 8] = b"SENDS\0\0\x01";
/// The file that names the cases of a folder's case files.
pub const INDEX: &str = "INDEX.txt";
/// The largest file that is written.
pub const LIMIT: usize = 1 << 20;

/// What is run, and into how much room.
#[derive(Debug, Clone, PartialEq, Eq)]
pub struct Case {
    pub what: String,
    pub capacity: usize,
    pub trace: Vec<u8>,
}

/// A case with its answers.
#[derive(Debug, Clone, PartialEq, Eq)]
pub struct Answered {
    pub case: Case,
    pub answers: Vec<u8>,
}

/// The bytes of a file with these cases.
pub fn write(cases: &[Answered]) -> Vec<u8> {
    let mut bytes = MAGIC.to_vec();
    let number = |bytes: &mut Vec<u8>, n: usize| bytes.extend(u32::try_from(n).expect("a short case").to_le_bytes());
    number(&mut bytes, cases.len());
    for Answered { case, answers } in cases {
        for length in [case.capacity, case.trace.len(), answers.len()] {
            number(&mut bytes, length);
        }
        bytes.extend(&case.trace);
        bytes.extend(answers);
    }
    bytes
}

/// The cases of a file.
pub fn read(bytes: &[u8]) -> Option<Vec<Answered>> {
    let mut rest = bytes.strip_prefix(MAGIC)?;
    let mut take = |length: usize| {
        let (head, tail) = rest.split_at_checked(length)?;
        rest = tail;
        Some(head)
    };
    let mut cases = Vec::new();
    let number = |bytes: &[u8]| Some(u32::from_le_bytes(bytes.try_into().ok()?) as usize);
    for place in 0..number(take(4)?)? {
        let [capacity, trace, answers] = [number(take(4)?)?, number(take(4)?)?, number(take(4)?)?];
        let trace = take(trace)?.to_vec();
        let answers = take(answers)?.to_vec();
        cases.push(Answered { case: Case { what: format!("case {place}"), capacity, trace }, answers });
    }
    rest.is_empty().then_some(cases)
}

/// The case files of a folder, by name.
pub fn list(dir: &Path) -> Result<Vec<PathBuf>, String> {
    let entries = fs::read_dir(dir).map_err(|e| format!("{}: {e}", dir.display()))?;
    let mut files: Vec<PathBuf> = entries.filter_map(|entry| Some(entry.ok()?.path())).collect();
    files.retain(|path| path.extension().is_some_and(|end| end == "bin"));
    files.sort();
    Ok(files)
}

/// The names of a file's cases, out of the folder's index where it has one.
fn names(dir: &Path, file: &str) -> Vec<String> {
    let index = fs::read_to_string(dir.join(INDEX)).unwrap_or_default();
    let heads = |line: &&str| !line.starts_with(&format!("{file}:"));
    let rows = index.lines().skip_while(heads).skip(1).take_while(|line| !line.is_empty());
    rows.map(|row| row.splitn(2, ": ").last().unwrap_or_default().to_string()).collect()
}

/// Every case of a file, named by the file, its place, and the folder's index.
pub fn read_file(path: &Path) -> Result<Vec<Answered>, String> {
    let bytes = fs::read(path).map_err(|e| format!("{}: {e}", path.display()))?;
    let mut cases = read(&bytes).ok_or_else(|| format!("{} is not a whole case file", path.display()))?;
    let file = path.file_name().unwrap_or_default().to_string_lossy();
    let mut names = names(path.parent().unwrap_or(Path::new(".")), &file).into_iter();
    for Answered { case, .. } in &mut cases {
        let name = names.next().map(|name| format!(" ({name})")).unwrap_or_default();
        case.what = format!("{file} {}{name}", case.what);
    }
    Ok(cases)
}

/// Every case of a folder.
pub fn read_all(dir: &Path) -> Result<Vec<Answered>, String> {
    let files: Result<Vec<_>, _> = list(dir)?.iter().map(|path| read_file(path)).collect();
    Ok(files?.concat())
}
