//! One-edit variants of the Rust or of the wrapper, each built apart in a temporary folder and told from the original by
//! stored cases. Run in oracle/.

use std::path::{Path, PathBuf};
use std::process::{Command, Output};
use std::{env, fs};

const DEFAULT: &str = "../../shared/docs/src";
const OWN: [&str; 9] =
    ["attributes", "beside", "calls", "given", "run", "tool", "Cargo.toml", "Cargo.lock", "SOURCES.sha256"];

/// One replacement: in a file, on a line where one is named, of a text that stands there exactly once.
struct Edit {
    file: String,
    line: Option<usize>,
    from: String,
    to: String,
}

struct Variant {
    name: String,
    edits: Vec<Edit>,
}

/// The list: a name on a line of its own, and its edits indented below it.
fn parse(text: &str) -> Result<Vec<Variant>, String> {
    let mut variants: Vec<Variant> = Vec::new();
    for line in text.lines().filter(|line| !line.trim().is_empty() && !line.starts_with('#')) {
        if !line.starts_with(' ') {
            variants.push(Variant { name: line.to_string(), edits: Vec::new() });
            continue;
        }
        let edit = edit(line.trim()).ok_or_else(|| format!("not an edit: {line}"))?;
        variants.last_mut().ok_or("an edit without a name")?.edits.push(edit);
    }
    Ok(variants)
}

/// `FILE:LINE FROM ==> TO`, or `FILE FROM ==> TO`.
fn edit(line: &str) -> Option<Edit> {
    let (place, change) = line.split_once(' ')?;
    let (from, to) = change.split_once(" ==>")?;
    let (file, line) = match place.split_once(':') {
        Some((file, line)) => (file, Some(line.parse().ok()?)),
        None => (place, None),
    };
    Some(Edit { file: file.into(), line, from: from.into(), to: to.trim_start().into() })
}

fn copy(from: &Path, to: &Path) -> std::io::Result<()> {
    if !from.is_dir() {
        return fs::copy(from, to).map(|_| ());
    }
    fs::create_dir_all(to)?;
    for entry in fs::read_dir(from)? {
        let entry = entry?;
        copy(&entry.path(), &to.join(entry.file_name()))?;
    }
    Ok(())
}

/// A folder of its own with the workspace and the Rust; gone when it is dropped.
struct Bench {
    root: PathBuf,
}

impl Drop for Bench {
    fn drop(&mut self) {
        let _ = fs::remove_dir_all(&self.root);
    }
}

impl Bench {
    fn new() -> std::io::Result<Self> {
        let root = env::temp_dir().join(format!("oracle-variants-{}", std::process::id()));
        fs::create_dir_all(&root)?;
        let bench = Self { root };
        let source = env::var_os("ZIGGURAT_SRC").unwrap_or_else(|| DEFAULT.into());
        copy(&Path::new(&source).join("crates"), &bench.root.join("src/crates"))?;
        for name in OWN {
            copy(Path::new(name), &bench.root.join(name))?;
        }
        Ok(bench)
    }

    /// The given Rust's files are named from its own root, the wrapper's from oracle/.
    fn path(&self, file: &str) -> PathBuf {
        let zigbee = self.root.join("src/crates/ziggurat-zigbee/src").join(file);
        if zigbee.exists() { zigbee } else { self.root.join(file) }
    }

    /// Makes one replacement and gives the text that stood there before.
    fn replace(&self, edit: &Edit) -> Result<(PathBuf, String), String> {
        let path = self.path(&edit.file);
        let text = fs::read_to_string(&path).map_err(|e| format!("{}: {e}", edit.file))?;
        let mut lines: Vec<String> = text.split('\n').map(String::from).collect();
        let chosen = match edit.line {
            Some(line) => line - 1..line,
            None => 0..lines.len(),
        };
        let found: usize = lines[chosen.clone()].iter().map(|line| line.matches(&edit.from).count()).sum();
        if found != 1 {
            return Err(format!("{}: {:?} stands there {found} times", edit.file, edit.from));
        }
        for line in &mut lines[chosen] {
            *line = line.replace(&edit.from, &edit.to);
        }
        fs::write(&path, lines.join("\n")).map_err(|e| e.to_string())?;
        Ok((path, text))
    }

    fn build(&self) -> Result<(), String> {
        let mut cargo = Command::new("cargo");
        cargo.args(["build", "--offline", "--locked", "--quiet", "-j1", "--profile", "variant", "-p", "run"]);
        cargo.current_dir(&self.root).env("ZIGGURAT_SRC", self.root.join("src")).env("ORACLE_EDITED", "1");
        cargo.env("CARGO_TARGET_DIR", self.root.join("target")).env_remove("SENDS_ARCHIVE");
        let Output { status, stderr, .. } = cargo.output().map_err(|e| format!("cargo: {e}"))?;
        if status.success() { Ok(()) } else { Err(String::from_utf8_lossy(&stderr).into_owned()) }
    }

    /// Builds what is there and runs the cases: their count, or which differ.
    fn try_cases(&self, cases: &Path) -> Result<Result<String, String>, String> {
        self.build()?;
        let mut replay = Command::new(self.root.join("target/variant/replay"));
        let output = replay.arg(cases).output().map_err(|e| e.to_string())?;
        let text = |bytes: &[u8]| String::from_utf8_lossy(bytes).trim().to_string();
        Ok(if output.status.success() { Ok(text(&output.stdout)) } else { Err(text(&output.stderr)) })
    }

    /// One variant, made, tried and unmade. How it was told apart, or an error where it was not.
    fn variant(&self, variant: &Variant, cases: &Path) -> Result<String, String> {
        let mut before = Vec::new();
        for edit in &variant.edits {
            before.push(self.replace(edit)?);
        }
        let tried = self.try_cases(cases);
        for (path, text) in before.into_iter().rev() {
            fs::write(path, text).map_err(|e| e.to_string())?;
        }
        match tried? {
            Ok(same) => Err(format!("not told apart: {same}")),
            Err(told) => Ok(told),
        }
    }
}

/// Builds and tries every variant of the list, the unedited one first.
pub fn all(list: &str, cases: &Path) -> Result<String, String> {
    let text = fs::read_to_string(list).map_err(|e| format!("{list}: {e}"))?;
    let variants = parse(&text)?;
    let cases = cases.canonicalize().map_err(|e| e.to_string())?;
    let bench = Bench::new().map_err(|e| e.to_string())?;
    let control = bench.try_cases(&cases)?.map_err(|told| format!("the unedited build differs: {told}"))?;
    println!("unedited: {control}");
    let mut missed = Vec::new();
    for variant in &variants {
        match bench.variant(variant, &cases) {
            Ok(told) => println!("{}: {told}", variant.name),
            Err(why) => missed.push(format!("{}: {why}", variant.name)),
        }
    }
    if !missed.is_empty() {
        return Err(format!("{} of {} variants\n{}", missed.len(), variants.len(), missed.join("\n")));
    }
    Ok(format!("{} one-edit variants, each told apart by stored cases", variants.len()))
}
