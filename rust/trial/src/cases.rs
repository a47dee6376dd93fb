//! The stored cases: text form and expected output in one file. The form of a
//! case file is described in `cases/README.md`.

use crate::repeat::{Line, expand};
use crate::text_to_bytes::append_line;
use std::path::{Path, PathBuf};

pub struct Case {
    pub name: String,
    pub bytes: Vec<u8>,
    pub expected: String,
}

/// The cases of this repository.
pub fn case_directory() -> PathBuf {
    Path::new(env!("CARGO_MANIFEST_DIR")).join("../../cases")
}

/// All cases of all `.case` files in a directory, by file name.
pub fn read_cases(directory: &Path) -> Result<Vec<Case>, String> {
    let entries = std::fs::read_dir(directory).map_err(|e| format!("{directory:?}: {e}"))?;
    let mut paths: Vec<PathBuf> = entries
        .filter_map(|entry| entry.ok().map(|entry| entry.path()))
        .filter(|path| path.extension().is_some_and(|e| e == "case"))
        .collect();
    paths.sort();
    let mut cases = Vec::new();
    for path in paths {
        let stem = path.file_stem().unwrap_or_default().to_string_lossy();
        let source = std::fs::read_to_string(&path).map_err(|e| format!("{path:?}: {e}"))?;
        cases.extend(parse_case_file(&stem, &source).map_err(|e| format!("{stem}: {e}"))?);
    }
    Ok(cases)
}

/// A file is one case, or a common beginning and several named cases.
pub fn parse_case_file(stem: &str, source: &str) -> Result<Vec<Case>, String> {
    let lines = expand(source)?;
    let is_case_line = |line: &Line| line.text.starts_with("case ");
    let Some(first_case) = lines.iter().position(is_case_line) else {
        return Ok(vec![parse_case(stem, &[], &lines)?]);
    };
    let (common, rest) = lines.split_at(first_case);
    let mut cases: Vec<Case> = Vec::new();
    for chunk in rest.chunk_by(|_, next| !is_case_line(next)) {
        let name = format!("{stem}: {}", chunk[0].text["case ".len()..].trim());
        if cases.iter().any(|case| case.name == name) {
            return Err(format!("two cases are called {name}"));
        }
        cases.push(parse_case(&name, common, &chunk[1..])?);
    }
    Ok(cases)
}

fn parse_case(name: &str, common: &[Line], lines: &[Line]) -> Result<Case, String> {
    let Some(prints) = lines.iter().position(|line| line.text == "prints") else {
        return Err(format!("{name}: no line `prints`"));
    };
    let mut bytes = Vec::new();
    for line in common.iter().chain(&lines[..prints]) {
        append_line(&mut bytes, line)?;
    }
    let expected: String = lines[prints + 1..]
        .iter()
        .map(|line| format!("{}\n", line.text))
        .collect();
    if expected.is_empty() {
        return Err(format!("{name}: every file prints something"));
    }
    Ok(Case {
        name: name.to_string(),
        bytes,
        expected,
    })
}
