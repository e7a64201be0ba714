//! Running another program on an input, and comparing bytes.

use std::collections::HashMap;
use std::io::{Read, Write};
use std::process::{Command, Stdio};

/// A program to run, with arguments.
pub struct Program {
    file: String,
    arguments: Vec<String>,
}

impl Program {
    /// The path of an executable, or a path and arguments with blanks between.
    pub fn parse(text: &str) -> Program {
        let mut parts = text.split_whitespace().map(String::from);
        if std::path::Path::new(text).exists() {
            return Program {
                file: text.to_string(),
                arguments: Vec::new(),
            };
        }
        let file = parts.next().unwrap_or_default();
        Program {
            file,
            arguments: parts.collect(),
        }
    }

    /// This program itself, with one argument.
    pub fn own(argument: &str) -> Result<Program, String> {
        let file = std::env::current_exe().map_err(|e| format!("own path: {e}"))?;
        Ok(Program {
            file: file.to_string_lossy().into_owned(),
            arguments: vec![argument.to_string()],
        })
    }

    /// Runs the program on the input and hands back all it writes.
    pub fn run(&self, input: &[u8]) -> Result<Vec<u8>, String> {
        let told = |e: std::io::Error| format!("{}: {e}", self.file);
        let mut child = Command::new(&self.file)
            .args(&self.arguments)
            .stdin(Stdio::piped())
            .stdout(Stdio::piped())
            .spawn()
            .map_err(told)?;
        let mut to = child.stdin.take().unwrap();
        let mut from = child.stdout.take().unwrap();
        let mut output = Vec::new();
        let read = std::thread::scope(|scope| {
            // A program may stop reading before the end.
            scope.spawn(move || to.write_all(input));
            from.read_to_end(&mut output)
        });
        let status = child.wait().map_err(told)?;
        read.map_err(told)?;
        if status.code().is_none() {
            return Err(format!("{}: ended by {status}", self.file));
        }
        Ok(output)
    }

    /// Runs the program on the input; where its output is not ours, `explain` tells of it by theirs and
    /// the first byte that differs.
    pub fn agrees(
        &self,
        input: &[u8],
        ours: &[u8],
        explain: impl FnOnce(&[u8], usize) -> String,
    ) -> Result<(), String> {
        let theirs = self.run(input)?;
        match first_difference(ours, &theirs) {
            None => Ok(()),
            Some(at) => Err(explain(&theirs, at)),
        }
    }
}

/// The offset of the first byte that differs or that only one of the two has.
pub fn first_difference(a: &[u8], b: &[u8]) -> Option<usize> {
    let shorter = a.len().min(b.len());
    match (0..shorter).find(|&i| a[i] != b[i]) {
        None if a.len() == b.len() => None,
        None => Some(shorter),
        found => found,
    }
}

/// Prints a table of counts, a line each.
pub fn table(rows: &[(String, u64)]) -> String {
    rows.iter()
        .map(|(name, count)| format!("{count:>12}  {name}\n"))
        .collect()
}

/// The rows of counts that are kept by name, with these names and no others.
pub fn named_rows(by_name: &HashMap<String, u64>, names: Vec<String>) -> Vec<(String, u64)> {
    let unknown: Vec<&String> = by_name.keys().filter(|n| !names.contains(n)).collect();
    assert!(unknown.is_empty(), "counts without a row: {unknown:?}");
    let with_count = |name: String| {
        let count = by_name.get(&name).copied().unwrap_or(0);
        (name, count)
    };
    names.into_iter().map(with_count).collect()
}

/// The names of the counts that are zero.
pub fn zeros(rows: &[(String, u64)]) -> Vec<&str> {
    rows.iter()
        .filter(|(_, count)| *count == 0)
        .map(|(name, _)| name.as_str())
        .collect()
}

/// Prints the counts of a comparison without a difference; an error where one is zero.
pub fn report(rows: &[(String, u64)]) -> Result<(), String> {
    print!("{}", table(rows));
    let missing = zeros(rows);
    if !missing.is_empty() {
        return Err(format!("never reached: {}", missing.join("; ")));
    }
    println!("no difference");
    Ok(())
}

/// How long both results are.
pub fn lengths(theirs: &[u8], ours: &[u8]) -> String {
    format!("{} bytes, ours {}", theirs.len(), ours.len())
}

/// How long both are and what they have after our last result, where the byte that differs is there;
/// `damage` is where our line about a damaged case starts.
pub fn ends(theirs: &[u8], ours: &[u8], damage: Option<usize>, at: usize) -> Option<String> {
    let line = damage.unwrap_or(ours.len());
    if at < line {
        return None;
    }
    let text = |bytes: &[u8]| {
        let end = bytes.len().min(line + 80);
        let text = String::from_utf8_lossy(&bytes[line.min(end)..end]);
        text.escape_debug().to_string()
    };
    Some(format!(
        "{}\n  program: {}\n  ours: {}",
        lengths(theirs, ours),
        text(theirs),
        text(ours)
    ))
}

/// Where each case of a file starts, a damaged last one too, by the length of the first case of
/// some bytes.
pub fn case_starts(file: &[u8], length: impl Fn(&[u8]) -> Option<usize>) -> Vec<usize> {
    let mut starts = Vec::new();
    let mut at = 0;
    while at < file.len() {
        starts.push(at);
        match length(&file[at..]) {
            Some(length) => at += length,
            None => break,
        }
    }
    starts
}

/// A case of a file whose cases up to it are whole.
pub fn case_at<C>(
    file: &[u8],
    index: usize,
    first_case: impl Fn(&[u8]) -> Option<(C, usize)>,
) -> C {
    let whole = |at: usize| first_case(&file[at..]).expect("a case with results is whole");
    let start = (0..index).fold(0, |at, _| at + whole(at).1);
    whole(start).0
}

/// Seeds with commas between.
pub fn seeds(text: &str) -> Option<Vec<u64>> {
    text.split(',').map(|seed| seed.parse().ok()).collect()
}
