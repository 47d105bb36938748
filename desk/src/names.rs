//! The names of conditions: a file beside the page, `number,name` a line. A bad line is told, and then the numbers are used.

use std::fs::File;
use std::io::{ErrorKind, Read};

/// The names of a page's conditions, and what is wrong with their file, if anything is.
pub struct Names {
    names: Vec<Option<String>>,
    pub fault: Option<String>,
}

/// More bytes than any list of names needs.
const BYTES_MAX: u64 = 1 << 20;

impl Names {
    /// The names beside a page: those of `PAGE.names`, or none if there is no such file.
    pub fn beside(page: &str, conditions: usize) -> Names {
        let path = format!("{page}.names");
        let read = match bytes(&path) {
            Ok(None) => Ok(Vec::new()),
            Ok(Some(bytes)) => parse(&bytes, conditions),
            Err(reason) => Err(reason),
        };
        match read {
            Ok(names) => Names { names, fault: None },
            Err(reason) => Names {
                names: Vec::new(),
                fault: Some(format!("{path}, {reason}: the numbers are used")),
            },
        }
    }

    pub fn of(&self, condition: usize) -> Option<&str> {
        self.names.get(condition)?.as_deref()
    }

    /// The condition that has this name.
    pub fn condition(&self, name: &str) -> Option<usize> {
        let is_name = |other: &Option<String>| other.as_deref() == Some(name);
        self.names.iter().position(is_name)
    }

    pub fn any(&self) -> bool {
        self.names.iter().any(Option::is_some)
    }
}

/// The bytes of a file, or none if there is no file.
fn bytes(path: &str) -> Result<Option<Vec<u8>>, String> {
    let mut bytes = Vec::new();
    match File::open(path).and_then(|file| file.take(BYTES_MAX + 1).read_to_end(&mut bytes)) {
        Err(error) if error.kind() == ErrorKind::NotFound => Ok(None),
        Err(error) => Err(format!("which cannot be read ({error})")),
        Ok(_) if bytes.len() as u64 > BYTES_MAX => Err(format!("over {BYTES_MAX} bytes")),
        Ok(_) => Ok(Some(bytes)),
    }
}

fn parse(bytes: &[u8], conditions: usize) -> Result<Vec<Option<String>>, String> {
    let mut names: Vec<Option<String>> = vec![None; conditions];
    let bytes = bytes.strip_suffix(b"\n").unwrap_or(bytes);
    if bytes.is_empty() {
        return Ok(names);
    }
    for (place, line) in bytes.split(|byte| *byte == b'\n').enumerate() {
        let number = place + 1;
        add(line, &mut names).map_err(|reason| format!("line {number}: {reason}"))?;
    }
    Ok(names)
}

/// Adds the name that a line gives.
fn add(line: &[u8], names: &mut [Option<String>]) -> Result<(), String> {
    let (condition, name) = split(line)?;
    if condition >= names.len() {
        return Err(format!("the page has no condition {condition}"));
    }
    if names[condition].is_some() {
        return Err(format!("a second name for {condition}"));
    }
    if let Some(other) = names
        .iter()
        .position(|known| known.as_deref() == Some(name))
    {
        return Err(format!("{other} has the same name"));
    }
    names[condition] = Some(name.to_string());
    Ok(())
}

/// The number and the name in a line.
fn split(line: &[u8]) -> Result<(usize, &str), String> {
    let line = std::str::from_utf8(line).map_err(|_| "not UTF-8")?;
    if line.ends_with('\r') {
        return Err("a CR at its end (save with LF line ends)".to_string());
    }
    let (number, name) = line.split_once(',').ok_or("not of the form number,name")?;
    let digits = !number.is_empty() && number.bytes().all(|byte| byte.is_ascii_digit());
    if !digits || number.len() > 3 || (number.starts_with('0') && number != "0") {
        return Err(format!("{number:?} is not the number of a condition"));
    }
    let name = name.trim();
    if name.is_empty() || name.contains(char::is_control) {
        return Err("the name is empty or has a control character".to_string());
    }
    if name.bytes().all(|byte| byte.is_ascii_digit()) {
        return Err("a name of digits only would be taken for a number".to_string());
    }
    let number = number.parse().map_err(|_| "no number".to_string())?;
    Ok((number, name))
}
