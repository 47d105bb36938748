//! Programs that are started: `attach`, `trials`, the C examples and the C tests.

use std::io::Write;
use std::path::{Path, PathBuf};
use std::process::{Command, Stdio};
use std::sync::mpsc::{self, RecvTimeoutError};
use std::sync::OnceLock;
use std::thread;
use std::time::{Duration, Instant};

use crate::trial::Check;

/// What a program wrote and how it ended; no status if a signal ended it.
pub struct Ended {
    pub status: Option<i32>,
    pub out: Vec<u8>,
    pub err: Vec<u8>,
    /// From its start to its end.
    pub time: Duration,
}

/// A program that takes longer is ended and has failed.
const LIMIT: Duration = Duration::from_secs(40);

extern "C" {
    fn kill(process: i32, signal: i32) -> i32;
}

/// Runs a program on this input, handed over in pieces of this length.
pub fn run(command: &mut Command, input: &[u8], piece: usize) -> Check<Ended> {
    run_within(command, input, piece, LIMIT)
}

/// The same with another limit of time.
pub fn run_within(
    command: &mut Command,
    input: &[u8],
    piece: usize,
    limit: Duration,
) -> Check<Ended> {
    let start = Instant::now();
    let mut child = command
        .stdin(Stdio::piped())
        .stdout(Stdio::piped())
        .stderr(Stdio::piped())
        .spawn()
        .map_err(|error| format!("{command:?} does not start: {error}"))?;
    let mut pipe = child.stdin.take().ok_or("no standard input")?;
    let bytes = input.to_vec();
    // The program may stop reading early; a broken pipe is no fault.
    let writer = thread::spawn(move || {
        for part in bytes.chunks(piece.max(1)) {
            if pipe.write_all(part).is_err() {
                break;
            }
            if piece < bytes.len() {
                thread::sleep(Duration::from_millis(2));
            }
        }
    });
    let process = child.id() as i32;
    let (ended, end) = mpsc::channel::<()>();
    let watch = thread::spawn(move || {
        if end.recv_timeout(limit) == Err(RecvTimeoutError::Timeout) {
            // SAFETY: the process is this function's own and was not yet waited for.
            unsafe { kill(process, 9) };
        }
    });
    let output = child.wait_with_output();
    let time = start.elapsed();
    drop(ended);
    let _ = (watch.join(), writer.join());
    let output = output.map_err(|error| format!("{command:?} does not end: {error}"))?;
    Ok(Ended {
        status: output.status.code(),
        out: output.stdout,
        err: output.stderr,
        time,
    })
}

/// The repository.
pub fn root() -> PathBuf {
    Path::new(env!("CARGO_MANIFEST_DIR")).join("..")
}

/// A file of the repository.
pub fn file(path: &str) -> Check<String> {
    std::fs::read_to_string(root().join(path)).map_err(|error| format!("{path}: {error}"))
}

/// The static library.
pub fn library() -> PathBuf {
    let manifest = Path::new(env!("CARGO_MANIFEST_DIR"));
    match std::env::var_os("SIMJORAD_LIB_DIR") {
        Some(given) => manifest.join(given),
        None => manifest.join("../target/staticlib"),
    }
    .join("libcapi.a")
}

/// The folder of built C programs and of the files that the documents' transcripts use.
pub fn folder() -> PathBuf {
    Path::new(env!("CARGO_MANIFEST_DIR")).join("target/programs")
}

/// The flags of every C file: it must be C99 without a warning.
const FLAGS: [&str; 7] = [
    "-std=c99",
    "-pedantic",
    "-Wall",
    "-Wextra",
    "-Wconversion",
    "-Werror",
    "-O2",
];

/// Builds a C program from files of the repository and the static library.
fn build(name: &str, sources: &[&str], more: &[&str]) -> Check<PathBuf> {
    let folder = folder();
    std::fs::create_dir_all(&folder).map_err(|error| format!("{}: {error}", folder.display()))?;
    let program = folder.join(name);
    let mut command = Command::new("gcc");
    command.args(FLAGS).arg("-I").arg(root().join("include"));
    command.args(sources.iter().map(|source| root().join(source)));
    command.arg(library()).args(more).arg("-o").arg(&program);
    let ended = run(&mut command, b"", 1)?;
    if ended.status == Some(0) && ended.err.is_empty() {
        return Ok(program);
    }
    Err(format!(
        "{sources:?} is not built: {}",
        String::from_utf8_lossy(&ended.err)
    ))
}

/// The C programs, built once: the examples, the C test, and the controller with calls that refuse.
pub fn built(name: &'static str) -> Check<PathBuf> {
    static BUILT: OnceLock<Check> = OnceLock::new();
    BUILT
        .get_or_init(|| {
            build("controller", &["examples/controller.c"], &[])?;
            build("closed", &["examples/closed.c"], &[])?;
            build("twin", &["examples/twin.c"], &[])?;
            build("every", &["tests/c/every.c"], &[])?;
            let wrapped: Vec<String> = ["open", "evaluate", "drive", "value", "line"]
                .iter()
                .map(|call| format!("-Wl,--wrap=simjorad_{call}"))
                .collect();
            let wrapped: Vec<&str> = wrapped.iter().map(String::as_str).collect();
            let sources = ["examples/controller.c", "tests/c/refuse.c"];
            build("refused-controller", &sources, &wrapped).map(|_| ())
        })
        .clone()
        .map(|()| folder().join(name))
}
