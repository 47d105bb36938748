//! Compiles `dist/simjorad.c` with gcc, and writes the header's constants, refusals and declarations as Rust (`header.rs`), so that nothing of
//! the header is written a second time: a changed declaration is a type error at its one call in `src/ffi.rs`.

use std::env;
use std::fs;
use std::path::{Path, PathBuf};
use std::process::Command;

fn main() {
    let manifest = PathBuf::from(env::var_os("CARGO_MANIFEST_DIR").expect("cargo sets it"));
    let out = PathBuf::from(env::var_os("OUT_DIR").expect("cargo sets it"));
    let dist = manifest.join("../dist");
    println!("cargo:rerun-if-changed=build.rs");
    for name in ["simjorad.c", "simjorad.h"] {
        println!("cargo:rerun-if-changed={}", dist.join(name).display());
    }
    compile(&dist, &out.join("simjorad.o"));
    let header = fs::read_to_string(dist.join("simjorad.h")).expect("the header can be read");
    let rust = constants(&header) + &refusals(&header) + &declarations(&header);
    fs::write(out.join("header.rs"), rust).expect("the output folder can be written");
}

fn compile(dist: &Path, object: &Path) {
    let mut gcc = Command::new("gcc");
    gcc.args(["-std=c99", "-O2", "-c", "-I"]).arg(dist);
    gcc.arg(dist.join("simjorad.c")).arg("-o").arg(object);
    let status = gcc.status().expect("gcc can be started");
    assert!(status.success(), "gcc does not compile dist/simjorad.c");
    println!("cargo:rustc-link-arg={}", object.display());
}

/// What stands behind `#define SIMJORAD_` in a line: the name with its arguments if it has any, its value, and its comment.
fn definition(line: &str) -> Option<(&str, &str, &str)> {
    let rest = line.strip_prefix("#define SIMJORAD_")?;
    let (code, comment) = rest.split_once("/*").unwrap_or((rest, "*/"));
    let end = code.find(')').filter(|_| code.find('(') < code.find(' '));
    let end = end.map_or_else(|| code.find(' ').unwrap_or(code.len()), |at| at + 1);
    let (name, value) = code.split_at(end);
    let comment = comment.trim().trim_end_matches("*/").trim();
    (!value.trim().is_empty()).then_some((name, value.trim(), comment))
}

/// A constant for each number, and a function for each length that depends on counts.
fn constants(header: &str) -> String {
    let mut rust = String::new();
    for (name, value, _) in header.lines().filter_map(definition) {
        match name.split_once('(') {
            None => rust.push_str(&format!("pub const {name}: usize = {value};\n")),
            Some((name, arguments)) => {
                let arguments = arguments.trim_end_matches(')').replace(',', ": usize,");
                rust.push_str(&format!(
                    "pub const fn {name}({arguments}: usize) -> usize {{ {value} }}\n"
                ));
            }
        }
    }
    rust
}

/// The refusals with their causes: the definitions between the comment `Refusals` and the next blank line.
fn refusals(header: &str) -> String {
    let part = header.split("/* Refusals").nth(1).expect("refusals");
    let part = part.split("\n\n").next().expect("the refusals end");
    let mut rust = "pub const CAUSES: &[(usize, &str)] = &[\n".to_string();
    for (_, value, cause) in part.lines().filter_map(definition) {
        rust.push_str(&format!("({value}, {cause:?}),\n"));
    }
    rust + "];\n"
}

/// The declarations of functions. One that has a type which `rust_type` does not know is left out.
fn declarations(header: &str) -> String {
    let mut code = String::new();
    for part in header.split("/*") {
        code.push_str(part.split_once("*/").map_or(part, |(_, after)| after));
    }
    let code: Vec<&str> = code.lines().filter(|line| !line.starts_with('#')).collect();
    let code = code.join(" ").replace("extern \"C\" {", "");
    let functions: Vec<String> = code.split(';').filter_map(declaration).collect();
    format!("extern \"C\" {{\n{}}}\n", functions.concat())
}

fn declaration(code: &str) -> Option<String> {
    let (head, arguments) = code.trim().trim_end_matches(')').split_once('(')?;
    let (result, name) = head.rsplit_once(' ')?;
    let mut typed = Vec::new();
    for (place, argument) in arguments.split(',').enumerate() {
        let end = argument.rfind(['*', ' '])? + 1;
        typed.push(format!("a{place}: {}", rust_type(&argument[..end])?));
    }
    Some(format!(
        "pub fn {name}({}) -> {};\n",
        typed.join(", "),
        rust_type(result)?
    ))
}

fn rust_type(c: &str) -> Option<String> {
    let words: Vec<&str> = c.split_whitespace().collect();
    let (pointer, base) = match words[..] {
        ["const", base, "*"] => ("*const ", base),
        [base, "*"] => ("*mut ", base),
        [base] => ("", base),
        _ => return None,
    };
    let base = match base {
        "uint8_t" => "u8",
        "uint16_t" => "u16",
        "uint32_t" => "u32",
        "uint64_t" => "u64",
        "int32_t" => "i32",
        "size_t" => "usize",
        _ => return None,
    };
    Some(format!("{pointer}{base}"))
}
