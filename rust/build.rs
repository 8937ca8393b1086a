//! Links the machine's static library: the one that DELETION_MACHINE_LIB names, else the one that `tools/staticlib`
//! of the repository makes, or has made before, for the machine that is compiled for.

use std::env;
use std::fs::{self, OpenOptions};
use std::io::{self, BufRead, BufReader, Read, Write};
use std::path::{Path, PathBuf};
use std::process::{Command, Stdio};
use std::thread;

fn main() {
    println!("cargo:rerun-if-changed=build.rs");
    println!("cargo:rerun-if-env-changed=DELETION_MACHINE_LIB");
    let archive = match env::var_os("DELETION_MACHINE_LIB") {
        Some(path) if !path.is_empty() => PathBuf::from(path),
        _ => made(),
    };
    if !archive.is_file() {
        panic!(
            "there is no static library at {}, seen from {}",
            archive.display(),
            env!("CARGO_MANIFEST_DIR")
        );
    }
    println!("cargo:rerun-if-changed={}", archive.display());
    // The linker takes libNAME.a for NAME, from the folder that the archive is in.
    let name = archive
        .file_name()
        .and_then(|name| name.to_str())
        .and_then(|name| name.strip_prefix("lib"))
        .and_then(|name| name.strip_suffix(".a"))
        .unwrap_or_else(|| panic!("{} is not named lib*.a", archive.display()));
    let folder = archive.parent().unwrap_or_else(|| Path::new("."));
    println!("cargo:rustc-link-search=native={}", folder.display());
    println!("cargo:rustc-link-lib=static={name}");
}

/// Has `tools/staticlib` prove and make the library; it prints the archive's path, and on standard error how far it is. What is
/// there already and still current it leaves as it is.
fn made() -> PathBuf {
    let top = Path::new(env!("CARGO_MANIFEST_DIR")).join("..");
    let script = top.join("tools/staticlib");
    println!("cargo:rerun-if-changed={}", script.display());
    println!(
        "cargo:rerun-if-changed={}",
        top.join("crates.txt").display()
    );
    // and not crates/*/out, where rt keeps its work
    for folder in fs::read_dir(top.join("crates"))
        .into_iter()
        .flatten()
        .flatten()
    {
        for part in ["src", "specs", "proofs"] {
            let part = folder.path().join(part);
            if part.is_dir() {
                println!("cargo:rerun-if-changed={}", part.display());
            }
        }
    }
    let kind = env::var("CARGO_CFG_TARGET_ARCH").expect("cargo sets CARGO_CFG_TARGET_ARCH");
    let mut child = Command::new(&script)
        .arg(kind)
        .stdout(Stdio::piped())
        .stderr(Stdio::piped())
        .spawn()
        .unwrap_or_else(|error| panic!("cannot run {}: {error}", script.display()));
    let progress = child.stderr.take().expect("it is piped");
    let shown = thread::spawn(move || show(progress));
    let output = child
        .wait_with_output()
        .unwrap_or_else(|error| panic!("cannot read from {}: {error}", script.display()));
    shown.join().expect("showing doesn't panic");
    if !output.status.success() {
        panic!("{} failed: {}", script.display(), output.status);
    }
    let path = String::from_utf8(output.stdout).expect("a path in UTF-8");
    PathBuf::from(path.trim_end())
}

/// Hands on each line as it comes: to standard error, which cargo shows of a script that failed, and to the terminal, if there is
/// one, for who waits: it takes minutes, and cargo shows nothing until it is over.
fn show(progress: impl Read) {
    let mut terminal = OpenOptions::new().write(true).open("/dev/tty").ok();
    // cargo's own line, with its bar, gives way
    let clear = match env::var_os("TERM") {
        Some(name) if name != "dumb" => "\r\x1b[K",
        _ => "",
    };
    let mut progress = BufReader::new(progress);
    let mut line = Vec::new();
    while matches!(progress.read_until(b'\n', &mut line), Ok(n) if n > 0) {
        // where it can't be shown it isn't; the script goes on
        let _ = io::stderr().write_all(&line);
        if let Some(terminal) = &mut terminal {
            let _ = terminal.write_all(&[clear.as_bytes(), &line].concat());
        }
        line.clear();
    }
}
