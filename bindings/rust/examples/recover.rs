//! recover LOG [CUT]: what a log of any length holds, and how much of it is kept. With CUT, a copy that is cut there is written and synced,
//! never over a file.
//!
//! Status: 0 the log is accepted; 1 it is refused, and what the lines before the refused one hold is shown, or cut (at line 1 there is
//! nothing to cut, and no file is written); 2 it cannot be read, or the answer cannot be written.
use std::fmt::Write as _;
use std::io::{self, Write as _};
use std::path::{Path, PathBuf};
use std::{env, fs, process::ExitCode};

use heidrunok::{words_for, Catalogue, Place};

/// Whether the log is accepted; what is shown; how many of its bytes are kept, if a beginning of it is good.
fn recovered(log: &mut [u8]) -> (bool, String, Option<usize>) {
    let mut image = vec![0; words_for(log)];
    let all = log.len();
    let refused = match Catalogue::recover(&mut image, log, all) {
        Ok(c) => return (true, shown(&c, all), Some(c.log().len())),
        Err(refused) => refused,
    };
    let before = match refused.place {
        Place::Line { line, .. } => line - 1,
        _ => 0,
    };
    let good = log.split_inclusive(|&b| b == b'\n').take(before).map(<[u8]>::len).sum();
    match Catalogue::recover(&mut image, log, good) {
        Ok(c) => (false, format!("{refused}\n{}", shown(&c, all)), Some(c.log().len())),
        Err(_) => (false, format!("{refused}\nkept 0 of {all} bytes\n"), None),
    }
}

fn shown(c: &Catalogue<'_>, all: usize) -> String {
    let mut text = format!("kept {} of {all} bytes\n", c.log().len());
    if c.phase_is_open() {
        text.push_str("a phase is open\n");
    }
    for (name, object) in c.objects() {
        let led = if c.ask(name) == Ok(true) { "" } else { ", no root or handle leads to it" };
        let _ = writeln!(text, "object {name} payload {}{led}", object.payload);
    }
    text
}

/// A new file of these bytes, and its folder's entry, on the disk.
fn store(path: &Path, bytes: &[u8]) -> io::Result<()> {
    let mut file = fs::File::create_new(path)?;
    if let Err(e) = file.write_all(bytes).and_then(|()| file.sync_all()) {
        // Ours, and not whole.
        let _ = fs::remove_file(path);
        return Err(e);
    }
    let folder = path.parent().filter(|p| !p.as_os_str().is_empty()).unwrap_or(Path::new("."));
    fs::File::open(folder)?.sync_all()
}

fn run() -> Result<bool, String> {
    let paths: Vec<PathBuf> = env::args_os().skip(1).map(PathBuf::from).collect();
    let (path, cut) = match &paths[..] {
        [path] => (path, None),
        [path, cut] => (path, Some(cut)),
        _ => return Err("recover LOG [CUT]".into()),
    };
    let mut log = fs::read(path).map_err(|e| format!("{}: {e}", path.display()))?;
    let (accepted, text, kept) = recovered(&mut log);
    if let (Some(cut), Some(kept)) = (cut, kept) {
        store(cut, &log[..kept]).map_err(|e| format!("{}: {e}", cut.display()))?;
    }
    io::stdout().write_all(text.as_bytes()).map_err(|e| format!("standard output: {e}"))?;
    Ok(accepted)
}

fn main() -> ExitCode {
    match run() {
        Ok(true) => ExitCode::SUCCESS,
        Ok(false) => ExitCode::from(1),
        Err(e) => {
            eprintln!("recover: {e}");
            ExitCode::from(2)
        }
    }
}
