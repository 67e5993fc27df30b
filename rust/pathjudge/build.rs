//! Links the proved decision: crates/judge/out/libjudge.a, built by `rt lib` in crates/judge where it is not there yet or is older than some crate's code.
use std::path::{Path, PathBuf};
use std::process::Command;
use std::time::SystemTime;
use std::{fs, io};

/// The list of crates, and the code of each. The library is built from some of them.
fn sources(repository: &Path) -> io::Result<Vec<PathBuf>> {
    let mut places = vec![repository.join("crates.txt")];
    for entry in fs::read_dir(repository.join("crates"))? {
        places.push(entry?.path().join("src"));
    }
    places.retain(|place| place.exists());
    Ok(places)
}

/// When a file, or the newest file below a folder, was written.
fn newest(place: &Path) -> io::Result<SystemTime> {
    if !place.is_dir() {
        return place.metadata()?.modified();
    }
    fs::read_dir(place)?.try_fold(SystemTime::UNIX_EPOCH, |newest_yet, entry| Ok(newest_yet.max(newest(&entry?.path())?)))
}

/// Whether the library has to be built. Cargo is told to ask again where it, or what it is built from, has changed.
fn is_stale(library: &Path, repository: &Path) -> io::Result<bool> {
    let built = library.metadata().and_then(|m| m.modified()).ok();
    println!("cargo::rerun-if-changed=build.rs\ncargo::rerun-if-changed={}", library.display());
    let mut stale = built.is_none();
    for source in sources(repository)? {
        println!("cargo::rerun-if-changed={}", source.display());
        stale |= built < Some(newest(&source)?);
    }
    Ok(stale)
}

fn build(repository: &Path) -> Result<(), String> {
    match Command::new("rt").arg("lib").current_dir(repository.join("crates/judge")).status() {
        Ok(status) if status.success() => Ok(()),
        Ok(status) => Err(format!("`rt lib` in crates/judge ended with {status}: the library is not proved, or could not be built")),
        Err(e) => Err(format!("crates/judge/out/libjudge.a is missing or old, and `rt`, which builds it, could not be started ({e}): is the Rattle kit on the PATH?")),
    }
}

fn main() {
    let crate_folder = std::env::var("CARGO_MANIFEST_DIR").expect("cargo sets it");
    let repository = Path::new(&crate_folder).ancestors().nth(2).expect("the crate stands in rust/ of the repository");
    let folder = repository.join("crates/judge/out");
    let library = folder.join("libjudge.a");
    let made = match is_stale(&library, repository) {
        Ok(false) => Ok(()),
        Ok(true) => build(repository),
        Err(e) => Err(format!("the code of the library cannot be looked through: {e}")),
    };
    if let Err(wrong) = made {
        println!("cargo::error={wrong}");
        return;
    }
    println!("cargo::rustc-link-search=native={}", folder.display());
    println!("cargo::rustc-link-lib=static=judge");
}
