//! Has `tools/archive.sh` prove the library, which writes
//! `target/staticlib/libpozhdaghi.a`, and links a copy of it. With `POZHDAGHI_LIB_DIR` the archive of that folder is
//! linked, and nothing is proved here.

use std::env;
use std::ffi::OsString;
use std::fs;
use std::io::Write;
use std::path::{Path, PathBuf};
use std::process::{exit, Command};
use std::time::Instant;

const ARCHIVE: &str = "libpozhdaghi.a";

/// What `rt version` prints of the kit that the sources were last proved with.
const KIT: &str = "rattle-kit-13f logic dac8208d650f15bf";

fn main() {
    println!("cargo:rerun-if-env-changed=POZHDAGHI_LIB_DIR");
    let folder = match env::var_os("POZHDAGHI_LIB_DIR") {
        Some(folder) if !folder.is_empty() => given(folder),
        _ => proved(),
    };
    println!("cargo:rustc-link-search=native={}", folder.display());
    println!("cargo:rustc-link-lib=static=pozhdaghi");
}

/// The archive that is given is watched. One that is proved here is not: it is
/// written by this very build, which would then never be up to date.
fn given(folder: OsString) -> PathBuf {
    let folder = PathBuf::from(folder);
    let archive = folder.join(ARCHIVE);
    println!("cargo:rerun-if-changed={}", archive.display());
    if !archive.is_file() {
        fail(&format!(
            "POZHDAGHI_LIB_DIR is given, and there is no {}: name a folder that has it, \
             from the root on, or none, and it is proved here",
            archive.display()
        ));
    }
    folder
}

/// The folder with the proved archive: a copy of what `tools/archive.sh` writes, so
/// that the archive is there as long as this build counts as up to date. It is not proved
/// again before one of the sources changes: what stands beside them in a crate's folder is
/// written by the proof itself.
fn proved() -> PathBuf {
    let package = env::var_os("CARGO_MANIFEST_DIR").unwrap_or_default();
    let repository = Path::new(&package).join("..");
    println!(
        "cargo:rerun-if-changed={}",
        repository.join("crates.txt").display()
    );
    for sources in sources(&repository) {
        println!("cargo:rerun-if-changed={}", sources.display());
    }
    compare_kit();
    prove(&repository);
    let own = PathBuf::from(env::var_os("OUT_DIR").unwrap_or_default());
    let written = repository.join("target/staticlib").join(ARCHIVE);
    if let Err(error) = fs::copy(&written, own.join(ARCHIVE)) {
        fail(&format!("{}: {error}", written.display()));
    }
    own
}

/// The folders with the code, the definitions and the proofs of each crate.
fn sources(repository: &Path) -> Vec<PathBuf> {
    let crates = repository.join("crates");
    let folders = match fs::read_dir(&crates) {
        Ok(folders) => folders,
        Err(error) => fail(&format!("{}: {error}", crates.display())),
    };
    folders
        .flatten()
        .flat_map(|folder| ["src", "specs", "proofs"].map(|part| folder.path().join(part)))
        .filter(|part| part.is_dir())
        .collect()
}

/// Another kit may prove the sources as well, or may not: it is said, and no more.
fn compare_kit() {
    let told = match Command::new("rt").arg("version").output() {
        Ok(told) => told.stdout,
        Err(error) => fail(&format!(
            "the library is to be proved, and `rt`, the kit that does it, cannot be run \
             ({error}): put it on the PATH, or set POZHDAGHI_LIB_DIR to a folder with {ARCHIVE}"
        )),
    };
    let told = String::from_utf8_lossy(&told);
    let kit = told.lines().next().unwrap_or_default();
    if kit != KIT {
        println!("cargo:warning=the kit is `{kit}`; the sources were last proved with `{KIT}`");
    }
}

/// Without a proof there is no archive, and the build ends here.
fn prove(repository: &Path) {
    say("pozhdaghi: tools/archive.sh proves the library, which takes minutes");
    let start = Instant::now();
    let proved = Command::new("bash")
        .arg("tools/archive.sh")
        .current_dir(repository)
        .status();
    if !matches!(&proved, Ok(status) if status.success()) {
        fail(&format!("tools/archive.sh failed: {proved:?}"));
    }
    println!(
        "cargo:warning=the library was proved in {} s; it is proved again when its sources \
         change, and not at all with POZHDAGHI_LIB_DIR",
        start.elapsed().as_secs()
    );
}

/// Cargo shows what a build script writes when the script has ended. Who sits before a
/// terminal is told at once why nothing moves.
fn say(line: &str) {
    if let Ok(mut terminal) = fs::OpenOptions::new().write(true).open("/dev/tty") {
        // without a reader nothing is lost
        let _ = writeln!(terminal, "{line}");
    }
}

fn fail(line: &str) -> ! {
    eprintln!("{line}");
    exit(1)
}
