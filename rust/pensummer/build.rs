//! Links the proved archive, libpensummer.a. `PENSUMMER_ARCHIVE` may name a folder that has one; else it is the
//! repository's own, which `tools/archive` makes by `rt lib` where it is missing or older than its sources. What
//! goes wrong is said in a sentence, and the build ends.
use std::env;
use std::path::{Path, PathBuf};
use std::process::{exit, Command, Stdio};

/// The variable that names a folder with an archive.
const NAMED: &str = "PENSUMMER_ARCHIVE";

fn main() {
    println!("cargo:rerun-if-env-changed={NAMED}");
    let folder = match env::var_os(NAMED).filter(|folder| !folder.is_empty()) {
        Some(folder) => PathBuf::from(folder),
        None => made(&root()),
    };
    let archive = folder.join("libpensummer.a");
    if !folder.is_absolute() || !archive.is_file() {
        give_up(&format!("{NAMED} names a folder by its whole path that has libpensummer.a; {} is none", folder.display()));
    }
    println!("cargo:rerun-if-changed={}", archive.display());
    println!("cargo:rustc-link-search=native={}", folder.display());
    println!("cargo:rustc-link-lib=static=pensummer");
}

/// The repository that this crate stands in.
fn root() -> PathBuf {
    let here = env::var_os("CARGO_MANIFEST_DIR").map(PathBuf::from).unwrap_or_default();
    here.ancestors().nth(2).map(Path::to_path_buf).unwrap_or_default()
}

/// The folder of the repository's archive, after it was made where it was missing or stale.
fn made(root: &Path) -> PathBuf {
    if env::var("CARGO_CFG_TARGET_ARCH").as_deref() != Ok("x86_64") {
        give_up(&format!("the kit builds the archive for x86-64 only; {NAMED} may name a folder with one for this target"));
    }
    for source in ["crates", "crates.txt", "tools/archive"] {
        println!("cargo:rerun-if-changed={}", root.join(source).display());
    }
    let script = root.join("tools/archive");
    match Command::new(&script).stdin(Stdio::null()).status() {
        Ok(status) if status.success() => root.join("target/staticlib"),
        Ok(_) => give_up(&format!("the archive could not be made, as said above; {NAMED} may name a folder that has one")),
        Err(why) => give_up(&format!("cannot run {}: {why}; {NAMED} may name a folder that has the archive", script.display())),
    }
}

fn give_up(why: &str) -> ! {
    eprintln!("pensummer: {why}");
    exit(1)
}
