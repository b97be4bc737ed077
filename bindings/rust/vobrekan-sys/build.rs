//! Links libvobrekan.a: that of the folder VOBREKAN_LIB, of the archive VOBREKAN_TARBALL, or the installed one that pkg-config finds.
use std::env;
use std::path::{Path, PathBuf};
use std::process::Command;

const FILE: &str = "libvobrekan.a";

fn main() {
    for name in ["VOBREKAN_LIB", "VOBREKAN_TARBALL", "PKG_CONFIG", "PKG_CONFIG_PATH"] {
        println!("cargo:rerun-if-env-changed={name}");
    }
    let found = match (env::var_os("VOBREKAN_LIB"), env::var_os("VOBREKAN_TARBALL")) {
        (Some(folder), _) => named(Path::new(&folder)),
        (None, Some(archive)) => unpacked(Path::new(&archive)),
        (None, None) => installed(),
    };
    let folder = found.unwrap_or_else(|why| {
        eprintln!("libvobrekan is not found: {why}. Set VOBREKAN_LIB to its folder or VOBREKAN_TARBALL to the archive of a release, or install it");
        std::process::exit(1)
    });
    println!("cargo:rerun-if-changed={}", folder.join(FILE).display());
    println!("cargo:rustc-link-search=native={}", folder.display());
    println!("cargo:rustc-link-lib=static=vobrekan");
}

/// The folder with the library: this one, or the one for libraries in it.
fn named(folder: &Path) -> Result<PathBuf, String> {
    let places = [folder.to_path_buf(), folder.join("lib")];
    places.into_iter().find(|it| it.join(FILE).is_file()).ok_or_else(|| format!("{} has no {FILE}", folder.display()))
}

/// The folder into which the library of a release is unpacked.
fn unpacked(archive: &Path) -> Result<PathBuf, String> {
    println!("cargo:rerun-if-changed={}", archive.display());
    let folder = PathBuf::from(env::var_os("OUT_DIR").ok_or("cargo names no folder")?);
    let words = ["--strip-components=2", "--wildcards", "*/lib/libvobrekan.a"];
    let status = Command::new("tar").arg("-xzf").arg(archive).arg("-C").arg(&folder).args(words).status();
    match status {
        Ok(it) if it.success() => named(&folder),
        Ok(it) => Err(format!("tar: {it}")),
        Err(why) => Err(format!("tar does not start: {why}")),
    }
}

/// The folder of the installed library, of a version that goes with this crate.
fn installed() -> Result<PathBuf, String> {
    let (major, minor) = (env!("CARGO_PKG_VERSION_MAJOR"), env!("CARGO_PKG_VERSION_MINOR"));
    let next = match (major.parse::<u64>(), minor.parse::<u64>()) {
        (Ok(0), Ok(minor)) => format!("0.{}", minor + 1),
        (Ok(major), _) => format!("{}", major + 1),
        _ => return Err("the version of this crate is not read".to_string()),
    };
    let program = env::var_os("PKG_CONFIG").unwrap_or_else(|| "pkg-config".into());
    let (least, below) = (format!("vobrekan >= {major}.{minor}"), format!("vobrekan < {next}"));
    let asked = Command::new(&program).args(["--print-errors", "--exists", &least, &below]).output();
    let asked = asked.map_err(|why| format!("{} does not start: {why}", program.to_string_lossy()))?;
    if !asked.status.success() {
        return Err(String::from_utf8_lossy(&asked.stderr).trim().replace('\n', "; "));
    }
    let told = Command::new(&program).args(["--variable=libdir", "vobrekan"]).output().map_err(|why| why.to_string())?;
    named(Path::new(String::from_utf8_lossy(&told.stdout).trim()))
}
