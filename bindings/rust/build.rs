//! Finds the archive, and checks that it is of this crate's version. `MTRR_ARCHIVE` names it; else pkg-config does, and else it is in
//! `library/out` of a folder above this one. `library/build` writes the version into each archive.
use std::path::{Path, PathBuf};
use std::process::Command;
use std::{env, fs};

/// As `MTRR_ABI` of `mtrr.h`.
const ABI: u32 = 2;

/// What pkg-config says of a variable.
fn configured(name: &str) -> Option<String> {
    let said = Command::new("pkg-config").args([&format!("--variable={name}"), "mtrr"]).output().ok()?;
    let text = String::from_utf8(said.stdout).ok()?;
    Some(text.trim().to_string()).filter(|text| said.status.success() && !text.is_empty())
}

fn find(is_kernel: bool) -> Option<PathBuf> {
    if let Some(named) = env::var_os("MTRR_ARCHIVE") {
        return Some(named.into());
    }
    let name = if is_kernel { "libmtrr-kernel.a" } else { "libmtrr.a" };
    let installed = configured("libdir").map(|folder| Path::new(&folder).join(name));
    let here = PathBuf::from(env::var_os("CARGO_MANIFEST_DIR")?);
    let built = here.ancestors().map(|folder| folder.join("library/out").join(name));
    installed.into_iter().chain(built).find(|path| path.exists())
}

fn link(archive: &Path) -> Result<(), String> {
    let bytes = fs::read(archive).map_err(|error| format!("{} can't be read: {error}", archive.display()))?;
    let stamp = format!("mtrr {} ABI {ABI}\0", env!("CARGO_PKG_VERSION"));
    if !bytes.windows(stamp.len()).any(|part| part == stamp.as_bytes()) {
        let version = stamp.trim_end_matches('\0');
        return Err(format!("{} is not an archive of {version}", archive.display()));
    }
    let (folder, name) = (archive.parent(), archive.file_name().and_then(|name| name.to_str()));
    let (Some(folder), Some(name)) = (folder, name) else {
        return Err(format!("{} has no name that rustc takes", archive.display()));
    };
    println!("cargo::rerun-if-changed={}", archive.display());
    println!("cargo::rustc-link-search=native={}", folder.display());
    println!("cargo::rustc-link-lib=static:+verbatim={name}");
    Ok(())
}

fn main() {
    println!("cargo::rerun-if-changed=build.rs");
    for name in ["MTRR_ARCHIVE", "PKG_CONFIG_PATH"] {
        println!("cargo::rerun-if-env-changed={name}");
    }
    let found = find(env::var_os("CARGO_FEATURE_KERNEL").is_some());
    let missing = "no libmtrr.a: name one in MTRR_ARCHIVE, install mtrr so that pkg-config finds it, or run library/build";
    if let Err(said) = found.ok_or(missing.into()).and_then(|archive| link(&archive)) {
        println!("cargo::error={said}");
    }
}
