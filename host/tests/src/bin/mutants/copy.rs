//! Copies of the reference, built as drivers that stand in the library's place.

use std::fs;
use std::io;
use std::path::{Path, PathBuf};
use std::process::{Command, Stdio};

/// Copies what a build of the reference needs. An earlier copy is written over.
pub fn made(reference: &Path, copy: &Path) -> io::Result<()> {
    for file in ["Cargo.toml", "Cargo.lock"] {
        fs::create_dir_all(copy)?;
        fs::copy(reference.join(file), copy.join(file))?;
    }
    directory(&reference.join("src"), &copy.join("src"))
}

fn directory(from: &Path, to: &Path) -> io::Result<()> {
    fs::create_dir_all(to)?;
    for entry in fs::read_dir(from)? {
        let entry = entry?;
        let (from, to) = (entry.path(), to.join(entry.file_name()));
        if entry.file_type()?.is_dir() {
            directory(&from, &to)?;
        } else {
            fs::copy(from, to)?;
        }
    }
    Ok(())
}

/// Builds the driver of a copy. What the compiler says is handed back where it does not build.
pub fn built(copy: &Path) -> Result<PathBuf, String> {
    let target = copy.join("target");
    let output = Command::new("cargo")
        .args(["build", "--quiet", "--release", "--locked", "--offline"])
        .args(["--bin", "driver", "--manifest-path"])
        .arg(copy.join("Cargo.toml"))
        .arg("--target-dir")
        .arg(&target)
        .stdin(Stdio::null())
        .output()
        .map_err(|error| format!("cargo: {error}"))?;
    if !output.status.success() {
        let said = String::from_utf8_lossy(&output.stderr);
        return Err(format!("it does not build\n{said}"));
    }
    Ok(target.join("release").join("driver"))
}
