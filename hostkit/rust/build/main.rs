//! Links the proved archive, and makes the crate's numbers and declarations from the C header.

mod archive;
mod header;

use std::env;
use std::fs;
use std::path::{Path, PathBuf};

/// A variable that cargo sets.
fn of_cargo(name: &str) -> String {
    env::var(name).unwrap_or_else(|_| panic!("cargo sets {name}"))
}

/// Makes Rust of the header.
fn generate(header: &Path) -> Result<(), String> {
    println!("cargo::rerun-if-changed={}", header.display());
    let failed = |path: &Path, error| format!("{}: {error}", path.display());
    let text = fs::read_to_string(header).map_err(|error| failed(header, error))?;
    let folder = PathBuf::from(of_cargo("OUT_DIR"));
    for (name, rust) in [
        ("raw.rs", header::raw(&text)?),
        ("refusals.rs", header::refusals(&text)?),
    ] {
        let path = folder.join(name);
        fs::write(&path, rust).map_err(|error| failed(&path, error))?;
    }
    Ok(())
}

/// Has the archive linked. The folder may be named from the crate's own.
fn link(project: &Path, crate_folder: &Path) -> Result<(), String> {
    println!("cargo::rerun-if-env-changed={}", archive::VARIABLE);
    archive::check_target(
        &of_cargo("TARGET"),
        &of_cargo("CARGO_CFG_TARGET_ARCH"),
        &of_cargo("CARGO_CFG_TARGET_OS"),
    )?;
    let named = env::var_os(archive::VARIABLE).map(|folder| crate_folder.join(folder));
    let folder = archive::folder(project, named.as_deref(), archive::on_path("rt"))?;
    let library = folder.join(archive::LIBRARY);
    println!("cargo::rerun-if-changed={}", library.display());
    println!("cargo::rustc-link-search=native={}", folder.display());
    println!("cargo::rustc-link-lib=static=host");
    Ok(())
}

fn build() -> Result<(), String> {
    let crate_folder = PathBuf::from(of_cargo("CARGO_MANIFEST_DIR"));
    let project = crate_folder.join("../..");
    let project = project.canonicalize().unwrap_or(project);
    generate(&project.join("hostkit/cuzkelor.h"))?;
    link(&project, &crate_folder)
}

fn main() {
    if let Err(message) = build() {
        println!("cargo::error={message}");
    }
}
