//! Where libhost.a is, or what is missing and what to do.

use std::env;
use std::path::{Path, PathBuf};

pub const LIBRARY: &str = "libhost.a";
pub const VARIABLE: &str = "CUZKELOR_LIB";
const COMMAND: &str = "tools/build.sh host";

/// `tools/build.sh` writes for one target.
pub fn check_target(target: &str, architecture: &str, system: &str) -> Result<(), String> {
    if (architecture, system) == ("x86_64", "linux") {
        return Ok(());
    }
    Err(format!(
        "{LIBRARY} is for x86-64 Linux, and this build is for {target}: \
         build with `--target x86_64-unknown-linux-gnu`"
    ))
}

/// The folder of the archive: the one that is named, or where `tools/build.sh` writes in the project.
pub fn folder(project: &Path, named: Option<&Path>, has_rt: bool) -> Result<PathBuf, String> {
    let folder = named.map_or(project.join("target/staticlib"), Path::to_owned);
    if folder.join(LIBRARY).is_file() {
        return Ok(folder);
    }
    let advice = match named {
        Some(_) => format!(
            "{VARIABLE} names that folder: set it to the folder of a {LIBRARY}, or unset it"
        ),
        None => how_to_write(project, has_rt),
    };
    Err(format!("no {LIBRARY} in {}: {advice}", folder.display()))
}

fn how_to_write(project: &Path, has_rt: bool) -> String {
    let project = project.display();
    let run =
        format!("run `{COMMAND}` in {project}, or set {VARIABLE} to the folder of a {LIBRARY}");
    if has_rt {
        return run;
    }
    format!("`rt`, the Rattle toolchain that proves and writes it, is not on PATH: install it and {run}")
}

pub fn on_path(program: &str) -> bool {
    let folders = env::var_os("PATH").unwrap_or_default();
    env::split_paths(&folders).any(|folder| folder.join(program).is_file())
}
