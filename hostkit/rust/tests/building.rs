//! What the build says where something is missing, and how it reads the header.

#[path = "../build/archive.rs"]
mod archive;
#[path = "../build/header.rs"]
mod header;

use std::path::Path;

/// What is said of a project with no archive.
fn missing(named: Option<&str>, has_rt: bool) -> String {
    let named = named.map(Path::new);
    archive::folder(Path::new("/nowhere"), named, has_rt).expect_err("no archive")
}

#[test]
fn no_archive() {
    assert_eq!(
        missing(None, true),
        "no libhost.a in /nowhere/target/staticlib: run `tools/build.sh host` in /nowhere, \
         or set CUZKELOR_LIB to the folder of a libhost.a"
    );
}

#[test]
fn no_archive_and_no_toolchain() {
    assert_eq!(
        missing(None, false),
        "no libhost.a in /nowhere/target/staticlib: `rt`, the Rattle toolchain that proves and writes it, \
         is not on PATH: install it and run `tools/build.sh host` in /nowhere, \
         or set CUZKELOR_LIB to the folder of a libhost.a"
    );
    assert!(archive::on_path("cargo") && !archive::on_path("no such program"));
}

#[test]
fn no_archive_in_the_named_folder() {
    assert_eq!(
        missing(Some("/else"), true),
        "no libhost.a in /else: CUZKELOR_LIB names that folder: \
         set it to the folder of a libhost.a, or unset it"
    );
}

#[test]
fn another_target() {
    let check = |target: &str, architecture, system| {
        archive::check_target(target, architecture, system).err()
    };
    assert_eq!(check("x86_64-unknown-linux-gnu", "x86_64", "linux"), None);
    let said = "libhost.a is for x86-64 Linux, and this build is for thumbv7em-none-eabi: \
                build with `--target x86_64-unknown-linux-gnu`";
    assert_eq!(
        check("thumbv7em-none-eabi", "arm", "none").as_deref(),
        Some(said)
    );
}

#[test]
fn declarations() {
    let rust = header::raw("/* Adds\n * two. */\nuint32_t add(const uint32_t *one, size_t one_length,\n    uint8_t *two);\n");
    let doc = r##"#[doc = "Adds\ntwo.\n\n# Safety\n\nThe module says what a caller owes."]"##;
    let function = "pub fn add(one: *const u32, one_length: usize, two: *mut u8) -> u32;";
    assert_eq!(
        rust,
        Ok(format!("extern \"C\" {{\n{doc}\n{function}\n}}\n"))
    );
}

#[test]
fn numbers() {
    let rust = header::raw("/* Two. */\nenum two {\n    ONE = 1,\n    TEN = 10\n};\n/* v */\n#define CUZKELOR_VERSION 7\n");
    let constants = rust.expect("numbers");
    for constant in [
        "ONE: u32 = 1;",
        "TEN: u32 = 10;",
        "CUZKELOR_VERSION: u32 = 7;",
    ] {
        assert!(
            constants.contains(&format!("pub const {constant}\n")),
            "{constants}"
        );
    }
}

#[test]
fn rows() {
    let rust =
        header::refusals("    X(CUZKELOR_NO_SUCH_BLOCK, 8, PLACE, \"no such block\")   \\\n");
    let row = "NoSuchBlock = 8, Place, \"no such block\";\n";
    assert_eq!(rust, Ok(format!("refusals! {{\n{row}}}\n")));
}

#[test]
fn what_cannot_be_read() {
    assert!(header::refusals("X(CUZKELOR_NO_SUCH_BLOCK, 8)").is_err());
    assert!(header::raw("/* a */\nuint32_t add(float one);\n").is_err());
    assert!(header::raw("/* a */\nuint32_t add(uint32_t one").is_err());
    assert!(header::raw("/* a */\nenum a { ONE, TWO = 2 };\n").is_err());
}
