//! Finds libstrokes and libstrokes_crew: in the folder that STROKES_LIB_DIR names; else where this
//! crate was installed with them; else by pkg-config, which PKG_CONFIG_PATH tells where they are.
//! They are linked statically; with STROKES_SHARED=1 as shared objects.
use std::env;
use std::path::{Path, PathBuf};
use std::process::{exit, Command};

const ASKED: [&str; 4] = [
    "STROKES_LIB_DIR",
    "STROKES_SHARED",
    "PKG_CONFIG",
    "PKG_CONFIG_PATH",
];

fn main() {
    for name in ASKED {
        println!("cargo:rerun-if-env-changed={name}");
    }
    let Some(folder) = by_name().or_else(beside_crate).or_else(by_pkg_config) else {
        eprintln!(
            "libstrokes isn't found: let PKG_CONFIG_PATH name the folder of strokes-crew.pc, \
             or STROKES_LIB_DIR that of libstrokes.a"
        );
        exit(1)
    };
    let is_shared = env::var("STROKES_SHARED").map_or(false, |it| it == "1");
    let kind = if is_shared { "dylib" } else { "static" };
    println!("cargo:rustc-link-search=native={}", folder.display());
    for name in ["strokes_crew", "strokes"] {
        println!("cargo:rustc-link-lib={kind}={name}");
        println!("cargo:rerun-if-changed={}/lib{name}.a", folder.display());
    }
}

fn by_name() -> Option<PathBuf> {
    env::var_os("STROKES_LIB_DIR").map(PathBuf::from)
}

/// Where `examples/embed/install` puts the library, for the crate that it puts into `share`.
fn beside_crate() -> Option<PathBuf> {
    let folder = Path::new(&env::var_os("CARGO_MANIFEST_DIR")?).join("../../../lib");
    folder.join("libstrokes.a").exists().then_some(folder)
}

fn by_pkg_config() -> Option<PathBuf> {
    let program = env::var("PKG_CONFIG").unwrap_or_else(|_| "pkg-config".into());
    let ended = Command::new(program)
        .args(["--variable=libdir", "strokes-crew"])
        .output()
        .ok()
        .filter(|it| it.status.success())?;
    Some(PathBuf::from(String::from_utf8_lossy(&ended.stdout).trim()))
}
