//! Finds the C library: in the folder that `SDJWT_DIR` names (as `c/build.sh` leaves it in `c/out`), or by pkg-config.
//! It is linked statically, or with `SDJWT_DYNAMIC=1` as `libsdjwt.so`.

use std::env;
use std::path::{Path, PathBuf};
use std::process::Command;

fn main() {
    for name in ["SDJWT_DIR", "SDJWT_DYNAMIC", "PKG_CONFIG", "PKG_CONFIG_PATH"] {
        println!("cargo:rerun-if-env-changed={name}");
    }
    if env::var_os("DOCS_RS").is_some() {
        return;
    }
    let folder = match env::var_os("SDJWT_DIR") {
        Some(folder) => Path::new(&folder).join("lib"),
        None => by_pkg_config(),
    };
    let is_dynamic = env::var_os("SDJWT_DYNAMIC").map_or(false, |said| said == "1");
    let (kind, file) = if is_dynamic { ("dylib", "libsdjwt.so") } else { ("static", "libsdjwt.a") };
    assert!(
        folder.join(file).is_file(),
        "there is no {file} in {}: build it by sh c/build.sh, or install libsdjwt-dev",
        folder.display()
    );
    println!("cargo:rerun-if-changed={}", folder.join(file).display());
    println!("cargo:rustc-link-search=native={}", folder.display());
    println!("cargo:rustc-link-lib={kind}=sdjwt");
}

/// The folder of the library that pkg-config knows.
fn by_pkg_config() -> PathBuf {
    let program = env::var_os("PKG_CONFIG").unwrap_or_else(|| "pkg-config".into());
    let said = Command::new(program).args(["--variable=libdir", "sdjwt"]).output();
    match said {
        Ok(said) if said.status.success() => String::from_utf8_lossy(&said.stdout).trim().into(),
        _ => panic!(
            "the C library sdjwt was not found: set SDJWT_DIR to the folder that has lib/libsdjwt.a in it, \
             or PKG_CONFIG_PATH to the folder of sdjwt.pc"
        ),
    }
}
