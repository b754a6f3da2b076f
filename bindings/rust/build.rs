// Finds the library that `bindings/dist` makes, and links its archive; where a folder has the shared library alone, that one.
use std::path::{Path, PathBuf};
use std::process::{exit, Command};
use std::{env, fs};

const ARCHIVE: &str = "libjubrelti.a";
const SHARED: &str = "libjubrelti.so";

fn has_library(dir: &Path) -> bool {
    dir.join(ARCHIVE).exists() || dir.join(SHARED).exists()
}

// The folder by its variable, since `--libs-only-L` leaves out a folder of the system's. A blank in it has a backslash before it.
fn by_pkg_config() -> Option<PathBuf> {
    let answer = Command::new("pkg-config").args(["--variable=libdir", "jubrelti"]).output().ok()?;
    let dir = String::from_utf8(answer.stdout).ok()?.trim().replace("\\ ", " ");
    Some(PathBuf::from(dir)).filter(|_| answer.status.success())
}

fn in_the_repository() -> Option<PathBuf> {
    Some(PathBuf::from(env::var_os("CARGO_MANIFEST_DIR")?).join("../../target/dist/lib"))
}

// A folder that the user names is the only one that is tried, so that no other library than the one meant is linked.
fn folder() -> Result<PathBuf, String> {
    if let Some(dir) = env::var_os("JUBRELTI_LIB_DIR").map(PathBuf::from) {
        let sentence = format!(
            "JUBRELTI_LIB_DIR is {}, where there is no {ARCHIVE} and no {SHARED}: give it the folder of one, such as the target/dist/lib \
             that `bindings/dist` makes",
            dir.display()
        );
        return Some(dir).filter(|dir| has_library(dir)).ok_or(sentence);
    }
    let found = [by_pkg_config(), in_the_repository()].into_iter().flatten().find(|dir| has_library(dir));
    found.ok_or_else(|| {
        format!(
            "{ARCHIVE} was not found: set JUBRELTI_LIB_DIR to its folder, or PKG_CONFIG_PATH to the folder of jubrelti.pc; in a clone of \
             the repository, run `bindings/dist`, which makes it in target/dist/lib"
        )
    })
}

fn main() {
    println!("cargo:rerun-if-changed=build.rs");
    println!("cargo:rerun-if-env-changed=JUBRELTI_LIB_DIR");
    println!("cargo:rerun-if-env-changed=PKG_CONFIG_PATH");
    let dir = folder().unwrap_or_else(|sentence| {
        eprintln!("{sentence}");
        exit(1)
    });
    let dir = fs::canonicalize(&dir).unwrap_or(dir);
    let (name, kind) = if dir.join(ARCHIVE).exists() { (ARCHIVE, "static") } else { (SHARED, "dylib") };
    println!("cargo:rerun-if-changed={}", dir.join(name).display());
    println!("cargo:rustc-link-search=native={}", dir.display());
    println!("cargo:rustc-link-lib={kind}=jubrelti");
    if kind == "dylib" {
        // For this package's own tests and examples; programs that use the package say themselves where the library is.
        println!("cargo:rustc-link-arg=-Wl,-rpath,{}", dir.display());
    }
}
