//! Finds the static libargon2 with which the package is linked. It is the first library in these folders: the folder that
//! `ARGON2_DIR` names; the folder that pkg-config names; and the folder `lib` beside the package's folder, which an unpacked
//! release contains. `cargo build -vv` shows which library it is.

use std::env;
use std::path::{Path, PathBuf};
use std::process::Command;

const FILE: &str = "libargon2.a";
/// The levels of x86-64 above the lowest level, from the best down, with features that no lower level has.
const LEVELS: [(&str, &[&str]); 2] = [
    (
        "x86-64-v4",
        &["avx512f", "avx512bw", "avx512cd", "avx512dq", "avx512vl"],
    ),
    ("x86-64-v3", &["avx2", "bmi2", "fma", "movbe"]),
];

fn main() {
    println!("cargo::rerun-if-changed=build.rs");
    for name in ["ARGON2_DIR", "PKG_CONFIG_PATH"] {
        println!("cargo::rerun-if-env-changed={name}");
    }
    match library() {
        Ok(library) => {
            println!("argon2: linked with {}", library.display());
            println!("cargo::rerun-if-changed={}", library.display());
            if let Some(folder) = library.parent() {
                println!("cargo::rustc-link-search=native={}", folder.display());
            }
            println!("cargo::rustc-link-lib=static=argon2");
            println!("cargo::metadata=library={}", library.display());
        }
        Err(why) => println!("cargo::error={why}"),
    }
}

/// Returns the library, or why there is none.
fn library() -> Result<PathBuf, String> {
    if let Some(named) = env::var_os("ARGON2_DIR") {
        return library_in(Path::new(&named)).map_err(|why| format!("ARGON2_DIR: {why}"));
    }
    let beside = Path::new(env!("CARGO_MANIFEST_DIR")).join("../lib");
    let multiarch = beside.join(format!("{}-linux-gnu", variable("CARGO_CFG_TARGET_ARCH")));
    let mut reasons = Vec::new();
    for folder in [pkg_config(), Ok(multiarch), Ok(beside)] {
        match folder.and_then(|it| library_in(&it)) {
            Ok(library) => return Ok(library),
            Err(why) => reasons.push(why),
        }
    }
    let reasons = reasons.join("; ");
    Err(format!(
        "no proved {FILE} was found ({reasons}). Install libargon2-dev of a release, or have ARGON2_DIR name a folder with the \
         library, as `build/libargon2 FOLDER` of the repository makes it"
    ))
}

/// Returns the library in a folder. If there are several, it is the library for the target's processors.
fn library_in(folder: &Path) -> Result<PathBuf, String> {
    let features = variable("CARGO_CFG_TARGET_FEATURE");
    let has = |name: &&str| features.split(',').any(|feature| feature == *name);
    let path = LEVELS
        .iter()
        .filter(|(_, needed)| needed.iter().all(has))
        .map(|(level, _)| folder.join("glibc-hwcaps").join(level).join(FILE))
        .find(|it| it.is_file())
        .unwrap_or_else(|| folder.join(FILE));
    let library = std::fs::read(&path).map_err(|why| format!("{}: {why}", path.display()))?;
    let call = b"argon2p_hash_into\0";
    if !library.windows(call.len()).any(|it| it == call) {
        return Err(format!(
            "{} lacks the calls of argon2_phc.h",
            path.display()
        ));
    }
    Ok(path)
}

/// Returns the folder of libraries that pkg-config names.
fn pkg_config() -> Result<PathBuf, String> {
    if variable("HOST") != variable("TARGET") {
        return Err("pkg-config is not asked for another target".to_owned());
    }
    let answer = Command::new("pkg-config")
        .args(["--variable=libdir", "libargon2"])
        .output();
    let answer = answer.map_err(|why| format!("pkg-config: {why}"))?;
    let folder = String::from_utf8_lossy(&answer.stdout).trim().to_owned();
    if folder.is_empty() {
        return Err("pkg-config knows no libargon2".to_owned());
    }
    Ok(folder.into())
}

/// Returns a variable that cargo sets.
fn variable(name: &str) -> String {
    env::var(name).unwrap_or_default()
}
