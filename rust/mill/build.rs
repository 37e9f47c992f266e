//! Links the proved library, statically. `MILL_LIB_DIR` names the folder of `libmill.a`; else it is that of the repository, which
//! `sh built.sh mill` writes, or an installed one that pkg-config knows. Where there is none, it says what was tried.

use std::path::{Path, PathBuf};
use std::process::Command;

fn main() {
    println!("cargo:rerun-if-changed=build.rs");
    for name in ["MILL_LIB_DIR", "PKG_CONFIG", "PKG_CONFIG_PATH", "PKG_CONFIG_LIBDIR"] {
        println!("cargo:rerun-if-env-changed={name}");
    }
    let Some(folder) = found() else { std::process::exit(1) };
    let archive = folder.join("libmill.a");
    println!("cargo:rerun-if-changed={}", archive.display());
    println!("cargo:rustc-link-search=native={}", folder.display());
    println!("cargo:rustc-link-lib=static=mill");
}

/// The folder of the archive; where there is none, what was tried is said.
fn found() -> Option<PathBuf> {
    if let Some(folder) = std::env::var_os("MILL_LIB_DIR") {
        let folder = PathBuf::from(folder);
        if folder.join("libmill.a").is_file() {
            return Some(folder);
        }
        eprintln!("MILL_LIB_DIR is {}, and there is no libmill.a", folder.display());
        return None;
    }
    let mut tried = vec!["MILL_LIB_DIR: it is not set".to_string()];
    for (way, folder) in [("the repository", of_repository()), ("pkg-config", of_pkg_config())] {
        match folder {
            Ok(folder) if folder.join("libmill.a").is_file() => return Some(folder),
            Ok(folder) => tried.push(format!("{way}: there is no {}", folder.join("libmill.a").display())),
            Err(why) => tried.push(format!("{way}: {why}")),
        }
    }
    eprintln!("libmill.a is not found. Tried were\n  {}", tried.join("\n  "));
    eprintln!("Run `sh built.sh mill` in the repository, install the library, or set MILL_LIB_DIR to the folder of libmill.a.");
    None
}

/// The folder of the repository's archive for the processor that is built for.
fn of_repository() -> Result<PathBuf, String> {
    let Some(root) = Path::new(env!("CARGO_MANIFEST_DIR")).ancestors().nth(2) else { return Err("there is none".into()) };
    let folder = match std::env::var("CARGO_CFG_TARGET_ARCH").as_deref() {
        Ok("x86_64") => "target/staticlib",
        Ok("aarch64") => "target/aarch64",
        _ => return Err("it has none for this processor".into()),
    };
    // Built later, it is the one that is taken.
    println!("cargo:rerun-if-changed={}", root.join(folder).join("libmill.a").display());
    Ok(root.join(folder))
}

/// The folder of an installed archive.
fn of_pkg_config() -> Result<PathBuf, String> {
    let program = std::env::var_os("PKG_CONFIG").unwrap_or_else(|| "pkg-config".into());
    let said = Command::new(program).args(["--variable=libdir", "mill"]).output().map_err(|error| error.to_string())?;
    match String::from_utf8_lossy(&said.stdout).trim() {
        folder if said.status.success() && !folder.is_empty() => Ok(folder.into()),
        _ => Err("it knows no mill".into()),
    }
}
