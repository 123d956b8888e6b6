//! Finds libnr.a and links it: in the folder that NR_LIB names, else where pkg-config has this version, else beside the
//! crate, in a release's folder lib or in the repository's embed/out. A relative NR_LIB begins at the folder that cargo was
//! called in. Where it finds none it says where it looked, and leaves it to a build to fail, since `cargo check` and
//! `cargo doc` need no library.
use std::env;
use std::path::{Path, PathBuf};
use std::process::{exit, Command};

fn variable(name: &str) -> Option<PathBuf> {
    println!("cargo:rerun-if-env-changed={name}");
    env::var_os(name).map(PathBuf::from)
}

/// The library in that folder. A file that isn't there yet has cargo look again at each call.
fn library_in(folder: &Path) -> PathBuf {
    let library = folder.join("libnr.a");
    println!("cargo:rerun-if-changed={}", library.display());
    library
}

fn named_folder() -> Option<PathBuf> {
    let named = variable("NR_LIB")?;
    if named.is_absolute() {
        return Some(named);
    }
    // Cargo calls this from the package's folder, and leaves the shell's own as it was.
    Some(variable("PWD").unwrap_or_default().join(named))
}

/// What pkg-config prints of the library, or why it prints nothing.
fn pkg_config(flag: &str) -> Result<String, String> {
    let program = variable("PKG_CONFIG").unwrap_or("pkg-config".into());
    match Command::new(&program).args([flag, "nr"]).output() {
        Err(fault) => Err(format!("{} can't be run: {fault}", program.display())),
        Ok(ran) if ran.status.success() => Ok(String::from_utf8_lossy(&ran.stdout).trim().into()),
        Ok(ran) => Err(String::from_utf8_lossy(&ran.stderr).lines().next().unwrap_or("it failed").into()),
    }
}

fn installed_folder() -> Result<PathBuf, String> {
    variable("PKG_CONFIG_PATH");
    variable("PKG_CONFIG_LIBDIR");
    let wanted = concat!(env!("CARGO_PKG_VERSION_MAJOR"), ".", env!("CARGO_PKG_VERSION_MINOR"), ".");
    let version = pkg_config("--modversion")?;
    println!("cargo:rerun-if-changed={}/nr.pc", pkg_config("--variable=pcfiledir")?);
    if !version.starts_with(wanted) {
        return Err(format!("it has version {version}, and {wanted}0 or one like it is needed"));
    }
    pkg_config("--variable=libdir").map(PathBuf::from)
}

/// The folder of the library, or a line for each place in which it isn't.
fn folder() -> Result<PathBuf, Vec<String>> {
    let mut looked = vec!["NR_LIB isn't set".to_string()];
    match installed_folder() {
        Ok(folder) if library_in(&folder).is_file() => return Ok(folder),
        Ok(folder) => looked.push(format!("pkg-config names {}, which has no libnr.a", folder.display())),
        Err(why) => looked.push(format!("pkg-config nr: {why}")),
    }
    let here = PathBuf::from(env::var_os("CARGO_MANIFEST_DIR").expect("cargo sets it"));
    for folder in ["../lib", "../out"].map(|place| here.join(place)) {
        if library_in(&folder).is_file() {
            return Ok(folder);
        }
        looked.push(format!("there is no {}/libnr.a", folder.display()));
    }
    Err(looked)
}

fn main() {
    if variable("DOCS_RS").is_some() {
        return;
    }
    let folder = match named_folder() {
        Some(named) if !library_in(&named).is_file() => {
            eprintln!("there is no {}/libnr.a, where NR_LIB has it", named.display());
            exit(1);
        }
        Some(named) => Ok(named),
        None => folder(),
    };
    match folder {
        Ok(folder) => println!("cargo:rustc-link-search=native={}", folder.display()),
        Err(looked) => {
            println!("cargo:warning=libnr.a isn't found, without which nothing is linked: embed/build makes it, and a release has it");
            looked.iter().for_each(|line| println!("cargo:warning={line}"));
        }
    }
    println!("cargo:rustc-link-lib=static=nr");
}
