//! Links the library, and says where it is: the folder in `DUMYROKE_LIB_DIR`; else `lib/TARGET` of this crate, where a package has it; else, on a platform
//! that the library is made for, `build` of the repository that this crate lies in; or, on x86-64 with glibc, where pkg-config says. With `DUMYROKE_LINK=dylib` it is
//! the shared library, but on Windows.
//!
//! With the feature `assembly` it makes the library of the assembly in this crate, by the programs that `CC` and `AR` name, or `cc` and `ar`.
//! `DUMYROKE_LIB_DIR` has the first say there, too.
use std::ffi::OsStr;
use std::path::{Path, PathBuf};
use std::process::Command;
use std::{env, fs};

/// The platforms that the library is made for, and where the repository has it: one file with glibc and with musl.
const PLATFORMS: [(&str, &str); 8] = [
    (GLIBC, "build"),
    ("x86_64-unknown-linux-musl", "build"),
    ("aarch64-unknown-linux-gnu", "build/arm64"),
    ("aarch64-unknown-linux-musl", "build/arm64"),
    ("x86_64-pc-windows-msvc", "build/systems/x86_64-pc-windows-msvc"),
    ("x86_64-pc-windows-gnu", "build/systems/x86_64-pc-windows-msvc"),
    ("aarch64-apple-darwin", "build/systems/aarch64-apple-darwin"),
    ("x86_64-apple-darwin", "build/systems/x86_64-apple-darwin"),
];
/// The platform of what pkg-config finds.
const GLIBC: &str = "x86_64-unknown-linux-gnu";

fn pkg_config() -> Option<PathBuf> {
    let program = env::var_os("PKG_CONFIG").unwrap_or_else(|| "pkg-config".into());
    let found = Command::new(program).args(["--variable=libdir", "dumyroke"]).output().ok()?;
    let folder = String::from_utf8(found.stdout).ok()?;
    found.status.success().then(|| folder.trim().into())
}

/// How a target links the library, and the file's name there.
fn file_for(target: &str, is_shared: bool) -> (&'static str, &'static str) {
    match (is_shared, target) {
        (_, "x86_64-pc-windows-msvc") => ("static", "dumyroke.lib"),
        (true, _) if target.ends_with("-apple-darwin") => ("dylib", "libdumyroke.dylib"),
        (true, _) if !target.contains("-windows-") => ("dylib", "libdumyroke.so"),
        _ => ("static", "libdumyroke.a"),
    }
}

/// Runs a tool, which a variable may name, with words before its own.
fn run(variable: &str, usual: &str, words: &[&OsStr]) {
    let named = env::var(variable).unwrap_or_else(|_| usual.to_owned());
    let mut command = named.split_whitespace();
    let ended = Command::new(command.next().unwrap_or(usual)).args(command).args(words).status();
    assert!(ended.is_ok_and(|status| status.success()), "`{named}` fails, or is not there: {variable} names another program in its place");
}

/// Makes the library of the assembly for a target, and answers its folder. The assembly is the same with each C library.
fn assembled(crate_folder: &Path, target: &str, file: &str) -> PathBuf {
    let system = ["-gnu", "-musl", "-msvc"].iter().find_map(|library| target.strip_suffix(library)).unwrap_or(target);
    let places = ["assembly", "../../build/assembly"].map(|folder| crate_folder.join(folder).join(format!("{system}.s")));
    let Some(source) = places.iter().find(|place| place.exists()) else {
        panic!("there is no assembly for {target}. Without the feature `assembly` the library is taken as it is made");
    };
    println!("cargo:rerun-if-changed={}", source.display());
    let folder = PathBuf::from(env::var_os("OUT_DIR").unwrap());
    let (object, library) = (folder.join("dumyroke.o"), folder.join(file));
    run("CC", "cc", &["-c".as_ref(), source.as_ref(), "-o".as_ref(), object.as_ref()]);
    run("AR", "ar", &["crs".as_ref(), library.as_ref(), object.as_ref()]);
    folder
}

fn main() {
    for name in ["DUMYROKE_LIB_DIR", "DUMYROKE_LINK", "PKG_CONFIG", "PKG_CONFIG_PATH", "CC", "AR"] {
        println!("cargo:rerun-if-env-changed={name}");
    }
    if env::var_os("DOCS_RS").is_some() {
        return; // documentation needs no library
    }
    let crate_folder = PathBuf::from(env::var_os("CARGO_MANIFEST_DIR").unwrap());
    let target = env::var("TARGET").unwrap();
    let named = env::var_os("DUMYROKE_LIB_DIR").map(PathBuf::from);
    let is_assembled = named.is_none() && env::var_os("CARGO_FEATURE_ASSEMBLY").is_some();
    let (kind, file) = file_for(&target, !is_assembled && env::var("DUMYROKE_LINK").is_ok_and(|link| link == "dylib"));
    let packed = Some(crate_folder.join("lib").join(&target));
    let built = PLATFORMS.iter().find(|platform| platform.0 == target).map(|platform| crate_folder.join("../..").join(platform.1));
    let is_made_for_it = built.is_some();
    let near = packed.into_iter().chain(built).find(|folder| folder.join(file).exists());
    let near = if is_assembled { Some(assembled(&crate_folder, &target, file)) } else { near };
    let found = named.or(near).or_else(|| (target == GLIBC).then(pkg_config)?);
    let Some(folder) = found.and_then(|folder| fs::canonicalize(folder).ok()).filter(|folder| folder.join(file).exists()) else {
        let why = match target.as_str() {
            GLIBC => "`./do bindings install` of the repository puts it where pkg-config finds it".to_owned(),
            _ if is_made_for_it => "`./do bindings` of the repository makes it".to_owned(),
            _ => format!("the parser is a library that is made for {} alone, and this is a build for {target}", PLATFORMS.map(|platform| platform.0).join(", ")),
        };
        panic!("there is no {file}: {why}. DUMYROKE_LIB_DIR names the folder of another one");
    };
    println!("cargo:rerun-if-changed={}", folder.join(file).display());
    println!("cargo:rustc-link-search=native={}", folder.display());
    println!("cargo:rustc-link-lib={kind}=dumyroke");
}
