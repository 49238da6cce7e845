//! Links the static library that `make lib` leaves in `target/lib`, or the one of the folder `SALNEGRIS_LIB_DIR`, if the header
//! that was built or installed with it has the version of these bindings: of another one, an answer could have other fields.

use std::ffi::OsString;
use std::path::{Path, PathBuf};
use std::{env, fs, process};

fn main() {
    println!("cargo:rerun-if-env-changed=SALNEGRIS_LIB_DIR");
    let folder = match env::var_os("SALNEGRIS_LIB_DIR") {
        Some(folder) => PathBuf::from(folder),
        None => Path::new(&of_cargo("CARGO_MANIFEST_DIR")).join("../../target/lib"),
    };
    if let Err(sentence) = link(&folder) {
        eprintln!("{sentence}");
        process::exit(1);
    }
}

fn of_cargo(name: &str) -> OsString {
    env::var_os(name).expect("cargo says where the manifest is, and its version")
}

fn link(folder: &Path) -> Result<(), String> {
    let archive = folder.join("libsalnegris.a");
    println!("cargo:rerun-if-changed={}", archive.display());
    if !archive.exists() {
        let name = archive.display();
        return Err(format!("no {name}: run `make lib` first, or name its folder in SALNEGRIS_LIB_DIR"));
    }
    same_version(folder)?;
    println!("cargo:rustc-link-search=native={}", folder.display());
    println!("cargo:rustc-link-lib=static=salnegris");
    Ok(())
}

/// The header stands beside the archive or, where both are installed, in the folder of headers beside that of libraries.
fn same_version(folder: &Path) -> Result<(), String> {
    let places = [folder.join("salnegris.h"), folder.join("../include/salnegris.h")];
    let Some(header) = places.iter().find(|place| place.exists()) else {
        return Err(format!(
            "no salnegris.h in {0} or {0}/../include: it has the library's version",
            folder.display()
        ));
    };
    println!("cargo:rerun-if-changed={}", header.display());
    let name = header.display();
    let text = fs::read_to_string(header).map_err(|error| format!("{name} cannot be read: {error}"))?;
    let ours = of_cargo("CARGO_PKG_VERSION");
    match text.lines().find_map(version) {
        Some(version) if ours == *version => Ok(()),
        Some(version) => Err(format!(
            "{name} is of version {version}, and these bindings are of {}: take both from one release",
            ours.to_string_lossy()
        )),
        None => Err(format!("{name} has no SALNEGRIS_VERSION: it is older than these bindings")),
    }
}

fn version(line: &str) -> Option<&str> {
    line.strip_prefix("#define SALNEGRIS_VERSION \"")?.strip_suffix('"')
}
