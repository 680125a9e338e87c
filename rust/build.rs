//! Links the proved library: `liboskhrein.a`, as `tools/install` names it, or `libembed.a`, as
//! `tools/build embed` does. It is in the folder that `OSKHREIN_LIB_DIR` names, else in the
//! repository's `target/staticlib`.

use std::env;
use std::path::{Path, PathBuf};
use std::process::exit;

/// What the library may be called.
const NAMES: [&str; 2] = ["oskhrein", "embed"];

fn main() {
    println!("cargo:rerun-if-changed=build.rs");
    println!("cargo:rerun-if-env-changed=OSKHREIN_LIB_DIR");
    let folder = folder();
    let Some(name) = NAMES.into_iter().find(|name| archive(&folder, name).is_file()) else {
        let [installed, built] = NAMES.map(|name| archive(&folder, name).display().to_string());
        eprintln!(
            "oskhrein: the proved library is missing: there is neither {installed} nor {built}.\n\
             Make it with `tools/build embed` in the repository, or set OSKHREIN_LIB_DIR to the \
             folder that it is in."
        );
        exit(1);
    };
    println!("cargo:rerun-if-changed={}", archive(&folder, name).display());
    println!("cargo:rustc-link-search=native={}", folder.display());
    println!("cargo:rustc-link-lib=static={name}");
}

/// Where the archive of this name is in a folder.
fn archive(folder: &Path, name: &str) -> PathBuf {
    folder.join(format!("lib{name}.a"))
}

/// The folder to look in. A relative one is meant from where cargo was run; a build script itself
/// is run in the folder of its package.
fn folder() -> PathBuf {
    match env::var_os("OSKHREIN_LIB_DIR") {
        Some(folder) => cargo_folder().join(folder),
        None => own_folder().join("../target/staticlib"),
    }
}

/// The folder of the manifest.
fn own_folder() -> PathBuf {
    env::var_os("CARGO_MANIFEST_DIR").map_or_else(PathBuf::new, PathBuf::from)
}

/// Where cargo was run: the folder of the process that started this one, or what the shell says.
fn cargo_folder() -> PathBuf {
    #[cfg(target_os = "linux")]
    {
        let cargo = std::os::unix::process::parent_id();
        if let Ok(folder) = std::fs::read_link(format!("/proc/{cargo}/cwd")) {
            return folder;
        }
    }
    env::var_os("PWD").map_or_else(PathBuf::new, PathBuf::from)
}
