//! Finds the library: in the folder that FLOWSHOP_LIB_DIR names, else by pkg-config, else in release/ of the clone that
//! this crate stands in. FLOWSHOP_LINK says which form is linked, `static` or `shared`; where it is not set, that is
//! the archive, or the shared object where there is no archive.

use std::env;
use std::path::{Path, PathBuf};
use std::process::{exit, Command};

/// What a change of makes the library be looked for again.
const VARIABLES: [&str; 6] = [
    "FLOWSHOP_LIB_DIR",
    "FLOWSHOP_LINK",
    "PKG_CONFIG",
    "PKG_CONFIG_LIBDIR",
    "PKG_CONFIG_PATH",
    "PKG_CONFIG_SYSROOT_DIR",
];

/// The folders of a library, and of its header where that is known.
struct Folders {
    library: PathBuf,
    header: Option<PathBuf>,
}

fn main() {
    for name in VARIABLES {
        println!("cargo:rerun-if-env-changed={name}");
    }
    println!("cargo:rerun-if-changed=build.rs");
    if let Err(said) = run() {
        eprintln!("flowshop-sys: {said}");
        exit(1);
    }
}

fn run() -> Result<(), String> {
    for (part, wanted) in [("ARCH", "x86_64"), ("OS", "linux"), ("POINTER_WIDTH", "64")] {
        if variable(&format!("CARGO_CFG_TARGET_{part}")).as_deref() != Some(wanted) {
            let target = variable("TARGET").unwrap_or_default();
            return Err(format!("the library is for x86-64 Linux, and the target is {target}"));
        }
    }
    let folders = find()?;
    let (form, name) = form(&folders.library)?;
    let library = folders.library.display();
    println!("cargo:rerun-if-changed={library}/{name}");
    println!("cargo:rustc-link-search=native={library}");
    println!("cargo:rustc-link-lib={form}=flowshop");
    if let Some(header) = folders.header {
        println!("cargo:rustc-env=FLOWSHOP_INCLUDE={}", header.display());
    }
    Ok(())
}

/// A variable of the environment that is not empty.
fn variable(name: &str) -> Option<String> {
    env::var(name).ok().filter(|value| !value.is_empty())
}

/// Finds the folders.
fn find() -> Result<Folders, String> {
    if let Some(named) = variable("FLOWSHOP_LIB_DIR") {
        let library = PathBuf::from(&named);
        if !library.is_absolute() {
            return Err(format!("FLOWSHOP_LIB_DIR is {named}, and has to begin with a slash"));
        }
        let header = header_beside(&library);
        return Ok(Folders { library, header });
    }
    by_pkg_config().or_else(|said| {
        in_clone().ok_or(format!(
            "there is no library; set FLOWSHOP_LIB_DIR to the folder of libflowshop.a or libflowshop.so, or \
             PKG_CONFIG_PATH to that of flowshop.pc\n{said}"
        ))
    })
}

/// The folder of the header of an installation, or of a clone, whose library is in this folder.
fn header_beside(library: &Path) -> Option<PathBuf> {
    let above = library.parent()?;
    let folders = [above.join("include"), above.join("library")];
    folders.into_iter().find(|folder| folder.join("flowshop.h").exists())
}

/// Asks pkg-config for a library of the same major version that is not older.
fn by_pkg_config() -> Result<Folders, String> {
    let version = env!("CARGO_PKG_VERSION");
    let major: u32 = env!("CARGO_PKG_VERSION_MAJOR").parse().unwrap_or(0);
    let wanted = format!("flowshop >= {version} flowshop < {}", major + 1);
    ask(&["--print-errors", "--exists", &wanted])?;
    Ok(Folders {
        library: folder(&ask(&["--variable=libdir", "flowshop"])?),
        header: Some(folder(&ask(&["--variable=includedir", "flowshop"])?)),
    })
}

/// A folder that pkg-config names, where a backslash stands before a space.
fn folder(name: &str) -> PathBuf {
    PathBuf::from(name.replace("\\ ", " "))
}

/// What pkg-config prints.
fn ask(words: &[&str]) -> Result<String, String> {
    let tool = variable("PKG_CONFIG").unwrap_or_else(|| "pkg-config".to_string());
    let run = Command::new(&tool).args(words).output();
    let run = run.map_err(|error| format!("{tool}: {error}"))?;
    let said = |bytes: &[u8]| String::from_utf8_lossy(bytes).trim().to_string();
    if run.status.success() {
        Ok(said(&run.stdout))
    } else {
        Err(said(&run.stderr))
    }
}

/// The released library of the clone that this crate stands in.
fn in_clone() -> Option<Folders> {
    let top = PathBuf::from(variable("CARGO_MANIFEST_DIR")?).join("../..");
    let library = top.join("release").canonicalize().ok()?;
    let header = top.join("library").canonicalize().ok();
    library.join("libflowshop.a").exists().then_some(Folders { library, header })
}

/// The form to link, as cargo names it, and its file.
fn form(library: &Path) -> Result<(&'static str, &'static str), String> {
    let has = |name: &str| library.join(name).exists();
    let (form, name) = match variable("FLOWSHOP_LINK").as_deref() {
        Some("static") => ("static", "libflowshop.a"),
        Some("shared") => ("dylib", "libflowshop.so"),
        None if has("libflowshop.a") => ("static", "libflowshop.a"),
        None => ("dylib", "libflowshop.so"),
        Some(other) => return Err(format!("FLOWSHOP_LINK is {other}, and has to be static or shared")),
    };
    if has(name) {
        Ok((form, name))
    } else {
        Err(format!("there is no {name} in {}", library.display()))
    }
}
