//! For build scripts: links a library that was proved from the sources as they are, and has it proved and built where there is none.

#[path = "sha256.rs"]
mod sha256;
#[path = "stamp.rs"]
mod stamp;

use sha256::sha256;
use stamp::{boundary, Sources, Stamp};
use std::env;
use std::fs::{self, File, OpenOptions};
use std::io::{self, ErrorKind};
use std::path::{Path, PathBuf};
use std::process::{exit, Command};
use std::thread::available_parallelism;

/// A library's bytes, and the files and folders that decide whether they are still the right ones.
struct Library {
    bytes: Vec<u8>,
    watched: Vec<PathBuf>,
}

/// Links lib`name`.a of crates/`name`/out, or of the folder that CPIM_LIB_DIR names. Where that cannot be, one sentence says what to do, and nothing
/// else: cargo shows all that a script said that fails.
pub fn link(name: &str) {
    // The bytes whose digest was compared are the ones that are linked, from a folder that nobody else writes or removes.
    let out = path("OUT_DIR");
    let copied = library(name, &out).and_then(|library| {
        let copy = out.join(format!("lib{name}.a"));
        fs::write(&copy, library.bytes).map_err(|e| format!("{} cannot be written ({e})", copy.display()))?;
        Ok(library.watched)
    });
    let watched = copied.unwrap_or_else(|why| {
        eprintln!("{name}: {why}.");
        exit(1);
    });
    println!("cargo:rerun-if-env-changed=CPIM_LIB_DIR");
    for path in watched {
        println!("cargo:rerun-if-changed={}", path.display());
    }
    println!("cargo:rustc-link-search=native={}", out.display());
    println!("cargo:rustc-link-lib=static={name}");
}

fn library(name: &str, out: &Path) -> Result<Library, String> {
    let machine = format!("{} {}", variable("CARGO_CFG_TARGET_ARCH"), variable("CARGO_CFG_TARGET_OS"));
    if machine != "x86_64 linux" {
        return Err(format!(
            "the proved library is compiled for x86_64 linux alone, and this build is for {machine}: build with `--target x86_64-unknown-linux-gnu`"
        ));
    }
    let package = path("CARGO_MANIFEST_DIR");
    let root = package.join("../..");
    let root = root.canonicalize().map_err(|e| format!("{} cannot be read ({e})", root.display()))?;
    let elsewhere = path("CPIM_LIB_DIR");
    let (boundary, files) = boundary(&package)?;
    let mut library = match (elsewhere.as_os_str().is_empty(), Sources::are_at(&root, name)) {
        (false, true) => built_elsewhere(&elsewhere, name, &boundary, Some(Sources::read(&root, name)?)),
        (false, false) => built_elsewhere(&elsewhere, name, &boundary, None),
        (true, true) => built_here(&root, name, &boundary, out),
        (true, false) => Err(format!(
            "this copy of the package has no crates/ beside it, from which the library is proved: {}",
            way_out(name, &this_version())
        )),
    }?;
    library.watched.extend(files);
    Ok(library)
}

/// The library of crates/`name`/out. The lock is held before anything is compared, so whoever waited finds what the other has built.
fn built_here(root: &Path, name: &str, boundary: &str, out: &Path) -> Result<Library, String> {
    let lock = lock(root);
    let sources = Sources::read(root, name)?;
    let toolchain = toolchain();
    let made = made_in(name);
    let folder = root.join(&made);
    let (library, stamp) = files(&folder, name);
    let watched = |bytes| Library { bytes, watched: [&sources.paths[..], &[library.clone(), stamp.clone()]].concat() };
    let stamp_of = |bytes: &[u8], toolchain: &str| Stamp {
        version: variable("CARGO_PKG_VERSION"),
        boundary: boundary.to_string(),
        sources: sources.digest.clone(),
        toolchain: toolchain.to_string(),
        library: sha256(bytes),
    };

    if let (Ok(bytes), Some(said)) = (fs::read(&library), Stamp::read(&stamp)) {
        // Without `rt` the toolchain that built it can only be believed.
        let fits = stamp_of(&bytes, toolchain.as_ref().unwrap_or(&said.toolchain));
        if (&said.sources, &said.toolchain, &said.library) == (&fits.sources, &fits.toolchain, &fits.library) {
            // Version and boundary are for whoever takes the library elsewhere. Nothing here goes by them; a stamp that is cut short by a full disk only has the library proved again.
            if said != fits && lock.is_ok() {
                let _ = fs::write(&stamp, fits.text());
            }
            return Ok(watched(bytes));
        }
    }

    let toolchain = toolchain.map_err(|why| {
        format!(
            "{why}, and {made} has no library with a stamp of these sources: install the Rattle toolchain, or {}",
            way_out(name, THESE)
        )
    })?;
    let cannot_write = |e: io::Error| {
        format!(
            "the library has to be proved in {}, which cannot be written ({e}): build in a copy of it, or {}",
            root.display(),
            way_out(name, THESE)
        )
    };
    let lock = lock.map_err(cannot_write)?;
    // From here until the new stamp is written the library has none.
    fs::create_dir_all(&folder).and_then(|()| fs::write(&stamp, "")).map_err(cannot_write)?;
    // `rt all check` proves what it rests on side by side, `rt lib` one crate after the other. The library is for any x86-64 processor, where `rt`
    // of itself would compile it for x86-64-v2.
    let said = out.join("rt.out");
    if !sources.libraries.is_empty() {
        rt(root, name, &["all", "check", "--jobs", &side_by_side().to_string()], &lock, &said)?;
    }
    rt(root, name, &["lib", "--cpu", "x86-64"], &lock, &said)?;
    if Sources::read(root, name)?.digest != sources.digest {
        return Err("the sources were changed while they were proved: build again".to_string());
    }
    let bytes = fs::read(&library).map_err(|e| format!("{} cannot be read ({e})", library.display()))?;
    fs::write(&stamp, stamp_of(&bytes, &toolchain).text()).map_err(cannot_write)?;
    Ok(watched(bytes))
}

/// The library of a folder. Its stamp has to fit the sources, or the package's version and its side of the boundary where there are none.
fn built_elsewhere(folder: &Path, name: &str, boundary: &str, sources: Option<Sources>) -> Result<Library, String> {
    let fails = |why: String| Err(format!("CPIM_LIB_DIR is {}, {why}", folder.display()));
    if !folder.is_absolute() {
        return fails("and has to be a path from the root".to_string());
    }
    let (library, stamp) = files(folder, name);
    let of = if sources.is_some() { THESE.to_string() } else { this_version() };
    let (Ok(bytes), Some(said)) = (fs::read(&library), Stamp::read(&stamp)) else {
        return fails(format!(
            "where lib{name}.a or lib{name}.stamp is missing or cannot be read: {}",
            way_out(name, &of)
        ));
    };
    if said.library != sha256(&bytes) {
        return fails(format!("where lib{name}.stamp was not written for lib{name}.a: copy both anew"));
    }
    let fits = match &sources {
        Some(sources) => said.sources == sources.digest,
        None => said.version == variable("CARGO_PKG_VERSION"),
    };
    if !fits {
        return fails(format!("whose lib{name}.a was not built from {of}: {}", way_out(name, &of)));
    }
    if sources.is_none() && said.boundary != boundary {
        return fails(format!(
            "whose lib{name}.a has the version of this package and was built for another src/raw.rs or src/raw: {}",
            way_out(name, "the commit that this package was copied from")
        ));
    }
    let mut watched = sources.map(|sources| sources.paths).unwrap_or_default();
    watched.extend([library, stamp]);
    Ok(Library { bytes, watched })
}

const THESE: &str = "these sources";

fn this_version() -> String {
    format!("version {}", variable("CARGO_PKG_VERSION"))
}

fn way_out(name: &str, of: &str) -> String {
    format!(
        "set CPIM_LIB_DIR to a folder with the lib{name}.a and lib{name}.stamp that a build of {of} has left in {} on a machine with `rt`",
        made_in(name)
    )
}

/// Where `rt` leaves a library, from the root.
fn made_in(name: &str) -> String {
    format!("crates/{name}/out")
}

/// Where a library and its stamp stand.
fn files(folder: &Path, name: &str) -> (PathBuf, PathBuf) {
    (folder.join(format!("lib{name}.a")), folder.join(format!("lib{name}.stamp")))
}

/// The lock that all hold who run `rt` in this repository (the Makefile by flock): `rt` keeps others out of the crates where it works, but not from
/// between two of its runs, and a library has to be the one that was compared, built and stamped. It is in no out/, which `rt ci` removes.
fn lock(root: &Path) -> io::Result<File> {
    let path = root.join(".rt-lock");
    let file = File::open(&path).or_else(|_| OpenOptions::new().read(true).append(true).create(true).open(&path))?;
    file.lock()?;
    Ok(file)
}

/// What `rt version` says, or why it says nothing.
fn toolchain() -> Result<String, String> {
    match Command::new("rt").arg("version").output() {
        Ok(said) if said.status.success() => Ok(String::from_utf8_lossy(&said.stdout).trim().replace('\n', " ")),
        Ok(said) => {
            let why = String::from_utf8_lossy(&said.stderr);
            Err(format!("`rt version` fails ({}, {})", said.status, why.lines().last().unwrap_or_default()))
        }
        Err(e) if e.kind() == ErrorKind::NotFound => Err("`rt` is not on the PATH".to_string()),
        Err(e) => Err(format!("`rt` cannot be run ({e})")),
    }
}

/// How many crates to prove at a time: one a processor, as many as the memory holds that is free, by 3 GB each.
fn side_by_side() -> usize {
    let said = fs::read_to_string("/proc/meminfo").unwrap_or_default();
    let free =
        said.lines().find_map(|line| line.strip_prefix("MemAvailable:")?.trim().strip_suffix(" kB")?.parse().ok());
    let by_memory = free.map_or(1, |free: usize| free / 3_000_000);
    by_memory.clamp(1, available_parallelism().map_or(1, |processors| processors.get()))
}

/// Runs `rt` in the library's crate with what it says in a file: where crates are not proved that is pages. It holds the lock too, so that the lock
/// outlives this script where that is ended first. What stands at standard input is not handed on to all that `rt` starts, hence the shell, which moves
/// the lock to a descriptor that `rt` keeps.
fn rt(root: &Path, name: &str, words: &[&str], lock: &File, said: &Path) -> Result<(), String> {
    let folder = root.join("crates").join(name);
    let run = || {
        let file = File::create(said)?;
        let mut rt = Command::new("/bin/sh");
        rt.args(["-c", "exec rt \"$@\" 9<&0 </dev/null", "sh"]).args(words).current_dir(&folder);
        rt.stdin(lock.try_clone()?).stdout(file.try_clone()?).stderr(file).status()
    };
    let status = run().map_err(|e| format!("`rt` cannot be run ({e})"))?;
    if status.success() {
        return Ok(());
    }
    let text = fs::read(said).unwrap_or_default();
    let text = String::from_utf8_lossy(&text);
    // What a shell ends with that finds no such program, or none that runs.
    if let Some(126 | 127) = status.code() {
        return Err(format!("`rt` cannot be run ({})", text.lines().last().unwrap_or_default()));
    }
    let failed = text.lines().find_map(|line| line.split_once(": failed (")).map_or(name, |(failed, _)| failed);
    Err(format!(
        "`rt` does not prove the library ({status}, at {failed}): run `flock ../../.rt-lock rt lib` in {}, or read {}",
        folder.display(),
        said.display()
    ))
}

/// Empty where it is not set.
fn variable(name: &str) -> String {
    path(name).to_string_lossy().into_owned()
}

/// The same where it is a path, which need not be UTF-8.
fn path(name: &str) -> PathBuf {
    env::var_os(name).unwrap_or_default().into()
}
