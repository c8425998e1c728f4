//! What a library was built from, by digests of contents; times play no part.

use super::sha256::sha256;
use std::collections::BTreeMap;
use std::path::{Path, PathBuf};
use std::{fs, io};

/// What decides on a library: the `.rt` and `.antt` files in `src`, `specs` and `proofs` of the crates that it rests on, and what crates.txt says of
/// these crates.
pub struct Sources {
    pub digest: String,
    /// The crates that it names itself.
    pub libraries: Vec<String>,
    /// crates.txt and the folders, for cargo to watch.
    pub paths: Vec<PathBuf>,
}

impl Sources {
    /// A copy of the package alone, as `cargo vendor` makes it, has none.
    pub fn are_at(root: &Path, name: &str) -> bool {
        root.join("crates.txt").is_file() && root.join("crates").join(name).join("src").is_dir()
    }

    pub fn read(root: &Path, name: &str) -> Result<Sources, String> {
        let list = root.join("crates.txt");
        let lines = fs::read_to_string(&list).map_err(|e| format!("{} cannot be read ({e})", list.display()))?;
        let mut paths = vec![list];
        let mut text = Vec::new();
        let crates = rests_on(&lines, name);
        let named = crates.get(name).into_iter().flat_map(|line| &line.libraries);
        let libraries =
            named.filter(|library| crates.contains_key(*library)).map(|library| library.to_string()).collect();
        for (name, Line { kind, libraries }) in &crates {
            text.extend(format!("{}: {}\n", [&[*name], &kind[..]].concat().join(" "), libraries.join(" ")).bytes());
            for part in ["src", "specs", "proofs"] {
                let folder = root.join("crates").join(name).join(part);
                if folder.is_dir() {
                    add(&mut text, root, &folder, &["rt", "antt"])
                        .map_err(|e| format!("{} cannot be read ({e})", folder.display()))?;
                    paths.push(folder);
                }
            }
        }
        Ok(Sources { digest: sha256(&text), libraries, paths })
    }
}

/// The package's own side of the boundary to the library, src/raw.rs and the files in src/raw: their digest, and what of them is there to watch.
/// What is declared there may change under one version; a meaning that changes behind the same declarations is told by the version alone.
pub fn boundary(package: &Path) -> Result<(String, Vec<PathBuf>), String> {
    let paths: Vec<PathBuf> =
        ["src/raw.rs", "src/raw"].map(|path| package.join(path)).into_iter().filter(|path| path.exists()).collect();
    let mut text = Vec::new();
    for path in &paths {
        add(&mut text, package, path, &["rs"]).map_err(|e| format!("{} cannot be read ({e})", path.display()))?;
    }
    Ok((sha256(&text), paths))
}

/// What crates.txt says of a crate, behind its name: `staticlib` and the like, and the libraries that it names.
#[derive(Clone)]
struct Line<'a> {
    kind: Vec<&'a str>,
    libraries: Vec<&'a str>,
}

/// The crates that a crate rests on, itself among them. The toolchain's own have no line.
fn rests_on<'a>(list: &'a str, name: &'a str) -> BTreeMap<&'a str, Line<'a>> {
    let lines: BTreeMap<&str, Line> = list
        .lines()
        .filter_map(|line| {
            let line = line.split('#').next()?;
            let (head, libraries) = line.split_once(':').unwrap_or((line, ""));
            let mut head = head.split_whitespace();
            let name = head.next()?;
            let libraries = libraries.split([' ', '\t', ',']).filter(|library| !library.is_empty()).collect();
            Some((name, Line { kind: head.collect(), libraries }))
        })
        .collect();
    let mut found = BTreeMap::new();
    let mut open = vec![name];
    while let Some(name) = open.pop() {
        if let Some(line) = lines.get(name) {
            if found.insert(name, line.clone()).is_none() {
                open.extend(&line.libraries);
            }
        }
    }
    found
}

/// Adds name, length and contents of each file of these kinds at or below a path, by ascending name. An editor's own files are of other kinds.
fn add(text: &mut Vec<u8>, root: &Path, path: &Path, kinds: &[&str]) -> io::Result<()> {
    if path.is_dir() {
        let mut entries = fs::read_dir(path)?.map(|entry| Ok(entry?.path())).collect::<io::Result<Vec<_>>>()?;
        entries.sort();
        return entries.iter().try_for_each(|entry| add(text, root, entry, kinds));
    }
    let of_these = path.extension().is_some_and(|kind| kinds.iter().any(|one| kind == *one));
    // An editor's lock file is a link to nothing.
    if of_these && path.is_file() {
        let contents = fs::read(path)?;
        text.extend(format!("{} {}\n", path.strip_prefix(root).unwrap_or(path).display(), contents.len()).bytes());
        text.extend(contents);
    }
    Ok(())
}

/// What stands beside a library, in lines of a word and its value.
#[derive(PartialEq)]
pub struct Stamp {
    /// Of the package whose build script had the library built, as is the boundary.
    pub version: String,
    pub boundary: String,
    pub sources: String,
    /// What `rt version` said.
    pub toolchain: String,
    pub library: String,
}

impl Stamp {
    pub fn read(path: &Path) -> Option<Stamp> {
        let text = fs::read_to_string(path).ok()?;
        let value =
            |word: &str| Some(text.lines().find_map(|line| line.strip_prefix(word)?.strip_prefix(' '))?.to_string());
        Some(Stamp {
            version: value("version")?,
            boundary: value("boundary")?,
            sources: value("sources")?,
            toolchain: value("toolchain")?,
            library: value("library")?,
        })
    }

    pub fn text(&self) -> String {
        let Stamp { version, boundary, sources, toolchain, library } = self;
        format!("version {version}\nboundary {boundary}\nsources {sources}\ntoolchain {toolchain}\nlibrary {library}\n")
    }
}
