//! Links the proved library, and writes the tables of numbers as Rust.
//!
//! In a clone of the repository, or where `NELI_C` is set, these are two archives: `NELI_C` is the folder of
//! `libneli_c.a`, `RATTLE_C` that of `liblibc_c.a`, the heap of the kit. Without them the library is looked for where
//! `host/library` leaves it, and the heap beside the page that `rt doc` names. Elsewhere it is the installed library,
//! in the folder that `NELI_LIB` or else pkg-config names; the feature `static` links its archive. The numbers are
//! those that the suite `constants` prints, and `./check` compares.

use std::collections::BTreeMap;
use std::path::{Path, PathBuf};
use std::process::Command;
use std::{env, fs};

/// A module: its name, its contents, and its tables with the type of their numbers.
type Module = (&'static str, &'static str, &'static [(&'static str, &'static str)]);

/// The tables of each module, with the type of their numbers. A set of flags is recognized by its upper-case names.
const MODULES: &[Module] = &[
    (
        "nl",
        "Types and flags of messages.",
        &[("Nlmsg", "u16"), ("GenlId", "u16"), ("NlmF", "u16"), ("NlmsgerrAttr", "u16")],
    ),
    ("socket", "Families of netlink.", &[("NlFamily", "i32")]),
    (
        "genl",
        "Generic netlink, and its controller.",
        &[("CtrlCmd", "u8"), ("CtrlAttr", "u16"), ("CtrlAttrMcastGrp", "u16")],
    ),
    (
        "connector",
        "The connector.",
        &[("CnMsgIdx", "u32"), ("CnMsgVal", "u32"), ("ProcCnMcastOp", "u32"), ("ProcEventType", "u32")],
    ),
    (
        "rtnl",
        "Routing.",
        &[
            ("RtAddrFamily", "u8"),
            ("Rtm", "u16"),
            ("Rtn", "u8"),
            ("Rtprot", "u8"),
            ("RtScope", "u8"),
            ("RtTable", "u8"),
            ("Arphrd", "u16"),
            ("Ifla", "u16"),
            ("IflaInfo", "u16"),
            ("IflaVlan", "u16"),
            ("Ifa", "u16"),
            ("Rta", "u16"),
            ("Nda", "u16"),
            ("Frattr", "u16"),
            ("Tca", "u16"),
            ("Iff", "u32"),
            ("IfaF", "u8"),
            ("RtmF", "u32"),
            ("Nud", "u16"),
            ("Ntf", "u8"),
        ],
    ),
];

/// The names of a table with their numbers, in its order.
type Rows = Vec<(String, u64)>;

fn main() {
    let here = PathBuf::from(env::var("CARGO_MANIFEST_DIR").expect("cargo says where the crate is"));
    let top = here.join("../..");
    println!("cargo::rerun-if-env-changed=NELI_C");
    if env::var_os("NELI_C").is_some() || top.join("crates.txt").is_file() {
        link("NELI_C", "neli_c", || top.join("crates/neli_c/out"));
        link("RATTLE_C", "libc_c", kit);
    } else {
        link_installed();
    }
    let table = shared(&here, "constants", "suites/constants/stdout");
    shared(&here, "neli.h", "include/neli.h");
    shared(&here, "RUST.md", "docs/RUST.md");
    shared(&here, "README.md", "README.md");
    shared(&here, "WRITING.md", "docs/WRITING.md");
    println!("cargo::rerun-if-changed={}", table.display());
    let text = fs::read_to_string(&table).unwrap_or_else(|error| panic!("{}: {error}", table.display()));
    let out = PathBuf::from(env::var("OUT_DIR").expect("cargo says where to write"));
    fs::write(out.join("consts.rs"), written(&tables(&text))).expect("the constants are written");
}

/// A file that this crate shares with the repository: beside the crate if it was packed, else in its place. Code finds
/// it by the variable `NELI_FILE_` with its name.
fn shared(here: &Path, name: &str, place: &str) -> PathBuf {
    let packed = here.join(name);
    let file = if packed.is_file() { packed } else { here.join("../..").join(place) };
    let variable: String =
        name.chars().map(|c| if c.is_alphanumeric() { c.to_ascii_uppercase() } else { '_' }).collect();
    println!("cargo::rustc-env=NELI_FILE_{variable}={}", file.display());
    file
}

/// Links a static library: from the folder that a variable names, or else from a default place.
fn link(variable: &str, library: &str, place: impl FnOnce() -> PathBuf) {
    println!("cargo::rerun-if-env-changed={variable}");
    let folder = env::var_os(variable).map_or_else(place, PathBuf::from);
    let file = folder.join(format!("lib{library}.a"));
    println!("cargo::rerun-if-changed={}", file.display());
    if !file.is_file() {
        println!("cargo::warning={} is not there: see docs/RUST.md, or set {variable}", file.display());
    }
    println!("cargo::rustc-link-search=native={}", folder.display());
    println!("cargo::rustc-link-lib=static={library}");
}

/// Links the library of `./dist`, as it is installed.
fn link_installed() {
    println!("cargo::rerun-if-env-changed=NELI_LIB");
    println!("cargo::rerun-if-env-changed=PKG_CONFIG_PATH");
    let folder = env::var_os("NELI_LIB").map_or_else(folder_by_pkg_config, PathBuf::from);
    println!("cargo::rustc-link-search=native={}", folder.display());
    let kind = if env::var_os("CARGO_FEATURE_STATIC").is_some() { "static" } else { "dylib" };
    println!("cargo::rustc-link-lib={kind}=neli");
}

/// The folder of libneli by pkg-config; else none, and the linker looks in its usual places.
fn folder_by_pkg_config() -> PathBuf {
    let program = env::var_os("PKG_CONFIG").unwrap_or_else(|| "pkg-config".into());
    let said = Command::new(program).args(["--variable=libdir", "neli"]).output();
    match said {
        Ok(it) if it.status.success() => PathBuf::from(String::from_utf8_lossy(&it.stdout).trim()),
        _ => {
            println!("cargo::warning=pkg-config knows no libneli: install libneli-dev, or set NELI_LIB");
            PathBuf::from("/usr/lib")
        }
    }
}

/// The kit's folder of C libraries, as its `rt` prints it.
fn kit() -> PathBuf {
    let said = Command::new("rt").arg("doc").output().map(|it| it.stdout).unwrap_or_default();
    let page = String::from_utf8_lossy(&said);
    Path::new(page.trim()).parent().map_or_else(PathBuf::new, |it| it.join("c"))
}

/// The rows `TABLE NUMBER NAME ..`, or `TABLE NAME NUMBER ..` of a flag and of a second name of a number.
fn tables(text: &str) -> BTreeMap<&str, Rows> {
    let mut found: BTreeMap<&str, Rows> = BTreeMap::new();
    for line in text.lines() {
        let words: Vec<&str> = line.split(' ').collect();
        let (name, number) = match words[..] {
            [_, number, name, _, _, _] => (name, number.parse().ok()),
            [_, name, number, _] => (name, number.parse().ok()),
            [_, name, number, _, _] => {
                let bits = number.strip_prefix("0x").and_then(|it| u64::from_str_radix(it, 16).ok());
                (name, bits.filter(|_| name.starts_with(|it: char| it.is_ascii_uppercase()) && name != "From"))
            }
            _ => continue,
        };
        let is_name = name.chars().all(|it| it.is_ascii_alphanumeric() || it == '_');
        if let (Some(number), true) = (number, is_name) {
            found.entry(words[0]).or_default().push((name.to_owned(), number));
        }
    }
    found
}

fn written(tables: &BTreeMap<&str, Rows>) -> String {
    let mut out = String::new();
    for (module, says, names) in MODULES {
        out += &format!("/// {says}\npub mod {module} {{\n");
        for (name, kind) in *names {
            let rows = tables.get(name).unwrap_or_else(|| panic!("no table {name}"));
            let is_set = rows.iter().all(|(name, _)| !name.contains(|it: char| it.is_ascii_lowercase()));
            let macro_name = if is_set { "flags" } else { "numbers" };
            let (first, second): (Vec<_>, Vec<_>) = rows
                .iter()
                .enumerate()
                .partition(|(at, (_, number))| is_set || rows[..*at].iter().all(|(_, earlier)| earlier != number));
            let list = |rows: &[(usize, &(String, u64))]| {
                rows.iter().map(|(_, (name, number))| format!("{name} = {number}, ")).collect::<String>()
            };
            out += &format!("    {macro_name}!({name}: {kind} {{ {}}} {{ {}}});\n", list(&first), list(&second));
        }
        out += "}\n";
    }
    out
}
