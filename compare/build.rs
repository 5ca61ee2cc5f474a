//! Links the archives of the kernel that compare/archive has written. What needs one that is not there says so.

use std::path::Path;

/// Each archive, and the cfg by which the code asks whether it is linked.
const ARCHIVES: [(&str, &str); 2] = [("sumpnewt", "kernel"), ("probes", "probes")];

fn main() {
    println!("cargo::rerun-if-changed=build.rs");
    let folder = Path::new(env!("CARGO_MANIFEST_DIR")).join("../target/native");
    println!("cargo::rustc-link-search=native={}", folder.display());
    for (name, cfg) in ARCHIVES {
        let archive = folder.join(format!("lib{name}.a"));
        println!("cargo::rustc-check-cfg=cfg({cfg})");
        println!("cargo::rerun-if-changed={}", archive.display());
        if archive.exists() {
            println!("cargo::rustc-cfg={cfg}");
            println!("cargo::rustc-link-lib=static={name}");
        }
    }
}
