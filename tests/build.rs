//! Links the static library: the folder WEIGHTROSE_LIB_DIR, or ../target/staticlib.
//! Where YARDSTICK_LIB names a static library with `peer_report`, that one is linked too, with its
//! `peer_bills` and `peer_headroom` where it has them: an older build has none.

use std::env;
use std::path::{Path, PathBuf};

fn main() {
    link_weightrose();
    link_yardstick();
}

fn link_weightrose() {
    println!("cargo:rerun-if-env-changed=WEIGHTROSE_LIB_DIR");
    let folder = match env::var_os("WEIGHTROSE_LIB_DIR") {
        Some(folder) => PathBuf::from(folder),
        None => Path::new(&env::var_os("CARGO_MANIFEST_DIR").unwrap()).join("../target/staticlib"),
    };
    println!("cargo:rerun-if-changed={}", folder.join("libweightrose.a").display());
    println!("cargo:rustc-link-search=native={}", folder.display());
    println!("cargo:rustc-link-lib=static=weightrose");
}

fn link_yardstick() {
    println!("cargo:rerun-if-env-changed=YARDSTICK_LIB");
    println!("cargo:rustc-check-cfg=cfg(yardstick, yardstick_bills, yardstick_headroom)");
    let Some(library) = env::var_os("YARDSTICK_LIB").filter(|path| !path.is_empty()) else {
        return;
    };
    println!("cargo:rerun-if-changed={}", library.to_string_lossy());
    println!("cargo:rustc-cfg=yardstick");
    let bytes = std::fs::read(&library).unwrap_or_default();
    for entry in ["bills", "headroom"] {
        let name = format!("peer_{entry}");
        if bytes.windows(name.len()).any(|window| window == name.as_bytes()) {
            println!("cargo:rustc-cfg=yardstick_{entry}");
        }
    }
    println!("cargo:rustc-link-arg-bins={}", library.to_string_lossy());
}
