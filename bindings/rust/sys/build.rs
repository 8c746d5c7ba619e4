//! Hands the linker the archive that VURELIKA_LIBRARY names (host/archive prints its path).

use std::{env, path::Path, process::exit};

fn main() {
    println!("cargo:rerun-if-env-changed=VURELIKA_LIBRARY");
    let archive = env::var("VURELIKA_LIBRARY").unwrap_or_default();
    let path = Path::new(&archive);
    let folder = match path.parent() {
        Some(folder) if path.is_file() && path.ends_with("libvurelika.a") => folder,
        _ => {
            eprintln!(
                "VURELIKA_LIBRARY must name a file libvurelika.a, and is '{archive}'. In the \
                 repository: export VURELIKA_LIBRARY=$(host/archive)"
            );
            exit(1);
        }
    };
    println!("cargo:rerun-if-changed={archive}");
    println!("cargo:rustc-link-search=native={}", folder.display());
    println!("cargo:rustc-link-lib=static=vurelika");
}
