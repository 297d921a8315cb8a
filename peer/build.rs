//! Links the proved library, if its archive is there. Without it the package
//! builds all the same, and only what needs the library says that it is missing.

use std::env;
use std::path::Path;

/// What is shipped, and the machine that it is made for.
const SHIPPED: &str = "../crates/chainplater/out";
const MACHINE: &str = "x86_64";

/// What `peer/here` makes for a machine that is another.
const HERE: &str = "../target/here";

const ARCHIVE: &str = "libchainplater.a";

fn main() {
    println!("cargo::rustc-check-cfg=cfg(linked)");
    println!("cargo::rerun-if-changed=build.rs");
    let package = env::var_os("CARGO_MANIFEST_DIR").unwrap_or_default();
    let shipped = env::var("CARGO_CFG_TARGET_ARCH").is_ok_and(|machine| machine == MACHINE);
    let folder = Path::new(&package).join(if shipped { SHIPPED } else { HERE });
    // A file that is not there counts as changed, so the archive is found as
    // soon as it comes.
    println!("cargo::rerun-if-changed={}", folder.join(ARCHIVE).display());
    if folder.join(ARCHIVE).is_file() {
        println!("cargo::rustc-cfg=linked");
        println!("cargo::rustc-link-search=native={}", folder.display());
        println!("cargo::rustc-link-lib=static=chainplater");
    }
}
