//! Links the archive that `rt lib` leaves in crates/raid_c/out, or in the folder that BEHKUNA_OUT names.
use std::env;

fn main() {
    let here = env::var("CARGO_MANIFEST_DIR").expect("cargo names the package's folder");
    let out = env::var("BEHKUNA_OUT").unwrap_or(format!("{here}/../../crates/raid_c/out"));
    println!("cargo:rustc-link-search=native={out}");
    println!("cargo:rustc-link-lib=static=raid_c");
    println!("cargo:rerun-if-changed={out}/libraid_c.a");
    println!("cargo:rerun-if-env-changed=BEHKUNA_OUT");
}
