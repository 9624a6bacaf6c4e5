//! Links `libwincode_c.a`, which `rt lib` leaves in `crates/wincode_c/out`, and what it takes of the kit. `WINCODE_LIB` and
//! `RATTLE_KIT` name other folders for either.
use std::path::PathBuf;
use std::process::Command;
use std::{env, fs};

/// The folder that `rt doc` names.
fn kit() -> PathBuf {
    if let Some(kit) = env::var_os("RATTLE_KIT") {
        return kit.into();
    }
    let said = Command::new("rt")
        .arg("doc")
        .output()
        .expect("`rt` is not on the PATH: set RATTLE_KIT");
    let page = String::from_utf8_lossy(&said.stdout)
        .lines()
        .next()
        .unwrap_or_default()
        .to_owned();
    PathBuf::from(page).parent().expect("`rt doc` names no page").to_owned()
}

fn main() {
    println!("cargo:rerun-if-env-changed=WINCODE_LIB");
    println!("cargo:rerun-if-env-changed=RATTLE_KIT");
    let here = PathBuf::from(env::var_os("CARGO_MANIFEST_DIR").expect("cargo names the folder"));
    let built = env::var_os("WINCODE_LIB").map_or_else(|| here.join("../../crates/wincode_c/out"), PathBuf::from);
    let built =
        fs::canonicalize(&built).unwrap_or_else(|why| panic!("{}: {why}: run `rt lib` in crates/wincode_c", built.display()));
    println!("cargo:rerun-if-changed={}", built.join("libwincode_c.a").display());
    println!("cargo:rustc-link-search=native={}", built.display());
    println!("cargo:rustc-link-search=native={}", kit().join("c").display());
    println!("cargo:rustc-link-lib=static=wincode_c");
    println!("cargo:rustc-link-lib=static=libc_c");
}
