//! Links libzaxmonth as pkg-config names it (`./install PREFIX`, and PREFIX/lib/pkgconfig in PKG_CONFIG_PATH).
use std::process::Command;

fn main() {
    println!("cargo:rerun-if-env-changed=PKG_CONFIG_PATH");
    let asked = Command::new("pkg-config").args(["--variable=libdir", "zaxmonth"]).output().expect("pkg-config runs");
    assert!(asked.status.success(), "pkg-config knows no zaxmonth: {}", String::from_utf8_lossy(&asked.stderr));
    let folder = String::from_utf8(asked.stdout).expect("a path in UTF-8");
    println!("cargo:rerun-if-changed={}/libzaxmonth.a", folder.trim());
    println!("cargo:rustc-link-search=native={}", folder.trim());
    println!("cargo:rustc-link-lib=static=zaxmonth");
}
