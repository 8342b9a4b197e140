//! Links libsnmpsec: what SNMPSEC_OUT names, else what pkg-config finds.
use std::process::Command;

fn main() {
    println!("cargo:rerun-if-env-changed=SNMPSEC_OUT");
    println!("cargo:rerun-if-env-changed=PKG_CONFIG_PATH");
    println!("cargo:rustc-link-lib=dylib=snmpsec");
    if let Ok(out) = std::env::var("SNMPSEC_OUT") {
        println!("cargo:rustc-link-search=native={out}");
        println!("cargo:rustc-link-arg=-Wl,-rpath,{out}");
        return;
    }
    let told = Command::new("pkg-config")
        .args(["--libs-only-L", "snmpsec"])
        .output()
        .expect("pkg-config, or SNMPSEC_OUT, is wanted");
    assert!(
        told.status.success(),
        "pkg-config doesn't find snmpsec: is libsnmpsec-dev installed?"
    );
    for word in String::from_utf8_lossy(&told.stdout).split_whitespace() {
        println!(
            "cargo:rustc-link-search=native={}",
            word.trim_start_matches("-L")
        );
    }
}
