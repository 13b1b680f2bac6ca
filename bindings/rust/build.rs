//! Finds librtfilter: in the folder RTFILTER_LIB_DIR, or else by pkg-config. RTFILTER_STATIC links the static library.
use std::{env, process::Command};

fn main() {
    for name in ["RTFILTER_LIB_DIR", "RTFILTER_STATIC", "PKG_CONFIG_PATH"] {
        println!("cargo:rerun-if-env-changed={name}");
    }
    let folder = env::var("RTFILTER_LIB_DIR").unwrap_or_else(|_| installed());
    println!("cargo:rustc-link-search=native={folder}");
    let kind = if env::var_os("RTFILTER_STATIC").is_some() { "static=" } else { "" };
    println!("cargo:rustc-link-lib={kind}rtfilter");
}

/// The folder of the library that is installed. Without one the build ends with what to do.
fn installed() -> String {
    let found = Command::new("pkg-config").args(["--print-errors", "--variable=libdir", "rtfilter"]).output();
    match found {
        Ok(done) if done.status.success() => String::from_utf8_lossy(&done.stdout).trim().to_owned(),
        Ok(done) => stop(String::from_utf8_lossy(&done.stderr).trim()),
        Err(cause) => stop(&format!("pkg-config: {cause}")),
    }
}

const ADVICE: &str = "\
librtfilter isn't found. Install it: make library install, or the package librtfilter-dev.
If it is installed under a prefix of its own, set PKG_CONFIG_PATH to PREFIX/lib/pkgconfig,
or RTFILTER_LIB_DIR to the folder of librtfilter.so.";

fn stop(why: &str) -> ! {
    eprintln!("{why}\n{ADVICE}");
    std::process::exit(1)
}
