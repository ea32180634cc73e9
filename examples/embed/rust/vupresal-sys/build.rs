//! Asks pkg-config where the library is. PKG_CONFIG_PATH names a prefix of one's own; programs then find the library by its path.
use std::env;
use std::process::{exit, Command};

fn pkg_config(words: &[&str]) -> String {
    let program = env::var("PKG_CONFIG").unwrap_or_else(|_| String::from("pkg-config"));
    match Command::new(&program).args(words).arg("vupresal").output() {
        Ok(told) if told.status.success() => String::from_utf8_lossy(&told.stdout).trim().to_owned(),
        Ok(told) => {
            eprintln!("{}", String::from_utf8_lossy(&told.stderr));
            exit(1)
        }
        Err(error) => {
            eprintln!("{}: {}", program, error);
            exit(1)
        }
    }
}

fn main() {
    for name in ["PKG_CONFIG", "PKG_CONFIG_PATH", "VUPRESAL_STATIC"] {
        println!("cargo:rerun-if-env-changed={}", name);
    }
    pkg_config(&["--exists", "--print-errors", "--atleast-version=0.1.0"]);
    let folder = pkg_config(&["--variable=libdir"]);
    println!("cargo:rustc-link-search=native={}", folder);
    if env::var_os("VUPRESAL_STATIC").is_some() {
        println!("cargo:rustc-link-lib=static=vupresal");
    } else {
        println!("cargo:rustc-link-lib=dylib=vupresal");
    }
    // a crate above passes it on to its programs, as DEP_VUPRESAL_LIBDIR
    println!("cargo:libdir={}", folder);
}
