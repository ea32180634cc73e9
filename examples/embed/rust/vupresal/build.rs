//! Tests and examples of this crate find a library in a prefix of one's own.
fn main() {
    if let Ok(folder) = std::env::var("DEP_VUPRESAL_LIBDIR") {
        println!("cargo:rustc-link-arg=-Wl,-rpath,{}", folder);
    }
}
