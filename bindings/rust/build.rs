//! Links the static library: ZEVOMBU_LIB is the folder of libwt_ffi.a, and ZEVOMBU_HEAP that of liblibc_c.a, which gives Rattle's
//! allocator malloc, realloc and free.
fn main() {
    for (var, default, archive) in [
        ("ZEVOMBU_LIB", concat!(env!("CARGO_MANIFEST_DIR"), "/../../crates/wt_ffi/out"), "libwt_ffi.a"),
        ("ZEVOMBU_HEAP", "/opt/rattle/c", "liblibc_c.a"),
    ] {
        let folder = std::env::var(var).unwrap_or(default.into());
        println!("cargo:rerun-if-env-changed={var}");
        println!("cargo:rerun-if-changed={folder}/{archive}");
        println!("cargo:rustc-link-search=native={folder}");
    }
    println!("cargo:rustc-link-lib=static=wt_ffi");
    println!("cargo:rustc-link-lib=static=libc_c");
}
