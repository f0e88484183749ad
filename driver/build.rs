//! Links the library desk_c from the folder that the environment variable DESK_LIB names: libdesk_c.a, or libdesk_c.so where
//! that is there (tests/changed.py puts one after the other in its place).

fn main() {
    println!("cargo:rerun-if-env-changed=DESK_LIB");
    let folder = std::env::var("DESK_LIB").expect("DESK_LIB names the folder of the library desk_c");
    println!("cargo:rerun-if-changed={folder}/libdesk_c.a");
    println!("cargo:rustc-link-search=native={folder}");
    println!("cargo:rustc-link-lib=desk_c");
}
