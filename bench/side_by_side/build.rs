//! Links the proved player; `bench/run` says where it lies.

fn folder(name: &str) -> String {
    println!("cargo:rerun-if-env-changed={name}");
    std::env::var(name).unwrap_or_else(|_| panic!("{name} is not set: run bench/run"))
}

fn main() {
    let proved = folder("PROVED_LIB");
    let kit = folder("KIT_LIB");
    println!("cargo:rerun-if-changed={proved}/libcapi.a");
    println!("cargo:rustc-link-search=native={proved}");
    println!("cargo:rustc-link-search=native={kit}");
    println!("cargo:rustc-link-lib=static=capi");
    println!("cargo:rustc-link-lib=static=libc_c");
}
