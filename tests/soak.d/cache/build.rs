//! Links model.c, which the driver has compiled into the folder SOAK_ROOM.
fn main() {
    println!("cargo:rerun-if-env-changed=SOAK_ROOM");
    println!("cargo:rustc-link-search=native={}", std::env::var("SOAK_ROOM").unwrap_or_default());
    println!("cargo:rustc-link-lib=static=model");
}
