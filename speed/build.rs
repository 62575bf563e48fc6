// Links the proved search, which `make speed` builds and puts there.
fn main() {
    let root = std::env::var("CARGO_MANIFEST_DIR").unwrap();
    println!("cargo:rustc-link-search=native={root}/../target/staticlib");
    println!("cargo:rustc-link-lib=static=schedule_speed");
    println!("cargo:rerun-if-changed={root}/../target/staticlib/libschedule_speed.a");
}
