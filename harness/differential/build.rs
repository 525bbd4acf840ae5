// The archive of the public calls; with the feature `stub` the names come from src/stub.rs, with `small` from the shared library of
// harness/small.
fn main() {
    println!("cargo:rerun-if-changed=build.rs");
    if std::env::var_os("CARGO_FEATURE_STUB").is_some() {
        return;
    }
    let here = std::env::var("CARGO_MANIFEST_DIR").unwrap();
    if std::env::var_os("CARGO_FEATURE_SMALL").is_some() {
        println!("cargo:rustc-link-search=native={here}/../../target/small");
        println!("cargo:rustc-link-lib=dylib=lanternrung");
        return;
    }
    println!("cargo:rustc-link-search=native={here}/../../target/native");
    println!("cargo:rustc-link-lib=static=lanternrung");
    println!("cargo:rerun-if-changed={here}/../../target/native/liblanternrung.a");
}
