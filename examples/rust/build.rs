//! Links libmetroheap.a from the folder that METROHEAP_LIB names.
fn main() {
    println!("cargo:rerun-if-env-changed=METROHEAP_LIB");
    let folder =
        std::env::var("METROHEAP_LIB").expect("METROHEAP_LIB is the folder of libmetroheap.a");
    println!("cargo:rerun-if-changed={folder}/libmetroheap.a");
    println!("cargo:rustc-link-search=native={folder}");
    println!("cargo:rustc-link-lib=static=metroheap");
}
