//! Links libzilqumet.a from the folder ZILQUMET_LIB_DIR, or else the library that the system has.
fn main() {
    println!("cargo:rerun-if-env-changed=ZILQUMET_LIB_DIR");
    match std::env::var("ZILQUMET_LIB_DIR") {
        Ok(folder) => {
            println!("cargo:rerun-if-changed={folder}/libzilqumet.a");
            println!("cargo:rustc-link-search=native={folder}");
            println!("cargo:rustc-link-lib=static=zilqumet");
        }
        Err(_) => println!("cargo:rustc-link-lib=dylib=zilqumet"),
    }
}
