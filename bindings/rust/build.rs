//! Where libflowc.a is: the folder that FLOWC_LIB names, as `target/library/lib`.

fn main() {
    println!("cargo:rerun-if-env-changed=FLOWC_LIB");
    if let Ok(folder) = std::env::var("FLOWC_LIB") {
        println!("cargo:rustc-link-search=native={folder}");
    }
}
