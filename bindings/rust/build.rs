//! Links libkapi.a of the folder that KAPI_LIB names, else libkapi as the system finds it.

fn main() {
    println!("cargo:rerun-if-env-changed=KAPI_LIB");
    match std::env::var("KAPI_LIB") {
        Ok(folder) => {
            println!("cargo:rustc-link-search=native={folder}");
            println!("cargo:rustc-link-lib=static=kapi");
        }
        Err(_) => println!("cargo:rustc-link-lib=kapi"),
    }
}
