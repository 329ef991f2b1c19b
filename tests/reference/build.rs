//! Tells the linker where the library is.

use std::env;

fn main() {
    println!("cargo:rerun-if-env-changed=LGS_LIB_DIR");
    if env::var_os("CARGO_FEATURE_ENGINE").is_none() {
        return;
    }
    match env::var("LGS_LIB_DIR") {
        Ok(folder) => {
            println!("cargo:rerun-if-changed={folder}");
            println!("cargo:rustc-link-search=native={folder}");
            println!("cargo:rustc-link-lib=static=lgs");
        }
        Err(_) => println!("cargo:warning=LGS_LIB_DIR is not set; linking will fail"),
    }
}
