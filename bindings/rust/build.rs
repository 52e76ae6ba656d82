//! Finds `libcedar_formatter.a`: in the folder that the variable `CEDAR_FORMATTER_LIB` names; else in `bindings/out` of the
//! repository, or in `PREFIX/lib` of a release.
use std::path::PathBuf;
use std::{env, process};

const LIBRARY: &str = "libcedar_formatter.a";

fn main() {
    println!("cargo:rerun-if-env-changed=CEDAR_FORMATTER_LIB");
    let here = PathBuf::from(env::var_os("CARGO_MANIFEST_DIR").expect("cargo names the folder"));
    let folders = match env::var_os("CEDAR_FORMATTER_LIB") {
        Some(named) => vec![here.join(named)],
        None => vec![here.join("../out"), here.join("../../../lib")],
    };
    for folder in &folders {
        println!("cargo:rerun-if-changed={}", folder.join(LIBRARY).display());
    }
    match folders.iter().find(|it| it.join(LIBRARY).is_file()) {
        Some(folder) => {
            println!("cargo:rustc-link-search=native={}", folder.display());
            println!("cargo:rustc-link-lib=static=cedar_formatter");
        }
        None => {
            let advice =
                "run bindings/build in the repository, or set CEDAR_FORMATTER_LIB to its folder";
            eprintln!("{LIBRARY} is not found; {advice}");
            process::exit(1);
        }
    }
}
