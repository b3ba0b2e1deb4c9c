//! Links the archive of the engine, and that of its memory.
use std::env;
use std::path::Path;
use std::process;

const ARCHIVES: [&str; 2] = ["tera_c", "libc_c"];

fn main() {
    println!("cargo::rerun-if-env-changed=HOVDREG_LIB");
    let Ok(folder) = env::var("HOVDREG_LIB") else {
        refuse("the environment has no HOVDREG_LIB: set it to the folder that holds libtera_c.a and liblibc_c.a");
    };
    println!("cargo::rustc-link-search=native={folder}");
    for archive in ARCHIVES {
        let file = Path::new(&folder).join(format!("lib{archive}.a"));
        if !file.is_file() {
            refuse(&format!("HOVDREG_LIB: there is no {}", file.display()));
        }
        println!("cargo::rerun-if-changed={}", file.display());
        println!("cargo::rustc-link-lib=static={archive}");
    }
}

fn refuse(words: &str) -> ! {
    println!("cargo::error={words}");
    process::exit(1);
}
