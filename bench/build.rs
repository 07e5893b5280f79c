//! Links what `run` has built of the port, in the folder named by MEASURED.

use std::env;

fn main() {
    println!("cargo::rerun-if-env-changed=MEASURED");
    match env::var("MEASURED") {
        Ok(folder) => {
            println!("cargo::rustc-link-search=native={folder}");
            for name in ["calls", "bench_rules", "bench_lent", "bench_calls"] {
                println!("cargo::rerun-if-changed={folder}/lib{name}.a");
                println!("cargo::rustc-link-lib=static={name}");
            }
        }
        Err(_) => println!("cargo::error=MEASURED is not set: build with bench/run"),
    }
}
