//! Has the commands of those requests that the crate zealfs has: its default features are the one place that says which.

use std::env;

fn main() {
    for feature in ["links", "store", "tidy"] {
        println!("cargo:rustc-check-cfg=cfg(has_{feature})");
        let told = env::var(format!("DEP_ZEALFS_{}", feature.to_uppercase()));
        if told.as_deref() == Ok("true") {
            println!("cargo:rustc-cfg=has_{feature}");
        }
    }
}
