//! Links the unit's library, of which `RANKUNIT_LIB` is the path.

use std::env;
use std::path::Path;

fn main() {
    println!("cargo::rerun-if-env-changed=RANKUNIT_LIB");
    let Ok(library) = env::var("RANKUNIT_LIB") else {
        println!("cargo::error=RANKUNIT_LIB is not set: the path of librankunit_c.a");
        return;
    };
    println!("cargo::rerun-if-changed={library}");
    if !Path::new(&library).is_file() {
        println!("cargo::error=there is no file {library}");
        return;
    }
    println!("cargo::rustc-link-arg={library}");
}
