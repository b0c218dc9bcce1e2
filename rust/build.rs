// Says where libjenugathi.a is: in $JENUGATHI_LIB, beside this crate in a release, or where tools/library puts it.
use std::env;
use std::path::PathBuf;

fn main() {
    let here = PathBuf::from(env::var("CARGO_MANIFEST_DIR").expect("cargo sets it"));
    let places = [here.join("../lib"), here.join("../target/staticlib")];
    let folder = match env::var("JENUGATHI_LIB") {
        Ok(folder) => PathBuf::from(folder),
        Err(_) => places
            .into_iter()
            .find(|place| place.join("libjenugathi.a").exists())
            .expect("no libjenugathi.a: set JENUGATHI_LIB to its folder"),
    };
    println!("cargo:rerun-if-env-changed=JENUGATHI_LIB");
    println!("cargo:rustc-link-search=native={}", folder.display());
}
