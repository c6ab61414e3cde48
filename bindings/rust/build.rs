//! Links libsmithy_transcode.a, from the folder that SMITHY_TRANSCODE_DIR names, or from the top of the repository.
use std::env;
use std::path::PathBuf;
use std::process::exit;

fn main() {
    let folder = match env::var_os("SMITHY_TRANSCODE_DIR") {
        Some(folder) => PathBuf::from(folder),
        None => PathBuf::from(env::var_os("CARGO_MANIFEST_DIR").unwrap()).join("../.."),
    };
    let library = folder.join("libsmithy_transcode.a");
    println!("cargo:rerun-if-env-changed=SMITHY_TRANSCODE_DIR");
    println!("cargo:rerun-if-changed={}", library.display());
    if !library.exists() {
        eprintln!(
            "{} isn't there: run ./build, or name its folder by SMITHY_TRANSCODE_DIR",
            library.display()
        );
        exit(1);
    }
    println!("cargo:rustc-link-search=native={}", folder.display());
    println!("cargo:rustc-link-lib=static=smithy_transcode");
}
