// Included by the build scripts: links the static library that `bash tools/build NAME` wrote.
fn link_archive(name: &str) {
    let folder = concat!(env!("CARGO_MANIFEST_DIR"), "/../../target/staticlib");
    let archive = format!("{folder}/lib{name}.a");
    if !std::path::Path::new(&archive).exists() {
        panic!("no {archive}: run `bash tools/build {name}` first");
    }
    println!("cargo:rustc-link-search=native={folder}");
    println!("cargo:rustc-link-lib=static={name}");
    println!("cargo:rerun-if-changed={archive}");
}
