//! Links the search of an earlier revision beside today's, where `bench/run` was asked for one.

fn main() {
    println!("cargo:rustc-check-cfg=cfg(before, before_flags)");
    println!("cargo:rerun-if-env-changed=SEARCH_BEFORE");
    println!("cargo:rerun-if-env-changed=SEARCH_BEFORE_SET");
    if let Ok(folder) = std::env::var("SEARCH_BEFORE") {
        println!("cargo:rustc-cfg=before");
        if std::env::var("SEARCH_BEFORE_SET").is_ok_and(|set| set == "flags") {
            println!("cargo:rustc-cfg=before_flags");
        }
        println!("cargo:rustc-link-search=native={folder}");
        println!("cargo:rustc-link-lib=static=path_search_before");
        println!("cargo:rerun-if-changed={folder}/libpath_search_before.a");
    }
}
