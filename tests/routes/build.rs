include!("../support/archive.rs");

fn main() {
    link_archive("path_search");
}
