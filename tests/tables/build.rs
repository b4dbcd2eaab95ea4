include!("../support/archive.rs");

fn main() {
    link_archive("timeline");
    link_archive("free_table");
}
