include!("../support/archive.rs");

fn main() {
    link_archive("desk");
}
