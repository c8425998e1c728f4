#[path = "../cpim/link.rs"]
mod link;

fn main() {
    link::link("leaf_exports");
}
