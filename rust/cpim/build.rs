mod link;

fn main() {
    link::link("cpim");
}
