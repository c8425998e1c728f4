//! What reading, writing, the calls and a lookup cost beside the source, as ratios. The program starts itself several times, prints the
//! tables and stores them in docs/BENCHMARKS.md.

mod gateway;
mod parsing;
mod tables;
mod workloads;

fn main() {
    if common::is_one_run() {
        return match common::told().first() {
            Some(length) => parsing::all(length.parse().expect("a length")),
            None => {
                workloads::all();
                gateway::all()
            }
        };
    }
    let before = common::load();
    common::store("notices", &tables::notices(&common::runs(&[])), &before);
    let by_length = parsing::LENGTHS.map(|n| common::runs(&[&n.to_string()]));
    common::store("parsing", &tables::parsing(&by_length.concat()), &before);
}
