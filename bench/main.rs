// bench NAME: the tables and the plot, each with the port and the crate in one run.
mod additions;
mod building;
mod chart;
mod check;
mod edits;
mod find;
#[path = "../oracle/list.rs"]
mod list;
mod nodes;
mod others;
mod plot;
#[allow(dead_code)]
#[path = "../oracle/port.rs"]
mod port;
mod reading;
mod store;
mod structure;
mod writing;

fn main() {
    let name = std::env::args().nth(1).expect("a name");
    let parts: [(&str, fn()); 8] = [
        ("check", check::table),
        ("find", find::table),
        ("edits", edits::table),
        ("additions", additions::table),
        ("building", building::table),
        ("writing", writing::table),
        ("reading", reading::table),
        ("plot", plot::draw),
    ];
    for (part, run) in parts.iter().filter(|(part, _)| name == "all" || name == *part) {
        println!("== {part}");
        run();
    }
}
