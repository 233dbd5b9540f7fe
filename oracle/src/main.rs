//! oracle compare N SEED | sample FOLDER | bench
mod after_nul;
mod aimed;
mod bench;
mod compare;
mod frames;
mod house;
mod nights;
mod of_crate;
mod ours;
#[cfg(test)]
mod page;
mod paper;
mod paper_house;
mod paper_night;
mod paper_start;
mod sample;
mod tally;
mod tidy;
mod walk;
mod written;

#[path = "../../relay/measure/mod.rs"]
mod bench_shapes;
#[path = "../../relay/fuzz/calls.rs"]
mod calls;
#[path = "../../relay/fuzz/columns.rs"]
mod columns;
#[path = "../../relay/fuzz/gen.rs"]
mod gen;
#[path = "../../relay/fuzz/starts.rs"]
mod starts;
#[allow(dead_code)]
#[path = "../../relay/fuzz/untidy.rs"]
mod untidy;

fn main() {
    let words: Vec<String> = std::env::args().skip(1).collect();
    let number = |i: usize, default: u64| words.get(i).map_or(default, |word| word.parse().expect("a number"));
    match words.first().map(String::as_str) {
        Some("compare") => {
            // The crate's panics are answers here.
            std::panic::set_hook(Box::new(|_| {}));
            let (inputs, seed) = (number(1, 20_000), number(2, 1));
            let starts = compare::run(inputs, seed).print();
            let frames = frames::run(inputs, seed).print();
            let nights = nights::run(inputs, seed).print();
            std::process::exit(if starts && frames && nights { 0 } else { 1 });
        }
        Some("sample") => {
            std::panic::set_hook(Box::new(|_| {}));
            let folder = words.get(1).expect("sample FOLDER");
            sample::write(folder.as_ref()).expect("a folder to write to");
        }
        Some("bench") => bench::run(),
        _ => {
            eprintln!("oracle compare N SEED | sample FOLDER | bench");
            std::process::exit(2);
        }
    }
}
