//! fuzz N SEED: tries N inputs (10,000,000 and 1 where not given) and prints what they came to.
#[path = "../../fuzz/mod.rs"]
mod fuzz;

fn main() {
    let mut words = std::env::args().skip(1).map(|word| word.parse::<u64>().expect("fuzz N SEED: two numbers"));
    let (inputs, seed) = (words.next().unwrap_or(10_000_000), words.next().unwrap_or(1));
    // In runs, so that a long one can be watched.
    let (mut total, mut first) = (fuzz::Count::default(), 0);
    while first < inputs {
        let end = (first + 1_000_000).min(inputs);
        let count = fuzz::run(first, end, seed);
        total.inputs += count.inputs;
        total.calls += count.calls;
        total.accepted += count.accepted;
        total.refused += count.refused;
        total.waiting += count.waiting;
        first = end;
        let fuzz::Count { inputs, calls, accepted, refused, waiting } = total;
        println!("{inputs} inputs of seed {seed}: {calls} counted calls, {accepted} accepted, {refused} refused, {waiting} waiting for bytes");
    }
    let pages =
        if fuzz::calls::lent::GUARDED { "no page beside a lent buffer and no guard byte" } else { "no guard byte" };
    println!("{pages} was touched, and every check held");
}
