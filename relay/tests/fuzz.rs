//! The fuzz loop on fixed seeds. `cargo run --release --bin fuzz N SEED` tries more.
#[path = "../fuzz/mod.rs"]
mod fuzz;

#[test]
fn ten_thousand_inputs_of_each_of_three_seeds() {
    for seed in [1, 20261115, 0xDB] {
        let count = fuzz::run(0, 10_000, seed);
        assert_eq!(count.inputs, 10_000);
        // A loop that refuses all, or accepts all, would try nothing.
        assert!(count.accepted > 5_000 && count.refused > 10_000 && count.waiting > 50_000, "{count:?}");
    }
}
