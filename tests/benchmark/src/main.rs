//! The contests without the original Rust; `run` beside this folder adds it where it is at hand.

fn main() {
    let names: Vec<String> = std::env::args().skip(1).collect();
    benchmark::all(&benchmark::Nobody, &names);
}
