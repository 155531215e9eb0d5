//! `cargo run -p bench --bin picture`: the picture of docs/STORE.md, drawn from the store's words, on standard output.

fn main() {
    print!("{}", bench::picture::printed());
}
