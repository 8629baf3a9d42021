//! Compares every answer of the library with the given Rust, and ends with an error where one differs.

mod bytes;
mod gf128;
mod gf64;
mod inputs;
mod library;
mod maps;
mod memory;
mod products;
mod report;
mod sweeps;
mod tower;
mod words;

fn main() {
    // The given code panics where the library refuses; those panics are compared and need no message.
    std::panic::set_hook(Box::new(|_| {}));
    let mut report = report::Report::default();
    words::compare(&mut report);
    products::compare(&mut report);
    gf128::compare(&mut report);
    gf64::compare(&mut report);
    bytes::compare(&mut report);
    maps::compare(&mut report);
    sweeps::compare(&mut report);
    tower::compare(&mut report);
    memory::compare(&mut report);
    if !report.close() {
        std::process::exit(1);
    }
}
