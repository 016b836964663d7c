//! Prints the speed of the proved code beside plain Rust's, as tables in Markdown: of the check, of an end's calls, and of the
//! program `bench`. `speed NAME` prints one of the three. What is compared runs by turns in one run.

mod calls;
mod check;
mod end;
mod lines;
mod plain;

fn main() {
    match std::env::args().nth(1).as_deref() {
        None => {
            check::print();
            println!();
            calls::print();
            println!();
            lines::print();
        }
        Some("check") => check::print(),
        Some("calls") => calls::print(),
        Some("bench") => lines::print(),
        // the loop in plain Rust that `bench` is compared with
        Some("lines") => lines::print_lines(),
        Some(_) => eprintln!("usage: speed [check | calls | bench]"),
    }
}
