//! The library from a terminal.
mod tool;

fn main() -> std::process::ExitCode {
    tool::main()
}
