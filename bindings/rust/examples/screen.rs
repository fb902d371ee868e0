//! Prints the listing of a script file.

use std::io::{self, Write};
use std::{env, fs, process};

fn main() -> io::Result<()> {
    let mut arguments = env::args_os().skip(1);
    let (Some(path), None) = (arguments.next(), arguments.next()) else {
        eprintln!("usage: screen SCRIPT");
        process::exit(2);
    };
    io::stdout().write_all(&jinthuol::run(&fs::read(path)?))
}
