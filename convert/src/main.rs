//! `ifc2grid IN.ifc OUT.ifc`: see `options.rs` for the words.
#![forbid(unsafe_code)]

use ifc2grid::convert::{convert, Failure};
use ifc2grid::options::{parse, USAGE};
use std::process::exit;

fn main() {
    // A fault of the converter costs one element, and the report names it.
    std::panic::set_hook(Box::new(|_| {}));
    let words: Vec<String> = std::env::args_os()
        .skip(1)
        .map(|word| word.to_string_lossy().into_owned())
        .collect();
    if words.iter().any(|word| word == "--help" || word == "-h") {
        println!("{USAGE}");
        exit(0);
    }
    let options = match parse(&words) {
        Ok(options) => options,
        Err(reason) => {
            eprintln!("ifc2grid: {reason}; ifc2grid --help says more");
            exit(2);
        }
    };
    match convert(&options) {
        Ok(report) => {
            println!(
                "elements {} triangles {} left out {} partly {}",
                report.elements,
                report.triangles,
                report.left_out(),
                report.partly()
            );
            exit(if report.is_whole() { 0 } else { 1 });
        }
        Err(Failure::NotRead(reason)) => {
            eprintln!("ifc2grid: {reason}");
            exit(3);
        }
        Err(Failure::NotWritten(reason)) => {
            eprintln!("ifc2grid: {reason}");
            exit(4);
        }
    }
}
