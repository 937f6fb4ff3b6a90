//! The structs of include/nuvaskoe.h as a C compiler lays them out, beside those of boundary.rs.

#[rustfmt::skip]
#[path = "../src/boundary.rs"]
mod boundary;

use boundary::LAYOUTS;
use std::{fmt::Write, fs, path::Path, process::Command};

/// A C program that prints a line for each struct, its name and size, and one for each field,
/// its name, offset and size.
fn program() -> String {
    let mut text = "#include <stdio.h>\n#include <nuvaskoe.h>\nint main(void)\n{\n".to_string();
    for (name, _, fields) in LAYOUTS {
        writeln!(text, "printf(\"{name} %zu\\n\", sizeof({name}));").unwrap();
        for (field, ..) in *fields {
            let (offset, size) = (
                format!("offsetof({name}, {field})"),
                format!("sizeof((({name} *)0)->{field})"),
            );
            writeln!(text, "printf(\"{field} %zu %zu\\n\", {offset}, {size});").unwrap();
        }
    }
    text + "return 0;\n}\n"
}

/// What it prints where C has Rust's layouts.
fn expected() -> String {
    let mut text = String::new();
    for (name, size, fields) in LAYOUTS {
        writeln!(text, "{name} {size}").unwrap();
        for (field, offset, size) in *fields {
            writeln!(text, "{field} {offset} {size}").unwrap();
        }
    }
    text
}

#[test]
fn c_lays_out_the_same() {
    let folder = Path::new(env!("CARGO_TARGET_TMPDIR"));
    let (source, program_file) = (folder.join("layout.c"), folder.join("layout"));
    fs::write(&source, program()).unwrap();
    let include = concat!("-I", env!("CARGO_MANIFEST_DIR"), "/../../include");
    let mut compiler = Command::new("cc");
    compiler.args(["-std=c99", include]).arg(&source);
    let compiled = compiler.arg("-o").arg(&program_file).status().unwrap();
    assert!(compiled.success());
    let printed = Command::new(&program_file).output().unwrap().stdout;
    assert_eq!(String::from_utf8(printed).unwrap(), expected());
}
