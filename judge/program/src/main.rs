//! The program: one answer line for each line read, or one of the generators.

use std::{
    env,
    fmt::Display,
    io::{self, BufRead, BufWriter, Write},
    process::ExitCode,
};

use judge::{back, exhaustive, generate, json, layers, mass, night, reader, stack};

const USAGE: &str = "usage: judge [strings|blocks|lexemes|sources|night|back|mass|json]
       judge generate strings|blocks|lexemes|sources|night|numbers|back|mass|json SEED COUNT
       judge generate long
       judge exhaustive";

fn main() -> ExitCode {
    let arguments: Vec<String> = env::args().skip(1).collect();
    match stack::large(move || run(&arguments)) {
        Ok(()) => ExitCode::SUCCESS,
        Err(fault) => {
            eprintln!("judge: {fault}");
            ExitCode::from(2)
        }
    }
}

fn run(arguments: &[String]) -> Result<(), String> {
    let arguments: Vec<&str> = arguments.iter().map(String::as_str).collect();
    match arguments[..] {
        [] | ["sources"] => answer_lines(reader::line),
        ["strings"] => answer_lines(layers::strings),
        ["blocks"] => answer_lines(layers::blocks),
        ["lexemes"] => answer_lines(layers::lexemes),
        ["night"] => answer_lines(night::line),
        ["back"] => answer_lines(back::line),
        ["mass"] => answer_lines(mass::line),
        ["json"] => answer_lines(json::line),
        ["generate", what, seed, count] => {
            let seed = seed.parse().map_err(|e| format!("seed: {e}"))?;
            let count = count.parse().map_err(|e| format!("count: {e}"))?;
            print_lines(generate::lines(what, seed, count)?)
        }
        ["generate", "long"] => print_lines(generate::long()),
        ["exhaustive"] => print_lines(exhaustive::lines()),
        _ => Err(USAGE.to_owned()),
    }
}

fn answer_lines(answer: impl Fn(&str) -> Result<String, String>) -> Result<(), String> {
    let mut out = BufWriter::new(io::stdout().lock());
    for line in io::stdin().lock().lines() {
        let line = line.map_err(|e| e.to_string())?;
        let answer = answer(&line)?;
        writeln!(out, "{answer}").map_err(|e| e.to_string())?;
    }
    out.flush().map_err(|e| e.to_string())
}

fn print_lines(lines: impl IntoIterator<Item = impl Display>) -> Result<(), String> {
    let mut out = BufWriter::new(io::stdout().lock());
    for line in lines {
        writeln!(out, "{line}").map_err(|e| e.to_string())?;
    }
    out.flush().map_err(|e| e.to_string())
}
