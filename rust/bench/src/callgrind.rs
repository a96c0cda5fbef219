//! Instructions a call, by valgrind's callgrind, which runs this program again for each side of each row; and their bounds.
use crate::ROWS;
use std::env;
use std::process::Command;

/// A line for each row: how many instructions a call of the proved filter may take, how many the reference took where that was
/// set, and the row's name.
const BOUNDS: &str = include_str!("../bounds.txt");

/// The bound of a row, and the reference's count.
fn bound(name: &str) -> Result<(f64, f64), String> {
    let numbers = |line: &str| -> Option<(f64, f64)> {
        let (bound, rest) = line.split_once(' ')?;
        let (reference, row) = rest.split_once(' ')?;
        (row == name).then_some((bound.parse().ok()?, reference.parse().ok()?))
    };
    BOUNDS.lines().find_map(numbers).ok_or(format!("no bound in rust/bench/bounds.txt: {name}"))
}

/// One round for callgrind to count, on the proved side or the reference's; the line on standard error says of how many calls.
pub fn run(words: &[&str]) -> Result<(), String> {
    let row = |number: &str| ROWS.get(number.parse::<usize>().ok()?);
    let round = match *words {
        [number, "p"] => row(number).map(|row| row.1),
        [number, "r"] => row(number).map(|row| row.2),
        _ => None,
    };
    let round = round.ok_or("count ROW SIDE: a row's number, from 0, and p or r")?;
    eprintln!("N {}", round().calls);
    Ok(())
}

/// The instructions in `measured_region` and what it calls, for each call of the filter.
fn instructions(row: usize, side: &str) -> Result<f64, String> {
    let program = env::current_exe().map_err(|e| e.to_string())?;
    let output = Command::new("valgrind")
        // the environment moves the stack, and how bytes are copied depends on where they lie
        .env_clear()
        .envs(env::var_os("PATH").map(|path| ("PATH", path)))
        .args([
            "--tool=callgrind",
            "--callgrind-out-file=/dev/null",
            "--collect-atstart=no",
            "--toggle-collect=measured_region",
        ])
        .arg(program)
        .args(["count", &row.to_string(), side])
        .output()
        .map_err(|e| format!("valgrind does not run: {e}"))?;
    let said = String::from_utf8_lossy(&output.stderr);
    let number = |mark| said.lines().find_map(|line| line.split_once(mark)?.1.parse::<f64>().ok());
    match (number("Collected : "), number("N ")) {
        (Some(all), Some(calls)) if all > 0.0 => Ok(all / calls),
        _ => Err(format!("callgrind counts nothing\n{said}")),
    }
}

/// All rows, both sides. An error where the proved filter is above a bound, or where there is none. Where the reference takes
/// another number of instructions than when the bound was set, the machine or its C library is another one: that is said, and the
/// row is not judged.
pub fn table() -> Result<(), String> {
    println!("{:<64}{:>10}{:>12}{:>10}", "instructions a call", "proved", "reference", "bound");
    let mut above = Vec::new();
    for (i, (name, ..)) in ROWS.iter().enumerate() {
        let ((bound, then), ours, theirs) = (bound(name)?, instructions(i, "p")?, instructions(i, "r")?);
        println!("{name:<64}{ours:>10.1}{theirs:>12.1}{bound:>10}");
        if (theirs - then).abs() > then / 10.0 {
            println!("  not judged: the reference took {then} where the bound was set");
        } else if ours > bound {
            above.push(format!("{name}: {ours:.1} instructions a call, above the bound {bound}"));
        }
    }
    if above.is_empty() {
        Ok(())
    } else {
        Err(above.join("\nbench: "))
    }
}
