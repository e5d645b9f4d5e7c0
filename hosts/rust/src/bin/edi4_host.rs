//! Reports on a payment file, and gives its number of records and its totals.

use std::io::{self, Read, Write};
use std::{env, fs, process::ExitCode};

const CURRENCIES: [&str; 6] = ["DKK", "EUR", "USD", "SEK", "NOK", "GBP"];

fn main() -> ExitCode {
    let shown = input().and_then(|bytes| show(&bytes, &mut io::stdout().lock()));
    match shown {
        Ok(true) => ExitCode::SUCCESS,
        Ok(false) => ExitCode::FAILURE,
        Err(error) => {
            eprintln!("edi4_host: {error}");
            ExitCode::from(2)
        }
    }
}

/// The file that is named as the argument, else what comes in.
fn input() -> io::Result<Vec<u8>> {
    if let Some(path) = env::args_os().nth(1) {
        return fs::read(path);
    }
    let mut bytes = Vec::new();
    io::stdin().read_to_end(&mut bytes)?;
    Ok(bytes)
}

/// Whether the file was accepted.
fn show(bytes: &[u8], out: &mut impl Write) -> io::Result<bool> {
    out.write_all(&edi4::report_of(bytes))?;
    match edi4::judge_file(bytes) {
        Ok(records) => writeln!(out, "records {records}")?,
        Err(refusal) => {
            writeln!(out, "refused {refusal}")?;
            return Ok(false);
        }
    }
    for currency in CURRENCIES {
        // No amount is 0, and so a total of 0 says that the currency does not occur.
        match edi4::total(bytes, currency.as_bytes()) {
            Ok(0) => {}
            Ok(total) => writeln!(out, "total {currency} {}.{:02}", total / 100, total % 100)?,
            Err(refusal) => return Err(io::Error::other(refusal)),
        }
    }
    Ok(true)
}
