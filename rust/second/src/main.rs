//! `second cases`, `second survey`, `second year_runs`, `second volume FIRST LAST`,
//! `second scratched` or `second mended`, written to standard output.

use std::io::{self, BufWriter, Write};
use std::process::ExitCode;

use second::{cases, mending, printer, scratched, survey, volume_programs};

fn main() -> ExitCode {
    let arguments: Vec<String> = std::env::args().skip(1).collect();
    let mut out = BufWriter::new(io::stdout().lock());
    let written = match arguments.as_slice() {
        [what] if what == "cases" => cases::write(&mut out),
        [what] if what == "survey" => survey::write(&mut out),
        [what] if what == "year_runs" => printer::write_runs(&mut out),
        [what, first, last] if what == "volume" => {
            let blocks = volume_programs::span(first.as_bytes(), last.as_bytes());
            volume_programs::write(&mut out, blocks)
        }
        [what] if what == "scratched" => out.write_all(&scratched::volume()),
        [what] if what == "mended" => out.write_all(&mending::printed(&scratched::volume())),
        _ => {
            eprintln!(
                "usage: second cases | second survey | second year_runs | \
                 second volume FIRST LAST | second scratched | second mended"
            );
            return ExitCode::from(2);
        }
    };
    match written.and_then(|()| out.flush()) {
        Ok(()) => ExitCode::SUCCESS,
        Err(error) => {
            eprintln!("second: {error}");
            ExitCode::FAILURE
        }
    }
}
