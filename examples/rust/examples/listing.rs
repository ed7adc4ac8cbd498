//! The listing of a graph, as `sgb list` writes it: `cargo run --example listing "petersen()"`. The expression `stdin` is the
//! graph of the `.gb` file on standard input.
use std::io::{Read, Write};
use std::process::ExitCode;

fn main() -> ExitCode {
    let Some(text) = std::env::args().nth(1) else {
        eprintln!("usage: listing EXPR");
        return ExitCode::from(2);
    };
    let mut input = Vec::new();
    if text.contains("stdin") && std::io::stdin().read_to_end(&mut input).is_err() {
        eprintln!("listing: read fault");
        return ExitCode::from(3);
    }
    match sgb::Graph::new(&text, &input).and_then(|graph| graph.listing()) {
        Ok(listing) if std::io::stdout().write_all(listing.as_bytes()).is_ok() => ExitCode::SUCCESS,
        Ok(_) => ExitCode::from(3),
        Err(why) => {
            eprintln!("{why}");
            ExitCode::from(1)
        }
    }
}
