//! Reads requests, a line of hex each, and writes a line for each: version, negoTokens, authInfo,
//! pubKeyAuth, code, nonce and the shortest spelling of the request that it begins with, or the
//! fault. The answers are those of `sspi_bench show`.

use newaksu::{Error, TsRequest};
use std::io::{self, BufRead, BufWriter, Write};

fn octets(digits: &str) -> Option<Vec<u8>> {
    (0..digits.len())
        .step_by(2)
        .map(|at| u8::from_str_radix(digits.get(at..at + 2)?, 16).ok())
        .collect()
}

fn shown(octets: Option<&[u8]>) -> String {
    match octets {
        None => "-".to_owned(),
        Some(octets) => octets
            .iter()
            .fold("=".to_owned(), |text, octet| text + &format!("{octet:02x}")),
    }
}

fn answer(bytes: &[u8]) -> String {
    let request = match TsRequest::decode(bytes) {
        Ok(request) => request,
        Err(Error::UnexpectedEof) => return "UnexpectedEof".to_owned(),
        Err(Error::InvalidData) => return "InvalidData".to_owned(),
        Err(error) => return error.to_string(),
    };
    let code = request
        .error_code
        .map_or("-".to_owned(), |code| code.0.to_string());
    [
        request.version.to_string(),
        shown(request.nego_tokens.as_deref()),
        shown(request.auth_info.as_deref()),
        shown(request.pub_key_auth.as_deref()),
        code,
        shown(request.client_nonce.as_ref().map(|nonce| &nonce[..])),
        shown(request.encode().ok().as_deref()),
    ]
    .join(" ")
}

fn main() -> io::Result<()> {
    let mut out = BufWriter::new(io::stdout());
    for line in io::stdin().lock().lines() {
        let line = line?;
        let bytes = octets(&line).ok_or(io::ErrorKind::InvalidInput)?;
        writeln!(out, "{}", answer(&bytes))?;
    }
    out.flush()
}
