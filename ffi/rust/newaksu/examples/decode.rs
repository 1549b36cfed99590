//! Reads a TSRequest.

use newaksu::TsRequest;

fn main() -> Result<(), newaksu::Error> {
    // what a client sends first: version 6 and the token "N1"
    let message = b"\x30\x11\xa0\x03\x02\x01\x06\xa1\x0a\x30\x08\x30\x06\xa0\x04\x04\x02N1";
    let request = TsRequest::decode(message)?;
    let token = request.nego_tokens.unwrap_or_default().len();
    println!("version {}, a token of {token} bytes", request.version);
    Ok(())
}
