//! The turns of `examples/turns.rs`: a client and a server, each in a thread, with a socket pair
//! between them.

mod common;
#[path = "../examples/turns.rs"]
mod turns;

use common::{usual, Exchange, Setup};
use newaksu::{Identity, Refusal, SecurityStatus};
use std::error::Error;
use std::io::{Read, Write};
use std::os::unix::net::UnixStream;

fn run(setup: &Setup<'_>) -> (Result<(), String>, Result<Identity, Box<dyn Error>>) {
    let Exchange {
        mut client,
        mut server,
        ..
    } = Exchange::new(setup);
    let (mut near, mut far) = UnixStream::pair().unwrap();
    let thread = std::thread::spawn(move || {
        turns::connect(&mut client, &mut near).map_err(|error| error.to_string())
    });
    let served = turns::serve(&mut server, &mut far);
    let connected = thread.join().unwrap();
    let mut rest = Vec::new();
    far.read_to_end(&mut rest).unwrap();
    assert!(rest.is_empty());
    (connected, served)
}

#[test]
fn a_delegation() {
    let (connected, served) = run(&usual());
    let identity = served.unwrap();
    assert_eq!(connected, Ok(()));
    assert_eq!(
        (
            &identity.name[..],
            identity.domain.as_deref(),
            &identity.account[..]
        ),
        ("DOM\\ann", Some("DOM"), "ann")
    );
    assert_eq!(identity.password.as_str(), usual().passwords[0]);
    assert!(!format!("{identity:?}").contains(usual().passwords[0]));
}

#[test]
fn a_refusal() {
    let (connected, served) = run(&Setup {
        passwords: ["pass word", "another"],
        ..usual()
    });
    let error = served.unwrap_err();
    assert_eq!(
        error.downcast_ref::<Refusal>().unwrap().status,
        SecurityStatus::LOGON_DENIED
    );
    assert!(connected.unwrap_err().starts_with("InvalidToken: "));
}

#[test]
fn what_is_no_request() {
    for sent in [
        &b"GET / HTTP/1.1"[..],
        b"\x30\x05\xa0\x03",
        b"\x30\x05\xa1\x03\x02\x01\x06",
    ] {
        let Exchange { mut server, .. } = Exchange::new(&usual());
        let (mut near, mut far) = UnixStream::pair().unwrap();
        near.write_all(sent).unwrap();
        drop(near);
        assert!(turns::serve(&mut server, &mut far).is_err());
    }
}
