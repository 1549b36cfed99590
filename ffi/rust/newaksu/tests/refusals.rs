//! Exchanges that go wrong. Each is refused as the proved ends refuse, and no client releases
//! credentials before the server's proof.

mod common;

use common::{from_hex, usual, Exchange, Setup};
use newaksu::{
    Client, ClientSettings, Error, NtStatus, ProcessError, Refusal, SecurityStatus, Server,
    ServerSettings, TsRequest,
};

fn run(setup: &Setup<'_>) -> Exchange {
    let mut exchange = Exchange::new(setup);
    exchange.run(|_, _| {});
    exchange
}

#[test]
fn another_key_of_the_channel() {
    let exchange = run(&Setup {
        keys: [b"the channel's key", b"the other's key"],
        ..usual()
    });
    exchange.check_server_refused(SecurityStatus::MESSAGE_ALTERED);
    let refusal = exchange.server_refusal.unwrap();
    assert_eq!(
        refusal.to_string(),
        "MessageAltered: could not verify a public key hash"
    );
}

#[test]
fn a_wrong_password() {
    run(&Setup {
        passwords: ["pass word", "another"],
        ..usual()
    })
    .check_server_refused(SecurityStatus::LOGON_DENIED);
}

/// Changes the last byte of a sealed field.
fn changed(message: &mut Vec<u8>) {
    let mut request = TsRequest::decode(message).unwrap();
    let field = request.pub_key_auth.as_mut().or(request.auth_info.as_mut());
    *field.unwrap().last_mut().unwrap() ^= 1;
    *message = request.encode().unwrap();
}

#[test]
fn changed_proofs() {
    for (number, version) in [(2, 6), (3, 2), (3, 5), (3, 6)] {
        let mut exchange = Exchange::new(&Setup {
            versions: [version; 2],
            leasts: [0, 0],
            ..usual()
        });
        exchange.run(|sent, message| {
            if sent == number {
                changed(message)
            }
        });
        match number {
            2 => exchange.check_server_refused(SecurityStatus::MESSAGE_ALTERED),
            _ => exchange.check_client_refused(SecurityStatus::MESSAGE_ALTERED),
        }
    }
}

#[test]
fn changed_credentials() {
    let mut exchange = Exchange::new(&usual());
    exchange.run(|sent, message| {
        if sent == 4 {
            changed(message)
        }
    });
    assert_eq!(
        exchange.server_refusal.as_ref().unwrap().status,
        SecurityStatus::MESSAGE_ALTERED
    );
    assert!(exchange.identity.is_none() && exchange.client.mechanism().saw_password);
}

/// One byte of one message is changed: the credentials arrive as they were sent, or they are
/// withheld.
#[test]
fn every_byte_changed() {
    for number in 0..5 {
        for at in 0..200 {
            let mut exchange = Exchange::new(&usual());
            exchange.run(|sent, message| {
                if sent == number && at < message.len() {
                    message[at] ^= 0x81;
                }
            });
            match &exchange.identity {
                Some(_) => exchange.check_delegated(usual().name, usual().passwords[0]),
                None if number < 4 => exchange.check_withheld(),
                None => {}
            }
        }
    }
}

/// A message that is cut anywhere has not arrived yet: the end takes it once it is whole.
#[test]
fn every_message_cut() {
    let mut exchange = Exchange::new(&usual());
    assert!(exchange.client_turn(&[]));
    for number in 0..5 {
        let message = exchange.messages[number].clone();
        for cut in 0..message.len() {
            let error = match number % 2 {
                0 => exchange.server.process(&message[..cut]).err(),
                _ => exchange.client.process(&message[..cut]).err(),
            };
            assert_eq!(error, Some(ProcessError::Unread(Error::UnexpectedEof)));
        }
        match number % 2 {
            0 => exchange.server_turn(&message),
            _ => exchange.client_turn(&message),
        };
    }
    exchange.check_delegated(usual().name, usual().passwords[0]);
}

/// An end takes message `number` again when the one after `until` is due.
fn replayed(until: usize, number: usize, is_server: bool) -> Refusal {
    let mut exchange = Exchange::new(&usual());
    exchange.client_turn(&[]);
    for i in 0..until {
        let message = exchange.messages[i].clone();
        match i % 2 {
            0 => exchange.server_turn(&message),
            _ => exchange.client_turn(&message),
        };
    }
    let message = exchange.messages[number].clone();
    let again = match is_server {
        true => exchange.server.process(&message).err(),
        false => exchange.client.process(&message).err(),
    };
    if until < 4 {
        exchange.check_withheld();
    }
    let after = match is_server {
        true => exchange.server.process(&message).err(),
        false => exchange.client.process(&message).err(),
    };
    match (again, after) {
        (Some(ProcessError::Refused(refusal)), Some(ProcessError::Refused(after))) => {
            assert_eq!(after.status, SecurityStatus::OUT_OF_SEQUENCE);
            refusal
        }
        other => panic!("{other:?}"),
    }
}

#[test]
fn replayed_messages() {
    let refusal = replayed(1, 0, true);
    assert_eq!(refusal.status, SecurityStatus::INVALID_TOKEN);
    // by hand: version 6 and the code
    assert_eq!(
        refusal.message,
        Some(from_hex("300d a003020106 a406 0204 c0070308"))
    );
    assert_eq!(replayed(3, 2, true).status, SecurityStatus::INVALID_TOKEN);
    assert_eq!(
        replayed(5, 4, true).status,
        SecurityStatus::UNSUPPORTED_FUNCTION
    );
    assert_eq!(replayed(2, 1, false).status, SecurityStatus::INVALID_TOKEN);
    assert_eq!(
        replayed(4, 3, false).status,
        SecurityStatus::OUT_OF_SEQUENCE
    );
}

/// A mechanism that fails ends its exchange; what a server reports of it has the mechanism's code.
#[test]
fn mechanisms_that_fail() {
    let fails = |server, what: usize, status: SecurityStatus| {
        let mut exchange = Exchange::over(&usual(), |party, is_server| {
            if is_server == server {
                let mut refuses = [None; 4];
                refuses[what] = Some(status);
                [
                    party.refuses_step,
                    party.refuses_seal,
                    party.refuses_unseal,
                    party.refuses_peer,
                ] = refuses;
            }
        });
        exchange.run(|_, _| {});
        exchange
    };
    fails(true, 0, SecurityStatus::INTERNAL_ERROR)
        .check_server_refused(SecurityStatus::INTERNAL_ERROR);
    fails(true, 1, SecurityStatus::CONTEXT_EXPIRED)
        .check_server_refused(SecurityStatus::CONTEXT_EXPIRED);
    fails(true, 2, SecurityStatus::CONTEXT_EXPIRED)
        .check_server_refused(SecurityStatus::MESSAGE_ALTERED);
    fails(true, 3, SecurityStatus::NO_CREDENTIALS)
        .check_server_refused(SecurityStatus::NO_CREDENTIALS);
    fails(true, 0, SecurityStatus(12345)).check_server_refused(SecurityStatus::INVALID_TOKEN);
    fails(false, 0, SecurityStatus::NO_CREDENTIALS)
        .check_client_refused(SecurityStatus::NO_CREDENTIALS);
    fails(false, 1, SecurityStatus::CONTEXT_EXPIRED)
        .check_client_refused(SecurityStatus::CONTEXT_EXPIRED);
    fails(false, 2, SecurityStatus::MESSAGE_ALTERED)
        .check_client_refused(SecurityStatus::MESSAGE_ALTERED);
    for server in [false, true] {
        let mut exchange = Exchange::over(&usual(), |party, is_server| {
            party.seals_short = is_server == server
        });
        exchange.run(|_, _| {});
        match server {
            true => exchange.check_server_refused(SecurityStatus::INTERNAL_ERROR),
            false => exchange.check_client_refused(SecurityStatus::INTERNAL_ERROR),
        }
    }
}

/// A client that is told of an error does not step with what else it is told.
#[test]
fn a_server_that_tells_an_error() {
    let mut exchange = Exchange::new(&usual());
    exchange.client_turn(&[]);
    let told = from_hex("301b a003020106 a10c 300a 3008 a006 0404 54320000 a406 0204 c000006d");
    assert!(!exchange.client_turn(&told));
    let refusal = exchange.client_refusal.as_ref().unwrap();
    assert_eq!(refusal.nstatus, Some(NtStatus(0xc000006d)));
    assert!(refusal.to_string().starts_with("InvalidToken: "));
    assert!(refusal
        .to_string()
        .ends_with("; status is STATUS_LOGON_FAILURE"));
    assert_eq!(exchange.client.mechanism().steps, 1);
    exchange.check_withheld();
}

#[test]
fn ends_that_cannot_be_made() {
    let party = common::Party::new(false, "ann", "pw");
    let mixed = ClientSettings::new(b"", "D\\a@b", "pw");
    let refused = Some(Error::Refused(SecurityStatus::UNKNOWN_CREDENTIALS));
    assert_eq!(Client::new(&mixed, party.clone()).err(), refused);
    let mut settings = ServerSettings::new(b"");
    settings.users = Some(&["D\\a@b"]);
    assert_eq!(Server::new(&settings, party).err(), refused);
}

/// There are 2 to 6; the least accepted may also be 0.
#[test]
fn versions_that_credssp_does_not_have() {
    let party = common::Party::new(false, "ann", "pw");
    let refused = Some(Error::Refused(SecurityStatus::INVALID_PARAMETER));
    let numbers = [0, 1, 2, 3, 4, 5, 6, 7, 8, 258, u32::MAX];
    for (version, least) in numbers
        .iter()
        .flat_map(|a| numbers.iter().map(move |b| (*a, *b)))
    {
        let good = (2..=6).contains(&version) && (least == 0 || (2..=6).contains(&least));
        let expected = if good { None } else { refused };
        let mut client = ClientSettings::new(b"", "ann", "pw");
        (client.version, client.least_version) = (version, least);
        assert_eq!(Client::new(&client, party.clone()).err(), expected);
        let mut server = ServerSettings::new(b"");
        (server.version, server.least_version) = (version, least);
        assert_eq!(Server::new(&server, party.clone()).err(), expected);
    }
}
