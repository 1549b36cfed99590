//! Both ends against each other over a mechanism that encrypts: every pair of versions, every form
//! of name, both kinds of delegation.

mod common;

use common::{usual, Exchange, Setup};
use newaksu::{Delegation, SecurityStatus, State};

fn run(setup: &Setup<'_>) -> Exchange {
    let mut exchange = Exchange::new(setup);
    exchange.run(|_, _| {});
    exchange
}

/// Ends match if both are below version 5 or both are not. An error code is sent from version 3 on,
/// but not at version 5.
#[test]
fn every_pair_of_versions() {
    for client in 2..=6 {
        for server in 2..=6 {
            let setup = Setup {
                versions: [client, server],
                leasts: [0, 0],
                ..usual()
            };
            let exchange = run(&setup);
            if (client < 5) == (server < 5) {
                exchange.check_delegated(setup.name, setup.passwords[0]);
                assert_eq!(exchange.messages.len(), 5);
                continue;
            }
            exchange.check_withheld();
            assert_eq!(
                exchange.server_refusal.unwrap().status,
                SecurityStatus::MESSAGE_ALTERED
            );
            let told = exchange.client_refusal.unwrap();
            assert_eq!(told.status, SecurityStatus::INVALID_TOKEN);
            let code = (server >= 3 && server != 5).then_some(0xc007030f);
            assert_eq!(told.nstatus.map(|code| code.0), code);
        }
    }
}

#[test]
fn peers_that_are_too_old() {
    let exchange = run(&Setup {
        versions: [4, 6],
        ..usual()
    });
    exchange.check_server_refused(SecurityStatus::DOWNGRADE_DETECTED);
    let exchange = run(&Setup {
        versions: [6, 4],
        ..usual()
    });
    exchange.check_client_refused(SecurityStatus::DOWNGRADE_DETECTED);
    assert!(!exchange.client.last_acts().proved);
}

#[test]
fn every_form_of_a_name() {
    let (account, password) = (
        format!("{}\\{}", "d".repeat(300), "n".repeat(400)),
        "p".repeat(60),
    );
    for (name, password, users) in [
        ("ann", "pw", None),
        ("DOM\\ann", "pw", Some(&["bob", "dom\\ANN"][..])),
        ("ann@example.com", "pw", Some(&["Ann@Example.COM"][..])),
        ("DÖM\\€😀", "päss", Some(&["dÖm\\€😀"][..])),
        (&account, &password, Some(&[&account[..]][..])),
    ] {
        let setup = Setup {
            name,
            passwords: [password, password],
            users,
            ..usual()
        };
        let exchange = run(&setup);
        exchange.check_delegated(name, password);
        assert_eq!(
            (exchange.client.state(), exchange.server.state()),
            (State::Final, State::Final)
        );
        assert!(exchange.client.last_acts().sealed && exchange.server.last_acts().opened);
        assert_eq!(exchange.server.into_mechanism().steps, 2);
    }
}

#[test]
fn a_user_who_is_not_listed() {
    for users in [&["DOM\\bob"][..], &[]] {
        let exchange = run(&Setup {
            users: Some(users),
            ..usual()
        });
        exchange.check_server_refused(SecurityStatus::NO_CREDENTIALS);
    }
}

#[test]
fn credentials_that_stay() {
    let exchange = run(&Setup {
        delegation: Delegation::CredentialLess,
        ..usual()
    });
    exchange.check_delegated("", "");
    assert!(!exchange.client.mechanism().saw_password);
}

#[test]
fn messages_that_are_followed() {
    let mut exchange = Exchange::new(&usual());
    exchange.run(|_, message| message.extend([0x30; 100]));
    exchange.check_delegated(usual().name, usual().passwords[0]);
}

/// A field that is not due is neither opened nor sent back. What a host passes its end begins with
/// such zeros.
#[test]
fn fields_that_are_not_due() {
    let mut exchange = Exchange::new(&usual());
    exchange.run(|sent, message| {
        let mut request = newaksu::TsRequest::decode(message).unwrap();
        request.auth_info.get_or_insert(vec![0; 40]);
        if sent < 2 {
            request.pub_key_auth.get_or_insert(vec![0; 40]);
        }
        *message = request.encode().unwrap();
    });
    exchange.check_delegated(usual().name, usual().passwords[0]);
    let lengths = |exchange: &Exchange| exchange.messages.iter().map(Vec::len).collect::<Vec<_>>();
    assert_eq!(lengths(&exchange), lengths(&run(&usual())));
    assert_eq!(
        (
            exchange.client.mechanism().unseals_asked,
            exchange.server.mechanism().unseals_asked
        ),
        (1, 2)
    );
}

/// Each client draws its own nonce.
#[test]
fn nonces_that_are_drawn() {
    let (first, second) = (run(&usual()), run(&usual()));
    let nonce = |exchange: &Exchange| {
        newaksu::TsRequest::decode(&exchange.messages[2])
            .unwrap()
            .client_nonce
            .unwrap()
    };
    assert_ne!(nonce(&first), nonce(&second));
    assert_ne!(nonce(&first), [0; 32]);
}

/// Ends may be sent to other threads, each used by one.
#[test]
fn eight_threads() {
    fn is_send<T: Send>(_: &T) {}
    let threads: Vec<_> = (0..8)
        .map(|number| {
            let exchange = Exchange::new(&usual());
            is_send(&exchange.client);
            std::thread::spawn(move || {
                let mut exchange = exchange;
                exchange.run(|_, _| {});
                exchange.check_delegated(usual().name, usual().passwords[0]);
                for i in 0..40 {
                    let name = format!("DOM\\user{number}.{i}");
                    let version = 2 + (number + i) % 5;
                    let setup = Setup {
                        name: &name,
                        versions: [version; 2],
                        leasts: [0, 0],
                        ..usual()
                    };
                    run(&setup).check_delegated(&name, setup.passwords[0]);
                }
            })
        })
        .collect();
    for thread in threads {
        thread.join().unwrap();
    }
}

/// The server waits for the client's proof once its own token completes the authentication.
#[test]
fn a_mechanism_of_two_tokens() {
    for version in 2..=6 {
        let setup = Setup {
            versions: [version; 2],
            leasts: [0, 0],
            ..usual()
        };
        let mut exchange = Exchange::over(&setup, |party, _| party.two_tokens = true);
        exchange.client_turn(&[]);
        let first = exchange.messages[0].clone();
        exchange.server_turn(&first);
        assert_eq!(exchange.server.state(), State::PubKeyInfo);
        let second = exchange.messages[1].clone();
        exchange.client_turn(&second);
        assert_eq!(exchange.client.state(), State::AuthInfo);
        let third = exchange.messages[2].clone();
        exchange.server_turn(&third);
        let fourth = exchange.messages[3].clone();
        exchange.client_turn(&fourth);
        let fifth = exchange.messages[4].clone();
        exchange.server_turn(&fifth);
        exchange.check_delegated(setup.name, setup.passwords[0]);
    }
}

/// A client whose mechanism completes before the server's version is known has no proof to make.
#[test]
fn a_client_that_ends_at_once() {
    let mut exchange = Exchange::over(&usual(), |party, is_server| party.ends_at_once = !is_server);
    exchange.run(|_, _| {});
    exchange.check_client_refused(SecurityStatus::INTERNAL_ERROR);
}

/// An end over a mechanism of unknown type.
#[test]
fn mechanisms_behind_pointers() {
    use common::Party;
    use newaksu::{
        Acceptor, Client, ClientSettings, ClientTurn, Mechanism, Server, ServerSettings, ServerTurn,
    };
    let mut party = Party::new(false, "ann", "pw");
    let behind: &mut dyn Mechanism = &mut party;
    let accepting: Box<dyn Acceptor> = Box::new(Party::new(true, "ann", "pw"));
    let mut client = Client::new(&ClientSettings::new(b"key", "ann", "pw"), behind).unwrap();
    let mut server = Server::new(&ServerSettings::new(b"key"), accepting).unwrap();
    assert_eq!(
        format!("{client:?} {server:?}"),
        "Client { state: NegoToken, .. } Server { state: NegoToken, .. }"
    );
    let mut turn = client.start().unwrap();
    let identity = loop {
        let (ClientTurn::Reply(message) | ClientTurn::Final(message)) = turn;
        match server.process(&message).unwrap() {
            ServerTurn::Reply(message) => turn = client.process(&message).unwrap(),
            ServerTurn::Finished(identity) => break identity,
        }
    };
    assert_eq!(
        (
            &identity.name[..],
            identity.domain,
            identity.password.as_str()
        ),
        ("ann", None, "pw")
    );
}
