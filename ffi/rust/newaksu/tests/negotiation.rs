//! Both ends with the library's negotiation: which mechanism is selected, MICs both ways, and what
//! somebody in between changes.

mod common;

use common::{holds_utf16, Party};
use newaksu::{
    Acceptor, Client, ClientSettings, ClientTurn, Mechanism, Mechanisms, NegTokenInit,
    NegTokenResp, NegotiatingClient, NegotiatingServer, Oid, ProcessError, SecurityStatus,
    ServerSettings, ServerTurn, Signer, Step, TsRequest,
};

const KEY: &[u8] = b"the channel's key";
const NAME: &str = "DOM\\ann";
const PASSWORD: &str = "pass word";
const KERBEROS: [u8; 9] = [0x2a, 0x86, 0x48, 0x86, 0xf7, 0x12, 0x01, 0x02, 0x02];

type Ours = Mechanisms<Party, Party>;

/// NTLM of three tokens, and Kerberos of two.
fn party(is_server: bool, two_tokens: bool) -> Party {
    let mut party = Party::new(is_server, NAME, PASSWORD);
    party.two_tokens = two_tokens;
    party.own[0] += 2 * two_tokens as u8;
    party
}

fn ntlm(is_server: bool) -> Ours {
    Mechanisms::ntlm(party(is_server, false))
}

fn kerberos(is_server: bool) -> Ours {
    Mechanisms::kerberos(party(is_server, true))
}

fn both(is_server: bool) -> Ours {
    Mechanisms::both(party(is_server, false), party(is_server, true))
}

fn client_of(mechanisms: Ours) -> NegotiatingClient<Party, Party> {
    let settings = ClientSettings::new(KEY, NAME, PASSWORD);
    NegotiatingClient::new(&settings, mechanisms).unwrap()
}

fn server_of(mechanisms: Ours) -> NegotiatingServer<Party, Party> {
    let mut settings = ServerSettings::new(KEY);
    settings.users = Some(&[NAME]);
    NegotiatingServer::new(&settings, mechanisms).unwrap()
}

/// The result of an exchange.
struct Ended {
    messages: usize,
    leaked: bool,
    client: Result<(), SecurityStatus>,
    server: Result<Option<(String, String)>, SecurityStatus>,
    /// Which mechanisms stepped on the server.
    stepped: (bool, bool),
}

fn status(error: ProcessError) -> SecurityStatus {
    match error {
        ProcessError::Refused(refusal) => refusal.status,
        other => panic!("{other}"),
    }
}

/// Runs two ends; `change` sees each message on its way, counted from 0.
fn run(client: Ours, server: Ours, change: impl Fn(usize, &mut TsRequest)) -> Ended {
    let mut client = client_of(client);
    let mut server = server_of(server);
    let mut ended = Ended {
        messages: 0,
        leaked: false,
        client: Ok(()),
        server: Ok(None),
        stepped: (false, false),
    };
    let mut delivered = Vec::new();
    loop {
        let sent = match client.process(&delivered) {
            Ok(ClientTurn::Reply(message) | ClientTurn::Final(message)) => message,
            Err(error) => {
                ended.client = Err(status(error));
                break;
            }
        };
        let on_its_way = passed(&mut ended, sent, &change);
        match server.process(&on_its_way) {
            Ok(ServerTurn::Reply(message)) => delivered = passed(&mut ended, message, &change),
            Ok(ServerTurn::Finished(identity)) => {
                let password = identity.password.as_str().to_owned();
                ended.server = Ok(Some((identity.name, password)));
                break;
            }
            Err(error) => {
                ended.server = Err(status(error));
                break;
            }
        }
    }
    let (ntlm, kerberos) = server.into_mechanisms().into_parts();
    let has_stepped = |party: Option<Party>| party.is_some_and(|party| party.steps > 0);
    ended.stepped = (has_stepped(ntlm), has_stepped(kerberos));
    ended
}

fn passed(ended: &mut Ended, message: Vec<u8>, change: impl Fn(usize, &mut TsRequest)) -> Vec<u8> {
    ended.leaked |= holds_utf16(&message, PASSWORD);
    let mut request = TsRequest::decode(&message).unwrap();
    change(ended.messages, &mut request);
    ended.messages += 1;
    request.encode().unwrap()
}

fn check_delegated(ended: &Ended, messages: usize) {
    assert_eq!(ended.client, Ok(()));
    assert_eq!(
        ended.server,
        Ok(Some((NAME.to_owned(), PASSWORD.to_owned())))
    );
    assert_eq!(ended.messages, messages);
    assert!(!ended.leaked);
}

/// Appends Kerberos to the list that the client offers.
fn append_kerberos(number: usize, request: &mut TsRequest) {
    if number == 0 {
        let mut init = NegTokenInit::decode(request.nego_tokens.as_ref().unwrap()).unwrap();
        let mut list = init.mech_types.unwrap();
        list.push(Oid(KERBEROS.to_vec()));
        init.mech_types = Some(list);
        request.nego_tokens = Some(init.encode().unwrap());
    }
}

fn strip_mic(request: &mut TsRequest) {
    let Some(token) = &request.nego_tokens else {
        return;
    };
    if let Ok(mut response) = NegTokenResp::decode(token) {
        response.mech_list_mic = None;
        request.nego_tokens = Some(response.encode().unwrap());
    }
}

/// Four messages from the client and three from the server: each end sends a MIC.
#[test]
fn ntlm_has_mics_both_ways() {
    let ended = run(ntlm(false), ntlm(true), |_, _| {});
    check_delegated(&ended, 7);
    assert_eq!(ended.stepped, (true, false));
}

/// A server needs no MIC of a Kerberos that its client prefers and that is not user-to-user, and
/// sends none, while a client always requires one.
#[test]
fn kerberos_as_the_first_choice_is_refused() {
    for mechanisms in [kerberos, both] {
        let ended = run(mechanisms(false), mechanisms(true), |_, _| {});
        assert_eq!(ended.stepped, (false, true));
        assert_eq!(ended.server, Err(SecurityStatus::INVALID_TOKEN));
        assert!(!ended.leaked);
    }
}

fn user_to_user(is_server: bool) -> Ours {
    let mut kerberos = party(is_server, false);
    kerberos.own[0] += 2;
    kerberos.is_user_to_user = true;
    Mechanisms::both(party(is_server, false), kerberos)
}

#[test]
fn user_to_user_has_mics_both_ways() {
    let ended = run(user_to_user(false), user_to_user(true), |_, _| {});
    check_delegated(&ended, 7);
    assert_eq!(ended.stepped, (false, true));
    for whose in [0, 1] {
        let ended = run(
            user_to_user(false),
            user_to_user(true),
            |number, request| {
                if number % 2 == whose {
                    strip_mic(request)
                }
            },
        );
        assert!(ended.client.is_err() || ended.server.is_err());
        assert!(!matches!(ended.server, Ok(Some(_))));
        assert!(!ended.leaked);
    }
}

#[test]
fn a_second_choice_has_mics_both_ways() {
    let ended = run(both(false), ntlm(true), |_, _| {});
    check_delegated(&ended, 9);
    assert_eq!(ended.stepped, (true, false));
    for whose in [0, 1] {
        let ended = run(both(false), ntlm(true), |number, request| {
            if number % 2 == whose {
                strip_mic(request)
            }
        });
        assert!(ended.client.is_err() || ended.server.is_err());
        assert!(!matches!(ended.server, Ok(Some(_))));
        assert!(!ended.leaked);
    }
}

#[test]
fn a_changed_list_is_refused() {
    let ended = run(ntlm(false), ntlm(true), append_kerberos);
    assert_eq!(ended.server, Err(SecurityStatus::MESSAGE_ALTERED));
    assert!(!ended.leaked);
    let stripped = run(ntlm(false), ntlm(true), |number, request| {
        append_kerberos(number, request);
        strip_mic(request);
    });
    assert_eq!(stripped.client, Err(SecurityStatus::INVALID_TOKEN));
    assert_eq!(stripped.server, Ok(None));
    assert!(!stripped.leaked);
}

#[test]
fn without_a_common_mechanism_there_is_no_exchange() {
    let ended = run(kerberos(false), ntlm(true), |_, _| {});
    assert_eq!(ended.stepped, (false, false));
    assert!(!matches!(ended.server, Ok(Some(_))));
}

/// The tokens of a party after the signature of NTLM's messages.
struct WithSignature(Party);

const SIGNATURE: &[u8] = b"NTLMSSP\0";

impl Mechanism for WithSignature {
    fn step(&mut self, token: &[u8]) -> Result<Step, SecurityStatus> {
        let inner = match token {
            [] => token,
            _ => token
                .strip_prefix(SIGNATURE)
                .ok_or(SecurityStatus::INVALID_TOKEN)?,
        };
        let signed = |token: Vec<u8>| match token[..] {
            [] => token,
            _ => [SIGNATURE, &token].concat(),
        };
        Ok(match self.0.step(inner)? {
            Step::Continue(token) => Step::Continue(signed(token)),
            Step::Done(token) => Step::Done(signed(token)),
        })
    }

    fn seal(&mut self, text: &[u8]) -> Result<Vec<u8>, SecurityStatus> {
        self.0.seal(text)
    }

    fn unseal(&mut self, blob: &[u8]) -> Result<Vec<u8>, SecurityStatus> {
        self.0.unseal(blob)
    }
}

impl Signer for WithSignature {
    fn sign(&mut self, list: &[u8]) -> Result<Vec<u8>, SecurityStatus> {
        self.0.sign(list)
    }

    fn verify(&mut self, list: &[u8], mic: &[u8]) -> Result<(), SecurityStatus> {
        self.0.verify(list, mic)
    }
}

impl Acceptor for WithSignature {
    fn peer(&mut self) -> Result<String, SecurityStatus> {
        self.0.peer()
    }
}

/// A client without SPNEGO, over NTLM, at a server that negotiates.
#[test]
fn ntlm_is_taken_without_spnego() {
    let settings = ClientSettings::new(KEY, NAME, PASSWORD);
    let mut client = Client::new(&settings, WithSignature(party(false, false))).unwrap();
    let mut serving = ServerSettings::new(KEY);
    serving.users = Some(&[NAME]);
    let mechanisms = Mechanisms::both(WithSignature(party(true, false)), party(true, true));
    let mut server = NegotiatingServer::new(&serving, mechanisms).unwrap();
    let mut delivered = Vec::new();
    for _ in 0..3 {
        let (ClientTurn::Reply(message) | ClientTurn::Final(message)) =
            client.process(&delivered).unwrap();
        match server.process(&message).unwrap() {
            ServerTurn::Reply(message) => delivered = message,
            ServerTurn::Finished(identity) => {
                assert_eq!(identity.name, NAME);
                assert_eq!(identity.password.as_str(), PASSWORD);
                return;
            }
        }
    }
    panic!("the server does not finish");
}

/// Any other token without SPNEGO is not an offer.
#[test]
fn other_tokens_without_spnego_are_refused() {
    let settings = ClientSettings::new(KEY, NAME, PASSWORD);
    let mut client = Client::new(&settings, party(false, false)).unwrap();
    let ClientTurn::Reply(first) = client.start().unwrap() else {
        panic!("a first message is answered");
    };
    let refused = server_of(ntlm(true)).process(&first).unwrap_err();
    assert_eq!(status(refused), SecurityStatus::INVALID_TOKEN);
}
