//! A mechanism for the tests, with three tokens like NTLM, which really encrypts: with
//! ChaCha20-Poly1305, under a key that both ends derive from the password and what each drew.
//!
//!     client   "T1" and what it drew, 16 bytes
//!     server   "T2" and what it drew, 16 bytes
//!     client   "T3", a tag of 16 bytes under the key, and the user's name, which the tag covers
//!
//! or with two, like Kerberos:
//!
//!     client   "K1", what it drew, a tag of 16 bytes under the password, and the user's name,
//!              which the tag covers
//!     server   "K2" and what it drew, 16 bytes

#![allow(dead_code)]

pub mod cipher;

use newaksu::{
    Acceptor, Client, ClientSettings, ClientTurn, Mechanism, ProcessError, Refusal, SecurityStatus,
    Server, ServerSettings, ServerTurn, Signer, Step,
};

const T3_NONCE: [u8; 12] = [0xff; 12];

/// One end's mechanism. A server's knows one password.
#[derive(Clone, Debug, Default)]
pub struct Party {
    is_server: bool,
    name: String,
    password: String,
    pub own: [u8; 16],
    stage: u32,
    peer: [u8; 16],
    key: [u8; 32],
    peer_name: String,
    seals: u64,
    unseals: u64,
    /// A text that was to be sealed held the password.
    pub saw_password: bool,
    pub steps: u32,
    pub unseals_asked: u32,
    pub signs: u64,
    pub verifies: u64,
    /// Statuses to refuse with.
    pub refuses_step: Option<SecurityStatus>,
    pub refuses_seal: Option<SecurityStatus>,
    pub refuses_unseal: Option<SecurityStatus>,
    pub refuses_peer: Option<SecurityStatus>,
    pub seals_short: bool,
    /// The server's one token completes it on both sides.
    pub two_tokens: bool,
    /// A client's only step completes it.
    pub ends_at_once: bool,
    /// It says that it is user-to-user.
    pub is_user_to_user: bool,
}

impl Party {
    pub fn new(is_server: bool, name: &str, password: &str) -> Party {
        let mut own = [0; 16];
        own[0] = 1 + is_server as u8;
        Party {
            is_server,
            name: name.to_owned(),
            password: password.to_owned(),
            own,
            ..Party::default()
        }
    }

    fn password_key(&self) -> [u8; 32] {
        let mut key = [0; 32];
        let length = self.password.len().min(32);
        key[..length].copy_from_slice(&self.password.as_bytes()[..length]);
        key
    }

    fn derive(&mut self) {
        let mut key = self.password_key();
        let (client, server) = match self.is_server {
            true => (self.peer, self.own),
            false => (self.own, self.peer),
        };
        for drawn in [client, server] {
            let nonce = drawn[..12].try_into().unwrap();
            let block = cipher::block(&key, u32::from(drawn[12]), &nonce);
            key = block[..32].try_into().unwrap();
        }
        self.key = key;
    }

    fn nonce(&self, by_server: bool, number: u64) -> [u8; 12] {
        let mut nonce = [0; 12];
        nonce[0] = 1 + by_server as u8;
        nonce[4..].copy_from_slice(&number.to_le_bytes());
        nonce
    }

    fn drawn(&self, word: &str) -> Vec<u8> {
        [word.as_bytes(), &self.own].concat()
    }

    fn step_of_two(&mut self, token: &[u8]) -> Result<Step, SecurityStatus> {
        let key = self.password_key();
        if self.is_server {
            let (drawn, rest) = token
                .strip_prefix(b"K1")
                .filter(|rest| rest.len() >= 32)
                .ok_or(SecurityStatus::INVALID_TOKEN)?
                .split_at(16);
            let (tag, name) = rest.split_at(16);
            cipher::open(&key, &T3_NONCE, name, tag).ok_or(SecurityStatus::LOGON_DENIED)?;
            self.peer = drawn.try_into().unwrap();
            self.peer_name = String::from_utf8(name.to_vec()).unwrap();
            self.stage = 2;
            self.derive();
            return Ok(Step::Done(self.drawn("K2")));
        }
        if self.stage == 0 {
            self.stage = 1;
            let tag = cipher::seal(&key, &T3_NONCE, self.name.as_bytes(), b"");
            return Ok(Step::Continue(
                [&self.drawn("K1"), &tag, self.name.as_bytes()].concat(),
            ));
        }
        self.peer = drawn_in("K2", token).ok_or(SecurityStatus::INVALID_TOKEN)?;
        self.stage = 2;
        self.derive();
        Ok(Step::Done(Vec::new()))
    }

    fn client_step(&mut self, token: &[u8]) -> Result<Step, SecurityStatus> {
        if self.stage == 0 && token.is_empty() {
            self.stage = 1;
            return Ok(Step::Continue(self.drawn("T1")));
        }
        self.peer = drawn_in("T2", token)
            .filter(|_| self.stage == 1)
            .ok_or(SecurityStatus::INVALID_TOKEN)?;
        self.stage = 2;
        self.derive();
        let tag = cipher::seal(&self.key, &T3_NONCE, self.name.as_bytes(), b"");
        Ok(Step::Done([b"T3", &tag[..], self.name.as_bytes()].concat()))
    }

    fn server_step(&mut self, token: &[u8]) -> Result<Step, SecurityStatus> {
        if let (0, Some(peer)) = (self.stage, drawn_in("T1", token)) {
            self.stage = 1;
            self.peer = peer;
            self.derive();
            return Ok(Step::Continue(self.drawn("T2")));
        }
        if self.stage != 1 || token.len() < 18 || !token.starts_with(b"T3") {
            return Err(SecurityStatus::INVALID_TOKEN);
        }
        self.stage = 2;
        let (tag, name) = token[2..].split_at(16);
        cipher::open(&self.key, &T3_NONCE, name, tag).ok_or(SecurityStatus::LOGON_DENIED)?;
        self.peer_name =
            String::from_utf8(name.to_vec()).map_err(|_| SecurityStatus::INVALID_TOKEN)?;
        Ok(Step::Done(Vec::new()))
    }
}

fn drawn_in(word: &str, token: &[u8]) -> Option<[u8; 16]> {
    token.strip_prefix(word.as_bytes())?.try_into().ok()
}

fn refused(status: Option<SecurityStatus>) -> Result<(), SecurityStatus> {
    status.map_or(Ok(()), Err)
}

impl Mechanism for Party {
    fn step(&mut self, token: &[u8]) -> Result<Step, SecurityStatus> {
        self.steps += 1;
        refused(self.refuses_step)?;
        if self.ends_at_once {
            return Ok(Step::Done(Vec::new()));
        }
        if self.two_tokens {
            return self.step_of_two(token);
        }
        match self.is_server {
            true => self.server_step(token),
            false => self.client_step(token),
        }
    }

    fn seal(&mut self, text: &[u8]) -> Result<Vec<u8>, SecurityStatus> {
        assert_eq!(self.stage, 2);
        self.saw_password |= holds_utf16(text, &self.password);
        refused(self.refuses_seal)?;
        let mut blob = cipher::seal(
            &self.key,
            &self.nonce(self.is_server, self.seals),
            b"",
            text,
        );
        self.seals += 1;
        if self.seals_short {
            blob.truncate(15);
        }
        Ok(blob)
    }

    fn unseal(&mut self, blob: &[u8]) -> Result<Vec<u8>, SecurityStatus> {
        self.unseals_asked += 1;
        assert!(self.stage == 2 && blob.len() >= 16);
        refused(self.refuses_unseal)?;
        let text = cipher::open(
            &self.key,
            &self.nonce(!self.is_server, self.unseals),
            b"",
            blob,
        )
        .ok_or(SecurityStatus::MESSAGE_ALTERED)?;
        self.unseals += 1;
        Ok(text)
    }
}

/// MICs are counted apart from seals.
const MICS: u64 = 1 << 32;

impl Signer for Party {
    fn sign(&mut self, list: &[u8]) -> Result<Vec<u8>, SecurityStatus> {
        assert_eq!(self.stage, 2);
        let number = MICS + self.signs;
        self.signs += 1;
        Ok(cipher::seal(
            &self.key,
            &self.nonce(self.is_server, number),
            list,
            b"",
        ))
    }

    fn verify(&mut self, list: &[u8], mic: &[u8]) -> Result<(), SecurityStatus> {
        assert_eq!(self.stage, 2);
        let number = MICS + self.verifies;
        self.verifies += 1;
        cipher::open(&self.key, &self.nonce(!self.is_server, number), list, mic)
            .map(|_| ())
            .ok_or(SecurityStatus::MESSAGE_ALTERED)
    }

    fn is_user_to_user(&self) -> bool {
        self.is_user_to_user
    }
}

impl Acceptor for Party {
    fn peer(&mut self) -> Result<String, SecurityStatus> {
        assert_eq!(self.stage, 2);
        refused(self.refuses_peer)?;
        Ok(self.peer_name.clone())
    }
}

/// Whether the bytes hold this text in UTF-16LE.
pub fn holds_utf16(bytes: &[u8], text: &str) -> bool {
    let wanted: Vec<u8> = text.encode_utf16().flat_map(u16::to_le_bytes).collect();
    !wanted.is_empty() && bytes.windows(wanted.len()).any(|window| window == wanted)
}

pub fn from_hex(digits: &str) -> Vec<u8> {
    let digits: String = digits.split_whitespace().collect();
    (0..digits.len())
        .step_by(2)
        .map(|at| u8::from_str_radix(&digits[at..at + 2], 16).unwrap())
        .collect()
}

/// How two ends are made.
#[derive(Clone)]
pub struct Setup<'a> {
    pub versions: [u32; 2],
    pub leasts: [u32; 2],
    pub keys: [&'a [u8]; 2],
    pub name: &'a str,
    pub passwords: [&'a str; 2],
    pub users: Option<&'a [&'a str]>,
    pub delegation: newaksu::Delegation,
}

pub fn usual() -> Setup<'static> {
    Setup {
        versions: [6, 6],
        leasts: [5, 5],
        keys: [b"the channel's key", b"the channel's key"],
        name: "DOM\\ann",
        passwords: ["pass word", "pass word"],
        users: None,
        delegation: newaksu::Delegation::WithCredentials,
    }
}

/// Two ends, what they sent each other, and the state of each.
pub struct Exchange {
    pub client: Client<Party>,
    pub server: Server<Party>,
    pub messages: Vec<Vec<u8>>,
    pub client_refusal: Option<Refusal>,
    pub server_refusal: Option<Refusal>,
    pub identity: Option<(String, String)>,
}

impl Exchange {
    pub fn new(setup: &Setup<'_>) -> Exchange {
        Exchange::over(setup, |_, _| {})
    }

    /// The same with changed mechanisms.
    pub fn over(setup: &Setup<'_>, change: impl Fn(&mut Party, bool)) -> Exchange {
        let mut parties = [false, true].map(|is_server| {
            Party::new(is_server, setup.name, setup.passwords[is_server as usize])
        });
        change(&mut parties[0], false);
        change(&mut parties[1], true);
        let [client, server] = parties;
        let mut settings = ClientSettings::new(setup.keys[0], setup.name, setup.passwords[0]);
        settings.version = setup.versions[0];
        settings.least_version = setup.leasts[0];
        settings.delegation = setup.delegation;
        let mut serving = ServerSettings::new(setup.keys[1]);
        serving.version = setup.versions[1];
        serving.least_version = setup.leasts[1];
        serving.users = setup.users;
        Exchange {
            client: Client::new(&settings, client).unwrap(),
            server: Server::new(&serving, server).unwrap(),
            messages: Vec::new(),
            client_refusal: None,
            server_refusal: None,
            identity: None,
        }
    }

    /// One call of the client; whether it continues with a message.
    pub fn client_turn(&mut self, delivered: &[u8]) -> bool {
        match self.client.process(delivered) {
            Ok(ClientTurn::Reply(message) | ClientTurn::Final(message)) => {
                self.messages.push(message);
                true
            }
            Err(ProcessError::Refused(refusal)) => {
                assert_eq!(refusal.message, None);
                self.client_refusal = Some(refusal);
                false
            }
            Err(_) => false,
        }
    }

    pub fn server_turn(&mut self, delivered: &[u8]) -> bool {
        match self.server.process(delivered) {
            Ok(ServerTurn::Reply(message)) => {
                self.messages.push(message);
                true
            }
            Ok(ServerTurn::Finished(identity)) => {
                self.identity =
                    Some((identity.name.clone(), identity.password.as_str().to_owned()));
                false
            }
            Err(ProcessError::Refused(refusal)) => {
                self.messages.extend(refusal.message.clone());
                self.server_refusal = Some(refusal);
                true
            }
            Err(_) => false,
        }
    }

    /// Messages go to and fro until an end is done, or has refused and its peer was told.
    pub fn run(&mut self, change: impl Fn(usize, &mut Vec<u8>)) {
        let mut delivered = Vec::new();
        for is_server in [false, true].into_iter().cycle() {
            let goes_on = match is_server {
                true => self.server_turn(&delivered),
                false => self.client_turn(&delivered),
            };
            if !goes_on {
                return;
            }
            delivered = self.messages.last().unwrap().clone();
            change(self.messages.len() - 1, &mut delivered);
        }
    }

    pub fn check_delegated(&self, name: &str, password: &str) {
        assert_eq!(self.identity, Some((name.to_owned(), password.to_owned())));
        assert!(self.client_refusal.is_none());
        assert!(!self
            .messages
            .iter()
            .any(|message| holds_utf16(message, password)));
    }

    /// The credentials were released to nobody, not even to the client's mechanism.
    pub fn check_withheld(&self) {
        assert_eq!(self.identity, None);
        assert!(!self.client.mechanism().saw_password);
        assert!(!self
            .messages
            .iter()
            .any(|message| holds_utf16(message, usual().passwords[0])));
    }

    pub fn check_server_refused(&self, status: SecurityStatus) {
        self.check_withheld();
        let (server, client) = (
            self.server_refusal.as_ref().unwrap(),
            self.client_refusal.as_ref().unwrap(),
        );
        assert_eq!((server.status, server.nstatus), (status, None));
        assert_eq!(client.status, SecurityStatus::INVALID_TOKEN);
        assert_eq!(
            client.nstatus.map(|code| code.0),
            Some((status.0 & 0xffff) | 0xc007_0000)
        );
    }

    pub fn check_client_refused(&self, status: SecurityStatus) {
        self.check_withheld();
        let refusal = self.client_refusal.as_ref().unwrap();
        assert_eq!((refusal.status, refusal.nstatus), (status, None));
    }
}
