//! The codec, with vectors encoded by hand or by other implementations.

mod common;

use common::from_hex;
use newaksu::{
    requests, EarlyResult, Error, MechKind, NegState, NegTokenInit, NegTokenResp, NtStatus, Oid,
    SecurityStatus, TsCredentials, TsReader, TsRequest,
};

fn vectors() -> Vec<(Vec<u8>, TsRequest)> {
    let proof = from_hex(
        "01000000d8b30c7e37512184000000006c47c8e302599219
         d199dfbd0ff571613adf7403effca52316233755ff9120d8",
    );
    let nonce = from_hex("f88dd4b7559a94e5e87f2b2f94c23858a984fc07697df85776c957a31512eb32");
    let bare = |version| TsRequest {
        version,
        ..TsRequest::default()
    };
    let whole = [
        &from_hex("3065 a003020106 a332 0430")[..],
        &proof,
        &from_hex("a406 0204 c00700ea a522 0420"),
        &nonce,
    ]
    .concat();
    vec![
        (from_hex("3005 a003020106"), bare(6)),
        (
            from_hex("300f a003020102 a108 3006 3004 a002 0400"),
            TsRequest {
                nego_tokens: Some(vec![]),
                ..bare(2)
            },
        ),
        (
            from_hex("3011 a003020106 a10a 3008 3006 a004 0402 4e31"),
            TsRequest {
                nego_tokens: Some(b"N1".to_vec()),
                ..bare(6)
            },
        ),
        (
            from_hex("300d a003020106 a406 0204 c0070308"),
            TsRequest {
                error_code: Some(NtStatus(0xc0070308)),
                ..bare(6)
            },
        ),
        (
            whole,
            TsRequest {
                pub_key_auth: Some(proof),
                error_code: Some(NtStatus(0xc00700ea)),
                client_nonce: nonce.try_into().ok(),
                ..bare(6)
            },
        ),
    ]
}

#[test]
fn requests_are_read_and_written() {
    for (bytes, request) in vectors() {
        assert_eq!(TsRequest::decode(&bytes), Ok(request.clone()));
        assert_eq!(request.encode(), Ok(bytes.clone()));
        assert_eq!(TsRequest::size(&bytes), Some(bytes.len()));
        for size in 1..9 {
            let mut reader = TsReader::new().unwrap();
            bytes
                .chunks(size)
                .for_each(|piece| reader.feed(piece).unwrap());
            assert_eq!(reader.finish(), Ok(request.clone()));
        }
        for cut in 0..bytes.len() {
            assert_eq!(TsRequest::decode(&bytes[..cut]), Err(Error::UnexpectedEof));
        }
    }
}

#[test]
fn requests_one_behind_the_other() {
    let (mut all, wanted): (Vec<u8>, Vec<_>) = vectors().into_iter().fold(
        (vec![], vec![]),
        |(mut all, mut wanted), (bytes, request)| {
            all.extend(bytes);
            wanted.push(Ok(request));
            (all, wanted)
        },
    );
    assert_eq!(requests(&all).collect::<Vec<_>>(), wanted);
    all.pop();
    let read: Vec<_> = requests(&all).collect();
    assert_eq!(read[..4], wanted[..4]);
    assert_eq!(read[4..], [Err(Error::UnexpectedEof)]);
    assert_eq!(requests(&[]).next(), None);
}

#[test]
fn faults() {
    for digits in [
        "",
        "31",
        "3080",
        "308400000001",
        "3083100001 00",
        "3008 a003020106 a28a",
    ] {
        assert_eq!(
            TsRequest::decode(&from_hex(digits)),
            Err(Error::UnexpectedEof)
        );
    }
    for digits in [
        "3007 a003020106 a28a",
        "300f a003020102 a108 3006 3004 a002 0500",
    ] {
        assert_eq!(
            TsRequest::decode(&from_hex(digits)),
            Err(Error::InvalidData)
        );
    }
    assert_eq!(TsRequest::size(&from_hex("8105")), None);
    assert_eq!(TsRequest::size(&from_hex("3083100000")), Some(1048581));
    let long = TsRequest {
        version: 6,
        auth_info: Some(vec![0; 1048562]),
        ..TsRequest::default()
    };
    assert_eq!(long.encode(), Err(Error::InvalidData));
}

#[test]
fn credentials() {
    let bytes = from_hex(
        "3027 a003020101 a120 041e 301c a008 0406 44004f004d00
         a108 0406 61006e006e00 a206 0404 70007700",
    );
    let read = TsCredentials::decode(&bytes).unwrap();
    assert_eq!(
        (&read.domain[..], &read.user[..], read.password.as_bytes()),
        (&b"D\0O\0M\0"[..], &b"a\0n\0n\0"[..], &b"p\0w\0"[..])
    );
    assert_eq!(
        TsCredentials::new("DOM", "ann", "pw")
            .encode()
            .unwrap()
            .as_bytes(),
        bytes
    );
    assert!(!format!("{read:?}").contains("112"));
    let refused = |digits: &str| TsCredentials::decode(&from_hex(digits)).err();
    let status = |status| Some(Error::Refused(status));
    assert_eq!(refused(""), status(SecurityStatus::INVALID_TOKEN));
    let smart_card = "3019 a003020102 a112 0410 300e a002 0400 a104 0402 6100 a202 0400";
    assert_eq!(
        refused(smart_card),
        status(SecurityStatus::UNSUPPORTED_FUNCTION)
    );
    let unpaired = "3019 a003020101 a112 0410 300e a002 0400 a104 0402 00d8 a202 0400";
    assert_eq!(refused(unpaired), status(SecurityStatus::INVALID_PARAMETER));
}

#[test]
fn early_results() {
    assert_eq!(EarlyResult::Success.encode(), [0; 4]);
    assert_eq!(EarlyResult::AccessDenied.encode(), [5, 0, 0, 0]);
    assert_eq!(
        EarlyResult::decode(&[5, 0, 0, 0, 9]),
        Ok(EarlyResult::AccessDenied)
    );
    assert_eq!(EarlyResult::decode(&[0, 0, 0, 0]), Ok(EarlyResult::Success));
    assert_eq!(EarlyResult::decode(&[1, 0, 0, 0]), Err(Error::InvalidData));
    assert_eq!(EarlyResult::decode(&[5, 0, 0]), Err(Error::UnexpectedEof));
}

/// What a Windows client sends first over HTTP, with NTLM's first message, and answers of servers.
#[test]
fn tokens_of_spnego() {
    let ntlm = Oid(from_hex("2b06010401823702020a"));
    assert_eq!(ntlm.kind(), MechKind::Ntlm);
    assert_eq!(
        Oid(from_hex("2a864886f712010202")).kind(),
        MechKind::Kerberos
    );
    assert_eq!(
        Oid(from_hex("2a864882f712010202")).kind(),
        MechKind::MsKerberos
    );
    assert_eq!(Oid(vec![]).kind(), MechKind::Other);
    let offer = from_hex(
        "604806062b0601050502a03e303ca00e300c060a2b06010401823702020aa22a0428
         4e544c4d5353500001000000978208e2000000000000000000000000000000000601b01d0000000f",
    );
    let token = NegTokenInit {
        mech_types: Some(vec![ntlm.clone()]),
        mech_token: Some(offer[offer.len() - 40..].to_vec()),
    };
    assert_eq!(NegTokenInit::decode(&offer), Ok(token.clone()));
    assert_eq!(token.encode(), Ok(offer.clone()));
    assert_eq!(
        token.mech_list(),
        Ok(Some(from_hex("300c060a2b06010401823702020a")))
    );
    assert_eq!(NegTokenInit::default().mech_list(), Ok(None));
    assert_eq!(
        NegTokenInit::decode(&offer[..20]),
        Err(Error::Refused(SecurityStatus::INVALID_TOKEN))
    );
    let answer =
        from_hex("a1223020a0030a0101a10c060a2b06010401823702020aa20404024e32a3050403010000");
    let resp = NegTokenResp {
        neg_state: Some(NegState::AcceptIncomplete),
        supported_mech: Some(ntlm),
        response_token: Some(b"N2".to_vec()),
        mech_list_mic: Some(vec![1, 0, 0]),
    };
    assert_eq!(NegTokenResp::decode(&answer), Ok(resp.clone()));
    assert_eq!(resp.encode(), Ok(answer));
    let completed = NegTokenResp {
        neg_state: Some(NegState::AcceptCompleted),
        ..NegTokenResp::default()
    };
    assert_eq!(completed.encode(), Ok(from_hex("a107 3005 a003 0a0100")));
}

#[test]
fn names() {
    assert_eq!(SecurityStatus::LOGON_DENIED.to_string(), "LogonDenied");
    assert_eq!(SecurityStatus(7).to_string(), "0x00000007");
    assert_eq!(NtStatus(0xc7654321).to_string(), "0xc7654321");
    let version = env!("CARGO_PKG_VERSION")
        .split('.')
        .map(|part| part.parse().unwrap())
        .collect::<Vec<u8>>();
    let (major, minor, patch) = newaksu::version();
    assert_eq!([major, minor, patch], version[..]);
}
