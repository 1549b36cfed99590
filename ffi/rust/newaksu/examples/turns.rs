//! The turns of a client and of a server over a channel: one whole message in, one out.

use newaksu::{
    Acceptor, Client, ClientTurn, Identity, Mechanism, ProcessError, Server, ServerTurn, TsRequest,
};
use std::error::Error;
use std::io::{self, Read, Write};

/// One message: the header byte by byte, and then exactly the content. What follows on the channel
/// is not of CredSSP.
pub fn receive(channel: &mut impl Read) -> io::Result<Vec<u8>> {
    let mut message = Vec::new();
    let size = loop {
        match TsRequest::size(&message) {
            Some(size) => break size,
            None if message.len() == 5 => return Err(io::ErrorKind::InvalidData.into()),
            None => message.push(0),
        }
        let end = message.len() - 1;
        channel.read_exact(&mut message[end..])?;
    };
    let have = message.len();
    message.resize(size, 0);
    channel.read_exact(&mut message[have..])?;
    Ok(message)
}

/// Delegates the client's credentials.
pub fn connect<M: Mechanism>(
    client: &mut Client<M>,
    channel: &mut (impl Read + Write),
) -> Result<(), Box<dyn Error>> {
    let mut turn = client.start()?;
    loop {
        match turn {
            ClientTurn::Reply(message) => channel.write_all(&message)?,
            ClientTurn::Final(message) => return Ok(channel.write_all(&message)?),
        }
        turn = client.process(&receive(channel)?)?;
    }
}

/// Takes the credentials of a client, or tells it why not.
pub fn serve<M: Acceptor>(
    server: &mut Server<M>,
    channel: &mut (impl Read + Write),
) -> Result<Identity, Box<dyn Error>> {
    loop {
        match server.process(&receive(channel)?) {
            Ok(ServerTurn::Reply(message)) => channel.write_all(&message)?,
            Ok(ServerTurn::Finished(identity)) => return Ok(identity),
            Err(ProcessError::Refused(refusal)) => {
                channel.write_all(refusal.message.as_deref().unwrap_or_default())?;
                return Err(refusal.into());
            }
            Err(unread) => return Err(unread.into()),
        }
    }
}
