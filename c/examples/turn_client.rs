// Gets a relayed address of a TURN server over UDP, and passes data to a peer and back by a channel, as
// turn_client.c does. The peer has a thread.
//
//     rustc --edition 2021 turn_client.rs -L PREFIX/lib
//     LD_LIBRARY_PATH=PREFIX/lib ./turn_client ADDRESS PORT USER PASSWORD

#[rustfmt::skip]
mod stun_types;

use std::net::{IpAddr, SocketAddr, UdpSocket};
use std::time::Instant;
use std::{env, ptr, thread};
use stun_types::*;

const HEAD: usize = 52;
const ROOM: usize = 3400;

/// A TURN client with its socket, and one peer.
struct Client {
    allocation: Allocation,
    socket: UdpSocket,
    server: SocketAddr,
    peer: Address,
    start: Instant,
    ended: Option<u32>,
}

impl Client {
    fn new(server: SocketAddr, user: &str, password: &str, peer: SocketAddr) -> Result<Client> {
        let settings = AllocationSettings {
            server: server.into(),
            transport: STUN_TYPES_UDP,
            user: user.as_ptr(),
            user_length: user.len(),
            password: password.as_ptr(),
            password_length: password.len(),
            ..AllocationSettings::default()
        };
        let mut allocation = Allocation { at: ptr::null_mut(), held: 0 };
        check(unsafe { stun_types_allocation_new(&mut allocation, &settings) })?;
        let (socket, peer) = (UdpSocket::bind((server.ip(), 0))?, peer.into());
        let mut client = Client { allocation, socket, server, peer, start: Instant::now(), ended: None };
        client.want(STUN_TYPES_ALLOCATION_ALLOCATE)?;
        client.want(STUN_TYPES_ALLOCATION_BIND)?;
        Ok(client)
    }

    /// The moment, for the library.
    fn now(&self) -> u64 {
        self.start.elapsed().as_nanos() as u64
    }

    fn want(&mut self, wish: u32) -> Result<()> {
        let now = self.now();
        check(unsafe { stun_types_allocation_want(&mut self.allocation, now, wish, &self.peer) })
    }

    /// Runs until the client has ended, and returns why.
    fn run(&mut self) -> Result<u32> {
        let mut datagram = [0; ROOM];
        loop {
            let wake = self.turn()?;
            if let Some(why) = self.ended {
                return Ok(why);
            }
            self.socket.set_read_timeout(Some(wait_until(wake, self.now())))?;
            if let Some((length, source)) = received(self.socket.recv_from(&mut datagram))? {
                self.receive(&datagram[..length], source)?;
            }
        }
    }

    /// Takes a datagram: a response, or data of the peer, after which the client closes.
    fn receive(&mut self, datagram: &[u8], source: SocketAddr) -> Result<()> {
        let (now, from, mut data) = (self.now(), source.into(), AllocationData::default());
        let (bytes, length, client) = (datagram.as_ptr(), datagram.len(), &mut self.allocation);
        check(unsafe { stun_types_allocation_datagram(client, now, &from, bytes, length, &mut data) })?;
        if data.shown != 0 {
            let text = String::from_utf8_lossy(&datagram[data.at..data.at + data.length]);
            println!("client received {text} from {}", SocketAddr::from(data.peer));
            self.want(STUN_TYPES_ALLOCATION_CLOSE)?;
        }
        Ok(())
    }

    /// Sends the requests that are due, and acts on what has changed. Returns when to call it again at the latest.
    fn turn(&mut self) -> Result<u64> {
        let (mut room, mut length, mut wake) = ([0; ROOM], 0, 0);
        let mut change = AllocationChange::default();
        loop {
            let (id, now, out) = (Id { bytes: random()? }, self.now(), room.as_mut_ptr());
            let client = &mut self.allocation;
            check(unsafe { stun_types_allocation_poll(client, now, &id, out, ROOM, &mut length, &mut wake) })?;
            if length == 0 {
                break;
            }
            self.socket.send_to(&room[..length], self.server)?;
        }
        while unsafe { stun_types_allocation_changes(&mut self.allocation, &mut change) } {
            self.take_change(&change)?;
        }
        Ok(wake)
    }

    fn take_change(&mut self, change: &AllocationChange) -> Result<()> {
        match change.kind {
            STUN_TYPES_ALLOCATION_ALLOCATED => println!("allocated {}", SocketAddr::from(change.relayed)),
            STUN_TYPES_ALLOCATION_BOUND => {
                println!("bound {} to channel {:#x}", SocketAddr::from(change.peer), change.channel);
                self.send(b"data of the client")?;
            }
            STUN_TYPES_ALLOCATION_OVER => {
                self.ended = Some(change.why);
                match change.why {
                    STUN_TYPES_ALLOCATION_CLOSED => println!("closed"),
                    _ => println!("failed, code {}", change.code),
                }
            }
            _ => {}
        }
        Ok(())
    }

    /// Sends data to the peer, if it may be sent.
    fn send(&mut self, data: &[u8]) -> Result<()> {
        let (now, id, mut around) = (self.now(), Id { bytes: random()? }, AllocationHead::default());
        let mut message = vec![0; HEAD];
        let (head, client) = (message.as_mut_ptr(), &mut self.allocation);
        check(unsafe {
            stun_types_allocation_send(client, now, data.len(), &self.peer, &id, head, HEAD, &mut around)
        })?;
        if around.sends != 0 {
            message.extend_from_slice(data);
            message.resize(message.len() + around.padding, 0);
            self.socket.send_to(&message[HEAD - around.length..], self.server)?;
        }
        Ok(())
    }
}

/// Replies to the datagrams that come to the peer's socket: to the relayed address.
fn reply(peer: UdpSocket) -> Result<()> {
    let mut datagram = [0; ROOM];
    loop {
        let (length, source) = peer.recv_from(&mut datagram)?;
        println!("peer received {} from {source}", String::from_utf8_lossy(&datagram[..length]));
        peer.send_to(b"data of the peer", source)?;
    }
}

fn main() -> Result<()> {
    let words: Vec<String> = env::args().collect();
    let [_, address, port, user, password] = words.as_slice() else {
        return Err("usage: turn_client ADDRESS PORT USER PASSWORD".into());
    };
    let server = SocketAddr::new(address.parse::<IpAddr>()?, port.parse()?);
    let peer = UdpSocket::bind((server.ip(), 0))?;
    let mut client = Client::new(server, user, password, peer.local_addr()?)?;
    thread::spawn(|| reply(peer));
    match client.run()? {
        STUN_TYPES_ALLOCATION_CLOSED => Ok(()),
        why => Err(format!("the client ended for the reason {why}").into()),
    }
}
