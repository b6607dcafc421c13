// Connects two ICE agents in this process, over sockets of the loopback, and passes data each way, as
// ice_connect.c does. Each agent has a thread.
//
//     rustc --edition 2021 ice_connect.rs -L PREFIX/lib
//     LD_LIBRARY_PATH=PREFIX/lib ./ice_connect [SECONDS [PASSWORD]]

#[rustfmt::skip]
mod stun_types;

use std::net::{SocketAddr, UdpSocket};
use std::sync::mpsc::{channel, Receiver, Sender};
use std::time::{Duration, Instant};
use std::{env, ptr, thread};
use stun_types::*;

const BASE: u32 = 0;
const COMPONENT: u16 = 1;
const ROOM: usize = 1500;
const HOST: u32 = 126;
const PEER_REFLEXIVE: u32 = 110;

/// The priority of a candidate whose type has this preference (RFC 8445, section 5.1.2.1).
fn priority(preference: u32) -> u32 {
    (preference << 24) + (65535 << 8) + 256 - u32::from(COMPONENT)
}

fn random_text<const N: usize>() -> Result<String> {
    Ok(random::<N>()?.iter().map(|byte| format!("{byte:02x}")).collect())
}

/// An agent with one socket: its only base, and its only candidate.
struct Agent {
    name: &'static str,
    ufrag: String,
    password: String,
    ice: Ice,
    socket: UdpSocket,
    own: SocketAddr,
    start: Instant,
    has_failed: bool,
    received: String,
}

impl Agent {
    fn new(name: &'static str, role: u32) -> Result<Agent> {
        let socket = UdpSocket::bind("127.0.0.1:0")?;
        let (ufrag, password) = (random_text::<4>()?, random_text::<16>()?);
        let settings = IceSettings {
            ufrag: ufrag.as_ptr(),
            ufrag_length: ufrag.len(),
            password: password.as_ptr(),
            password_length: password.len(),
            tiebreaker: u64::from_ne_bytes(random()?),
            role,
            tries: 3, // to fail sooner
            ..IceSettings::default()
        };
        let own = socket.local_addr()?;
        let base = IceBase {
            number: BASE,
            foundation: 1,
            priority: priority(HOST),
            reflexive_priority: priority(PEER_REFLEXIVE),
            component: COMPONENT,
            family: Address::from(own).family,
            ..IceBase::default()
        };
        let mut ice = Ice { at: ptr::null_mut(), held: 0 };
        check(unsafe { stun_types_ice_new(&mut ice, &settings) })?;
        check(unsafe { stun_types_ice_add_base(&mut ice, 0, &base) })?;
        check(unsafe { stun_types_ice_add_address(&mut ice, &own.into()) })?;
        let (has_failed, received, start) = (false, String::new(), Instant::now());
        Ok(Agent { name, ufrag, password, ice, socket, own, start, has_failed, received })
    }

    /// The moment, for the library.
    fn now(&self) -> u64 {
        self.start.elapsed().as_nanos() as u64
    }

    /// The lines that the other agent needs.
    fn description(&self) -> Result<String> {
        let mut candidate = IceCandidate {
            foundation_length: 1,
            component: COMPONENT,
            priority: priority(HOST),
            address: self.own.into(),
            transport: STUN_TYPES_UDP,
            kind: STUN_TYPES_ICE_HOST,
            ..IceCandidate::default()
        };
        candidate.foundation[0] = b'1';
        let (mut line, mut length) = ([0; 200], 0);
        let (text, size) = (line.as_mut_ptr(), line.len());
        check(unsafe { stun_types_ice_candidate_write(&candidate, text, size, &mut length) })?;
        let line = std::str::from_utf8(&line[..length])?;
        let (ufrag, password) = (&self.ufrag, &self.password);
        Ok(format!("a=ice-ufrag:{ufrag}\na=ice-pwd:{password}\na={line}\na=end-of-candidates\n"))
    }

    /// Takes the other agent's description, with another password if there is one.
    fn take(&mut self, description: &str, other_password: Option<&str>) -> Result<()> {
        let (mut ufrag, mut password) = ("", "");
        for line in description.lines() {
            match line.split_once(':') {
                Some(("a=ice-ufrag", value)) => ufrag = value,
                Some(("a=ice-pwd", value)) => password = other_password.unwrap_or(value),
                Some(("a=candidate", _)) => self.take_candidate(line)?,
                _ => {}
            }
        }
        let (now, name, secret) = (self.now(), ufrag.as_ptr(), password.as_ptr());
        let (name_length, length) = (ufrag.len(), password.len());
        check(unsafe { stun_types_ice_set_peer(&mut self.ice, now, name, name_length, secret, length) })?;
        check(unsafe { stun_types_ice_end_candidates(&mut self.ice, now) })
    }

    fn take_candidate(&mut self, line: &str) -> Result<()> {
        let mut read = IceCandidate::default();
        check(unsafe { stun_types_ice_candidate_read(line.as_ptr(), line.len(), &mut read) })?;
        if read.transport != STUN_TYPES_UDP || read.address.family != 4 {
            return Ok(());
        }
        // (Number the foundations of several candidates: equal ones have the same number.)
        let IceCandidate { address, priority, component, .. } = read;
        let remote = IceRemote { address, foundation: 1, priority, component, reserved: 0 };
        let now = self.now();
        check(unsafe { stun_types_ice_add_remote(&mut self.ice, now, &remote) })
    }

    /// Keeps the connection for so long, or until the agent has failed.
    fn run(&mut self, length: Duration) -> Result<()> {
        let (end, mut datagram) = (self.now() + length.as_nanos() as u64, [0; ROOM]);
        loop {
            let wake = self.turn()?.min(end);
            let now = self.now();
            if self.has_failed || now >= end {
                return Ok(());
            }
            self.socket.set_read_timeout(Some(wait_until(wake, now)))?;
            if let Some((length, source)) = received(self.socket.recv_from(&mut datagram))? {
                self.receive(&datagram[..length], source)?;
            }
        }
    }

    /// Takes a datagram: a check, a response or data.
    fn receive(&mut self, datagram: &[u8], source: SocketAddr) -> Result<()> {
        let (now, from, random) = (self.now(), source.into(), u64::from_ne_bytes(random()?));
        let (mut room, mut received) = ([0; ROOM], IceReceived::default());
        let (bytes, length, out) = (datagram.as_ptr(), datagram.len(), room.as_mut_ptr());
        check(unsafe {
            let agent = &mut self.ice;
            stun_types_ice_datagram(agent, now, BASE, &from, bytes, length, random, out, ROOM, &mut received)
        })?;
        if received.kind == STUN_TYPES_ICE_RESPONSE {
            self.socket.send_to(&room[..received.length], source)?;
        } else if received.kind == STUN_TYPES_ICE_DATA {
            self.received = String::from_utf8_lossy(datagram).into();
            println!("{} received {}", self.name, self.received);
        }
        Ok(())
    }

    /// Sends the checks that are due, and acts on what has changed. Returns when to call it again at the latest.
    fn turn(&mut self) -> Result<u64> {
        let (mut room, mut request, mut wake) = ([0; ROOM], IceRequest::default(), 0);
        let mut change = IceChange::default();
        loop {
            let (id, now, out) = (Id { bytes: random()? }, self.now(), room.as_mut_ptr());
            let agent = &mut self.ice;
            check(unsafe { stun_types_ice_poll(agent, now, &id, out, ROOM, &mut request, &mut wake) })?;
            if request.length == 0 {
                break;
            }
            self.socket.send_to(&room[..request.length], SocketAddr::from(request.to))?;
        }
        while unsafe { stun_types_ice_changes(&mut self.ice, &mut change) } {
            match (change.kind, change.progress) {
                (STUN_TYPES_ICE_PROGRESS, STUN_TYPES_ICE_FAILED) => {
                    self.has_failed = true;
                    println!("{} failed", self.name);
                }
                (STUN_TYPES_ICE_PROGRESS, STUN_TYPES_ICE_CONNECTED) => {
                    println!("{} connected {} to {}", self.name, self.own, SocketAddr::from(change.address));
                    self.send(&format!("data of {}", self.name))?;
                }
                _ => {}
            }
        }
        Ok(wake)
    }

    fn send(&mut self, text: &str) -> Result<()> {
        let (now, mut path) = (self.now(), IcePath::default());
        if unsafe { stun_types_ice_route(&mut self.ice, now, COMPONENT, &mut path) } {
            self.socket.send_to(text.as_bytes(), SocketAddr::from(path.to))?;
        }
        Ok(())
    }

    /// Prints the role, and how long the peer's consent lasts.
    fn report(&mut self) {
        let (mut standing, mut pair) = (IceStanding::default(), IceChecked::default());
        let has_pair = unsafe {
            stun_types_ice_status(&mut self.ice, COMPONENT, &mut standing)
                && stun_types_ice_pair(&mut self.ice, 0, &mut pair)
        };
        if has_pair && pair.nominated != 0 {
            let controls = standing.role == STUN_TYPES_ICE_CONTROLLING;
            let role = if controls { "controlling" } else { "controlled" };
            let seconds = pair.until.saturating_sub(self.now()) / 1_000_000_000;
            println!("{} is {role}, and may send for {seconds} s", self.name);
        }
    }
}

/// Runs an agent in its thread, and returns what it has received.
fn connect(name: &'static str, role: u32, to_peer: Sender<String>, of_peer: Receiver<String>) -> Result<String> {
    let seconds = env::args().nth(1).map_or(Ok(7), |word| word.parse())?;
    let mut agent = Agent::new(name, role)?;
    to_peer.send(agent.description()?)?;
    agent.take(&of_peer.recv()?, env::args().nth(2).as_deref())?;
    agent.run(Duration::from_secs(seconds))?;
    agent.report();
    Ok(agent.received)
}

fn main() -> Result<()> {
    let ((to_left, of_right), (to_right, of_left)) = (channel(), channel());
    let left = thread::spawn(|| connect("left", STUN_TYPES_ICE_CONTROLLING, to_right, of_right));
    let right = thread::spawn(|| connect("right", STUN_TYPES_ICE_CONTROLLED, to_left, of_left));
    let left = left.join().map_err(|_| "a thread ended")??;
    let right = right.join().map_err(|_| "a thread ended")??;
    match (left.as_str(), right.as_str()) {
        ("data of right", "data of left") => Ok(()),
        _ => Err("there is no connection".into()),
    }
}
