//! What the examples in Rust need of stun_types.h: structs, numbers and calls, named as there.
#![allow(dead_code)]

use std::error::Error;
use std::fs::File;
use std::io::{self, Read};
use std::net::{IpAddr, SocketAddr};
use std::time::Duration;

#[repr(C)] #[derive(Default)]
pub struct Answer { pub code: u32, pub r#type: u32, pub expected: u64, pub actual: u64 }
#[repr(C)]
pub struct Id { pub bytes: [u8; 12] }
#[repr(C)] #[derive(Default)]
pub struct Attribute { pub value_at: usize, pub r#type: u16, pub length: u16 }
#[repr(C)] #[derive(Clone, Copy, Default)]
pub struct Address { pub octets: [u8; 16], pub port: u16, pub family: u16 }
#[repr(C)]
pub struct Key { pub at: *mut u8, pub held: u64 }
#[repr(C)] #[derive(Default)]
pub struct Policy { pub algorithm: u32, pub min_hmac_length: u32, pub fingerprint: u32, pub reserved: u32 }
#[repr(C)] #[derive(Default)]
pub struct Validated { pub algorithm: u32, pub hmac_length: u32, pub reserved: u64 }
#[repr(C)]
pub struct Ice { pub at: *mut u8, pub held: u64 }
#[repr(C)]
pub struct IceSettings {
    pub ufrag: *const u8, pub ufrag_length: usize, pub password: *const u8, pub password_length: usize,
    pub software: *const u8, pub software_length: usize, pub tiebreaker: u64, pub role: u32, pub pairs: u32,
    pub candidates: u32, pub requests: u32, pub ta: u32, pub rto: u32, pub patience: u32, pub tries: u32,
    pub reserved: u64,
}
#[repr(C)] #[derive(Default)]
pub struct IceBase {
    pub number: u32, pub foundation: u32, pub priority: u32, pub reflexive_priority: u32, pub component: u16,
    pub family: u16, pub link_local: u16, pub reserved: u16,
}
#[repr(C)] #[derive(Default)]
pub struct IceRemote {
    pub address: Address, pub foundation: u32, pub priority: u32, pub component: u16, pub reserved: u16,
}
#[repr(C)] #[derive(Default)]
pub struct IceReceived { pub length: usize, pub kind: u32, pub component: u16, pub reserved: u16 }
#[repr(C)] #[derive(Default)]
pub struct IceRequest { pub length: usize, pub to: Address, pub base: u32 }
#[repr(C)] #[derive(Default)]
pub struct IcePath { pub to: Address, pub base: u32 }
#[repr(C)] #[derive(Default)]
pub struct IceStanding { pub path: IcePath, pub progress: u32, pub role: u32, pub pairs: usize }
#[repr(C)] #[derive(Default)]
pub struct IceChecked {
    pub until: u64, pub remote: Address, pub base: u32, pub priority: u32, pub remote_priority: u32,
    pub state: u32, pub component: u16, pub tries: u16, pub triggered: u16, pub nominated: u16,
}
#[repr(C)] #[derive(Default)]
pub struct IceChange {
    pub address: Address, pub base: u32, pub kind: u32, pub progress: u32, pub role: u32, pub component: u16,
    pub reserved: u16,
}
#[repr(C)] #[derive(Default)]
pub struct IceCandidate {
    pub foundation: [u8; 32], pub foundation_length: u16, pub component: u16, pub priority: u32,
    pub address: Address, pub related: Address, pub transport: u32, pub kind: u32,
}
#[repr(C)]
pub struct Allocation { pub at: *mut u8, pub held: u64 }
#[repr(C)]
pub struct AllocationSettings {
    pub server: Address, pub transport: u32, pub user: *const u8, pub user_length: usize,
    pub password: *const u8, pub password_length: usize, pub software: *const u8, pub software_length: usize,
    pub lifetime: u32, pub peers: u32, pub rto: u32, pub last_wait: u32, pub sends: u32, pub retries: u32,
    pub algorithm: u32, pub family: u16, pub fingerprint: u16, pub named: u32, pub port: u16, pub dont_fragment: u16,
    pub token: u64,
}
#[repr(C)] #[derive(Default)]
pub struct AllocationData {
    pub at: usize, pub length: usize, pub peer: Address, pub shown: u32, pub token: u64, pub icmp_data: u32,
    pub icmp_type: u8, pub icmp_code: u8, pub reserved: u16,
}
#[repr(C)] #[derive(Default)]
pub struct AllocationHead { pub length: usize, pub padding: usize, pub sends: u32, pub reserved: u32 }
#[repr(C)] #[derive(Default)]
pub struct AllocationChange {
    pub until: u64, pub channel_until: u64, pub kind: u32, pub why: u32, pub relayed: Address,
    pub mapped: Address, pub peer: Address, pub server: Address, pub channel: u16, pub code: u16,
    pub wants: u16, pub violated: u16, pub rest: u32, pub reserved: u32,
}

pub const STUN_TYPES_CLASS_REQUEST: u32 = 0;
pub const STUN_TYPES_METHOD_BINDING: u32 = 0x001;
pub const STUN_TYPES_ATTRIBUTE_USERNAME: u16 = 0x0006;
pub const STUN_TYPES_ATTRIBUTE_XOR_MAPPED_ADDRESS: u16 = 0x0020;
pub const STUN_TYPES_INTEGRITY_SHA256: u32 = 0x001C;
pub const STUN_TYPES_UDP: u32 = 1;
pub const STUN_TYPES_ICE_CONTROLLING: u32 = 1;
pub const STUN_TYPES_ICE_CONTROLLED: u32 = 2;
pub const STUN_TYPES_ICE_RESPONSE: u32 = 1;
pub const STUN_TYPES_ICE_DATA: u32 = 2;
pub const STUN_TYPES_ICE_CONNECTED: u32 = 2;
pub const STUN_TYPES_ICE_FAILED: u32 = 3;
pub const STUN_TYPES_ICE_PROGRESS: u32 = 3;
pub const STUN_TYPES_ICE_HOST: u32 = 1;
pub const STUN_TYPES_ALLOCATION_ALLOCATE: u32 = 1;
pub const STUN_TYPES_ALLOCATION_BIND: u32 = 3;
pub const STUN_TYPES_ALLOCATION_CLOSE: u32 = 4;
pub const STUN_TYPES_ALLOCATION_ALLOCATED: u32 = 1;
pub const STUN_TYPES_ALLOCATION_BOUND: u32 = 5;
pub const STUN_TYPES_ALLOCATION_OVER: u32 = 8;
pub const STUN_TYPES_ALLOCATION_CLOSED: u32 = 1;

#[link(name = "stun_types")]
extern "C" {
    pub fn stun_types_parse(bytes: *const u8, length: usize) -> Answer;
    pub fn stun_types_find(bytes: *const u8, length: usize, r#type: u16, found: *mut Attribute) -> bool;
    pub fn stun_types_read_xor_address(bytes: *const u8, length: usize, found: *const Attribute, address: *mut Address) -> Answer;
    pub fn stun_types_key_short_term(key: *mut Key, password: *const u8, length: usize) -> Answer;
    pub fn stun_types_keys_free(keys: *mut Key, count: usize);
    pub fn stun_types_message_type(class: u32, method: u32) -> u16;
    pub fn stun_types_begin(room: *mut u8, size: usize, r#type: u16, id: *const Id, written: *mut usize) -> Answer;
    pub fn stun_types_add(room: *mut u8, size: usize, written: *mut usize, r#type: u16, value: *const u8, length: usize) -> Answer;
    pub fn stun_types_add_integrity(room: *mut u8, size: usize, written: *mut usize, key: *const Key, algorithm: u32) -> Answer;
    pub fn stun_types_add_fingerprint(room: *mut u8, size: usize, written: *mut usize) -> Answer;
    pub fn stun_types_binding_reply(bytes: *const u8, length: usize, source: *const Address, room: *mut u8, size: usize, reply_length: *mut usize) -> Answer;
    pub fn stun_types_validate_by_policy(bytes: *const u8, length: usize, policy: *const Policy, key: *const Key, validated: *mut Validated) -> Answer;
    pub fn stun_types_ice_new(agent: *mut Ice, settings: *const IceSettings) -> Answer;
    pub fn stun_types_ices_free(agents: *mut Ice, count: usize);
    pub fn stun_types_ice_set_peer(agent: *mut Ice, now: u64, ufrag: *const u8, ufrag_length: usize, password: *const u8, password_length: usize) -> Answer;
    pub fn stun_types_ice_add_base(agent: *mut Ice, now: u64, base: *const IceBase) -> Answer;
    pub fn stun_types_ice_add_remote(agent: *mut Ice, now: u64, remote: *const IceRemote) -> Answer;
    pub fn stun_types_ice_add_address(agent: *mut Ice, address: *const Address) -> Answer;
    pub fn stun_types_ice_end_candidates(agent: *mut Ice, now: u64) -> Answer;
    pub fn stun_types_ice_datagram(agent: *mut Ice, now: u64, base: u32, from: *const Address, datagram: *const u8, length: usize, random: u64, out: *mut u8, size: usize, received: *mut IceReceived) -> Answer;
    pub fn stun_types_ice_poll(agent: *mut Ice, now: u64, id: *const Id, out: *mut u8, size: usize, request: *mut IceRequest, wake: *mut u64) -> Answer;
    pub fn stun_types_ice_route(agent: *mut Ice, now: u64, component: u16, path: *mut IcePath) -> bool;
    pub fn stun_types_ice_status(agent: *mut Ice, component: u16, standing: *mut IceStanding) -> bool;
    pub fn stun_types_ice_pair(agent: *mut Ice, number: u32, pair: *mut IceChecked) -> bool;
    pub fn stun_types_ice_changes(agent: *mut Ice, change: *mut IceChange) -> bool;
    pub fn stun_types_ice_candidate_read(line: *const u8, length: usize, candidate: *mut IceCandidate) -> Answer;
    pub fn stun_types_ice_candidate_write(candidate: *const IceCandidate, text: *mut u8, size: usize, written: *mut usize) -> Answer;
    pub fn stun_types_allocation_new(client: *mut Allocation, settings: *const AllocationSettings) -> Answer;
    pub fn stun_types_allocations_free(clients: *mut Allocation, count: usize);
    pub fn stun_types_allocation_want(client: *mut Allocation, now: u64, wish: u32, peer: *const Address) -> Answer;
    pub fn stun_types_allocation_datagram(client: *mut Allocation, now: u64, from: *const Address, datagram: *const u8, length: usize, data: *mut AllocationData) -> Answer;
    pub fn stun_types_allocation_poll(client: *mut Allocation, now: u64, id: *const Id, out: *mut u8, size: usize, length: *mut usize, wake: *mut u64) -> Answer;
    pub fn stun_types_allocation_send(client: *mut Allocation, now: u64, data_length: usize, peer: *const Address, id: *const Id, head: *mut u8, size: usize, around: *mut AllocationHead) -> Answer;
    pub fn stun_types_allocation_changes(client: *mut Allocation, change: *mut AllocationChange) -> bool;
}

pub type Result<T> = std::result::Result<T, Box<dyn Error + Send + Sync>>;

pub fn check(answer: Answer) -> Result<()> {
    match answer.code {
        0 => Ok(()),
        code => Err(format!("the library returned the code {code}").into()),
    }
}

pub fn random<const N: usize>() -> Result<[u8; N]> {
    let mut bytes = [0; N];
    File::open("/dev/urandom")?.read_exact(&mut bytes)?;
    Ok(bytes)
}

/// How long a socket waits for a moment of the library: more than nothing, and at most a minute.
pub fn wait_until(moment: u64, now: u64) -> Duration {
    let wait = Duration::from_nanos(moment.saturating_sub(now));
    wait.clamp(Duration::from_micros(1), Duration::from_secs(60))
}

/// What a socket has received, or nothing if it has waited for too long.
pub fn received<T>(result: io::Result<T>) -> Result<Option<T>> {
    match result {
        Ok(received) => Ok(Some(received)),
        Err(error) if error.kind() == io::ErrorKind::WouldBlock => Ok(None),
        Err(error) => Err(error.into()),
    }
}

impl Drop for Key {
    fn drop(&mut self) {
        unsafe { stun_types_keys_free(self, 1) }
    }
}

impl Drop for Ice {
    fn drop(&mut self) {
        unsafe { stun_types_ices_free(self, 1) }
    }
}

impl Drop for Allocation {
    fn drop(&mut self) {
        unsafe { stun_types_allocations_free(self, 1) }
    }
}

impl Default for IceSettings {
    fn default() -> Self {
        unsafe { std::mem::zeroed() }
    }
}

impl Default for AllocationSettings {
    fn default() -> Self {
        unsafe { std::mem::zeroed() }
    }
}

impl From<SocketAddr> for Address {
    fn from(from: SocketAddr) -> Address {
        let mut address = Address { port: from.port(), family: 4, ..Address::default() };
        match from.ip() {
            IpAddr::V4(ip) => address.octets[..4].copy_from_slice(&ip.octets()),
            IpAddr::V6(ip) => (address.octets, address.family) = (ip.octets(), 6),
        }
        address
    }
}

impl From<Address> for SocketAddr {
    fn from(from: Address) -> SocketAddr {
        let [a, b, c, d, ..] = from.octets;
        let ip: IpAddr = match from.family {
            6 => from.octets.into(),
            _ => [a, b, c, d].into(),
        };
        SocketAddr::new(ip, from.port)
    }
}
