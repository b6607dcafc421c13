// Reads the address in a response, and writes and validates a signed request, as messages.c does.
//
//     rustc --edition 2021 messages.rs -L PREFIX/lib && LD_LIBRARY_PATH=PREFIX/lib ./messages

#[rustfmt::skip]
mod stun_types;

use std::net::SocketAddr;
use stun_types::*;

const RESPONSE: &[u8] = b"\x01\x01\x00\x0c\x21\x12\xa4\x42\xb7\xe7\xa7\x01\xbc\x34\xd6\x86\
    \xfa\x87\xdf\xae\x00\x20\x00\x08\x00\x01\xa1\x47\xe1\x12\xa6\x43";

fn address_in(message: &[u8]) -> Result<String> {
    let (bytes, size) = (message.as_ptr(), message.len());
    let (mut found, mut address) = (Attribute::default(), Address::default());
    let wanted = STUN_TYPES_ATTRIBUTE_XOR_MAPPED_ADDRESS;
    check(unsafe { stun_types_parse(bytes, size) })?;
    if !unsafe { stun_types_find(bytes, size, wanted, &mut found) } {
        return Err("the response reports no address".into());
    }
    check(unsafe { stun_types_read_xor_address(bytes, size, &found, &mut address) })?;
    Ok(SocketAddr::from(address).to_string())
}

fn signed_request(user: &str, key: &Key) -> Result<Vec<u8>> {
    let (mut room, mut length) = ([0; 200], 0);
    let (at, size, sha256) = (room.as_mut_ptr(), room.len(), STUN_TYPES_INTEGRITY_SHA256);
    let (name, text, many) = (STUN_TYPES_ATTRIBUTE_USERNAME, user.as_ptr(), user.len());
    let bytes = [1, 2, 3, 4, 5, 6, 7, 8, 9, 10, 11, 12]; // yours are drawn at random
    unsafe {
        let kind = stun_types_message_type(STUN_TYPES_CLASS_REQUEST, STUN_TYPES_METHOD_BINDING);
        check(stun_types_begin(at, size, kind, &Id { bytes }, &mut length))?;
        check(stun_types_add(at, size, &mut length, name, text, many))?;
        check(stun_types_add_integrity(at, size, &mut length, key, sha256))?;
        check(stun_types_add_fingerprint(at, size, &mut length))?;
    }
    Ok(room[..length].to_vec())
}

/// What a server without credentials replies to a datagram from 192.0.2.1:32853; no bytes if nothing.
fn reply_to(datagram: &[u8]) -> Result<Vec<u8>> {
    let source = Address::from(SocketAddr::from(([192, 0, 2, 1], 32853)));
    let mut room = vec![0; datagram.len() + 48]; // a reply is at most so much longer
    let (bytes, size, mut length) = (datagram.as_ptr(), datagram.len(), 0);
    let (at, most) = (room.as_mut_ptr(), room.len());
    check(unsafe { stun_types_binding_reply(bytes, size, &source, at, most, &mut length) })?;
    room.truncate(length);
    Ok(room)
}

fn bytes_of(digits: &str) -> Result<Vec<u8>> {
    let pairs = (0..digits.len()).step_by(2);
    let read = pairs.map(|at| u8::from_str_radix(digits.get(at..at + 2).unwrap_or("?"), 16));
    Ok(read.collect::<std::result::Result<_, _>>()?)
}

fn hex(bytes: &[u8]) -> String {
    bytes.iter().map(|byte| format!("{byte:02x}")).collect()
}

fn main() -> Result<()> {
    println!("{}", address_in(RESPONSE)?);
    let (at, held, password) = (std::ptr::null_mut(), 0, "wonderland");
    let mut key = Key { at, held };
    check(unsafe { stun_types_key_short_term(&mut key, password.as_ptr(), password.len()) })?;
    let request = signed_request("alice", &key)?;
    let (bytes, size) = (request.as_ptr(), request.len());
    let (policy, mut validated) = (Policy::default(), Validated::default()); // both algorithms count
    check(unsafe { stun_types_validate_by_policy(bytes, size, &policy, &key, &mut validated) })?;
    println!("{}", hex(&request));
    if let Some(digits) = std::env::args().nth(1) {
        println!("{}", hex(&reply_to(&bytes_of(&digits)?)?));
    }
    Ok(())
}
