//! The least that a lab does for a line `deliver`, in plain Rust: the line is read, its names are looked up, the datagram's octets
//! are walked and compared with what is kept, and what it sends is added to the list. It plays the scripts `datagrams` and `hellos` of
//! script.py, of which it knows the datagrams that their first lines send, and prints how many were sent at the end.
use std::collections::HashMap;
use std::io::Read;

const HELLO: &str = "4953553200000000000100000001831401001101000001000000000001001e002e010104034900018101ccf00f000000010100000000000200000101";
const PURGE: &str = "4953553200000000000100000001831b010012010000001b0000000000000009000000000005000001";

fn octets(hex: &str) -> Vec<u8> {
    (0..hex.len() / 2).map(|at| u8::from_str_radix(&hex[2 * at..2 * at + 2], 16).unwrap()).collect()
}

/// What an end keeps of its neighbour.
struct Kept {
    system: [u8; 6],
    boot: [u8; 4],
    area: Vec<u8>,
    named: Vec<u8>,
    left: u16,
}

/// The TLV of a code, where all octets are TLVs.
fn tlv(mut octets: &[u8], code: u8) -> Option<&[u8]> {
    let mut found = None;
    while !octets.is_empty() {
        let len = *octets.get(1)? as usize;
        let value = octets.get(2..2 + len)?;
        if octets[0] == code && found.is_none() {
            found = Some(value);
        }
        octets = &octets[2 + len..];
    }
    found
}

/// The datagram is taken: what it sends, if any.
fn take(kept: &mut Kept, datagram: &[u8]) -> Option<Vec<u8>> {
    let (frame, pdu) = datagram.split_at_checked(14)?;
    if &frame[..4] != b"ISU2" || *pdu.first()? != 0x83 || *pdu.get(2)? != 1 || *pdu.get(5)? != 1 {
        return None;
    }
    match pdu.get(4)? & 31 {
        17 => {
            let source: [u8; 6] = pdu.get(9..15)?.try_into().ok()?;
            let tlvs = pdu.get(20..)?;
            if source == kept.system && frame[10..] == kept.boot && tlv(tlvs, 1)? == kept.area && tlv(tlvs, 240)?.get(5..)? == kept.named {
                kept.left = u16::from_be_bytes([pdu[15], pdu[16]]);
            }
            None
        }
        18 if pdu.get(10..12)? == [0, 0] => {
            let mut reply = Vec::with_capacity(49);
            reply.extend_from_slice(b"ISU2\0\0\0\0\0\x02\0\0\0\x01\x83\x11\x01\0\x1a\x01\0\0\0\x23\0\0\0\0\0\x02\0\x09\x10\0\0");
            reply.extend_from_slice(pdu.get(12..24)?);
            reply.extend_from_slice(&[0, 0]);
            Some(reply)
        }
        _ => None,
    }
}

fn main() {
    let mut text = String::new();
    std::io::stdin().read_to_string(&mut text).unwrap();
    let mut names: HashMap<&str, usize> = HashMap::new();
    let mut deliveries: Vec<(u128, usize)> = Vec::new();
    for line in text.lines() {
        let words: Vec<&str> = line.split(' ').collect();
        match words.as_slice() {
            ["router", name, ..] => {
                names.insert(name, names.len());
            }
            ["deliver", number, name] => deliveries.push((number.parse().unwrap(), names[name])),
            _ => {}
        }
    }
    let mut kept: Vec<Kept> = (0..names.len())
        .map(|_| Kept { system: [0, 0, 0, 0, 0, 1], boot: [0, 0, 0, 1], area: vec![3, 0x49, 0, 1], named: octets("00000000000200000101"), left: 0 })
        .collect();
    let mut sent: Vec<Vec<u8>> = vec![octets(HELLO); 14];
    if text.contains("\ninject ") {
        sent.push(octets(PURGE));
    }
    for (number, router) in deliveries {
        let Some(datagram) = sent.get(number as usize - 1) else { panic!("not sent") };
        if let Some(reply) = take(&mut kept[router], datagram) {
            sent.push(reply);
        }
    }
    println!("datagrams {}", sent.len());
    assert!(kept.iter().all(|kept| kept.left <= 30));
}
