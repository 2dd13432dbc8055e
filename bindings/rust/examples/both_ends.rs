//! Both ends of a connection on the default tables: each writes its first packet, each reads the other's, and what they
//! settle on is printed name by name. In a real program the two ends are two machines, the packets go through a socket, and
//! the cookies come from the system's random numbers.
//!
//!     bindings/example.sh rust       or, in the crate's folder,
//!     cargo run --offline --example both_ends

use harupesat::{Counters, Frame, KEXINIT_ROOM, KeyKind, Names, PACKET_ROOM, Tables, read_packet, write_packet};
use std::error::Error;

/// A side's first packet: its KEXINIT, framed.
fn first_packet(side: &Tables, cookie: &[u8; 16]) -> Result<Vec<u8>, Box<dyn Error>> {
    let mut payload = [0; KEXINIT_ROOM];
    let mut packet = [0; KEXINIT_ROOM + PACKET_ROOM];
    let kexinit = side.write_kex(cookie, &mut payload)?;
    let sealed = write_packet(kexinit, Counters::default(), &mut packet)?;
    Ok(sealed.packet.to_vec())
}

/// What a side settles on when the peer's first packet has come. A socket's reader would read on at a need.
fn settle(side: &Tables, bytes: &[u8]) -> Result<Names, Box<dyn Error>> {
    match read_packet(bytes, Counters::default())? {
        Frame::Need(n) => Err(format!("{n} bytes are needed, {} are there", bytes.len()).into()),
        Frame::Packet(packet) => Ok(side.read_kex(false, packet.payload)?),
    }
}

fn yes(flag: bool) -> &'static str {
    if flag { "yes" } else { "no" }
}

fn print(side: &str, names: &Names) {
    println!("{side}");
    println!("  {:22}{}", "kex", names.kex);
    println!("  {:22}{}", "host key", names.host_key());
    println!("  {:22}{}", "cipher", names.cipher);
    println!("  {:22}{}", "MAC to server", names.client_mac);
    println!("  {:22}{}", "MAC to client", names.server_mac);
    println!("  {:22}{}", "compression to server", names.client_compression);
    println!("  {:22}{}", "compression to client", names.server_compression);
    println!("  {:22}{}", "strict kex", yes(names.strict_kex));
    println!("  {:22}{}", "ignore the guess", yes(names.ignore_guessed));
}

fn main() -> Result<(), Box<dyn Error>> {
    let client = Tables::client();
    // one host key, which this program knows as number 1
    let server = Tables::server().key_row(KeyKind::Ed25519, 1);
    let from_client = first_packet(&client, b"not random: one.")?;
    let from_server = first_packet(&server, b"not random: two.")?;
    let (client_names, server_names) = (settle(&client, &from_server)?, settle(&server, &from_client)?);
    print("client", &client_names);
    print("server", &server_names);
    if client_names != server_names {
        return Err("the two ends differ".into());
    }
    println!("both ends agree");
    Ok(())
}
