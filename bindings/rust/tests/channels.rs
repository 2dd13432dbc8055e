//! Channel opening: each type with its fields, the confirmation, the failure.

mod peer;

use harupesat::{ChannelOpen, ChannelType, Confirmation, Refusal, TcpChannelInfo, fail, read_confirmation, read_open};
use peer::{field_at, string};

/// sender 1, window 2, maximum packet 3
const OFFER: [u8; 12] = [0, 0, 0, 1, 0, 0, 0, 2, 0, 0, 0, 3];

fn body(typ: &str, fields: &[&[u8]]) -> Vec<u8> {
    [&string(typ.as_bytes())[..], &OFFER, &fields.concat()].concat()
}

fn tcp() -> (Vec<u8>, TcpChannelInfo<'static>) {
    let fields = [&string("dépôt".as_bytes())[..], &[0, 0, 0, 22], &string(b"::1"), &[0, 1, 0, 0]].concat();
    let info = TcpChannelInfo {
        host_to_connect: "dépôt",
        port_to_connect: 22,
        originator_address: "::1",
        originator_port: 65_536,
    };
    (fields, info)
}

#[test]
fn every_type() {
    let (fields, info) = tcp();
    let (path, reserved) = (string(b"/run/s"), string(b""));
    for (body, typ) in [
        (body("session", &[]), ChannelType::Session),
        (
            body("x11", &[&string(b"::1"), &[0, 0, 0x17, 0x70]]),
            ChannelType::X11 { originator_address: "::1", originator_port: 6000 },
        ),
        (body("direct-tcpip", &[&fields]), ChannelType::DirectTcpip(info)),
        (
            body("direct-streamlocal@openssh.com", &[&path, &reserved, &[0; 4]]),
            ChannelType::DirectStreamLocal { socket_path: "/run/s" },
        ),
        (body("forwarded-tcpip", &[&fields]), ChannelType::ForwardedTcpip(info)),
        (
            body("forwarded-streamlocal@openssh.com", &[&path, &reserved]),
            ChannelType::ForwardedStreamLocal { socket_path: "/run/s" },
        ),
        (body("auth-agent@openssh.com", &[]), ChannelType::AgentForward),
        (body("tün", &[b"\xFFrest"]), ChannelType::Unknown { typ: "tün", rest: b"\xFFrest" }),
        (body("", &[]), ChannelType::Unknown { typ: "", rest: b"" }),
    ] {
        let open = ChannelOpen { typ, recipient_channel: 1, recipient_window_size: 2, recipient_maximum_packet_size: 3 };
        assert_eq!(read_open(&body), Ok(open));
    }
}

#[test]
fn a_known_type_ends_with_its_fields() {
    let (fields, _) = tcp();
    let whole = body("direct-tcpip", &[&fields]);
    let starts = [0, 16, 20, 24, 28, 39, 43, 50];
    for cut in 0..whole.len() {
        assert_eq!(read_open(&whole[..cut]), Err(Refusal::PastEnd.at(field_at(&starts, cut))), "{cut} bytes");
    }
    assert_eq!(read_open(&[&whole[..], &[0]].concat()), Err(Refusal::Trailing.at(54)));
}

#[test]
fn confirmation() {
    let body = [&[0, 0, 0, 9][..], &OFFER, b"later bytes"].concat();
    let confirmation =
        Confirmation { recipient_channel: 9, sender_channel: 1, initial_window_size: 2, maximum_packet_size: 3 };
    assert_eq!(read_confirmation(&body), Ok(confirmation));
}

#[test]
fn failure() {
    let mut out = [0; 19 + 1024];
    let text = [0xFF; 1024];
    let payload = [&[92, 1, 2, 3, 4, 0, 0, 0, 255][..], &string(&text), &string(b"en")].concat();
    assert_eq!(fail(0x01020304, 255, &text, &mut out), Ok(&payload[..]));
}
