//! The rows of docs/DIFFERENCES.md, each with as small an input as shows it, and the answer that the row says. Rows of C
//! and R hold for the Rust too, so the oracle answers; rows of X are ours alone, and `door::differences` runs the Rust's
//! side. Not here: C8, R9 and D1, which no input of this size shows, and C9 and X3, about a state that we do not have.

use crate::question::Question;
use cases::beyond::Beyond;
use cases::kex::{Fields, full};
use cases::named::Named;
use cases::{Case, lines};
use plain::{Counters, Side, Tables};

const ZERO: Counters = Counters { seqn: 0, bytes: 0 };

/// the packet of an empty payload; of one byte, at the end of the byte count; a failure with reason 255; one whose text is FF
const EMPTY: &str = r#"ok "\00\00\00\0c\0b\00\00\00\00\00\00\00\00\00\00\00" 1 0"#;
const LAST: &str = r#"ok "\00\00\00\0c\0a\00\00\00\00\00\00\00\00\00\00\00" 1 18446744073709551615"#;
const REASON_255: &str = r#"ok "\5c\00\00\00\00\00\00\00\ff\00\00\00\00\00\00\00\02en""#;
const FAILED: &str = r#"ok "\5c\00\00\00\00\00\00\00\00\00\00\00\01\ff\00\00\00\02en""#;

pub struct Row {
    pub row: &'static str,
    pub question: Question,
    /// the answer, as a line says it
    pub says: &'static str,
}

fn case(row: &'static str, case: Case, says: &'static str) -> Row {
    Row { row, question: Question::Case(case), says }
}

fn beyond(row: &'static str, beyond: Beyond, says: &'static str) -> Row {
    Row { row, question: Question::Beyond(beyond), says }
}

fn unknown(row: &'static str, kind: u8, name: &str) -> Row {
    Row { row, question: Question::Named(Named::Lookup { kind, name: name.into() }), says: r#"ok """# }
}

/// a client that prefers the shortest names
fn least(side: Side) -> Tables {
    let (key_kinds, key_ids) = match side {
        Side::Client => (vec![], vec![]),
        Side::Server => (vec![4], vec![0]),
    };
    Tables {
        side,
        kex: vec![1],
        key: vec![6],
        certificate: vec![],
        cipher: vec![1],
        mac: vec![],
        compression: vec![0],
        key_kinds,
        key_ids,
        cert_kinds: vec![],
        cert_ids: vec![],
    }
}

/// the shortest payload that both such sides accept
fn fields() -> Fields {
    let lists = ["curve25519-sha256", "ssh-rsa", "none", "", "", "", "none", "none", "", ""];
    Fields { lists: lists.map(|l| l.into()), follows: 0, reserved: 0, tail: vec![] }
}

fn kexinit(row: &'static str, tables: Tables, change: impl Fn(&mut Fields), says: &'static str) -> Row {
    let mut f = fields();
    change(&mut f);
    case(row, Case::ReadKex { tables, strict_agreed: false, payload: f.payload() }, says)
}

/// a payload that ends after its first list: what is said of that list, or of no shared name in it
fn first_list(row: &'static str, list: &[u8], says: &'static str) -> Row {
    let payload = [&[0; 17][..], &(list.len() as u32).to_be_bytes(), list].concat();
    case(row, Case::ReadKex { tables: least(Side::Client), strict_agreed: false, payload }, says)
}

fn packet(row: &'static str, bytes: &[u8], says: &'static str) -> Row {
    case(row, Case::FrameRead { bytes: bytes.to_vec(), counters: ZERO }, says)
}

fn opening(row: &'static str, typ: &[u8], most: u8, more: &[u8], says: &'static str) -> Row {
    let numbers = [0, 0, 0, 0, 0, 0, 0, 0, 0, 0, 0, most];
    case(row, Case::Open { body: [&[0, 0, 0, typ.len() as u8], typ, &numbers, more].concat() }, says)
}

fn corrected() -> Vec<Row> {
    let names = |n: usize| [&b"a,".repeat(n - 1)[..], b"a"].concat();
    let guess = |f: &mut Fields| (f.lists[0], f.follows) = (b"ext-info-c,curve25519-sha256".to_vec(), 1);
    vec![
        kexinit("C1, R24", least(Side::Server), guess, "ok 1 6 1 0 0 0 0 0 1 0"),
        first_list("C2", b",", "no 3"),
        first_list("C3", b"a,", "no 10"),
        first_list("C3", b"a,,", "no 3"),
        first_list("C4", "é".as_bytes(), "no 3"),
        first_list("C5, R25", &[b'a'; 16384], "no 10"),
        first_list("C5, R25", &[b'a'; 16385], "no 2"),
        first_list("C6, R25", &names(1025), "no 10"),
        first_list("C6, R25", &names(1026), "no 2"),
        first_list("C7", &[0xFF; 16385], "no 2"),
        first_list("C7", &[&names(1025)[..], b",,"].concat(), "no 3"),
    ]
}

fn departures() -> Vec<Row> {
    let mut payload = fields().payload();
    payload[0] = 0;
    let last = payload.len() - 1;
    payload[last] = 1;
    let any = Case::ReadKex { tables: least(Side::Client), strict_agreed: false, payload };
    let mut ctr = least(Side::Client);
    (ctr.cipher, ctr.mac) = (vec![2], vec![0, 4]);
    let both = |f: &mut Fields| {
        (f.lists[2], f.lists[4]) = (b"aes128-ctr".to_vec(), b"none,hmac-sha2-256".to_vec());
    };
    let (mut extended, mut clear) = (least(Side::Server), least(Side::Client));
    (extended.kex, clear.cipher) = (vec![10, 1], vec![0]);
    let tcp = [0, 0, 0, 0, 0, 0, 0, 0, 0, 0, 0, 1, b'a', 0, 0, 0, 0];
    let path = [0, 0, 0, 1, 0xFF, 0, 0, 0, 0, 0, 0, 0, 0];
    let mut nothing = least(Side::Client);
    (nothing.kex, nothing.key, nothing.cipher, nothing.compression) = (vec![], vec![], vec![], vec![]);
    vec![
        packet("R1", &[0, 0, 0, 1, 0], r#"ok "" 5 5 1 0"#),
        packet("R2, R15", &[0, 0, 0, 0], r#"ok "" 4 4 1 0"#),
        packet("R15", &[0, 0, 0, 1, 1], r#"ok "" 4 5 1 0"#),
        case("R3", Case::FrameWrite { payload: vec![], counters: ZERO }, EMPTY),
        packet("R4", &[0, 4, 0, 0x21], "need 262181"),
        packet("R16", &[0, 4, 0, 0x1D], "need 262177"),
        first_list("R5", &[b'a'; 65], "no 10"),
        case("R6, R21", Case::Fail { recipient: 0, reason: 0, text: vec![0xFF] }, FAILED),
        opening("R7", b"", 0, &[], "no 6"),
        kexinit("R8, R12", least(Side::Client), |_| {}, "ok 1 6 1 0 0 0 0 0 0 0"),
        case("R10", any, "ok 1 6 1 0 0 0 0 0 0 0"),
        case("R11", Case::WriteKex { tables: nothing, cookie: [0; 16] }, r#"ok "\14\00*61.""#),
        kexinit("R12", ctr, both, "no 13"),
        opening("R13", "é".as_bytes(), 1, &[], r#"ok 0 0 1 unknown "\c3\a9" """#),
        opening("R17", b"", 1, &[], r#"ok 0 0 1 unknown "" """#),
        opening("R18", b"x11", 1, &[0, 0, 0, 0, 0, 1, 0, 0], r#"ok 0 0 1 x11 "" 65536"#),
        first_list("R19", b" ,\x00,\x7F,a@b@c", "no 10"),
        first_list("R19", b"curve25519-sha256\x00", "no 10"),
        kexinit("R19", least(Side::Client), |f| f.lists[0] = b"\x00,curve25519-sha256".to_vec(), "ok 1 6 1 0 0 0 0 0 0 0"),
        opening("R20", b"direct-streamlocal@openssh.com", 1, &path, "no 3"),
        opening("R20", &[0xFF], 1, &[], "no 3"),
        case("R21", Case::Fail { recipient: 0, reason: 255, text: vec![] }, REASON_255),
        opening("R22", b"direct-tcpip", 1, &tcp, r#"ok 0 0 1 direct-tcpip "" 0 "a" 0"#),
        kexinit("R23", least(Side::Client), |f| f.lists[8] = ",é,,".into(), "ok 1 6 1 0 0 0 0 0 0 0"),
        kexinit("R24", extended, |f| f.follows = 1, "ok 1 6 1 0 0 0 0 0 0 0"),
        kexinit("R26", clear, |f| f.lists[2] = b"clear".to_vec(), "ok 1 6 0 0 0 0 0 0 0 0"),
    ]
}

fn added() -> Vec<Row> {
    let read = |tables, size| Beyond::Reading(Case::ReadKex { tables, strict_agreed: false, payload: vec![0; size] });
    let fail = |text: usize, room| {
        Beyond::Writing { case: Case::Fail { recipient: 0, reason: 0, text: vec![0; text] }, room }
    };
    let sealed = |payload: usize, counters, room| {
        Beyond::Writing { case: Case::FrameWrite { payload: vec![0; payload], counters }, room }
    };
    let (mut outside, mut kinds) = (least(Side::Client), full(Side::Server));
    outside.kex = vec![13];
    (kinds.cert_kinds, kinds.cert_ids) = (vec![0], vec![1]);
    let end = Counters { seqn: 0, bytes: u64::MAX };
    vec![
        beyond("X1", sealed(1, end, 16), LAST),
        case("X2", Case::FrameWrite { payload: vec![], counters: ZERO }, EMPTY),
        packet("X4", &[0, 0, 0, 1, 2], "no 7"),
        beyond("X5, R14", read(least(Side::Client), 262177), "no 1 0"),
        beyond("X5, R14", Beyond::Reading(Case::Open { body: vec![0; 262176] }), "no 1 0"),
        beyond("X5, R14", fail(1025, 0), "no 1"),
        beyond("X5", sealed(262168, ZERO, 0), "no 4"),
        beyond("X5", fail(0, 18), "no 8"),
        beyond("X5", read(outside, 0), "no 9 0"),
        beyond("X6", Beyond::Show { bytes: vec![], start: 0, len: 1 }, "no 2 0"),
        beyond("X7", read(kinds, 0), "no 9 0"),
        unknown("X8", 0, "none"),
        unknown("X8", 0, "ecdh-sha2-nistp256"),
        unknown("X8, R27", 0, "diffie-hellman-group1-sha1"),
        unknown("X8, R27", 0, "diffie-hellman-group14-sha1"),
        unknown("X8, R27", 1, "ssh-dss"),
        unknown("X8", 1, "sk-ecdsa-sha2-nistp256@openssh.com"),
        unknown("X8", 1, "sk-ssh-ed25519@openssh.com"),
        unknown("X8, R27", 3, "3des-cbc"),
        unknown("X8, R27", 4, "hmac-sha1"),
        unknown("X8", 4, "hmac-sha1-etm@openssh.com"),
        unknown("X8", 5, "zlib"),
        unknown("X8", 5, "zlib@openssh.com"),
        beyond("X9", read(least(Side::Client), 17), "no 2 17"),
    ]
}

/// Prints each row with its input and answer; whether each is as the row says, whoever answers.
pub fn hold() -> bool {
    let rows = [corrected(), departures(), if cfg!(library) { added() } else { vec![] }];
    let mut right = true;
    for Row { row, question, says } in rows.into_iter().flatten() {
        let (_, answer, voices) = question.asked();
        let same = voices.iter().all(|v| answer.given_by(&v.answer)) && lines::answer(&answer) == says;
        let line = shortened(question.line());
        println!("  {}{row:8} {line} = {}", if same { "" } else { "NOT SO: " }, lines::answer(&answer));
        right &= same;
    }
    right
}

/// a list of a thousand names, but for its ends
fn shortened(line: String) -> String {
    if line.len() < 400 { line } else { format!("{} .. {}", &line[..80], &line[line.len() - 12..]) }
}
