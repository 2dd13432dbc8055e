//! KEXINITs at every limit, and all small ones.

use crate::Case;
use crate::kex::{Fields, full, plain_fields};
use plain::{Side, Tables};

/// Each field at every limit of a name-list, each side, the other fields being accepted.
pub fn limits() -> Vec<Case> {
    let mut cases = Vec::new();
    for field in 0..10 {
        let name = plain_fields().lists[field].clone();
        for list in at_limits(&name) {
            let mut f = plain_fields();
            f.lists[field] = list;
            for side in [Side::Client, Side::Server] {
                cases.push(Case::ReadKex { tables: full(side), strict_agreed: false, payload: f.payload() });
            }
        }
        for n in [0u32, 1, 16384, 16385, 1 << 20, (1 << 20) + 1, 0x7FFF_FFFF, 0x8000_0000, 0xFFFF_FFFF] {
            let mut payload = plain_fields().payload();
            let at = 17 + plain_fields().lists[..field].iter().map(|l| 4 + l.len()).sum::<usize>();
            payload[at..at + 4].copy_from_slice(&n.to_be_bytes());
            cases.push(Case::ReadKex { tables: full(Side::Server), strict_agreed: false, payload });
        }
    }
    for side in [Side::Client, Side::Server] {
        let whole = plain_fields().payload();
        for n in 0..=whole.len() {
            cases.push(Case::ReadKex { tables: full(side), strict_agreed: false, payload: whole[..n].to_vec() });
        }
        // the longest payload: a language of all that is left
        for spare in [0, 1] {
            let mut f = plain_fields();
            f.lists[9] = vec![b'x'; 262176 - whole.len() - spare];
            cases.push(Case::ReadKex { tables: full(side), strict_agreed: false, payload: f.payload() });
        }
    }
    cases
}

fn at_limits(name: &[u8]) -> Vec<Vec<u8>> {
    let mut lists = Vec::new();
    for n in [1023usize, 1024, 1025, 1026] {
        // the shared name first, n others after it: n + 1 names
        let names = [name, &b",a".repeat(n)].concat();
        for last in [&b""[..], b",", b",,", b",\xC3\xA9", b",\xFF", b",b"] {
            lists.push([&names, last].concat());
        }
        lists.push([&b"a,".repeat(n), name].concat());
    }
    for n in [16383usize, 16384, 16385, 16386] {
        let long = [name, b",", &vec![b'a'; n.saturating_sub(name.len() + 1)]].concat();
        let mut comma = long.clone();
        *comma.last_mut().expect("not empty") = b',';
        let mut bad = long.clone();
        *bad.last_mut().expect("not empty") = 0xFF;
        let mut accent = long.clone();
        accent.truncate(n - 2);
        accent.extend(b"\xC3\xA9");
        lists.extend([long, comma, bad, accent]);
    }
    lists
}

/// All lists of up to three names out of three, own and peer's: the choice itself.
pub fn small_choices() -> Vec<Case> {
    let mut cases = Vec::new();
    let every: Vec<Vec<usize>> = (0..=3)
        .flat_map(|n| (0..3usize.pow(n)).map(move |mut k| {
            (0..n)
                .map(|_| {
                    let d = k % 3;
                    k /= 3;
                    d
                })
                .collect()
        }))
        .collect();
    let peers = |pool: [&str; 3], list: &[usize]| list.iter().map(|&i| pool[i]).collect::<Vec<_>>().join(",").into_bytes();
    for own in &every {
        for peer in &every {
            for side in [Side::Client, Side::Server] {
                let read = |change: &dyn Fn(&mut Tables, &mut Fields)| {
                    let (mut t, mut f) = (full(side), plain_fields());
                    change(&mut t, &mut f);
                    Case::ReadKex { tables: t, strict_agreed: false, payload: f.payload() }
                };
                for follows in [0, 1] {
                    cases.push(read(&|t, f| {
                        t.kex = own.iter().map(|&i| [1, 2, 11][i]).collect();
                        let pool = ["curve25519-sha256", "ecdh-sha2-nistp256", "kex-strict-s-v00@openssh.com"];
                        f.lists[0] = peers(pool, peer);
                        f.follows = follows;
                    }));
                    cases.push(read(&|t, f| {
                        t.kex = own.iter().map(|&i| [1, 9, 12][i]).collect();
                        f.lists[0] = peers(["curve25519-sha256", "ext-info-c", "kex-strict-c-v00@openssh.com"], peer);
                        f.follows = follows;
                    }));
                    cases.push(read(&|t, f| {
                        (t.kex, t.key) = (vec![1], own.iter().map(|&i| [0, 4, 6][i]).collect());
                        f.lists[1] = peers(["ssh-ed25519", "ssh-rsa", "rsa-sha2-512-cert-v01@openssh.com"], peer);
                        if side == Side::Server {
                            (t.cert_kinds, t.cert_ids) = (vec![4], vec![4]);
                        } else {
                            t.certificate = vec![4];
                        }
                        f.follows = follows;
                    }));
                }
                for cipher in ["aes128-ctr", "aes256-cbc", "none", "clear", "aes256-gcm@openssh.com"] {
                    for field in [4, 5] {
                        cases.push(read(&|t, f| {
                            t.mac = own.iter().map(|&i| [0, 3, 4][i]).collect();
                            f.lists[2] = cipher.as_bytes().to_vec();
                            f.lists[4] = b"hmac-sha2-512,none".to_vec();
                            f.lists[5] = b"hmac-sha2-512,none".to_vec();
                            f.lists[field] = peers(["none", "hmac-sha2-512", "hmac-sha1"], peer);
                        }));
                    }
                }
            }
        }
    }
    cases
}

/// All strings of up to six bytes out of `a`, comma, and the two bytes of `é`, in every field.
pub fn small_lists() -> Vec<Case> {
    let mut cases = Vec::new();
    for field in 0..10 {
        for n in 0..=6u32 {
            for mut k in 0..4usize.pow(n) {
                let mut f = plain_fields();
                f.lists[field] = (0..n)
                    .map(|_| {
                        let b = [b'a', b',', 0xC3, 0xA9][k % 4];
                        k /= 4;
                        b
                    })
                    .collect();
                cases.push(Case::ReadKex { tables: full(Side::Server), strict_agreed: false, payload: f.payload() });
            }
        }
    }
    cases
}
