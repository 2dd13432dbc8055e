//! The names that there are, as constants. Numbers and spellings are compared with the library's below.

use crate::name::{CertificateName, CipherName, CompressionName, KexName, KeyName, MacName, Name};

macro_rules! names {
    ($($kind:ident { $($name:ident $number:literal $spelling:literal)* })*) => {
        $(impl $kind {$(
            #[doc = concat!("`", $spelling, "`")]
            pub const $name: $kind = Name::numbered($number);
        )*})*

        #[cfg(test)]
        mod tests {
            use super::*;

            #[test]
            fn every_constant_is_the_name_it_says() {
                $($(assert_eq!($spelling.parse::<$kind>(), Ok($kind::$name));)*)*
            }

            #[test]
            fn every_name_is_a_constant() {
                $(assert_eq!($kind::all().collect::<Vec<_>>(), [$($kind::$name),*]);)*
            }
        }
    };
}

names! {
    KexName {
        MLKEM768X25519_SHA256 0 "mlkem768x25519-sha256"
        CURVE25519_SHA256 1 "curve25519-sha256"
        CURVE25519_SHA256_LIBSSH 2 "curve25519-sha256@libssh.org"
        DH_GROUP_EXCHANGE_SHA256 3 "diffie-hellman-group-exchange-sha256"
        DH_GROUP18_SHA512 4 "diffie-hellman-group18-sha512"
        DH_GROUP17_SHA512 5 "diffie-hellman-group17-sha512"
        DH_GROUP16_SHA512 6 "diffie-hellman-group16-sha512"
        DH_GROUP15_SHA512 7 "diffie-hellman-group15-sha512"
        DH_GROUP14_SHA256 8 "diffie-hellman-group14-sha256"
        EXT_INFO_C 9 "ext-info-c"
        EXT_INFO_S 10 "ext-info-s"
        KEX_STRICT_C 11 "kex-strict-c-v00@openssh.com"
        KEX_STRICT_S 12 "kex-strict-s-v00@openssh.com"
    }
    KeyName {
        SSH_ED25519 0 "ssh-ed25519"
        ECDSA_SHA2_NISTP256 1 "ecdsa-sha2-nistp256"
        ECDSA_SHA2_NISTP384 2 "ecdsa-sha2-nistp384"
        ECDSA_SHA2_NISTP521 3 "ecdsa-sha2-nistp521"
        RSA_SHA2_512 4 "rsa-sha2-512"
        RSA_SHA2_256 5 "rsa-sha2-256"
        SSH_RSA 6 "ssh-rsa"
    }
    CertificateName {
        SSH_ED25519 0 "ssh-ed25519-cert-v01@openssh.com"
        ECDSA_SHA2_NISTP256 1 "ecdsa-sha2-nistp256-cert-v01@openssh.com"
        ECDSA_SHA2_NISTP384 2 "ecdsa-sha2-nistp384-cert-v01@openssh.com"
        ECDSA_SHA2_NISTP521 3 "ecdsa-sha2-nistp521-cert-v01@openssh.com"
        RSA_SHA2_512 4 "rsa-sha2-512-cert-v01@openssh.com"
        RSA_SHA2_256 5 "rsa-sha2-256-cert-v01@openssh.com"
        SSH_RSA 6 "ssh-rsa-cert-v01@openssh.com"
    }
    CipherName {
        CLEAR 0 "clear"
        NONE 1 "none"
        AES128_CTR 2 "aes128-ctr"
        AES192_CTR 3 "aes192-ctr"
        AES256_CTR 4 "aes256-ctr"
        AES128_GCM 5 "aes128-gcm@openssh.com"
        AES256_GCM 6 "aes256-gcm@openssh.com"
        AES128_CBC 7 "aes128-cbc"
        AES192_CBC 8 "aes192-cbc"
        AES256_CBC 9 "aes256-cbc"
        CHACHA20_POLY1305 10 "chacha20-poly1305@openssh.com"
    }
    MacName {
        NONE 0 "none"
        HMAC_SHA2_512_ETM 1 "hmac-sha2-512-etm@openssh.com"
        HMAC_SHA2_256_ETM 2 "hmac-sha2-256-etm@openssh.com"
        HMAC_SHA2_512 3 "hmac-sha2-512"
        HMAC_SHA2_256 4 "hmac-sha2-256"
    }
    CompressionName {
        NONE 0 "none"
    }
}
