//! The places of fields, worked out by hand as in bindings/c/test/layout.c.

use crate::ffi::*;
use std::mem::offset_of;

macro_rules! layouts {
    ($($name:ident $size:literal { $($field:ident $place:literal)* })*) => {
        #[test]
        fn every_field_stands_where_the_header_has_it() {
            $(
                $(assert_eq!(offset_of!($name, $field), $place, "{}.{}", stringify!($name), stringify!($field));)*
                assert_eq!(size_of::<$name>(), $size, "{}", stringify!($name));
            )*
        }
    };
}

layouts! {
    Frame 72 { what 0 number 1 offset 8 need 16 start 24 len 32 end 40 taken 48 seqn 56 bytes 64 }
    Sealed 32 { what 0 number 1 len 8 seqn 16 bytes 24 }
    Written 16 { what 0 number 1 len 8 }
    Names 32 {
        what 0 number 1 offset 8 kex 16 key 17 cipher 18 client_mac 19 server_mac 20 client_compression 21
        server_compression 22 host_key_is_certificate 23 ignore_guessed 24 strict_kex 25
    }
    Open 96 {
        what 0 number 1 offset 8 typ 16 recipient_channel 20 recipient_window_size 24 recipient_maximum_packet_size 28
        text_start 32 text_len 40 port 48 originator_start 56 originator_len 64 originator_port 72 rest_start 80
        rest_len 88
    }
    Confirmation 32 {
        what 0 number 1 offset 8 recipient_channel 16 sender_channel 20 initial_window_size 24 maximum_packet_size 28
    }
    Shown 32 { what 0 number 1 offset 8 start 16 len 24 }
    Found 3 { what 0 number 1 value 2 }
    Flag 3 { what 0 number 1 value 2 }
}
