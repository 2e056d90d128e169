//! The crate's own files, unchanged, below srt-protocol/ (a link that bin/oracle.sh makes), with a stand-in for what
//! is not at hand.
#![allow(dead_code, unused_imports, deprecated, clippy::all)]

#[path = "srt-protocol/options"]
pub mod options {
    mod srt_version;
    mod units;
    pub use srt_version::*;
    pub use units::*;

    /// A stand-in: the file that has it is not at hand, and nothing that is compared reads it.
    #[derive(Debug, Default, Clone, Copy, PartialEq, Eq)]
    pub enum KeySize {
        #[default]
        Unspecified,
        Words(u16),
    }
    impl KeySize {
        pub fn as_raw(self) -> u16 {
            match self {
                KeySize::Unspecified => 0,
                KeySize::Words(n) => n,
            }
        }
    }
    impl TryFrom<u16> for KeySize {
        type Error = u16;
        fn try_from(value: u16) -> Result<Self, u16> {
            Ok(KeySize::Words(value))
        }
    }
}

#[path = "srt-protocol/protocol"]
pub mod protocol {
    pub mod time {
        mod rtt;
        pub use rtt::*;
    }
}

#[path = "srt-protocol/packet/mod.rs"]
pub mod packet;

/// loss_compression.rs once more, since packet/control keeps it to itself.
#[path = "srt-protocol/packet/control"]
pub mod loss {
    use crate::packet::SeqNumber;
    pub mod loss_compression;
}
