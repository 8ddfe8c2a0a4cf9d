//! The Rust at the commit, unchanged, with the least around it that lets it compile (oracle/README.md says each piece).

#![allow(dead_code)]

extern crate alloc;
extern crate attributes as abstract_bits;
extern crate attributes as thiserror;
extern crate self as hex;
extern crate self as num_enum;
extern crate self as ziggurat_ieee_802154;

pub use time::Instant;
use types::{Eui64, Nwk};

include!(concat!(env!("OUT_DIR"), "/given.rs"));

/// What a device is addressed by, as the crate below the tables has it.
#[derive(Debug, Clone, Copy, PartialEq, Eq)]
pub enum Ieee802154Address {
    Nwk(Nwk),
    Eui64(Eui64),
}

/// Named by types.rs for readers of frames, which no send table calls.
#[derive(Debug)]
pub enum ParseError {
    UnexpectedEnd { ty: &'static str },
    InvalidLength { ty: &'static str },
}

/// The `hex` crate's error and its one function that types.rs names; no send table reads hexadecimal digits.
#[derive(Debug)]
pub struct FromHexError;

pub fn decode_to_slice(_digits: String, _bytes: &mut [u8]) -> Result<(), FromHexError> {
    Err(FromHexError)
}

/// The `num_enum` trait behind the one setting that is an enum.
pub trait TryFromPrimitive: Sized {
    type Primitive;
    type Error;
    fn try_from_primitive(number: Self::Primitive) -> Result<Self, Self::Error>;
}

pub mod nwk {
    pub mod commands {
        /// Only the default is named; no send table asks for it.
        #[derive(Debug, Clone, Copy)]
        pub enum EndDeviceTimeout {
            Minutes256,
        }

        impl From<EndDeviceTimeout> for u8 {
            fn from(_: EndDeviceTimeout) -> Self {
                0
            }
        }

        impl crate::TryFromPrimitive for EndDeviceTimeout {
            type Primitive = u8;
            type Error = ();
            fn try_from_primitive(_: u8) -> Result<Self, ()> {
                Ok(Self::Minutes256)
            }
        }
    }
}

pub mod aps {
    pub mod frame {
        /// The fields that an ack's key is taken from.
        pub struct ApsAckFrame {
            pub destination_endpoint: Option<u8>,
            pub cluster_id: Option<u16>,
            pub profile_id: Option<u16>,
            pub source_endpoint: Option<u8>,
            pub counter: u8,
        }
    }
}
