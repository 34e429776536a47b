//! Stands in for serde and serialises nothing. Its only use is to switch on
//! `cfg(feature = "serde")`, under which the given files declare the child
//! modules that hold the doors. It must let the two impls of store/id.rs and
//! every `derive` of the given files compile.

pub use fake_serde_derive::{Deserialize, Serialize};

pub trait Serializer {
    type Ok;
    type Error;
    fn serialize_u32(self, value: u32) -> Result<Self::Ok, Self::Error>;
}

pub trait Serialize {
    fn serialize<S: Serializer>(&self, serializer: S) -> Result<S::Ok, S::Error>;
}

pub trait Deserializer<'de> {
    type Error;
    fn read_u32(self) -> Result<u32, Self::Error>;
}

pub trait Deserialize<'de>: Sized {
    fn deserialize<D: Deserializer<'de>>(deserializer: D) -> Result<Self, D::Error>;
}

impl<'de> Deserialize<'de> for u32 {
    fn deserialize<D: Deserializer<'de>>(deserializer: D) -> Result<Self, D::Error> {
        deserializer.read_u32()
    }
}
