//! The Rust, unchanged: five modules from the papers' source (build.rs) and the re-exports that they name as
//! `crate::..`. `leaves` reaches the private parts of tstd.rs and pes.rs.
#![allow(dead_code)]

include!(concat!(env!("OUT_DIR"), "/oracle.rs"));

pub use error::TsError;
pub use packet::{AdaptationField, TS_PACKET_LEN, TsPacket};
pub use tstd_leaves::leaves;
