//! The peer, where it is at hand (build.rs): the call, and its parts one by one.

/// What the benchmark times of a peer; `count` turns of a part.
#[allow(dead_code)] // where no peer is at hand
#[derive(Clone, Copy)]
pub struct Peer {
    pub answer: fn(&[u8], &[u8], &mut [u8]) -> u64,
    pub open: fn(&[u8]) -> bool,
    pub tables: fn(&[u8], usize, f64, u64),
    pub excess: fn(&[u8], usize, f64, &[f64; 8], u64),
    pub pures: fn(&[u8], usize, f64, u64),
}

#[cfg(peer)]
#[allow(dead_code, clippy::all)]
mod nrtl {
    include!(concat!(env!("OUT_DIR"), "/peer.rs"));
    include!("parts.rs");
}

#[cfg(peer)]
#[allow(dead_code, clippy::all)]
mod wilson {
    include!(concat!(env!("OUT_DIR"), "/peer_wilson.rs"));
    include!("parts.rs");
    include!("wilson.rs");
}

#[cfg(peer)]
pub const NRTL: Option<Peer> = Some(nrtl::PEER);
#[cfg(peer)]
pub const WILSON: Option<Peer> = Some(wilson::PEER);
#[cfg(not(peer))]
pub const NRTL: Option<Peer> = None;
#[cfg(not(peer))]
pub const WILSON: Option<Peer> = None;
