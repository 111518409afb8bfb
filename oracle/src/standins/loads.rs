//! Block loads in the order in which they happen.

use std::cell::RefCell;

use super::bytes::OwnedBytes;

/// A block decoded: whose, as a place in the query, and which, from 0. The tail counts as a block.
#[derive(Clone, Copy, Debug, PartialEq, Eq)]
pub struct Load {
    pub position: u32,
    pub block: u32,
}

thread_local! {
    static LOADS: RefCell<Vec<Load>> = const { RefCell::new(Vec::new()) };
}

/// Called by the patched `load_block` with the number of documents before the block.
#[cfg_attr(feature = "unrecorded", allow(dead_code))]
pub fn record(data: &OwnedBytes, documents_before: u32) {
    let load = Load { position: data.tag(), block: documents_before / 128 };
    LOADS.with(|loads| loads.borrow_mut().push(load));
}

/// The loads since the last call.
pub fn take() -> Vec<Load> {
    LOADS.with(|loads| loads.take())
}
