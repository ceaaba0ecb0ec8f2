//! The crates as text: what a reviewer must believe (`closure`), and the picture of the layers (`picture`). The tests hold both against the documents.

pub mod closure;
pub mod picture;
pub mod sources;
