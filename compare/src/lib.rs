//! A reference for the two transport ends of document 01 and for the requests of document 02, made
//! apart from the product and from the documents alone. Each file names the chapter or the request
//! that it follows; a few words in double quotes are document 01's, and Chinese ones the cells of
//! 001's tables.

pub mod agreement;
pub mod packs;
pub mod reference;
pub mod sessions;
pub mod summary;
