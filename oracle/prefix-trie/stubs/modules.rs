// The crate's modules, as its own root would name them. Much of their text is unused here.
#[allow(dead_code)]
mod aggregate;
#[allow(dead_code)]
mod allocator;
#[allow(dead_code)]
mod map;
#[allow(dead_code)]
mod node;
#[allow(dead_code)]
mod prefix;
#[allow(dead_code)]
mod table;
