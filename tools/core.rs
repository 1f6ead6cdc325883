// The items of the core library whose kinds are carried, at the paths that they have there. `tools/facts.py` reads them
// where a crate names one. They are declarations of our own: what a definition says of its types, and nothing else.
#![feature(no_core)]
#![no_core]

pub mod option {
    pub enum Option<T> {
        None,
        Some(T),
    }
}

pub mod result {
    pub enum Result<T, E> {
        Ok(T),
        Err(E),
    }
}
