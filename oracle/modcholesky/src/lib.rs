//! The listed Rust files, as build.rs patches them. They aren't part of this repository.

#![allow(clippy::all)]

pub mod standins;
mod watched;

include!(concat!(env!("OUT_DIR"), "/lib.rs"));
