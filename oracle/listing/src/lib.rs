//! The listing of imap-proto 0.17.0 as build.rs made it ready, and `reach`, which hands out the functions of the 25 rules.
#![allow(dead_code)]

include!(concat!(env!("OUT_DIR"), "/lib.rs"));

pub mod reach;
