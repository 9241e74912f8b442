//! The oracle: darwinscope's files as published, with stubs for the modules that are not among them.
#![allow(dead_code)]

pub mod binary;
pub mod swift;
pub mod util;
