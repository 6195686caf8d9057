//! A group member of G-IKEv2 (RFC 9838) in plain Rust, written from document 01 and the RFCs, to hold the proved member against.
//!
//! One file a matter: `aes` and `keywrap` (FIPS 197, RFC 5649), `octets` and `layout` (refusal 1), `judging` (2 to 7), `reach` (8 and 9),
//! `member` (what a member is, and what it is after a frame), `gcm` and `sealing` (SP 800-38D, RFC 5282; refusal 10), `fragments`
//! (RFC 7383; document 02, T-12), `journal` (T-13), `text`, `trace` and `rooms` (standard input and output of the programs).

pub mod aes;
pub mod fragments;
pub mod gcm;
pub mod journal;
pub mod judging;
pub mod keywrap;
pub mod layout;
pub mod member;
pub mod octets;
pub mod reach;
mod rooms;
pub mod sealing;
pub mod text;
pub mod trace;
