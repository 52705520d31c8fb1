//! A second reading of the rules of the journal join (document 01), slow and
//! literal, which shares nothing with the first and which joinfeed is compared
//! with on many feeds. It also makes those feeds, and turns text lines into a
//! feed and a feed into text lines.

#[cfg(test)]
mod bench;
pub mod bundle;
pub mod chance;
pub mod count;
pub mod joinfeed;
pub mod make;
pub mod records;
pub mod refusal;
pub mod rules;
pub mod text;
