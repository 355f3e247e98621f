//! Tables of descriptors and blocks with what the reader has to say of them.

mod cuts;
mod edges;
mod environment;
mod examples;
mod floats;
mod generator;
mod groups;
mod indicators;
mod limits;
mod packed;
mod parts;
mod rows;
mod support;
mod values;
