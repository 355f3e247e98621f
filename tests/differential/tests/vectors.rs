//! The independent reader's vectors, put to the proved library.

extern crate differential as reader;

#[path = "../../reader/tests/vectors/cuts.rs"]
mod cuts;
#[path = "../../reader/tests/vectors/edges.rs"]
mod edges;
#[path = "../../reader/tests/vectors/environment.rs"]
mod environment;
#[path = "../../reader/tests/vectors/examples.rs"]
mod examples;
#[path = "../../reader/tests/vectors/floats.rs"]
mod floats;
#[path = "../../reader/tests/vectors/groups.rs"]
mod groups;
#[path = "../../reader/tests/vectors/indicators.rs"]
mod indicators;
#[path = "../../reader/tests/vectors/limits.rs"]
mod limits;
#[path = "../../reader/tests/vectors/packed.rs"]
mod packed;
#[path = "../../reader/tests/vectors/parts.rs"]
mod parts;
#[path = "../../reader/tests/vectors/rows.rs"]
mod rows;
#[path = "../../reader/tests/vectors/support.rs"]
mod support;
#[path = "../../reader/tests/vectors/values.rs"]
mod values;
