//! Second implementation of the mesh book, the plan and the recovery machine,
//! and the corpus that compares implementations.

pub mod arcs;
pub mod bench;
pub mod book;
pub mod case;
pub mod collection;
pub mod corpus;
pub mod digest;
pub mod drill;
pub mod ducts;
pub mod entries;
pub mod listing;
pub mod mesh;
pub mod meshplan;
pub mod node_set;
pub mod old_session;
pub mod plain_plan;
pub mod plain_survey;
pub mod plan;
pub mod programs;
pub mod random;
pub mod reader;
pub mod record;
pub mod refusal;
pub mod script;
pub mod session;
pub mod sorting;
pub mod survey;
pub mod table;
pub mod timing;
pub mod tree;
pub mod two_pass_plan;
pub mod upgrade;
pub mod walks;
