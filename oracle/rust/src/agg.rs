//! The folder of link_int.rs and task.rs.

pub(crate) mod link_int;
pub(crate) mod task;
