//! The tool `loft` held to the reference: its library file is read here by the page that describes it (docs/LOFT.md), and a reel's way is
//! followed line by line over the reference's own tables. Nothing of the tool's code is used.

pub mod days;
pub mod file;
pub mod tool;
pub mod way;
