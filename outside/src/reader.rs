//! The second reader: rules 1 to 26 of document 01, with rule 27 of request
//! C-11, rule 29 of request C-12, the minor revisions of request C-13 and rule 28
//! of request C-14, and every call, over a plain run of bytes. It is written to be
//! compared with the words of the documents, not to be fast: all sums are
//! whole-number sums in u64.
//!
//! `tables` holds the table for tags, that of a mask and the one for keys;
//! `directory` rules 1 to 8 and 27; `tags` 9 to 12; `pieces` 13 and 14; `keys` 15
//! to 19; `ground` 20 to 22; `examine` all of them in order, the image's and then
//! the mask's; `reading` the reading list; `fetches` where the words of the pieces
//! stand, and how often they may be read; `block` the key block; `calls` the calls.

mod block;
mod calls;
pub mod clauses;
mod directory;
mod examine;
mod fetches;
mod ground;
mod keys;
mod number;
mod pieces;
mod reading;
pub mod tables;
mod tags;
mod variety;
mod verdict;

pub use block::{read_block, read_block_by, read_block_clause, ReadBack};
pub use calls::{
    citation, citation_clause, judge, judge_by, judge_clause, key_block, key_block_by,
    key_block_clause, key_rows, key_rows_clause, metadata, metadata_clause, texts, Block, Cited,
    Judged, Row, Text,
};
pub use directory::{families, leads_on, several_texts};
pub use fetches::{word_runs, WordRun};
pub use ground::Georeference;
pub use number::Order;
pub use reading::{listed, reading_list, reading_list_by};
pub use variety::{varieties, VARIETIES};
pub use verdict::{judgements, judgements_by, Verdict};
