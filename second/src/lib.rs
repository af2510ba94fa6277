//! The second program: document 01 and its amendments read afresh on plain
//! lists, a generator of cases, and a comparison of every host call with the
//! library.

pub mod case;
pub mod compare;
pub mod form_faults;
pub mod form_sights;
#[cfg(test)]
mod form_slips;
pub mod full_size;
pub mod gen;
pub mod host_calls;
pub mod long_closing;
pub mod phrase_faults;
pub mod plain;
pub mod screen_calls;
pub mod screen_case;
pub mod screen_faults;
pub mod screen_sights;
#[cfg(test)]
mod screen_slips;
pub mod screen_text;
pub mod seek_sights;
pub mod sights;
#[cfg(test)]
mod slips;
pub mod stored;
pub mod stream_calls;
pub mod stream_case;
pub mod stream_faults;
pub mod stream_sights;
#[cfg(test)]
mod stream_slips;
pub mod stream_text;
pub mod tally;
pub mod text;
