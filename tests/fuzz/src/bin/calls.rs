//! The target whose input is a list of calls.

#![no_main]

zealfs_fuzz::target!(
    zealfs_fuzz::lists::decode,
    zealfs_fuzz::check,
    zealfs_fuzz::pool::images
);
