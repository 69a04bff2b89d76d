//! The target of version 2 whose input is a list of calls.

#![no_main]

zealfs_fuzz::target!(
    zealfs_fuzz::v2::lists::decode,
    zealfs_fuzz::v2::check,
    zealfs_fuzz::v2::pool::images
);
