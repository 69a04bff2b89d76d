//! The target of version 2 whose input is an image.

#![no_main]

zealfs_fuzz::target!(
    zealfs_fuzz::v2::images::decode,
    zealfs_fuzz::v2::check,
    zealfs_fuzz::v2::pool::images
);
