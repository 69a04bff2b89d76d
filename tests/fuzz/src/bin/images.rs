//! The target whose input is an image.

#![no_main]

zealfs_fuzz::target!(
    zealfs_fuzz::images::decode,
    zealfs_fuzz::check,
    zealfs_fuzz::pool::images
);
