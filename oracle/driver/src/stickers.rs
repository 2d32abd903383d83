//! Step "stickers": both readers and the picture.
use crate::ffi;
use crate::lines::{cube_line, line};
use wire::Args;

pub fn read(args: &Args) -> Option<String> {
    cube_line(ffi::read_plain(&args.bytes()?))
}

pub fn strict(args: &Args) -> Option<String> {
    cube_line(ffi::read_strict(&args.bytes()?))
}

pub fn picture(args: &Args) -> Option<String> {
    line(ffi::picture(&args.cube(0)?), |letters| String::from_utf8_lossy(&letters).into_owned())
}
