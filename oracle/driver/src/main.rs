//! driver: the product's answers to the line protocol, through its static library.
mod coords;
mod cubie;
mod ffi;
mod lent;
mod lines;
mod protocol;
mod solve;
mod stickers;
mod tables;
mod text;

fn main() -> std::io::Result<()> {
    wire::serve(protocol::handle)
}
