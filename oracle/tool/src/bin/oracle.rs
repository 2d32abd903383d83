//! oracle: kewb's answers to the line protocol.
use tool::protocol::{handle, State};

fn main() -> std::io::Result<()> {
    let mut state = State::default();
    wire::serve(|line| handle(&mut state, line))
}
