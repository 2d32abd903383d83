//! Move text, and inputs of the paper's program.
use crate::Out;
use tool::make::any_list;
use tool::make::programs::{long_inputs, random_input, small_inputs};
use tool::make::texts::{spoil, text_of, FIXED};
use tool::rng::Rng;
use wire::{bytes_text, join};

pub fn texts(o: &mut Out, g: &mut Rng) {
    o.ask("text -".to_string());
    for m in 0..=19 {
        o.ask(format!("text {m}"));
    }
    for _ in 0..700 {
        let n = g.place(33);
        o.ask(format!("text {}", join(&any_list(g, n, 200))));
    }
    for b in FIXED {
        for room in [0, 1, 2, 31, 255] {
            o.ask(format!("parse {} {}", room, bytes_text(b)));
        }
    }
    for _ in 0..1500 {
        let n = g.place(24);
        let mut text = text_of(g, n);
        (0..g.pick(&[0, 0, 1, 2])).for_each(|_| spoil(g, &mut text));
        let room = match g.below(4) {
            0 => g.place(26),
            1 => n,
            2 => n.saturating_sub(1),
            _ => 255,
        };
        o.ask(format!("parse {} {}", room, bytes_text(&text)));
    }
}

pub fn programs(o: &mut Out, g: &mut Rng) {
    let mut inputs = small_inputs();
    inputs.extend(long_inputs());
    inputs.extend((0..600).map(|_| random_input(g)));
    for text in inputs {
        o.ask(format!("program {}", bytes_text(&text)));
    }
}
