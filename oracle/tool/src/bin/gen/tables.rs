//! The true tables: sums, the check, and entries.
use crate::Out;
use tool::rng::Rng;
use tool::tables::LENGTHS;

pub fn tables(o: &mut Out, g: &mut Rng) {
    for t in 0..10 {
        o.ask(format!("sum {t}"));
    }
    o.ask("check".to_string());
    for i in 0..LENGTHS[5] {
        o.ask(format!("entry 5 {i}"));
    }
    for (t, length) in LENGTHS.into_iter().enumerate() {
        o.ask(format!("entry {t} 0"));
        o.ask(format!("entry {t} {}", length - 1));
        for _ in 0..1200 {
            o.ask(format!("entry {t} {}", g.below(length)));
        }
    }
}
