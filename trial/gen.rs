//! `gen KIND SEED COUNT`: streams for trials, the same for the same seed. See README.md.

mod arcs;
mod axes;
mod damage;
mod gen_arc;
mod gen_arc_host;
mod gen_ask;
mod gen_calls;
mod gen_chain;
mod gen_fault;
mod gen_host;
mod gen_join;
mod gen_lend;
mod gen_part;
mod gen_quiet;
mod gen_room;
mod gen_sheet;
mod gen_spoil;
mod gen_table;
mod gen_turn;
mod gen_turn_host;
mod gen_unread;
mod gen_unread_join;
mod gen_walk;
mod program;
mod rng;
mod spaces;

use rng::Rng;
use std::io::{self, Write};

fn main() -> io::Result<()> {
    let arguments: Vec<String> = std::env::args().collect();
    let [_, kind, seed, count] = &arguments[..] else { return usage() };
    let (Ok(seed), Ok(count)) = (seed.parse(), count.parse()) else { return usage() };
    let mut rng = Rng::new(seed);
    let mut out = Vec::new();
    match kind.as_str() {
        "walk" => gen_walk::stream(&mut rng, count, &mut out),
        "calls" => gen_calls::script(&mut rng, count, &mut out),
        "sheet" => gen_sheet::vectors(&mut rng, count, &mut out),
        "ask" => gen_ask::lines(&mut rng, count, &mut out),
        _ => return usage(),
    }
    io::stdout().lock().write_all(&out)
}

fn usage() -> io::Result<()> {
    eprintln!("usage: gen walk|calls|sheet|ask SEED COUNT");
    std::process::exit(2)
}
