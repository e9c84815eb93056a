//! Sends NUMBER values by `b_send` of a desk: `desk NUMBER`.

use proved::rw_desk::{Desk, Ends};
use proved::rw_world::Spec;
use proved::{Global, RT};

fn main() {
    let number: u64 = std::env::args().nth(1).unwrap().parse().unwrap();
    let (desk, mut passes, ends) = Desk::<u64>::open(Global, &[Spec::Broadcast(4)], 1).unwrap();
    let Ends::Broadcast(sender, _) = &ends[0] else {
        panic!("no broadcast");
    };
    for value in 0..number {
        desk.b_send(&RT, &mut passes[0], sender, value).unwrap();
    }
}
