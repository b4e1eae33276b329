//! Finds the least makespan of a small shop, and checks its certificate.

use flowshop::{Effort, Error, Shop};

fn main() -> Result<(), Error> {
    // A row for each job, with its time on each machine.
    let shop = Shop::from_jobs(&[[4, 0, 4], [0, 8, 0], [0, 2, 1]])?;
    let effort = Effort { width: 16, rounds: 100, seed: 1, work: 1 };
    let found = shop.certify(shop.neh()?, &effort, 1000)?;
    let bounds = shop.check(found.text())?;
    if bounds.is_optimal() {
        print!("least makespan");
    } else {
        print!("at least {}; found", bounds.lower());
    }
    println!(" {}: {}", bounds.upper(), bounds.sequence());
    Ok(())
}
