//! The stack that lib.rs states.

use second_checker::{Bounds, Fault, Shop};

/// What a check of a text says on a thread with so much stack.
fn checked(shop: Shop, text: String, stack: usize) -> Result<Bounds, Fault> {
    let thread = std::thread::Builder::new().stack_size(stack);
    let check = move || shop.check(text.as_bytes());
    thread.spawn(check).unwrap().join().unwrap()
}

#[test]
fn lists_of_all_jobs() {
    // In order the jobs have the makespan 1 + 800 * 1,000, in reverse order 800 + 800 * 1,000. So all lists that begin
    // the one are below the other, down to that of all jobs.
    let rows: Vec<[u32; 2]> = (1..=800).map(|job| [job, 1000]).collect();
    let reverse: Vec<String> = (1..=800).rev().map(|job: u32| job.to_string()).collect();
    let (reverse, opened) = (reverse.join(" "), "+".repeat(800));
    for text in [
        format!("flowshop two-ended 1\n800 2\n800800 800800\n{reverse}\n{opened}\nend\n"),
        format!("flowshop certificate 1\n800 2 0\n800800\n{reverse}\n{opened}.\nend\n"),
    ] {
        let shop = Shop::from_jobs(&rows).unwrap();
        assert_eq!(checked(shop, text, 1_500_000), Err(Fault::Tree("Low", 5)));
    }
}

#[test]
fn searches_of_all_jobs() {
    // Each job needs as much time on the first machine as the one before on the second, and no job waits in order: the
    // makespan is 1 + (2 + 3 + .. + 801) = 321,201. Each other list that begins a sequence leaves the second machine
    // without work for more than the first unit of time. So below 321,202 each node has one child at the front.
    let rows: Vec<[u32; 2]> = (1..=800).map(|job| [job, job + 1]).collect();
    let order: Vec<String> = (1..=800).map(|job: u32| job.to_string()).collect();
    let order = order.join(" ");
    for (lower, count, wanted) in [
        (321_201, 0, Ok(())),
        (321_202, 800, Err("Low")),
        (321_202, 799, Err("Tree")),
    ] {
        let text = format!("flowshop counted 1\n800 2\n{lower} 321201\n{order}\n{count}\nend\n");
        let found = checked(Shop::from_jobs(&rows).unwrap(), text, 100_000).map(|_| ());
        assert_eq!(found, wanted.map_err(|name| Fault::Tree(name, 5)));
    }
}
