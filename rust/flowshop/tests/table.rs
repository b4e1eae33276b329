//! Compares what calls give with the rows of a table, whose file FLOWSHOP_TABLE names. `tests/rust` writes it, of what
//! was worked out apart from the library. A row has four fields: the call, a benchmark text, words, and what is wanted.
//! A field is its length, as 8 bytes from the least on, and its bytes.

use flowshop::*;
use std::str::from_utf8;

/// The fields of a file, one after the other.
fn fields(mut bytes: &[u8]) -> Vec<&[u8]> {
    let mut fields = Vec::new();
    while bytes.len() >= 8 {
        let (length, rest) = bytes.split_at(8);
        let (field, rest) = rest.split_at(u64::from_le_bytes(length.try_into().unwrap()) as usize);
        fields.push(field);
        bytes = rest;
    }
    fields
}

/// Numbers, with spaces between them.
fn line<T: ToString>(numbers: &[T]) -> String {
    numbers.iter().map(T::to_string).collect::<Vec<_>>().join(" ")
}

/// The numbers of a line.
fn numbers<T: std::str::FromStr>(line: &str) -> Vec<T> {
    line.split_whitespace().map(|word| word.parse().ok().unwrap()).collect()
}

/// The name of an error, and its numbers.
fn refused(error: Error) -> String {
    let said = format!("{error:?}");
    let mut words = said.split(|each: char| !each.is_alphanumeric());
    let name = words.next().unwrap_or_default();
    let places: Vec<&str> = words.filter(|word| word.parse::<u64>().is_ok()).collect();
    format!("refused {name} {}", places.join(" ")).trim_end().to_string()
}

/// What a search found, with how many directions there are in their place.
fn counted(found: &Found) -> Tally {
    match found.clone() {
        Found::Proved { directions } => Tally::Proved { count: directions.len() as u64 },
        Found::Below { sequence, directions } => Tally::Below { sequence, count: directions.len() as u64 },
        Found::Over { directions, parts } => Tally::Over { count: directions.len() as u64, parts },
    }
}

/// The directions of a node, joined of parts with room for so many; and the first sequence below the number.
fn search(shop: &Shop, node: Node, number: u64, most: usize) -> Result<String, Error> {
    let (mut said, mut left) = (String::new(), vec![node]);
    for _ in 0..100_000 {
        let node = match left.pop() {
            Some(node) => node,
            None => return Ok(said),
        };
        let found = shop.prove(&node, number, most)?;
        assert_eq!(shop.tally(&node, number, most as u64)?, counted(&found));
        match found {
            Found::Proved { directions } => said += &directions,
            Found::Below { directions, sequence } => {
                return Ok(format!("{said}{directions} {sequence} {}", sequence.makespan()));
            }
            Found::Over { directions, parts } => {
                said += &directions;
                let nodes: Vec<Node> = parts.iter().flat_map(Part::nodes).collect();
                left.extend(nodes.into_iter().rev());
            }
        }
    }
    panic!("the parts of a search have no end");
}

/// What a call gives of a shop, and of words.
fn of_shop(call: &str, shop: &Shop, words: &[u8]) -> Result<String, Error> {
    if call == "check" {
        return Ok(shop.check(words)?.to_string());
    }
    let text = from_utf8(words).unwrap();
    let list: Vec<u32> = if call == "prove" { vec![] } else { numbers(text) };
    Ok(match call {
        "makespan" => shop.makespan(numbers::<u16>(text))?.to_string(),
        "timetable" => {
            let table = shop.timetable(numbers::<u16>(text))?;
            format!("{} {}", line(table.starts()), line(table.ends()))
        }
        "neh" => {
            let start = shop.neh()?;
            format!("{start} {}", start.makespan())
        }
        "prove" => {
            let lists: Vec<&str> = text.split('/').collect();
            let node = Node { first: numbers(lists[1]), last: numbers(lists[2]) };
            let words: Vec<u64> = numbers(lists[0]);
            search(shop, node, words[0], words[1] as usize)?
        }
        "improve" | "certify" => {
            let effort = Effort { width: list[0], rounds: list[1], seed: list[2], work: list[3] };
            let start = shop.neh()?;
            if call == "improve" {
                return Ok(shop.improve(&start, &effort)?.makespan().to_string());
            }
            let found = shop.certify(&start, &effort, list[4])?;
            assert_eq!(shop.check(&found).as_ref(), Ok(found.bounds()));
            found.bounds().to_string()
        }
        "solve" => {
            let plan = Plan { depth: list[0], budget: list[1], version: list[2] };
            let found = shop.solve(shop.neh()?, &plan)?;
            assert_eq!(shop.check(&found).as_ref(), Ok(found.bounds()));
            found.bounds().to_string()
        }
        other => panic!("no call: {other}"),
    })
}

/// What a call gives.
fn answer(call: &str, text: &[u8], words: &[u8]) -> Result<String, Error> {
    let rows = |text: &[u8]| from_utf8(text).unwrap().lines().map(numbers).collect::<Vec<Vec<u32>>>();
    let shown = |shop: Shop| format!("{} {} {}", shop.jobs(), shop.machines(), line(shop.times()));
    match call {
        "jobs" => Shop::from_jobs(&rows(words)).map(shown),
        "machines" => Shop::from_machines(&rows(words)).map(shown),
        "generate" => {
            let list: Vec<u32> = numbers(from_utf8(words).unwrap());
            Shop::generate(list[0] as usize, list[1] as usize, list[2]).map(shown)
        }
        "read" => Block::read(text, 1).map(|block| shown(block.shop)),
        _ => of_shop(call, &Block::read(text, 1)?.shop, words),
    }
}

#[test]
fn calls_give_what_the_table_says() {
    let name = match std::env::var("FLOWSHOP_TABLE") {
        Ok(name) => name,
        Err(_) => return println!("no table: it was passed over"),
    };
    let bytes = std::fs::read(name).unwrap();
    let (mut rows, mut wrong) = (0, 0);
    for row in fields(&bytes).chunks(4) {
        let (call, wanted) = (from_utf8(row[0]).unwrap(), from_utf8(row[3]).unwrap());
        let given = answer(call, row[1], row[2]).unwrap_or_else(refused);
        rows += 1;
        // A line of the program also says what is refused.
        if given != wanted.replace("refused certificate", "refused").replace("refused text", "refused") {
            let words = &row[2][..row[2].len().min(300)];
            println!("not as it should be: {call} {:?}: {given} for {wanted}", String::from_utf8_lossy(words));
            wrong += 1;
        }
    }
    println!("rows: {rows}, not as they should be: {wrong}");
    assert!(rows > 0 && wrong == 0);
}
