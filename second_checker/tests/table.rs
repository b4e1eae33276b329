//! Compares the library with the rows of a table, whose file FLOWSHOP_TABLE names. `tests/rust` writes it. A row has
//! four fields: the call, a benchmark text, a text to check, and the line of what is wanted. A field is its length, as
//! 8 bytes from the least on, and its bytes. Rows of other calls are passed over.

use second_checker::{Fault, Shop};

/// The fields of a file, one after the other.
fn fields(mut bytes: &[u8]) -> Vec<&[u8]> {
    let mut fields = Vec::new();
    while bytes.len() >= 8 {
        let (length, rest) = bytes.split_at(8);
        let (field, rest) = rest.split_at(u64::from_le_bytes(length.try_into().unwrap()) as usize);
        fields.push(field);
        bytes = rest;
    }
    fields
}

/// The line of what a text proves, with the sequence that the text states.
fn proved(block: &[u8], text: &[u8]) -> Result<String, Fault> {
    let bounds = Shop::read(block, 1)?.check(text)?;
    let jobs: Vec<String> = bounds.sequence.iter().map(usize::to_string).collect();
    let stated = text.split(|&byte| byte == b'\n').nth(3);
    assert_eq!(stated, Some(jobs.join(" ").as_bytes()));
    Ok(if bounds.lower == bounds.upper {
        format!("optimal {}", bounds.upper)
    } else {
        format!("bounds {} {}", bounds.lower, bounds.upper)
    })
}

#[test]
fn texts_prove_what_the_table_says() {
    let name = match std::env::var("FLOWSHOP_TABLE") {
        Ok(name) => name,
        Err(_) => return println!("no table: it was passed over"),
    };
    let bytes = std::fs::read(name).unwrap();
    let (mut rows, mut wrong) = (0, 0);
    for row in fields(&bytes).chunks(4).filter(|row| row[0] == b"check") {
        let given = proved(row[1], row[2]).unwrap_or_else(|fault| fault.to_string());
        rows += 1;
        if given.as_bytes() != row[3] {
            println!(
                "not as it should be: {given} for {}",
                String::from_utf8_lossy(row[3])
            );
            wrong += 1;
        }
    }
    println!("rows: {rows}, not as they should be: {wrong}");
    assert!(rows > 0 && wrong == 0);
}
