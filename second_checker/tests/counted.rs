//! Counted certificates, and the most nodes that a check may open.

use second_checker::{Fault, Shop, MOST_NODES};

#[test]
fn counts() {
    // The shop that docs/formats.md reads by hand.
    let shop = Shop::from_jobs(&[[4, 0, 4], [0, 8, 0], [0, 2, 1]]).unwrap();
    let (few, many) = (Fault::Tree("Tree", 5), Fault::Certificate("Most"));
    for (bounds, sequence, count, most, wanted) in [
        ("12 12", "3 1 2", 2, MOST_NODES, Ok(2)),
        ("12 12", "3 1 2", 2, 2, Ok(2)),
        ("12 12", "3 1 2", 2, 1, Err(many)),
        ("12 12", "3 1 2", 1, 1, Err(few)),
        ("12 12", "3 1 2", 3, 3, Err(few)),
        ("12 12", "3 1 2", u64::MAX, u64::MAX, Err(few)),
        ("11 13", "2 1 3", 1, 1, Ok(1)),
        ("10 13", "2 1 3", 0, 0, Ok(0)),
        ("13 12", "3 1 2", 3, 3, Err(Fault::Tree("Low", 5))),
        ("13 12", "3 1 2", 2, 3, Err(few)),
    ] {
        let text = format!("flowshop counted 1\n3 3\n{bounds}\n{sequence}\n{count}\nend\n");
        let found = shop.check_at_most(text.as_bytes(), most);
        let nodes = found.map(|bounds| bounds.nodes.unwrap());
        assert_eq!(nodes, wanted, "{text} at most {most}");
    }
    let text = format!(
        "flowshop counted 1\n3 3\n12 12\n3 1 2\n{}\nend\n",
        MOST_NODES + 1
    );
    assert_eq!(shop.check(text.as_bytes()), Err(many));
    let text = b"flowshop two-ended 1\n3 3\n12 12\n3 1 2\n++\nend\n";
    assert_eq!(shop.check_at_most(text, 0).unwrap().nodes, None);
}
