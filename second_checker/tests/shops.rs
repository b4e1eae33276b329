//! Which tables are shops.

use second_checker::Shop;

#[test]
fn tables() {
    let row = |count: usize| vec![999_999; count];
    for (rows, is_shop) in [
        (vec![], false),
        (vec![row(0)], false),
        (vec![row(26); 800], true),
        (vec![row(1); 801], false),
        (vec![row(27)], false),
        (vec![row(2), row(2), row(1)], false),
        (vec![row(2), row(3)], false),
        (vec![row(2), vec![0, 1_000_000]], false),
    ] {
        assert_eq!(Shop::from_jobs(&rows).is_some(), is_shop);
    }
}
