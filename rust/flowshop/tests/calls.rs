//! Each call of the crate, on shops whose results were worked out by hand.

use flowshop::*;

/// The shop of three machines of docs/formats.md, and that of two: a row for each job.
const THREE: [[u32; 3]; 3] = [[4, 0, 4], [0, 8, 0], [0, 2, 1]];
const TWO: [[u32; 2]; 3] = [[3, 2], [1, 4], [2, 2]];
/// The makespan of each sequence of the first.
const MAKESPANS: [([u16; 3], u64); 6] =
    [([1, 2, 3], 15), ([1, 3, 2], 14), ([2, 1, 3], 13), ([2, 3, 1], 15), ([3, 1, 2], 12), ([3, 2, 1], 14)];
const LITTLE: Effort = Effort { width: 0, rounds: 0, seed: 1, work: 0 };
const PLAN: Plan = Plan { depth: 0, budget: 100, version: 1 };

fn three() -> Shop {
    Shop::from_jobs(&THREE).unwrap()
}

#[test]
fn tables() {
    let shop = three();
    let columns: [[u32; 3]; 3] = [[4, 0, 0], [0, 8, 2], [4, 0, 1]];
    assert_eq!(shop, Shop::from_machines(&columns).unwrap());
    assert_eq!(shop.times(), [4, 0, 0, 0, 8, 2, 4, 0, 1]);
    for (job, row) in (1..).zip(THREE) {
        for (machine, time) in (1..).zip(row) {
            assert_eq!(shop.time(job, machine), Some(time));
        }
    }
    for (job, machine) in [(0, 1), (1, 0), (4, 1), (1, 4), (usize::MAX, 1), (1, usize::MAX)] {
        assert_eq!(shop.time(job, machine), None);
    }
    let two = Shop::from_jobs(&TWO).unwrap();
    assert_eq!((two.jobs(), two.machines()), (3, 2));
    assert_eq!(two.times(), [3, 1, 2, 2, 4, 2]);
}

#[test]
fn tables_that_are_no_shop() {
    let row = |count: usize| vec![7; count];
    let with = |place: usize| {
        let mut row = row(4);
        row[place] = 1_000_000;
        row
    };
    let time = |job, machine| Some(Error::Time { job, machine });
    let (jobs, machines) = (Some(Error::Jobs), Some(Error::Machines));
    let other = |row| Some(Error::Row { row });
    // The rows, what is said of them as jobs, and what as machines.
    for (rows, of_jobs, of_machines) in [
        (vec![], jobs, jobs),
        (vec![vec![]], machines, jobs),
        (vec![row(1); 801], jobs, machines),
        (vec![row(801)], machines, jobs),
        (vec![row(27)], machines, None),
        (vec![row(1); 27], None, machines),
        (vec![row(2), row(1)], other(2), other(2)),
        (vec![row(2), row(2), row(3)], other(3), other(3)),
        (vec![with(1), row(3)], other(2), other(2)),
        (vec![row(4), with(2)], time(2, 3), time(3, 2)),
        (vec![with(3), with(0)], time(2, 1), time(4, 1)),
        (vec![row(4), row(4), with(0)], time(3, 1), time(1, 3)),
    ] {
        assert_eq!(Shop::from_jobs(&rows).err(), of_jobs, "{rows:?}");
        assert_eq!(Shop::from_machines(&rows).err(), of_machines, "{rows:?}");
    }
    let most = vec![vec![999_999; 26]; 800];
    let shop = Shop::from_jobs(&most).unwrap();
    assert_eq!((shop.jobs(), shop.machines()), (800, 26));
    assert_eq!(shop.neh().unwrap().makespan(), (800 + 26 - 1) * 999_999);
}

#[test]
fn seeds() {
    // The first times of the first published shop of 20 jobs and 5 machines.
    let shop = Shop::generate(20, 5, 873_654_221).unwrap();
    assert_eq!(shop.times()[..4], [54, 83, 15, 71]);
    assert_eq!((shop.jobs(), shop.machines()), (20, 5));
    for (jobs, machines, seed, wanted) in [
        (0, 1, 1, Error::Jobs),
        (801, 1, 1, Error::Jobs),
        (usize::MAX, 1, 1, Error::Jobs),
        (1, 0, 1, Error::Machines),
        (1, 27, 1, Error::Machines),
        (1, 1, 0, Error::Seed),
        (1, 1, 2_147_483_647, Error::Seed),
    ] {
        assert_eq!(Shop::generate(jobs, machines, seed), Err(wanted));
    }
}

#[test]
fn blocks() {
    let text = "a\n3 2 7 9 8\nb\n3 1 2\n2 4 2\nc\n1 1 0 0 0\nd\n5\n";
    let block = Block::read(text, 1).unwrap();
    assert_eq!(block.shop, Shop::from_jobs(&TWO).unwrap());
    assert_eq!((block.seed, block.upper, block.lower), (7, 9, 8));
    let other = Block::read(text, 2).unwrap();
    assert_eq!(other.shop, Shop::from_jobs(&[[5]]).unwrap());
    assert_eq!(Block::read(text, 3), Err(Error::Index { blocks: 2 }));
    assert_eq!(Block::count(text), Ok(2));
    assert_eq!(Block::count(" \n"), Err(Error::NoBlock));
    assert_eq!(Block::count("a\n3 x\n"), Err(Error::Byte { line: 2 }));
}

#[test]
fn sequences() {
    let shop = three();
    for (jobs, makespan) in MAKESPANS {
        let sequence = shop.sequence(jobs).unwrap();
        assert_eq!(shop.makespan(jobs), Ok(makespan));
        assert_eq!((sequence.jobs(), sequence.makespan()), (&jobs[..], makespan));
    }
    let several = MAKESPANS.map(|(jobs, _)| jobs).concat();
    assert_eq!(shop.makespans(several), Ok(MAKESPANS.map(|(_, makespan)| makespan).to_vec()));
    assert_eq!(shop.makespans([]), Ok(vec![]));
    assert_eq!(shop.makespans([3, 1, 2, 1, 2, 1]), Err(Error::Twice { place: 6 }));
    assert_eq!(shop.sequence([3, 1, 2]).unwrap().to_string(), "3 1 2");
    for (jobs, wanted) in [
        (&[][..], Error::Length),
        (&[1, 2], Error::Length),
        (&[2, 1, 3, 1], Error::Length),
        (&[1, 4, 2], Error::Job { place: 2 }),
        (&[1, 2, 65_535], Error::Job { place: 3 }),
        (&[0, 1, 2], Error::Job { place: 1 }),
        (&[1, 2, 1], Error::Twice { place: 3 }),
        (&[2, 2, 4], Error::Twice { place: 2 }),
    ] {
        let beam = Beam { number: 0, width: 1, steps: 1 };
        let rounds = Rounds { rounds: 1, seed: 1, steps: 1 };
        assert_eq!(shop.makespan(jobs), Err(wanted));
        assert_eq!(shop.sequence(jobs), Err(wanted));
        assert_eq!(shop.timetable(jobs), Err(wanted));
        assert_eq!(shop.picture(jobs, 0), Err(wanted));
        assert_eq!(shop.improve(jobs, &LITTLE), Err(wanted));
        assert_eq!(shop.beam(jobs, &beam), Err(wanted));
        assert_eq!(shop.rounds(jobs, &rounds), Err(wanted));
        assert_eq!(shop.certify(jobs, &LITTLE, 1), Err(wanted));
        assert_eq!(shop.solve(jobs, &PLAN), Err(wanted));
    }
}

#[test]
fn timetables_and_pictures() {
    let timetable = three().timetable([3, 1, 2]).unwrap();
    assert_eq!(timetable.starts(), [0, 0, 2, 0, 4, 4, 4, 4, 12]);
    assert_eq!(timetable.ends(), [0, 2, 3, 4, 4, 8, 4, 12, 12]);
    let found: Vec<Operation> = timetable.operations().collect();
    let operation = |job, machine, start, end| Operation { job, machine, start, end };
    assert_eq!(found.len(), 9);
    assert_eq!(found[2], operation(3, 3, 2, 3));
    assert_eq!(found[5], operation(1, 3, 4, 8));
    assert_eq!(found[7], operation(2, 2, 4, 12));
    for (lower, wanted) in [
        (12, "<title>optimal 12, jobs 3, machines 3</title>"),
        (11, "<title>makespan 12, lower bound 11, jobs 3, machines 3</title>"),
    ] {
        let picture = three().picture([3, 1, 2], lower).unwrap();
        assert!(picture.starts_with("<svg ") && picture.trim_end().ends_with("</svg>"));
        assert!(picture.contains(wanted), "{picture}");
    }
}

#[test]
fn better_sequences() {
    let shop = three();
    // Jobs 1, 2 and 3 have 8, 8 and 3 in all, so that they are put in in this order.
    let start = shop.neh().unwrap();
    assert_eq!((start.jobs(), start.makespan()), (&[2, 1, 3][..], 13));
    let first = shop.sequence([1, 2, 3]).unwrap();
    let beam = |number, width, steps| shop.beam(&first, &Beam { number, width, steps }).unwrap();
    // With no pass it is the start; a pass that is so wide has each sequence; none is below 12.
    assert_eq!(beam(0, 0, u64::MAX).sequence, first);
    assert_eq!(beam(0, 8, 0).sequence, first);
    assert_eq!(beam(0, 8, 1_000_000).sequence.makespan(), 12);
    assert_eq!(beam(12, 8, 1_000_000).sequence, first);
    let rounds = |rounds, steps| {
        let options = Rounds { rounds, seed: 1, steps };
        shop.rounds(&first, &options).unwrap()
    };
    assert_eq!(rounds(0, 1_000_000).sequence, first);
    assert!(rounds(100, 1_000_000).sequence.makespan() < 15);
    // The makespan of one machine is the sum of its times, which is Taillard's bound; 12 is above that of the other.
    let one = Shop::from_jobs(&[[3], [4]]).unwrap();
    let options = Rounds { rounds: 100, seed: 1, steps: 1_000_000 };
    assert!(one.rounds([2, 1], &options).unwrap().whole);
    assert!(one.beam([2, 1], &Beam { number: 0, width: 64, steps: 1_000_000 }).unwrap().whole);
    assert!(!rounds(100, 1_000_000).whole && !beam(0, 8, 0).whole);
    assert_eq!(shop.improve(&first, &LITTLE).unwrap(), first);
    let effort = Effort { width: 8, rounds: 10, work: 1, ..LITTLE };
    assert_eq!(shop.improve(&first, &effort).unwrap().jobs(), [3, 1, 2]);
}

#[test]
fn certificates() {
    let shop = three();
    let found = shop.certify([1, 2, 3], &Effort::default(), 1000).unwrap();
    assert_eq!(found.text(), "flowshop two-ended 1\n3 3\n12 12\n3 1 2\n++\nend\n");
    let bounds = found.bounds();
    assert_eq!((bounds.lower(), bounds.upper(), bounds.is_optimal()), (12, 12, true));
    assert_eq!(bounds.sequence(), &shop.sequence([3, 1, 2]).unwrap());
    assert_eq!(shop.check(&found).as_ref(), Ok(bounds));
    assert_eq!(shop.makespan(&found), Ok(12));
    let wide = shop.check("flowshop two-ended 1\n3 3\n11 13\n2 1 3\n-\nend\n").unwrap();
    assert_eq!((wide.lower(), wide.upper(), wide.is_optimal()), (11, 13, false));
    assert_eq!(wide.to_string(), "bounds 11 13");
    assert_eq!(wide.sequence(), &shop.sequence([2, 1, 3]).unwrap());
    // The tree depends on the start.
    for (start, depth, trees) in
        [([2, 1, 3], 0, "+BC++.B\n"), ([1, 2, 3], 0, "++B+.++.B++.B\n"), ([2, 1, 3], 1, "B\nC\n++.B\n")]
    {
        let solved = shop.solve(start, &Plan { depth, ..PLAN }).unwrap();
        let wanted = format!("flowshop certificate 1\n3 3 {depth}\n12\n3 1 2\n{trees}end\n");
        assert_eq!((solved.text(), solved.bounds()), (&wanted[..], bounds));
    }
    let refused = shop.solve([2, 1, 3], &Plan { depth: 1, budget: 3, ..PLAN });
    assert_eq!(refused, Err(Error::OverBudget { tree: 2 }));
}

#[test]
fn numbers_beyond_their_limits() {
    let shop = three();
    for (effort, directions, wanted) in [
        (Effort { width: 65_537, ..LITTLE }, 1, Error::Width),
        (Effort { rounds: 100_000_001, ..LITTLE }, 1, Error::Rounds),
        (Effort { seed: 0, ..LITTLE }, 1, Error::Seed),
        (Effort { seed: 2_147_483_647, ..LITTLE }, 1, Error::Seed),
        (Effort { work: 1_000_001, ..LITTLE }, 1, Error::Work),
        (LITTLE, 0, Error::Directions),
        (LITTLE, 1_000_000_001, Error::Directions),
        (LITTLE, u32::MAX, Error::Directions),
    ] {
        assert_eq!(shop.certify([1, 2, 3], &effort, directions), Err(wanted));
        if wanted != Error::Directions {
            assert_eq!(shop.improve([1, 2, 3], &effort), Err(wanted));
        }
    }
    for (depth, budget, version, wanted) in [
        (4, 1, 1, Error::Depth),
        (u32::MAX, u32::MAX, 1, Error::Depth),
        (0, 0, 1, Error::Budget),
        (0, 100_000_001, 1, Error::Budget),
        (0, 1, 0, Error::Version),
        (0, 1, 3, Error::Version),
    ] {
        let plan = Plan { depth, budget, version };
        assert_eq!(shop.solve([1, 2, 3], &plan), Err(wanted));
    }
    let one = Shop::from_jobs(&[[5]]).unwrap();
    assert_eq!(one.solve([1], &Plan { depth: 2, ..PLAN }), Err(Error::PlanDepth));
    let many = Shop::from_jobs(&[[1]; 48]).unwrap();
    let start = many.neh().unwrap();
    assert_eq!(many.solve(start, &Plan { depth: 3, ..PLAN }), Err(Error::PlanPrefixes));
    let beam = Beam { number: 0, width: 65_537, steps: 1 };
    assert_eq!(shop.beam([1, 2, 3], &beam), Err(Error::Width));
    for (rounds, seed, wanted) in [(100_000_001, 1, Error::Rounds), (1, 0, Error::Seed)] {
        let options = Rounds { rounds, seed, steps: 1 };
        assert_eq!(shop.rounds([1, 2, 3], &options), Err(wanted));
    }
}

/// The node of two lists.
fn node(first: &[u16], last: &[u16]) -> Node {
    Node { first: first.to_vec(), last: last.to_vec() }
}

#[test]
fn searches() {
    let shop = three();
    // The sequences of a node, and the first of them that is below the number.
    for (first, last, number, wanted) in [
        (&[][..], &[][..], 13, [3, 1, 2]),
        (&[2], &[], 14, [2, 1, 3]),
        (&[], &[2], 13, [3, 1, 2]),
        (&[1], &[2], 15, [1, 3, 2]),
        (&[3], &[1], 15, [3, 2, 1]),
        (&[2, 3], &[1], 16, [2, 3, 1]),
        (&[2], &[3, 1], 16, [2, 3, 1]),
    ] {
        match shop.prove(&node(first, last), number, 100).unwrap() {
            Found::Below { sequence, .. } => {
                assert_eq!(sequence, shop.sequence(wanted).unwrap());
            }
            other => panic!("{other:?}"),
        }
    }
    let proved = |directions: &str| Ok(Found::Proved { directions: directions.to_string() });
    assert_eq!(shop.prove(&node(&[], &[]), 10, 0), proved(""));
    assert_eq!(shop.prove(&node(&[], &[]), 11, 100), proved("-"));
    assert_eq!(shop.prove(&node(&[2, 3, 1], &[]), 15, 0), proved(""));
    for (first, last, wanted) in [
        (&[1, 4][..], &[][..], Error::Job { place: 2 }),
        (&[], &[0], Error::Job { place: 1 }),
        (&[3, 1], &[2, 1], Error::Twice { place: 4 }),
    ] {
        assert_eq!(shop.prove(&node(first, last), 12, 9), Err(wanted));
        assert_eq!(shop.tally(&node(first, last), 12, 9), Err(wanted));
    }
    assert_eq!(shop.prove(&node(&[], &[]), 12, usize::MAX), Err(Error::Memory));
}

#[test]
fn directions_are_counted() {
    // Two directions prove 12 for all sequences.
    let (shop, root) = (three(), node(&[], &[]));
    for budget in [2, 3, u64::MAX] {
        assert_eq!(shop.tally(&root, 12, budget), Ok(Tally::Proved { count: 2 }));
    }
    assert_eq!(shop.tally(&root, 10, 0), Ok(Tally::Proved { count: 0 }));
    let sequence = shop.sequence([2, 1, 3]).unwrap();
    assert_eq!(shop.tally(&node(&[2, 1, 3], &[]), 14, 0), Ok(Tally::Below { sequence, count: 0 }));
    match shop.tally(&root, 12, 0).unwrap() {
        Tally::Over { count: 0, parts } => {
            assert!(parts.iter().flat_map(Part::nodes).eq([root.clone()]));
        }
        other => panic!("{other:?}"),
    }
    assert!(matches!(shop.tally(&root, 12, 1), Ok(Tally::Over { count: 1, .. })));
}

#[test]
fn parts_of_searches_give_the_directions_of_one() {
    let shop = three();
    // Two signs prove 12 for all sequences, whatever the room of a part is.
    for most in [1, 2, 3] {
        let (mut directions, mut left) = (String::new(), vec![Node::default()]);
        while let Some(node) = left.pop() {
            match shop.prove(&node, 12, most).unwrap() {
                Found::Proved { directions: more } => directions.push_str(&more),
                Found::Over { directions: more, parts } => {
                    assert_eq!(more.len(), most);
                    directions.push_str(&more);
                    let nodes: Vec<Node> = parts.iter().flat_map(Part::nodes).collect();
                    left.extend(nodes.into_iter().rev());
                }
                below => panic!("{below:?}"),
            }
        }
        assert_eq!(directions, "++");
    }
    // With no room at all the node itself is left.
    match shop.prove(&node(&[3], &[]), 12, 0).unwrap() {
        Found::Over { directions, parts } => {
            assert_eq!(directions, "");
            let nodes: Vec<Node> = parts.iter().flat_map(Part::nodes).collect();
            assert_eq!(nodes, [node(&[3], &[])]);
        }
        other => panic!("{other:?}"),
    }
}

#[test]
fn calls_at_once() {
    let shop = three();
    let wanted = shop.certify([1, 2, 3], &Effort::default(), 1000);
    std::thread::scope(|threads| {
        for _ in 0..8 {
            threads.spawn(|| {
                for _ in 0..20 {
                    assert_eq!(shop.certify([1, 2, 3], &Effort::default(), 1000), wanted);
                }
            });
        }
    });
}

#[test]
fn stacks_that_are_too_small() {
    let variable = "FLOWSHOP_STACK_OF_TEST";
    if let Ok(bytes) = std::env::var(variable) {
        let thread = std::thread::Builder::new().stack_size(bytes.parse().unwrap());
        assert!(thread.spawn(|| three().makespan([1, 2, 3])).unwrap().join().unwrap().is_ok());
        return;
    }
    for (bytes, is_enough) in [(32_768, false), (131_072, false), (196_608, true)] {
        let words = ["--exact", "stacks_that_are_too_small"];
        let test = std::env::current_exe().unwrap();
        let run = std::process::Command::new(test).args(words).env(variable, bytes.to_string()).output().unwrap();
        let said = String::from_utf8_lossy(&run.stderr);
        assert_eq!((run.status.success(), said.contains("has overflowed its stack")), (is_enough, !is_enough));
    }
}

#[test]
fn values_go_from_thread_to_thread() {
    fn goes<T: Send + Sync + 'static>() {}
    goes::<(Shop, Block, Sequence, Bounds, Certificate, Timetable)>();
    goes::<(Best, Node, Found, Part, Error, Effort, Plan, Beam, Rounds)>();
}

#[test]
fn sentences() {
    for (error, wanted) in [
        (Error::Jobs, "the number of jobs has to be 1 to 800"),
        (Error::Version, "the version has to be 1 to 2"),
        (Error::Row { row: 3 }, "row 3: the length is not that of the first row"),
        (Error::Time { job: 2, machine: 5 }, "job 2 on machine 5: the time is above the limit"),
        (Error::Twice { place: 4 }, "place 4: this job stands before in the list"),
        (Error::Tree { line: 5 }, "line 5: this is not one whole proof"),
        (Error::Index { blocks: 2 }, "the text has no such block: it has 2"),
    ] {
        assert_eq!(error.to_string(), wanted);
    }
}
