//! Compares how the records lie in memory with what was worked out by hand, from the rules of C on x86-64, and with
//! what a C compiler says of the header, where there is one.

use flowshop_sys::*;
use std::fmt::Write;
use std::mem::{align_of, size_of, MaybeUninit};
use std::process::Command;
use std::ptr::addr_of;

/// Of each record its size and alignment, and of each field where it begins and its size.
const BY_HAND: &str = "\
flowshop_outcome 16 8: status 0 4, place 8 8
flowshop_limit_numbers 96 8: max_jobs 0 4, max_machines 4 4, max_time 8 4, max_number 12 4, max_job 16 4, \
    max_seed 20 4, max_width 24 4, max_rounds 28 4, max_work 32 4, max_directions 36 4, max_depth 40 4, \
    max_prefixes 44 4, max_budget 48 4, min_version 52 4, max_version 56 4, max_workers 60 4, max_text 64 4, \
    max_certificate 68 4, max_beside 72 4, max_nodes 80 8, max_counted 88 8
flowshop_shop 24 8: jobs 0 4, machines 4 4, times 8 8, times_count 16 8
flowshop_benchmark 40 8: jobs 0 4, machines 4 4, times 8 8, times_count 16 8, seed 24 4, upper 28 4, lower 32 4
flowshop_spans 32 8: starts 0 8, starts_count 8 8, ends 16 8, ends_count 24 8
flowshop_text 24 8: bytes 0 8, bytes_count 8 8, length 16 8
flowshop_reached 32 8: sequence 0 8, sequence_count 8 8, makespan 16 8, whole 24 4
flowshop_bounds 32 8: sequence 0 8, sequence_count 8 8, lower 16 8, upper 24 8
flowshop_effort 16 4: width 0 4, rounds 4 4, seed 8 4, work 12 4
flowshop_plan 12 4: depth 0 4, budget 4 4, version 8 4
flowshop_beam_options 24 8: number 0 8, width 8 4, steps 16 8
flowshop_rounds_options 16 8: rounds 0 4, seed 4 4, steps 8 8
flowshop_run_state 128 8: lower 0 8, upper 8 8, least 16 8, inner 24 88, tasks 112 4, step 116 4, inner_place 120 8
flowshop_task 64 8: kind 0 4, origin 4 4, number 8 8, budget 16 8, beam 24 24, rounds 48 16
flowshop_answer 24 8: found 0 4, whole 4 4, makespan 8 8, directions 16 8
flowshop_place 24 8: written 0 8, next 8 8, state 16 4, skip 20 4
flowshop_search_state 56 8: budget 0 8, written 8 8, settled 16 8, first_open 24 8, open 32 8, places 40 8, reached 48 8
flowshop_searched 16 8: written 0 8, left 8 4, reached 12 4
flowshop_node 32 8: first 0 8, first_count 8 8, last 16 8, last_count 24 8
flowshop_part 80 8: sequence 0 8, sequence_count 8 8, directions 16 8, directions_count 24 8, rest 32 8, \
    rest_count 40 8, found 48 4, makespan 56 8, directions_length 64 8, rest_length 72 8
";

/// The size of what a pointer is to.
fn size_at<T>(_: *const T) -> usize {
    size_of::<T>()
}

/// The same lines, of the records of this crate.
macro_rules! lines_of_rust {
    ($($record:ident: $($field:ident)*;)*) => {{
        let mut lines = String::new();
        $(
            let record = MaybeUninit::<$record>::uninit();
            let at = record.as_ptr();
            let name = stringify!($record);
            write!(lines, "{name} {} {}:", size_of::<$record>(), align_of::<$record>()).unwrap();
            let mut mark = "";
            $(
                // SAFETY: the field lies in the record, and nothing is read of it.
                let field = unsafe { addr_of!((*at).$field) };
                let begins = field as usize - at as usize;
                write!(lines, "{mark} {} {begins} {}", stringify!($field), size_at(field)).unwrap();
                mark = ",";
            )*
            assert_eq!(mark, ",");
            lines.push('\n');
        )*
        lines
    }};
}

fn of_rust() -> String {
    lines_of_rust! {
        flowshop_outcome: status place;
        flowshop_limit_numbers: max_jobs max_machines max_time max_number max_job max_seed max_width
            max_rounds max_work max_directions max_depth max_prefixes max_budget min_version max_version
            max_workers max_text max_certificate max_beside max_nodes max_counted;
        flowshop_shop: jobs machines times times_count;
        flowshop_benchmark: jobs machines times times_count seed upper lower;
        flowshop_spans: starts starts_count ends ends_count;
        flowshop_text: bytes bytes_count length;
        flowshop_reached: sequence sequence_count makespan whole;
        flowshop_bounds: sequence sequence_count lower upper;
        flowshop_effort: width rounds seed work;
        flowshop_plan: depth budget version;
        flowshop_beam_options: number width steps;
        flowshop_rounds_options: rounds seed steps;
        flowshop_run_state: lower upper least inner tasks step inner_place;
        flowshop_task: kind origin number budget beam rounds;
        flowshop_answer: found whole makespan directions;
        flowshop_place: written next state skip;
        flowshop_search_state: budget written settled first_open open places reached;
        flowshop_searched: written left reached;
        flowshop_node: first first_count last last_count;
        flowshop_part: sequence sequence_count directions directions_count rest rest_count found makespan
            directions_length rest_length;
    }
}

/// A program in C that prints the same lines, of the records of the header.
fn program() -> String {
    let mut code = "#include \"flowshop.h\"\n#include <stdio.h>\nint main(void) {\n".to_string();
    for line in BY_HAND.lines() {
        let (head, fields) = line.split_once(": ").unwrap();
        let name = head.split(' ').next().unwrap();
        let sizes = format!("sizeof({name}), _Alignof({name})");
        writeln!(code, "printf(\"{name} %zu %zu:\", {sizes});").unwrap();
        for (place, field) in fields.split(", ").enumerate() {
            let field = field.split(' ').next().unwrap();
            let mark = if place == 0 { "" } else { "," };
            let sizes = format!("offsetof({name}, {field}), sizeof((({name} *)0)->{field})");
            writeln!(code, "printf(\"{mark} {field} %zu %zu\", {sizes});").unwrap();
        }
        code.push_str("printf(\"\\n\");\n");
    }
    code + "return 0;\n}\n"
}

#[test]
fn records_lie_as_worked_out_by_hand() {
    assert_eq!(of_rust(), BY_HAND);
}

#[test]
fn records_lie_as_a_c_compiler_says() {
    let include = match option_env!("FLOWSHOP_INCLUDE") {
        Some(include) => include,
        None => return println!("no header: the comparison was passed over"),
    };
    let compiler = std::env::var("CC").unwrap_or_else(|_| "cc".to_string());
    if Command::new(&compiler).arg("--version").output().is_err() {
        return println!("no C compiler: the comparison was passed over");
    }
    let folder = env!("CARGO_TARGET_TMPDIR");
    let (source, made) = (format!("{folder}/layout.c"), format!("{folder}/layout"));
    std::fs::write(&source, program()).unwrap();
    let words = ["-std=c11", "-I", include, &source, "-o", &made];
    assert!(Command::new(&compiler).args(words).status().unwrap().success());
    let printed = Command::new(&made).output().unwrap().stdout;
    assert_eq!(String::from_utf8(printed).unwrap(), of_rust());
}
