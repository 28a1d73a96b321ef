//! Tables and counts that are handed in: every number of two small files changed, numbers
//! after what is held, counts, limits and lent lengths.

use super::adding::{Adding, added, line, refused};
use super::limits::Pool;
use super::opening::entries_left;
use crate::judge::{LEAST, MOST_IN_A_POOL};

/// The file of paper 01, and a row that can be added to it, with what is then stored.
pub const SMALL: &str = "examples/whole_file_without_claim";
pub const ROW: &str = "N 5 same 0 - 0 0";
pub const STORED: [&str; 3] = ["1,0,65535,65535,5,1,8,1", "0", "0"];

const MIXED: &str = "beginnings/swap_and_refutations";

const TABLES: [(&str, usize); 4] =
    [("formulas", LEAST.formulas), ("rows", LEAST.rows), ("left", LEAST.left), ("right", LEAST.right)];

pub fn cases() -> Vec<Adding> {
    let mut cases = every_number("whole_file", SMALL, ROW);
    cases.extend(every_number("swap_and_refutations", MIXED, "N 4 same 0 - 0 0"));
    cases.extend(after_the_counts());
    cases.extend(counts());
    cases.extend(lengths());
    cases.extend([Pool::Left, Pool::Right].into_iter().flat_map(full_pool));
    cases.extend(full_and_longer());
    cases.extend(wide_right());
    cases
}

/// The one change of a number in the two small files that leaves a file right: the formula that
/// is swapped for p&q is then (p&q)&p, and holds where it does.
const RIGHT: (&str, &str) = (MIXED, "formulas:10:2");

/// Each number in each table one more, one less, zero, absent, and as the ones beside it. Of
/// these files each formula is used by a row, and so is each row but the last of its kind; and
/// no row can be about another formula, or say something else.
fn every_number(group: &str, beginning: &str, row: &str) -> Vec<Adding> {
    let mut cases = vec![];
    for ((table, _), entries) in TABLES.into_iter().zip(entries_left(beginning)) {
        for (place, &entry) in entries.iter().enumerate() {
            let beside = [place.checked_sub(1), Some(place + 1)]
                .map(|at| *at.and_then(|at| entries.get(at)).unwrap_or(&0));
            let mut others =
                [entry.wrapping_add(1), entry.wrapping_sub(1), 0, 65_535, beside[0], beside[1]].to_vec();
            others.sort();
            others.dedup();
            for other in others.into_iter().filter(|&other| other != entry) {
                let name = format!("{group}/{table}_{place}_is_{other}");
                let change = format!("{table}:{place}:{other}");
                cases.push(match (beginning, change.as_str()) == RIGHT {
                    true => {
                        added(&name, beginning, &change, &line(row), ["1,0,65535,65535,4,1,4,1", "0", "0"])
                    }
                    false => refused(&name, beginning, &change, &line(row), 4, 0),
                });
            }
        }
    }
    cases
}

/// A number right after what is held, somewhere later, at the last place, and in tables that
/// are longer than they need be.
fn after_the_counts() -> Vec<Adding> {
    let mut cases = vec![];
    for ((table, least), entries) in TABLES.into_iter().zip(entries_left(SMALL)) {
        let used = entries.len();
        for (place, number) in [used, used + 1, (used + least) / 2, least - 2, least - 1]
            .into_iter()
            .flat_map(|place| [(place, 1), (place, 65_535)])
        {
            let name = format!("after_the_counts/{table}_{place}_is_{number}");
            cases.push(refused(&name, SMALL, &format!("{table}:{place}:{number}"), &line(ROW), 4, 0));
        }
        for place in [used, least - 1, least, least + 7, least + 15] {
            let name = format!("after_the_counts/longer_{table}_{place}");
            let changes = format!("length:{table}:{} {table}:{place}:1", least + 16);
            cases.push(refused(&name, SMALL, &changes, &line(ROW), 4, 0));
        }
    }
    cases
}

/// Each count one off, at its limit, over it, and such that it wraps to what it was. The count
/// of atoms alone may be larger than what is used.
fn counts() -> Vec<Adding> {
    let counted = [
        ("atoms", 1, 64),
        ("formulas", 5, 1_024),
        ("rows", 5, 2_048),
        ("left", 5, 16_384),
        ("right", 8, 16_384),
    ];
    let mut cases = vec![];
    for (count, own, limit) in counted {
        let wrapped = [8, 16, 32, 61, 62, 63].map(|bits| (1_u64 << bits) + own);
        let mut numbers = [own - 1, own + 1, 0, limit, limit + 1, 1 << 63, u64::MAX].to_vec();
        numbers.extend(wrapped);
        numbers.sort();
        numbers.dedup();
        for number in numbers {
            let (name, changes) = (format!("counts/{count}_{number}"), format!("count:{count}:{number}"));
            cases.push(match count == "atoms" && (own..=limit).contains(&number) {
                true => added(&name, SMALL, &changes, &line(ROW), STORED),
                false => refused(&name, SMALL, &changes, &line(ROW), 4, 0),
            });
        }
        // The zeros of an empty file are no formula, no row and no entry.
        let (name, changes, row) =
            (format!("counts/empty_{count}_1"), format!("count:{count}:1"), line("N 0 xini - - - -"));
        let nothing = ["14,65535,65535,65535,0,0,0,0", "-", "-"];
        cases.push(match count {
            "atoms" => added(&name, "examples/empty_text", &changes, &row, nothing),
            _ => refused(&name, "examples/empty_text", &changes, &row, 4, 0),
        });
    }
    cases
}

/// Each table one number short, of no length, and longer than it need be; and what is wrong
/// besides.
fn lengths() -> Vec<Adding> {
    let mut cases = vec![];
    for (table, least) in TABLES {
        for length in [0, 1, least - 1] {
            let changes = format!("length:{table}:{length}");
            cases.push(refused(&format!("lengths/{table}_{length}"), SMALL, &changes, &line(ROW), 1, 0));
        }
        for length in [least + 1, least + 2, 2 * least, 65_536, 65_537] {
            let changes = format!("length:{table}:{length}");
            cases.push(added(&format!("lengths/{table}_{length}"), SMALL, &changes, &line(ROW), STORED));
        }
        let short = format!("length:{table}:{}", least - 1);
        for (what, changes, row) in [
            ("1_and_4", format!("{short} count:rows:6"), line(ROW)),
            ("1_and_2", short.clone(), "@limits/65537_bytes".into()),
            ("1_and_3", short.clone(), "@examples/empty_text".into()),
            (
                "1_4_2_and_3",
                format!("{short} count:atoms:65"),
                "@limits/65537_bytes_with_a_bad_first_line".into(),
            ),
        ] {
            cases.push(refused(&format!("lengths/{table}_{what}"), SMALL, &changes, &row, 1, 0));
        }
    }
    let none = TABLES.map(|(table, _)| format!("length:{table}:0")).join(" ");
    cases.push(refused("lengths/all_0", SMALL, &none, &line(ROW), 1, 0));
    cases.push(refused(
        "lengths/all_0_of_nothing",
        "examples/empty_text",
        &none,
        &line("N 0 xini - - - -"),
        1,
        0,
    ));
    cases
}

/// A pool with 16,384 entries, one fewer, and one more.
fn full_pool(pool: Pool) -> Vec<Adding> {
    let (here, across) = match pool {
        Pool::Left => ("left", "right"),
        Pool::Right => ("right", "left"),
    };
    let beginning = format!("limits/16384_entries_{here}");
    let name = |what: &str| format!("full_pools/{here}_{what}");
    // Row 256 is # => #. A record has the left side first.
    let record = |starts: [usize; 2]| match pool {
        Pool::Left => format!("1,0,65535,65535,{},1,{},1", starts[0], starts[1]),
        Pool::Right => format!("1,0,65535,65535,{},1,{},1", starts[1], starts[0]),
    };
    let last: Vec<String> =
        [2048, 2050, 2051, 2052, 2053, 2054, 2055].map(|place| format!("rows:{place}:0")).into();
    let one_fewer = format!("{} count:rows:256 count:{here}:16383 count:{across}:256", last.join(" "));
    let numbers = record([MOST_IN_A_POOL, 257]);
    let more: Vec<String> =
        numbers.split(',').enumerate().map(|(k, number)| format!("rows:{}:{number}", 2056 + k)).collect();
    let one_more = format!(
        "length:{here}:16400 {} count:rows:258 count:{here}:16385 count:{across}:258",
        more.join(" ")
    );
    let two = match pool {
        Pool::Left => "N 256 same 0 - 0-1 0",
        Pool::Right => "N 256 same 0 - 0 0-1",
    };
    vec![
        added(
            &name("16383_and_1"),
            &beginning,
            &one_fewer,
            &line("N 256 same 0 - 0 0"),
            [&record([16_383, 256]), "0", "0"],
        ),
        refused(&name("16383_and_2"), &beginning, &one_fewer, &line(two), 5, 1),
        refused(&name("16384_and_1"), &beginning, "-", &line("N 257 same 0 - 0 0"), 5, 1),
        refused(&name("16384_and_4"), &beginning, "-", &line("N 256 same 0 - 0 0"), 4, 1),
        // The last row would be ~# => #, or # => ~#, about #.
        refused(
            &name("16384_and_a_wrong_last"),
            &beginning,
            &format!("{here}:16383:1"),
            &line("N 257 same 0 - 0 0"),
            4,
            0,
        ),
        refused(&name("16385_handed_in"), &beginning, &one_more, &line("N 258 same 0 - 0 0"), 4, 0),
        match pool {
            Pool::Left => added(
                &name("and_none"),
                &beginning,
                "-",
                &line("N 257 notr 1 256 - 0,1"),
                ["11,1,256,65535,16384,0,257,2", "-", "0,1"],
            ),
            Pool::Right => added(
                &name("and_none"),
                &beginning,
                "-",
                &line("N 257 bot 0 256 0 -"),
                ["5,0,256,65535,257,1,16384,0", "0", "-"],
            ),
        },
    ]
}

/// Each table used to its least length and lent one number longer: a zero there raises no limit,
/// and anything else stands after the counts.
fn full_and_longer() -> Vec<Adding> {
    let full = [
        ("limits/1024_formulas", "N 1 same 0 - 0 0"),
        ("limits/2048_rows", "N 2048 xini - - - -"),
        ("limits/16384_entries_left", "N 257 same 0 - 0 0"),
        ("limits/16384_entries_right", "N 257 same 0 - 0 0"),
    ];
    let mut cases = vec![];
    for ((table, least), (beginning, row)) in TABLES.into_iter().zip(full) {
        let (name, row) = (format!("full_and_longer/{table}"), line(row));
        let longer = format!("length:{table}:{}", least + 1);
        cases.push(match table {
            "formulas" => added(&name, beginning, &longer, &row, ["1,0,65535,65535,1,1,1,1", "0", "0"]),
            _ => refused(&name, beginning, &longer, &row, 5, 1),
        });
        let changes = format!("{longer} {table}:{least}:1");
        cases.push(refused(&format!("{name}_with_a_number_there"), beginning, &changes, &row, 4, 0));
    }
    cases
}

/// The right side of a row widened to 64 formulas, and to 65.
fn wide_right() -> Vec<Adding> {
    let beginning = "beginnings/64_on_the_left";
    let changes = |width: usize| {
        let entries: String = (1..width).map(|k| format!("right:{k}:{k} ")).collect();
        format!("{entries}rows:7:{width} count:right:{width}")
    };
    let row = line("N 1 same 0 - 0 0");
    vec![
        added("wide_right/64", beginning, &changes(64), &row, ["1,0,65535,65535,64,1,64,1", "0", "0"]),
        refused("wide_right/65", beginning, &changes(65), &row, 4, 0),
    ]
}
