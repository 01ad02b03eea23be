//! Bills with their text or their number written down by hand: the example of
//! the rules, no receipts, every station, jobs that rise and that do not, texts
//! that are no receipts, the order of refusals, and buffers of every room.

use mmtf_tests::check::bills::*;

/// The receipt that stands in the rules, by any station and job.
fn accepted(station: u32, job: u32) -> String {
    format!(
        "station={station}\njob={job}\nverdict=0\nmodels=1\nchains=4\ngroups=302\n\
         atoms=1023\nbonds=1142\nfields=16\nunits=1\n"
    )
}

/// The receipt of a refused file.
fn refused(station: u32, job: u32, verdict: u32) -> String {
    format!(
        "station={station}\njob={job}\nverdict={verdict}\nmodels=0\nchains=0\ngroups=0\n\
         atoms=0\nbonds=0\nfields=0\nunits=0\n"
    )
}

#[track_caller]
fn expect(run: &[String], bill: &str, case: &str) {
    expect_bill(run.concat().as_bytes(), bill, case);
}

/// Refused with this number, whether there is room or not.
#[track_caller]
fn expect_refused(run: &[String], number: u8, case: &str) {
    for room in [0, 1, 7, 8, 40, LONGEST] {
        expect_no_bill(run.concat().as_bytes(), room, number, case);
    }
}

#[test]
fn example_of_the_rules() {
    let bill = "station=7\naccepted=1\nrefused=0\ntotal=1\n";
    expect(&[accepted(7, 12)], bill, "the receipt of the rules");
}

#[test]
fn no_receipts() {
    expect(&[], "total=0\n", "nothing");
}

#[test]
fn one_refused() {
    for verdict in 1..=24 {
        let bill = "station=7\naccepted=0\nrefused=1\ntotal=0\n";
        expect(&[refused(7, 12, verdict)], bill, "a refused file alone");
    }
}

#[test]
fn accepted_and_refused() {
    expect(
        &[refused(7, 12, 3), accepted(7, 13)],
        "station=7\naccepted=1\nrefused=1\ntotal=1\n",
        "first refused, then accepted",
    );
    expect(
        &[accepted(7, 12), refused(7, 13, 24)],
        "station=7\naccepted=1\nrefused=1\ntotal=1\n",
        "first accepted, then refused",
    );
    expect(
        &[
            accepted(7, 1),
            accepted(7, 2),
            refused(7, 3, 1),
            accepted(7, 4),
            refused(7, 5, 2),
        ],
        "station=7\naccepted=3\nrefused=2\ntotal=3\n",
        "three and two",
    );
}

/// Stations come in rising order, by their numbers and not by their digits, and
/// not in that of their receipts.
#[test]
fn stations_rise() {
    expect(
        &[
            accepted(42, 5),
            refused(9, 1, 12),
            accepted(10, 3),
            accepted(42, 6),
            accepted(9, 2),
            accepted(42, 7),
            refused(10, 4, 12),
            refused(10, 5, 12),
        ],
        "station=9\naccepted=1\nrefused=1\n\
         station=10\naccepted=1\nrefused=2\n\
         station=42\naccepted=3\nrefused=0\n\
         total=5\n",
        "three stations by turns",
    );
    expect(
        &[accepted(99, 1), accepted(1, 1)],
        "station=1\naccepted=1\nrefused=0\nstation=99\naccepted=1\nrefused=0\ntotal=2\n",
        "the last station and the first",
    );
    expect(
        &[refused(2, 1, 2), refused(1, 1, 2)],
        "station=1\naccepted=0\nrefused=1\nstation=2\naccepted=0\nrefused=1\ntotal=0\n",
        "none accepted",
    );
}

/// Station n has n receipts, of which every third is of a refused file; they
/// come from the last station down.
#[test]
fn every_station() {
    let mut run = Vec::new();
    let mut bill = String::new();
    for station in (1..=99).rev() {
        for job in 1..=station {
            run.push(match job % 3 {
                0 => refused(station, job, 20),
                _ => accepted(station, job),
            });
        }
    }
    for station in 1..=99 {
        let refused = station / 3;
        let accepted = station - refused;
        bill += &format!("station={station}\naccepted={accepted}\nrefused={refused}\n");
    }
    // 1 to 99 add up to 4,950. Their thirds, rounded down, are 0 twice, 1 to 32
    // three times each, and 33 once: 3 * 528 + 33.
    expect(&run, &(bill + "total=3333\n"), "all 99");
}

/// Each station alone.
#[test]
fn one_station() {
    for station in 1..=99 {
        let bill = format!("station={station}\naccepted=1\nrefused=0\ntotal=1\n");
        expect(&[accepted(station, 999_999)], &bill, "a station alone");
    }
}

/// By 1 and by more, and as numbers: 9 and 10 rise, though their digits do not.
#[test]
fn jobs_rise() {
    let bill = "station=7\naccepted=2\nrefused=0\ntotal=2\n";
    for (first, second) in [
        (1, 2),
        (1, 999_999),
        (999_998, 999_999),
        (9, 10),
        (99, 100),
        (255, 256),
        (65_535, 65_536),
        (65_536, 131_072),
        (99_999, 100_000),
        (1_000, 20_000),
    ] {
        let case = format!("{first}, {second}");
        expect(&[accepted(7, first), accepted(7, second)], bill, &case);
        let run = [accepted(7, second), accepted(7, first)];
        expect_refused(&run, 30, &case);
    }
}

#[test]
fn jobs_do_not_rise() {
    for job in [1, 2, 12, 999_998, 999_999] {
        let equal = [accepted(7, job), accepted(7, job)];
        expect_refused(&equal, 30, "equal jobs");
        let lower = [accepted(7, job), accepted(7, job.max(2) - 1)];
        expect_refused(&lower, 30, "a lower job");
    }
    expect_refused(
        &[accepted(7, 1), accepted(7, 3), accepted(7, 2)],
        30,
        "above the first, below the last",
    );
    expect_refused(
        &[accepted(7, 2), accepted(7, 3), accepted(7, 2)],
        30,
        "a job of before",
    );
}

/// Receipts of refused files have jobs too.
#[test]
fn jobs_of_refused_files() {
    for run in [
        [refused(7, 12, 3), accepted(7, 12)],
        [accepted(7, 12), refused(7, 12, 3)],
        [refused(7, 12, 3), refused(7, 12, 3)],
        [refused(7, 12, 3), accepted(7, 11)],
        [accepted(7, 12), refused(7, 11, 3)],
    ] {
        expect_refused(&run, 30, "a refused file");
    }
    expect_refused(
        &[accepted(7, 11), refused(7, 13, 3), accepted(7, 12)],
        30,
        "between the two before it",
    );
}

/// The jobs of one station say nothing of another's.
#[test]
fn jobs_of_other_stations() {
    expect(
        &[accepted(7, 12), accepted(8, 12), accepted(9, 11)],
        "station=7\naccepted=1\nrefused=0\n\
         station=8\naccepted=1\nrefused=0\n\
         station=9\naccepted=1\nrefused=0\n\
         total=3\n",
        "equal and falling jobs of three stations",
    );
    expect(
        &[
            accepted(7, 12),
            accepted(8, 999_999),
            accepted(7, 13),
            accepted(9, 1),
            accepted(7, 14),
        ],
        "station=7\naccepted=3\nrefused=0\n\
         station=8\naccepted=1\nrefused=0\n\
         station=9\naccepted=1\nrefused=0\n\
         total=5\n",
        "rising across others",
    );
    for job in [1, 11, 12] {
        expect_refused(
            &[
                accepted(7, 12),
                accepted(8, 1),
                refused(99, 5, 1),
                accepted(7, job),
            ],
            30,
            "not rising across others",
        );
    }
}

/// The same with the fault in the first receipt, in the middle and in the last.
#[track_caller]
fn expect_malformed(spoilt: &str, case: &str) {
    let others = [accepted(7, 1), refused(8, 1, 3), accepted(7, 999_998)];
    for place in 0..=others.len() {
        let mut run = others.to_vec();
        run.insert(place, spoilt.to_string());
        expect_refused(&run, 29, case);
    }
}

#[test]
fn malformed() {
    let whole = accepted(42, 500);
    let cases = [
        ("\n", "an empty line"),
        (" ", "a space"),
        ("\0", "an end mark"),
        ("x", "a letter"),
        ("station=42\n", "one line"),
        (&whole[..whole.len() - 1], "no last line feed"),
        (&whole[1..], "no first letter"),
        (&format!("{whole}\n"), "a line feed more"),
        (&format!("\u{feff}{whole}"), "a byte order mark"),
        (&whole.replace('\n', "\r\n"), "carriage returns"),
        (&whole.replace("job=500", "job=0500"), "a leading zero"),
        (&whole.replace("job=500", "job=+500"), "a plus sign"),
        (&whole.replace("job=500", "job="), "no digits"),
        (&whole.replace("job=500", "job=0"), "job 0"),
        (&whole.replace("job=500", "job=1000000"), "job 1,000,000"),
        (
            &whole.replace("job=500", "job=4294967796"),
            "500 in 32 bits",
        ),
        (&whole.replace("station=42", "station=0"), "station 0"),
        (&whole.replace("station=42", "station=100"), "station 100"),
        (
            &whole.replace("station=42", "station=298"),
            "42 in eight bits",
        ),
        (&whole.replace("verdict=0", "verdict=1"), "counts and units"),
        (&whole.replace("fields=16", "fields=15"), "15 fields"),
        (&whole.replace("units=1", "units=0"), "no unit"),
        (&whole.replace("units=1", "units=2"), "two units"),
        (
            &whole.replace("atoms=1023", "atoms=16777217"),
            "16,777,217 atoms",
        ),
        (&refused(42, 500, 25), "verdict 25"),
        (&refused(42, 500, 0), "accepted, and all zeros"),
        (
            &refused(42, 500, 3).replace("units=0", "units=1"),
            "a unit of a refused file",
        ),
        ("total=0\n", "a bill"),
        (
            "station=7\naccepted=1\nrefused=0\ntotal=1\n",
            "another bill",
        ),
    ];
    for (spoilt, case) in cases {
        expect_malformed(spoilt, case);
    }
}

/// The first receipt at fault decides.
#[test]
fn order_by_place() {
    let malformed = accepted(7, 14).replace("units=1", "units=2");
    expect_refused(
        &[accepted(7, 12), accepted(7, 12), malformed.clone()],
        30,
        "30, then 29",
    );
    expect_refused(
        &[accepted(7, 12), malformed.clone(), accepted(7, 12)],
        29,
        "29, then 30",
    );
    expect_refused(
        &[
            accepted(7, 12),
            accepted(8, 1),
            accepted(7, 11),
            accepted(8, 2),
            malformed.clone(),
        ],
        30,
        "30, then a receipt, then 29",
    );
    expect_refused(
        &[malformed, accepted(7, 12), accepted(8, 1), accepted(7, 12)],
        29,
        "29 at once, 30 at the end",
    );
    expect_refused(
        &[
            accepted(7, 12),
            accepted(7, 12),
            accepted(7, 13)[..20].into(),
        ],
        30,
        "30, then a receipt that is cut",
    );
}

/// Of a receipt with both faults 29 is answered.
#[test]
fn order_within_a_receipt() {
    for job in [1, 11, 12] {
        let twice = accepted(7, job);
        for (spoilt, case) in [
            (twice.replace("units=1", "units=2"), "units"),
            (twice.replace("fields=16", "fields=40"), "fields"),
            (twice.replace("verdict=0", "verdict=25"), "verdict"),
            (twice[..twice.len() - 1].to_string(), "the last line feed"),
            (refused(7, job, 0), "counts"),
        ] {
            expect_refused(&[accepted(7, 12), spoilt], 29, case);
        }
    }
}

/// Every room up to the bill's size is 25, and from there on it is written.
#[test]
fn buffers() {
    let runs = [
        (vec![], "total=0\n"),
        (
            vec![accepted(7, 12)],
            "station=7\naccepted=1\nrefused=0\ntotal=1\n",
        ),
        (
            vec![refused(99, 1, 2), accepted(10, 999_999)],
            "station=10\naccepted=1\nrefused=0\nstation=99\naccepted=0\nrefused=1\ntotal=1\n",
        ),
    ];
    for (run, bill) in runs {
        for room in 0..bill.len() {
            let case = format!("room {room}");
            expect_no_bill(run.concat().as_bytes(), room, 25, &case);
        }
        expect(&run, bill, "room enough");
    }
}
