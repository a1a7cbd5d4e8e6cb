//! Cases A, C and F of document 01, refusals and direct calls, over the linked library.
use pezhkadu::{End, Ending, Refused, Stage, Standing};

/// A file of tests/cases.
fn case_file(name: &str) -> String {
    let path = format!("{}/../../tests/cases/{name}", env!("CARGO_MANIFEST_DIR"));
    std::fs::read_to_string(path).expect("a case")
}

/// The bytes of a case: hexadecimal digits without comments.
fn case_bytes(name: &str) -> Vec<u8> {
    let text = case_file(&format!("{name}.hex"));
    let digits: Vec<u32> =
        text.lines().flat_map(|line| line.split('#').next().unwrap_or("").chars().filter_map(|c| c.to_digit(16))).collect();
    digits.chunks(2).map(|pair| (pair[0] * 16 + pair[1]) as u8).collect()
}

fn sheet(name: &str) -> String {
    let mut stage = Stage::load(&case_bytes(name)).expect("it loads");
    let end = stage.run(stage.budget());
    stage.lines(end).collect()
}

#[test]
fn sheets_are_the_cases() {
    for name in ["A", "C", "F"] {
        assert_eq!(sheet(name), case_file(&format!("{name}.sheet")), "case {name}");
    }
}

#[test]
fn a_run_goes_on_where_the_last_one_was_spent() {
    let mut stage = Stage::load(&case_bytes("C")).expect("it loads");
    assert_eq!(stage.run(1), End { ending: Ending::Spent, dequeues: 1 });
    assert_eq!(stage.standing(0), Ok(Standing::In(0)));
    assert_eq!(stage.standing(1), Ok(Standing::Waits));
    assert_eq!(stage.run(100_000), End { ending: Ending::Done, dequeues: 3 });
    assert_eq!(stage.standing(0), Ok(Standing::Left));
    assert_eq!(stage.standing(1), Ok(Standing::In(0)));
}

#[test]
fn direct_calls() {
    let mut stage = Stage::load(&case_bytes("F")).expect("it loads");
    assert_eq!(stage.virt_regs(), 1);
    let fresh: String = stage.lines(End { ending: Ending::Done, dequeues: 0 }).collect();
    assert_eq!(stage.assign(0, 0, 2.5), Ok(()));
    assert_eq!(stage.standing(0), Ok(Standing::In(0)));
    assert_eq!(stage.assign(0, 0, 2.5), Err(Refused(13)));
    assert_eq!(stage.evict(0), Ok(0));
    let back: String = stage.lines(End { ending: Ending::Done, dequeues: 0 }).collect();
    assert_eq!(back, fresh);
    assert_eq!(stage.evict(0), Err(Refused(13)));
}

#[test]
fn refusals_come_in_their_order() {
    let mut stage = Stage::load(&case_bytes("A")).expect("it loads");
    assert_eq!(stage.assign(2, 0, 1.0), Err(Refused(8)));
    assert_eq!(stage.assign(1 << 16, 0, 1.0), Err(Refused(8)));
    assert_eq!(stage.assign(0, 256, 1.0), Err(Refused(8)));
    assert_eq!(stage.assign(0, 0, f32::INFINITY), Err(Refused(9)));
    assert_eq!(stage.assign(0, 0, -0.0), Err(Refused(9)));
    assert_eq!(stage.assign(0, 0, 1.0), Ok(()));
    assert_eq!(stage.assign(1, 0, 1.0), Err(Refused(14)));
    assert_eq!(stage.evict(u64::MAX), Err(Refused(8)));
    assert_eq!(stage.standing(2), Err(Refused(8)));
    assert_eq!(Stage::load(&[]).err(), Some(Refused(1)));
    assert_eq!(Stage::load(&[0, 0]).err(), Some(Refused(2)));
    assert_eq!(Stage::load(&vec![0; 32_769]).err(), Some(Refused(4)));
}
