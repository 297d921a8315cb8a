use super::*;

const SUBJECT: Subject = Subject {
    name: "trial",
    least: 3,
    refusals: &[0, 2],
    kinds: &[("one", 1), ("", 1), ("three", 2)],
    parts: 1,
    compare: |_, _| Tally::default(),
};

fn tally() -> Tally {
    let mut tally = Tally {
        calls: 3,
        ..Tally::default()
    };
    tally.refusals[0] = 2;
    tally.refusals[2] = 1;
    tally.kinds[0] = 4;
    tally.kinds[2] = 5;
    tally
}

fn written(tally: &Tally) -> String {
    let mut out = Vec::new();
    write(&mut out, &[SUBJECT], std::slice::from_ref(tally)).unwrap();
    String::from_utf8(out).unwrap()
}

fn clean(tally: &Tally) -> bool {
    is_clean(&[SUBJECT], std::slice::from_ref(tally))
}

#[test]
fn counts_are_written_by_refusal_and_kind() {
    let expected = "\
subject                                  calls  differences
trial                                        3            0
  by refusal  0: 2, 2: 1
  of these    one: 4, three: 5
total                                        3            0
0 differences
";
    assert_eq!(written(&tally()), expected);
    assert!(clean(&tally()));
}

#[test]
fn differences_are_told_first_and_not_all_of_them() {
    let mut tally = tally();
    for number in 0..7 {
        tally.differences += 1;
        tally.told.push(format!("difference {number}"));
    }
    let text = written(&tally);
    assert!(text.starts_with("trial: difference 0\n"));
    assert_eq!(text.matches("trial: difference").count(), 5);
    assert!(text.ends_with("\n7 differences\n"));
    assert!(!clean(&tally));
}

type Spoil = fn(&mut Tally);

#[test]
fn a_subject_has_to_come_by_what_it_is_for() {
    let spoilt: [(Spoil, &str); 5] = [
        (|tally| tally.calls = 2, "trial: 2 calls, 3 are due"),
        (
            |tally| tally.refusals[2] = 0,
            "the refusals are [0], not [0, 2]",
        ),
        (|tally| tally.refusals[1] = 1, "the refusals are [0, 1, 2]"),
        (|tally| tally.kinds[2] = 0, "trial: none of the kind three"),
        (
            |tally| tally.kinds[2] = 1,
            "trial: 1 of the kind three, 2 are due",
        ),
    ];
    for (spoil, shortcoming) in spoilt {
        let mut tally = tally();
        spoil(&mut tally);
        assert!(!clean(&tally));
        assert!(written(&tally).contains(shortcoming), "{shortcoming}");
    }
}
