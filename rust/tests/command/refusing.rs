//! Every number that can come, from every command that takes a file.

use crate::calling::{call, feed, made};
use bolfrega::{FileBuilder, MOST_RECORDS};

/// A file that is refused with each number.
fn refused_files() -> Vec<(u8, Vec<u8>)> {
    let finishing = |stage| [3, stage, 0, 0, 0, 0, 0, 0];
    let mut many = FileBuilder::new();
    (0..=255).for_each(|rule: u8| {
        many.rule(rule / 4, &[rule % 4]);
    });
    vec![
        (1, vec![3, 0, 0]),
        (
            2,
            (0..=MOST_RECORDS)
                .flat_map(|n| [1, 0, 2, (n / 128) as u8, (n % 128) as u8, 0, 0, 0])
                .collect(),
        ),
        (3, [finishing(0), [4, 0, 0, 0, 0, 0, 0, 0]].concat()),
        (4, [finishing(0), finishing(16)].concat()),
        (5, [finishing(0), [3, 1, 0, 0, 0, 0, 0, 1]].concat()),
        (6, [finishing(1), finishing(1)].concat()),
        (7, many.rule(63, &[9]).bytes()),
        (12, [[2, 0, 119, 0, 0, 0, 0, 0], [2, 0, 120, 0, 0, 0, 0, 0]].concat()),
    ]
}

/// The mark of the first record that is refused, where the refusal names it, and else of the whole file, in the last line.
fn marked(shown: &str, record: Option<u64>) -> String {
    let line = match record {
        Some(record) => {
            let first = shown.lines().find(|line| line.contains("refused")).unwrap();
            first
                .strip_prefix(&format!("{record}: "))
                .unwrap_or_else(|| panic!("{first}"))
        }
        None => shown.lines().last().unwrap(),
    };
    line[..=line.rfind(')').unwrap()].to_string()
}

#[test]
fn a_refused_file_has_its_number_everywhere() {
    for (number, file) in refused_files() {
        let refusal = bolfrega::refusal(&file).unwrap_err();
        assert_eq!(refusal.number(), number.into());
        let path = made(&format!("refused-{number}.plan"), &file);
        for words in [&["check"][..], &["explain"], &["gaps"], &["judge"], &["member"]] {
            let said = call(&[words, &[&path]].concat());
            assert_eq!((said.status, said.err.as_str()), (3, ""), "{words:?} {number}");
            assert!(said.out.starts_with(&format!("{path}: refused: {refusal}")), "{}", said.out);
        }
        let said = call(&["show", &path]);
        assert_eq!((said.status, said.err.as_str()), (3, ""));
        assert_eq!(
            marked(&said.out, refusal.record()),
            format!("refused, {} ({number})", refusal.message())
        );
        let json = call(&["check", "--json", &path]);
        let record = refusal.record().map_or("null".to_string(), |record| record.to_string());
        let expected = format!("\"verdict\":\"refused\",\"number\":{number},\"record\":{record},\"message\":");
        assert!(json.status == 3 && json.out.contains(&expected), "{}", json.out);
    }
}

#[test]
fn a_refused_wide_file_has_its_number() {
    for (number, file) in refused_files() {
        let wide: Vec<u8> = file.chunks(8).flat_map(|record| [record, &[0; 8]].concat()).collect();
        let number = if number == 1 { 16 } else { number };
        let path = made(&format!("refused-{number}.wide"), &wide);
        let said = call(&["unfold", &path]);
        assert_eq!((said.status, said.out.as_str()), (3, ""), "{number}");
        assert!(said.err.contains(&format!("({number}); ")), "{}", said.err);
        let said = call(&["show", "--wide", &path]);
        assert_eq!(said.status, 3);
        let refusal = bolfrega::wide_refusal(&wide).unwrap_err();
        assert_eq!(
            marked(&said.out, refusal.record()),
            format!("refused, {} ({number})", refusal.message())
        );
    }
    // Procedure 63 is in use, and a chain would need one above it.
    let chains = [1, 63, 3, 1, 2, 3, 0, 0, 0, 0, 0, 0, 0, 0, 0, 0];
    let said = feed(&["unfold", "-"], &chains);
    assert_eq!((said.status, said.out.as_str()), (3, ""));
    assert!(said.err.contains("(18); "), "{}", said.err);
}

#[test]
fn a_refused_run_has_its_number() {
    let long: Vec<&str> = ["member", "samples/plan-a.plan"]
        .into_iter()
        .chain([&"3"; 65].into_iter().copied())
        .collect();
    let said = call(&long);
    assert_eq!(said.status, 3);
    assert!(said.out.contains("(13); "), "{}", said.out);
    assert_eq!(call(&long[..66]).status, 1);
    for command in ["judge", "member"] {
        let said = call(&[command, "samples/plan-a.plan", "3", "128"]);
        assert_eq!(said.status, 3);
        assert!(said.out.contains("(11); "), "{}", said.out);
    }
    let longer: Vec<&str> = ["judge", "samples/plan-a.plan"]
        .into_iter()
        .chain([&"3"; 65_535].into_iter().copied())
        .collect();
    let said = call(&longer);
    assert_eq!(said.status, 3);
    assert!(said.out.contains("(11); "), "{}", said.out);
    assert_eq!(call(&longer[..65_536]).status, 1);
}

#[test]
fn a_long_input_is_refused_as_a_whole() {
    for (length, number) in [
        (8, 3),
        (10_368, 3),
        (10_369, 1),
        (10_376, 2),
        (10_383, 1),
        (20_752, 2),
        (20_753, 1),
        (1_000_000, 2),
        (1_000_001, 1),
    ] {
        let zeros = vec![0; length];
        let said = feed(&["check", "-"], &zeros);
        assert_eq!(said.status, 3, "{length}");
        assert!(said.out.contains(&format!("({number}); ")), "{length}: {}", said.out);
        let path = made("zeros.plan", &zeros);
        assert!(call(&["check", &path]).out.contains(&format!("({number}); ")), "{length}");
        let shown = call(&["show", &path]);
        assert_eq!(shown.status, 3);
        assert!(shown.out.lines().count() <= MOST_RECORDS + 1, "{length}");
    }
}
