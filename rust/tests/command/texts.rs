//! `bolfrega show` and `bolfrega make`.

use crate::calling::{answer, bytes_of, call, feed, made, read, samples};
use making::{damage, valid_file, valid_wide_file, Numbers, Size};

/// Whether the lines of a file, made to a file, are its bytes again, and give the same lines.
fn goes_round(option: &[&str], path: &str, bytes: &[u8], name: &str) {
    let shown = call(&[&["show"], option, &[path]].concat());
    assert_eq!((shown.status, shown.err.as_str()), (0, ""), "{path}");
    let text = made(&format!("{name}.txt"), shown.out.as_bytes());
    let file = bytes_of(&[&["make"], option, &[&text]].concat());
    assert_eq!(file, bytes, "{path}");
    let to = made(&format!("{name}.plan"), &[]);
    assert_eq!(call(&[&["make"], option, &[&text, &to]].concat()).status, 0);
    assert_eq!(std::fs::read(&to).unwrap(), bytes, "{path}");
    assert_eq!(call(&[&["show"], option, &[&to]].concat()), shown, "{path}");
}

/// Whether a file that is refused is shown so, with a line for each record, and is not made from its lines.
fn is_marked(option: &[&str], path: &str, number: &str, name: &str) {
    let shown = call(&[&["show"], option, &[path]].concat());
    assert_eq!(shown.status, 3, "{path}");
    let mark = format!("({number})");
    assert!(
        shown
            .out
            .lines()
            .any(|line| line.contains("refused, ") && line.contains(&mark)),
        "{path}: {}",
        shown.out
    );
    let text = made(&format!("{name}.txt"), shown.out.as_bytes());
    let said = call(&[&["make"], option, &[&text]].concat());
    assert_eq!((said.status, said.out.as_str()), (2, ""), "{path}");
}

#[test]
fn the_lines_of_every_sample_make_it_again() {
    for (option, ending) in [(&[][..], ".plan"), (&["--wide"], ".wide")] {
        for sample in samples(ending) {
            match answer(&sample)[0].strip_prefix("refused ") {
                // Its records are fine: only its chains are too many.
                Some("18") | None => goes_round(option, &sample, &read(&sample), "sample"),
                Some(number) => is_marked(option, &sample, number, "marked-sample"),
            }
        }
    }
}

#[test]
fn the_lines_of_many_files_make_them_again() {
    let mut numbers = Numbers::new(25);
    let size = Size {
        rules: 12,
        moves: 20,
        procedures: 4,
        codes: 6,
    };
    for _ in 0..25 {
        let file = valid_file(&mut numbers, size);
        goes_round(&[], &made("some.plan", &file), &file, "some");
        let wide = valid_wide_file(&mut numbers, size, &[0, 1, 2, 5, 12]);
        goes_round(&["--wide"], &made("some.wide", &wide), &wide, "some-wide");
    }
}

#[test]
fn plan_b_as_text() {
    let said = call(&["show", "samples/plan-b.plan"]);
    let expected = "\
0: 0 gives (procedure 1) 3
1: 1 gives nothing
2: 1 gives 1 (procedure 2)
3: 2 gives (procedure 1)
4: 2 gives 2 (procedure 1)
5: from stage 0 on code 1 to stage 1
6: from stage 0 on code 3 to stage 2
7: from stage 1 on code 2 to stage 0
8: stage 2 is finishing
";
    assert_eq!(said.out, expected);
}

#[test]
fn a_refused_record_is_marked_and_the_rest_shown() {
    let file = [
        [1, 0, 1, 5, 0, 0, 0, 0],
        [9, 0, 0, 0, 0, 0, 0, 1],
        [2, 0, 5, 1, 0, 0, 0, 0],
        [2, 0, 5, 1, 0, 0, 0, 0],
        [3, 16, 0, 0, 0, 0, 0, 0],
    ];
    let text = "\
0: 0 gives 5
1: refused, the kind is not 1, 2 or 3 (3): bytes 9 0 0 0 0 0 0 1
2: refused, it does not exceed the record before it (6): from stage 0 on code 5 to stage 1
3: refused, it does not exceed the record before it (6): from stage 0 on code 5 to stage 1
4: refused, a used byte is above its range (4): bytes 3 16 0 0 0 0 0 0
";
    let said = feed(&["show", "-"], &file.concat());
    assert_eq!((said.status, said.out.as_str()), (3, text));
    // The same in 16-byte records.
    let wide: Vec<u8> = file.iter().flat_map(|record| [&record[..], &[0; 8]].concat()).collect();
    let text = "\
0: 0 gives 5
1: refused, the kind is not 1, 2 or 3 (3): bytes 9 0 0 0 0 0 0 1 0 0 0 0 0 0 0 0
2: refused, it does not exceed the record before it (6): from stage 0 on code 5 to stage 1
3: refused, it does not exceed the record before it (6): from stage 0 on code 5 to stage 1
4: refused, a used byte is above its range (4): bytes 3 16 0 0 0 0 0 0 0 0 0 0 0 0 0 0
";
    let said = feed(&["show", "--wide", "-"], &wide);
    assert_eq!((said.status, said.out.as_str()), (3, text));
    // What is left over has its line.
    let cut = feed(&["show", "-"], &file.concat()[..11]);
    let expected = "0: 0 gives 5\nrefused, the file's length is no multiple of 8 (1): bytes 9 0 0\n";
    assert_eq!((cut.status, cut.out.as_str()), (3, expected));
}

#[test]
fn every_damaged_file_has_its_answer() {
    let mut numbers = Numbers::new(26);
    let size = Size {
        rules: 8,
        moves: 12,
        procedures: 4,
        codes: 6,
    };
    let mut refused = 0;
    for _ in 0..100 {
        let mut file = valid_file(&mut numbers, size);
        damage(&mut numbers, &mut file, 8);
        let path = made("damaged.plan", &file);
        match bolfrega::refusal(&file) {
            Ok(()) => goes_round(&[], &path, &file, "undamaged"),
            Err(refusal) => {
                is_marked(&[], &path, &refusal.number().to_string(), "damaged");
                refused += 1;
            }
        }
        // The other commands end with an answer too.
        for command in ["check", "explain", "gaps", "judge", "member"] {
            let said = call(&[command, &path]);
            assert_eq!(said.status == 3, bolfrega::refusal(&file).is_err(), "{command}: {}", said.out);
            assert!(
                [0, 1, 3, 4].contains(&said.status) && said.err.is_empty(),
                "{command}: {}",
                said.err
            );
        }
        let lines = call(&["show", &path])
            .out
            .lines()
            .filter(|line| line.starts_with(char::is_numeric))
            .count();
        assert_eq!(lines, file.len() / 8);
    }
    assert!(refused > 30, "{refused}");
}

#[test]
fn a_text_in_any_order_with_comments() {
    let text =
        "# plan B's first rules\n\n  stage 2 is finishing # the only one\n17: 1 gives nothing\n0 gives ( procedure 1 ) 3\n";
    let file = [[1, 0, 2, 129, 3, 0, 0, 0], [1, 1, 0, 0, 0, 0, 0, 0], [3, 2, 0, 0, 0, 0, 0, 0]].concat();
    let path = made("order.txt", text.as_bytes());
    assert_eq!(bytes_of(&["make", &path]), file);
}

#[test]
fn a_text_that_is_none() {
    for (text, status, complaint) in [
        ("0 gives\n", 2, "-:1: no record: 0 gives"),
        ("\n0 gives 128\n", 2, "-:2: no record: 0 gives 128"),
        ("0 gives (procedure 1\n", 2, "-:1: no record: 0 gives ( procedure 1"),
        ("0 gives 1\n1 gives 1\n0 gives 1\n", 2, "-:3: the same record as in line 1"),
        (
            "3: refused, a used byte is above its range (4): bytes 1 64 0 0 0 0 0 0\n",
            2,
            "-:1: no record: *",
        ),
        (
            "stage 3 is finishing\nstage 16 is finishing\n",
            3,
            "-:2: refused: a used byte is above its range (4)",
        ),
        ("0 gives 1 2 3\n", 3, "-:1: refused: a used byte is above its range (4)"),
        (
            "stage 1 is finishing\nfrom stage 0 on code 120 to stage 1\n",
            3,
            "-:2: refused: it is a move on a remark, *",
        ),
    ] {
        let said = feed(&["make", "-"], text.as_bytes());
        assert_eq!((said.status, said.out.as_str()), (status, ""), "{text}");
        let complaint = complaint.trim_end_matches('*');
        assert!(
            said.err.starts_with(&format!("bolfrega: {complaint}")),
            "{text}: {}",
            said.err
        );
    }
    let many: String = (0..=255).map(|n| format!("{} gives {}\n", n / 4, n % 4)).collect();
    let said = feed(&["make", "-"], format!("{many}0 gives 5\n").as_bytes());
    assert_eq!(said.status, 3);
    assert!(said.err.contains("(7)"), "{}", said.err);
    // The file that stands there is left as it was.
    let kept = made("kept.plan", b"kept");
    assert_eq!(feed(&["make", "-", &kept], b"stage 16 is finishing\n").status, 3);
    assert_eq!(std::fs::read(kept).unwrap(), b"kept");
}
