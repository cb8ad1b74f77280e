//! `bolfrega explain`.

use crate::calling::{answer, call, feed, made, read, samples, status_of};
use bolfrega::{check_owned, Starts, Verdict};
use making::{valid_file, Numbers, Size};

const NAMES: &str = "\
# plan B
procedure 0 drive
procedure 1 rows
procedure 2 after tile

step 1 tile-row
step 2 index-row
step 3 close   # the last
stage 0 ready
stage 1 index-due
stage 2 closed
";

#[test]
fn plan_b_to_the_letter() {
    let expected = "\
samples/plan-b.plan: broken: the sheet turns away the run 1 3 of procedure 0

The run, and the stages that the sheet can be in:
  start  stage 0
  1      stage 1
  3      no stage   <- no move on 3 from stage 1: no finishing stage can be reached any more

How the plan gives it, each rule above those of its procedures:
  record 0: 0 gives (procedure 1) 3   (steps 1 to 2)
    record 2: 1 gives 1 (procedure 2)   (step 1)
      record 3: 2 gives (procedure 1)   (no step)
        record 1: 1 gives nothing   (no step)

To do: change one of these rules, or the sheet, and check again.
";
    let said = call(&["explain", "samples/plan-b.plan"]);
    assert_eq!((said.status, said.out.as_str(), said.err.as_str()), (1, expected, ""));
}

#[test]
fn the_readme_has_what_is_printed() {
    let readme = String::from_utf8(read("README.md")).unwrap();
    let said = call(&["explain", "samples/plan-b.plan"]).out;
    let indent = |line: &str| {
        if line.is_empty() {
            "\n".to_string()
        } else {
            format!("    {line}\n")
        }
    };
    let (shown, _) = said.split_once("\nTo do: ").unwrap();
    assert!(readme.contains(&shown.lines().map(indent).collect::<String>()), "{shown}");
}

#[test]
fn plan_b_with_names() {
    let expected = "
The run, and the stages that the sheet can be in:
  start     ready
  tile-row  index-due
  close     no stage   <- no move on close from index-due: no finishing stage can be reached any more

How the plan gives it, each rule above those of its procedures:
  record 0: drive gives (rows) close   (steps 1 to 2)
    record 2: rows gives tile-row (after tile)   (step 1)
      record 3: after tile gives (rows)   (no step)
        record 1: rows gives nothing   (no step)
";
    let names = made("names.txt", NAMES.as_bytes());
    let said = call(&["explain", "--names", &names, "samples/plan-b.plan"]);
    assert_eq!(said.status, 1);
    assert!(said.out.contains(expected), "{}", said.out);
}

#[test]
fn names_that_are_none() {
    for text in [
        "procedure 64 x",
        "step 128 x",
        "stage 16 x",
        "procedure 1",
        "procedure",
        "record 1 x",
        "stage -1 x",
        "stage 1 x\nstage 1 y",
    ] {
        let said = feed(&["explain", "--names", "-", "samples/plan-b.plan"], text.as_bytes());
        assert_eq!((said.status, said.out.as_str()), (2, ""), "{text}");
        assert!(said.err.starts_with("bolfrega: -:"), "{}", said.err);
    }
    let said = feed(&["explain", "--names", "-", "samples/plan-b.plan"], b"stage 1 \xff");
    assert_eq!((said.status, said.out.as_str()), (2, ""));
}

#[test]
fn procedures_that_never_finish() {
    let expected = "\
samples/routes.plan: empty: one of procedures 0, 4, 63 never finishes

  procedure 4 never finishes:
    record 6: 4 gives 1 (procedure 5)   (waits for procedure 5)
  procedure 5 never finishes:
    record 7: 5 gives 2 (procedure 4)   (waits for procedure 4)
  procedure 63 never finishes:
    it has no rule

To do: give these procedures rules that wait for none of them, and check again.
";
    let said = call(&["explain", "--start", "0,4,63", "samples/routes.plan"]);
    assert_eq!((said.status, said.out.as_str()), (1, expected));
}

/// What stands behind the arrow of the place where a run is lost.
fn lost(file: &[[u8; 8]]) -> Option<String> {
    let said = feed(&["explain", "-"], &file.concat());
    assert_eq!(said.status, 1, "{}", said.out);
    let line = said.out.lines().find(|line| line.contains("<- "));
    line.map(|line| line.trim().to_string())
}

#[test]
fn where_a_run_is_lost() {
    let (rule, code_2) = ([1, 0, 2, 1, 2, 0, 0, 0], [2, 1, 2, 2, 0, 0, 0, 0]); // 0 gives 1 2
    let code_1 = [2, 0, 1, 1, 0, 0, 0, 0];
    // No stage is finishing.
    assert_eq!(
        lost(&[rule, code_1]).unwrap(),
        "start  stage 0   <- no finishing stage can be reached at all"
    );
    // Stage 3 is, and stage 1, from which it cannot be reached, is left again.
    let aside = [2, 0, 3, 3, 0, 0, 0, 0];
    let file = [rule, code_1, aside, code_2, [3, 3, 0, 0, 0, 0, 0, 0]];
    assert_eq!(
        lost(&file).unwrap(),
        "1      stage 1   <- no finishing stage can be reached any more"
    );
    // From the last stage, 2, one could go on to stage 3.
    let file = [rule, code_1, code_2, [2, 2, 3, 3, 0, 0, 0, 0], [3, 3, 0, 0, 0, 0, 0, 0]];
    assert_eq!(lost(&file), None);
    let said = feed(&["explain", "-"], &file.concat());
    assert!(said.out.contains("  2      stage 2\nThe run ends too soon: "), "{}", said.out);
}

#[test]
fn a_remark_leaves_the_stage() {
    for code in 118..=127 {
        // 0 gives the code; stage 1 is finishing, and reached on code 5.
        let file = [
            [1, 0, 1, code, 0, 0, 0, 0],
            [2, 0, 5, 1, 0, 0, 0, 0],
            [3, 1, 0, 0, 0, 0, 0, 0],
        ];
        let said = feed(&["explain", "-"], &file.concat());
        let stages = if code < 120 { "no stage   <- " } else { "stage 0\n" };
        assert!(said.out.contains(&format!("\n  {code}    {stages}")), "{}", said.out);
    }
}

#[test]
fn every_sample_is_explained() {
    for sample in samples(".plan") {
        let word = answer(&sample)[0].split(' ').next().unwrap().to_string();
        let said = call(&["explain", &sample]);
        assert_eq!((said.status, said.err.as_str()), (status_of(&word), ""), "{sample}");
        assert!(said.out.starts_with(&format!("{sample}: {word}: ")), "{}", said.out);
        let parts = ["How the plan gives it", " never finishes:\n", "To do: "].map(|part| said.out.contains(part));
        assert_eq!(parts, [word == "broken", word == "empty", word != "holds"], "{}", said.out);
    }
}

#[test]
fn plan_b_is_drawn_as_it_was_looked_at() {
    for option in ["svg", "dot"] {
        let said = call(&["explain", &format!("--{option}"), "samples/plan-b.plan"]);
        let stored = String::from_utf8(read(&format!("rust/tests/pictures/plan-b.{option}"))).unwrap();
        assert_eq!((said.status, said.out, said.err.as_str()), (1, stored, ""), "{option}");
    }
}

#[test]
fn every_sample_is_drawn_or_refused() {
    for sample in samples(".plan") {
        let word = answer(&sample)[0].split(' ').next().unwrap().to_string();
        for (option, begin, end) in [("--svg", "<svg", "</svg>\n"), ("--dot", "digraph", "}\n")] {
            let said = call(&["explain", option, &sample]);
            assert_eq!(said.status, status_of(&word), "{sample} {option}");
            if word == "refused" {
                assert_eq!(said.out, "", "{sample} {option}");
                assert!(said.err.ends_with("; there is nothing to draw\n"), "{}", said.err);
            } else {
                assert_eq!(said.err, "", "{sample} {option}");
                assert!(said.out.contains(begin) && said.out.ends_with(end), "{sample} {option}");
            }
        }
    }
}

#[test]
fn names_are_drawn() {
    let names = made("drawn.txt", b"procedure 2 after tile\nstep 3 close\nstage 1 index-due\n");
    let said = call(&["explain", "--svg", "--names", &names, "samples/plan-b.plan"]);
    for name in ["after tile", "close", "index-due"] {
        assert!(said.out.contains(name), "{name}");
    }
}

#[test]
fn a_run_that_is_not_written() {
    // 2^63 steps: each of 63 procedures gives the next one twice, and the last gives 5.
    let rules: Vec<u8> = (0..63)
        .flat_map(|p| [1, p, 2, 129 + p, 129 + p, 0, 0, 0])
        .chain([1, 63, 1, 5, 0, 0, 0, 0])
        .collect();
    let said = feed(&["explain", "-"], &rules);
    assert_eq!(said.status, 1);
    assert!(said.out.contains("a run of 65,535 or more steps"), "{}", said.out);
    // Every rule stands there, and none more than twice.
    for rule in 0..=63 {
        let count = said
            .out
            .lines()
            .filter(|line| line.contains(&format!("record {rule}: ")))
            .count();
        assert_eq!(count, if rule == 0 { 1 } else { 2 }, "record {rule}");
    }
}

/// Holds a line of a tree against the file and the run: the record is the file's, and its codes are steps of the run where it says.
fn fits(line: &str, records: &[String], run: &[u8]) {
    let (number, rest) = line.trim_start().strip_prefix("record ").unwrap().split_once(": ").unwrap();
    let rest = rest.trim_end_matches(", as above");
    let (text, part) = rest.rsplit_once("   (").unwrap();
    assert_eq!(text, records[number.parse::<usize>().unwrap()], "{line}");
    let ends: Vec<usize> = part
        .split(|c: char| !c.is_numeric())
        .filter_map(|word| word.parse().ok())
        .collect();
    let steps = match ends[..] {
        [] => &[],
        [only] => &run[only - 1..only],
        [first, last] => &run[first - 1..last],
        _ => panic!("{line}"),
    };
    let body = text.split_once(" gives ").unwrap().1;
    let codes: Vec<Option<u8>> = match body {
        "nothing" => Vec::new(),
        _ => body
            .replace("(procedure ", "(")
            .split(' ')
            .map(|word| word.parse().ok())
            .collect(),
    };
    let given: Vec<u8> = codes.iter().flatten().copied().collect();
    match codes[..] {
        [Some(_)] | [Some(_), Some(_)] | [] => assert_eq!(steps, given, "{line}"),
        [Some(code), None] => assert_eq!(steps.first(), Some(&code), "{line}"),
        [None, Some(code)] => assert_eq!(steps.last(), Some(&code), "{line}"),
        _ => {}
    }
}

#[test]
fn trees_of_many_files() {
    let mut numbers = Numbers::new(27);
    let size = Size {
        rules: 12,
        moves: 14,
        procedures: 4,
        codes: 4,
    };
    let mut trees = 0;
    for _ in 0..300 {
        let file = valid_file(&mut numbers, size);
        let Ok(owned) = check_owned(&file, Starts::INITIAL, 1_024, 100_000) else {
            continue;
        };
        let told = owned.told();
        let Verdict::Broken(broken) = told.answer.verdict else {
            continue;
        };
        let Ok(run) = broken.run else { continue };
        let said = call(&["explain", &made("tree.plan", &file)]);
        assert_eq!(said.status, 1);
        let records: Vec<String> = bolfrega::records(&file).unwrap().map(|record| record.to_string()).collect();
        let lines: Vec<&str> = said
            .out
            .lines()
            .filter(|line| line.trim_start().starts_with("record "))
            .collect();
        lines.iter().for_each(|line| fits(line, &records, run));
        // The first line is the whole run, and the height is the pass.
        let deepest = lines.iter().map(|line| line.len() - line.trim_start().len()).max().unwrap() / 2;
        assert_eq!(deepest as u64, told.answer.pass, "{}", said.out);
        trees += 1;
    }
    assert!(trees > 50, "{trees}");
}
