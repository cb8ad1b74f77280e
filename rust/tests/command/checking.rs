//! `bolfrega check`, and the other calls that ask the library one thing.

use crate::calling::{answer, bytes_of, call, feed, read, samples, status_of};

/// The words of the stored answer's first line, and the run of a broken one.
fn stored(sample: &str) -> (Vec<String>, Option<String>) {
    let lines = answer(sample);
    let words = lines[0].split(' ').map(str::to_string).collect();
    (words, lines.get(2).cloned())
}

#[test]
fn every_sample_has_its_line() {
    for sample in samples(".plan") {
        let (words, run) = stored(&sample);
        let said = call(&["check", &sample]);
        assert_eq!((said.status, said.err.as_str()), (status_of(&words[0]), ""), "{sample}");
        assert!(said.out.starts_with(&format!("{sample}: {}: ", words[0])), "{}", said.out);
        assert_eq!(said.out.matches('\n').count(), 1, "{}", said.out);
        match (words[0].as_str(), run) {
            ("refused", _) => assert!(said.out.contains(&format!("({}); ", words[1])), "{}", said.out),
            ("broken", Some(run)) if run.len() < 40 && !run.starts_with("refused") => {
                assert!(said.out.contains(&format!(" the run {run} of ")), "{}", said.out)
            }
            _ => {}
        }
    }
}

#[test]
fn every_sample_has_its_object() {
    for sample in samples(".plan") {
        let (words, run) = stored(&sample);
        let said = call(&["check", "--json", &sample]);
        assert_eq!(said.status, status_of(&words[0]));
        let begin = match &words[..] {
            [_, joins, used, pass] => format!(
                "\"verdict\":\"{}\",\"joins\":{joins},\"used\":{used},\"pass\":{pass}",
                words[0]
            ),
            _ => format!("\"verdict\":\"refused\",\"number\":{},", words[1]),
        };
        assert!(
            said.out.starts_with(&format!("{{\"path\":\"{sample}\",{begin}")),
            "{}",
            said.out
        );
        assert!(said.out.ends_with("}\n"));
        if let Some(run) = run.filter(|run| !run.starts_with("refused")) {
            assert!(
                said.out.contains(&format!("\"run\":[{}]", run.replace(' ', ","))),
                "{}",
                said.out
            );
        }
    }
}

#[test]
fn the_objects_to_the_letter() {
    let of = |words: &[&str]| call(&[&["check", "--json"], words].concat()).out;
    let broken = r#""joins":12,"used":7,"pass":4,"row":6,"pairs":0,"length":2,"procedure":0,"run":[1,3]}"#;
    assert_eq!(
        of(&["samples/plan-b.plan"]),
        format!("{{\"path\":\"samples/plan-b.plan\",\"verdict\":\"broken\",{broken}\n")
    );
    let full = r#""joins":3907,"used":1024,"pass":5,"limit":"--rows 1024","next":"--rows 4096"}"#;
    assert_eq!(
        of(&["samples/full.plan"]),
        format!("{{\"path\":\"samples/full.plan\",\"verdict\":\"full\",{full}\n")
    );
    let refused = r#""number":12,"record":2,"message":"it is a move on a remark, a code of 120 or above"}"#;
    let expected = format!("{{\"path\":\"samples/remark-moves.plan\",\"verdict\":\"refused\",{refused}\n");
    assert_eq!(of(&["samples/remark-moves.plan"]), expected);
    assert!(of(&["--rows", "4096", "samples/full.plan"]).ends_with("\"limit\":\"--rows 4096\",\"next\":null}\n"));
}

#[test]
fn of_several_files_the_worst_counts() {
    let named = |name: &str| format!("samples/{name}.plan");
    for (names, status) in [
        (&["plan-a", "sixteen"][..], 0),
        (&["plan-a", "full", "plan-a"], 4),
        (&["full", "plan-b", "spent"], 1),
        (&["endless", "full"], 1),
        (&["plan-b", "damaged", "full"], 3),
        (&["damaged", "none", "plan-b", "plan-a"], 2),
    ] {
        let paths: Vec<String> = names.iter().map(|name| named(name)).collect();
        let words: Vec<&str> = ["check"].into_iter().chain(paths.iter().map(String::as_str)).collect();
        let said = call(&words);
        assert_eq!(said.status, status, "{names:?}");
        // Each that can be read has its line, in the order of the call.
        let said: Vec<String> = said
            .out
            .lines()
            .map(|line| line.split(':').next().unwrap().to_string())
            .collect();
        assert_eq!(
            said,
            paths.into_iter().filter(|path| path != &named("none")).collect::<Vec<_>>()
        );
    }
}

#[test]
fn a_limit_that_ran_out_and_the_next_one() {
    for (words, status, line) in [
        (
            &["samples/full.plan"][..],
            4,
            "full: undecided, the 1024 rows ran out; try --rows 4096",
        ),
        (
            &["samples/spent.plan"],
            4,
            "spent: undecided, the budget of 1000000 joins ran out; try --budget 10000000",
        ),
        (
            &["--rows", "1500", "samples/full.plan"],
            4,
            "full: undecided, the 1500 rows ran out; try --rows 4096",
        ),
        (
            &["--budget=11", "samples/plan-a.plan"],
            4,
            "spent: undecided, the budget of 11 joins ran out; try --budget 110",
        ),
        (
            &["--budget", "12", "samples/plan-a.plan"],
            0,
            "holds: the sheet accepts every run of procedure 0; nothing to do",
        ),
        (
            &["samples/plan-a.plan", "--rows", "3"],
            4,
            "full: undecided, the 3 rows ran out; try --rows 12",
        ),
        (
            &["--budget", "0", "samples/plan-a.plan"],
            4,
            "spent: undecided, the budget of 0 joins ran out; try --budget 10",
        ),
    ] {
        let said = call(&[&["check"], words].concat());
        assert_eq!(said.status, status, "{words:?}");
        let (_, found) = said.out.trim_end().split_once(": ").unwrap();
        assert_eq!(found, line);
    }
    // There is none above the most rows.
    let said = call(&["check", "--rows", "4096", "samples/full.plan"]);
    assert_eq!(said.status, 4);
    assert!(
        said.out.contains("the 4096 rows ran out; no larger limit is left"),
        "{}",
        said.out
    );
}

#[test]
fn every_route_has_its_verdict() {
    let routes = String::from_utf8(read("samples/routes")).unwrap();
    for line in routes.lines() {
        let (stored, call_of) = line.rsplit_once(": ").unwrap();
        let (plan, starts) = call_of.split_once(' ').unwrap();
        let starts = starts.replace(' ', ",");
        let said = call(&["check", "--json", "--start", &starts, &format!("samples/{plan}")]);
        let first: Vec<&str> = stored.split(" / ").next().unwrap().split(' ').collect();
        assert_eq!(said.status, status_of(first[0]), "{line}");
        if let [word, joins, used, pass] = first[..] {
            let expected = format!("\"verdict\":\"{word}\",\"joins\":{joins},\"used\":{used},\"pass\":{pass}");
            assert!(said.out.contains(&expected), "{line}: {}", said.out);
        }
        if let Some((_, procedure)) = stored.rsplit_once("procedure ") {
            assert!(
                said.out.contains(&format!("\"procedure\":{procedure},")),
                "{line}: {}",
                said.out
            );
        }
    }
}

#[test]
fn members_may_be_named_one_by_one() {
    let together = call(&["check", "--start", "0,3", "samples/routes.plan"]);
    assert_eq!(call(&["check", "--start", "3", "--start=0", "samples/routes.plan"]), together);
    // What it says to call next has the same options.
    assert!(
        together.out.contains("`bolfrega explain --start 0,3 samples/routes.plan`"),
        "{}",
        together.out
    );
    assert_eq!(call(&["explain", "--start", "0,3", "samples/routes.plan"]).status, 1);
}

#[test]
fn a_pipe_is_a_file() {
    let said = feed(&["check", "-"], &read("samples/plan-b.plan"));
    assert_eq!(said.status, 1);
    assert!(
        said.out
            .starts_with("-: broken: the sheet turns away the run 1 3 of procedure 0; "),
        "{}",
        said.out
    );
    let nothing = feed(&["check", "-"], &[]);
    assert!(
        nothing.status == 1 && nothing.out.starts_with("-: empty: "),
        "{}",
        nothing.out
    );
}

#[test]
fn every_drive_is_a_member_or_not() {
    let drives = String::from_utf8(read("samples/drives")).unwrap();
    for line in drives.lines() {
        let (stored, call_of) = line.rsplit_once(": ").unwrap();
        let words: Vec<String> = call_of.split(' ').map(str::to_string).collect();
        let path = format!("samples/{}", words[0]);
        let words: Vec<&str> = ["member", &path]
            .into_iter()
            .chain(words[1..].iter().map(String::as_str))
            .collect();
        let said = call(&words);
        let (status, begin) = match stored.strip_prefix("refused ") {
            Some(number) => {
                assert!(said.out.contains(&format!("({number}); ")), "{line}: {}", said.out);
                (3, "refused")
            }
            None => (i32::from(stored != "derived"), stored),
        };
        assert_eq!(said.status, status, "{line}");
        assert!(said.out.starts_with(&format!("{path}: {begin}: ")), "{line}: {}", said.out);
    }
}

#[test]
fn runs_are_judged() {
    for (run, status, word) in [
        (&["1", "2", "3"][..], 0, "accepted"),
        (&["1", "120", "2", "3"], 0, "accepted"),
        (&["1", "3"], 1, "turned away"),
        (&[], 1, "turned away"),
        (&["128"], 3, "refused"),
        (&["300"], 3, "refused"),
    ] {
        let said = call(&[&["judge", "samples/plan-b.plan"], run].concat());
        assert_eq!(said.status, status, "{run:?}");
        assert!(
            said.out.starts_with(&format!("samples/plan-b.plan: {word}: ")),
            "{}",
            said.out
        );
    }
    for sample in samples(".plan") {
        let refused = answer(&sample)[0].starts_with("refused");
        let status = call(&["judge", &sample, "5"]).status;
        assert_eq!(status == 3, refused, "{sample}");
        assert_eq!(call(&["member", &sample, "5"]).status == 3, refused, "{sample}");
    }
}

#[test]
fn gaps_are_listed() {
    for sample in samples(".gaps") {
        let stored = String::from_utf8(read(&sample)).unwrap();
        let plan = sample.replace(".gaps", ".plan");
        let said = call(&["gaps", &plan]);
        if let Some(number) = stored.strip_prefix("refused ") {
            assert_eq!(said.status, 3);
            assert!(said.out.contains(&format!("({}); ", number.trim_end())), "{}", said.out);
            continue;
        }
        assert_eq!(said.status, i32::from(!stored.is_empty()), "{plan}");
        let expected = stored.lines().map(|line| {
            let [stage, code, moves] = line.split(' ').collect::<Vec<_>>()[..] else {
                panic!("{line}")
            };
            let moves = if moves == "0" {
                "no move".to_string()
            } else {
                format!("{moves} moves")
            };
            format!("  from stage {stage} on code {code}: {moves}")
        });
        assert_eq!(
            said.out.lines().skip(1).collect::<Vec<_>>(),
            expected.collect::<Vec<_>>(),
            "{plan}"
        );
    }
    for sample in samples(".plan") {
        let refused = answer(&sample)[0].starts_with("refused");
        assert_eq!(call(&["gaps", &sample]).status == 3, refused, "{sample}");
    }
}

#[test]
fn wide_files_are_unfolded() {
    for sample in samples(".wide") {
        let stored = answer(&sample);
        if let Some(number) = stored[0].strip_prefix("refused ") {
            let said = call(&["unfold", &sample]);
            assert_eq!((said.status, said.out.as_str()), (3, ""), "{sample}");
            assert!(said.err.contains(&format!("({number}); ")), "{}", said.err);
            continue;
        }
        let file = bytes_of(&["unfold", &sample]);
        assert_eq!(file, read(&sample.replace(".wide", ".plan")), "{sample}");
        let to = crate::calling::made("unfolded.plan", b"another file");
        assert_eq!(call(&["unfold", &sample, &to]).status, 0);
        assert_eq!(std::fs::read(&to).unwrap(), file);
    }
    // A member is in use, so that the chain begins above it.
    let wide = crate::calling::made("chain.wide", &[1, 0, 3, 5, 6, 7, 0, 0, 0, 0, 0, 0, 0, 0, 0, 0]);
    let unfolded = bytes_of(&["unfold", "--start", "0,1", &wide]);
    assert_eq!(unfolded, [1, 0, 2, 5, 130, 0, 0, 0, 1, 2, 2, 6, 7, 0, 0, 0]);
}
