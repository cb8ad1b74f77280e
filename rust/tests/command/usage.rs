//! Bad usage, help, and paths that are hard to print.

use crate::calling::{call, made, read};
use std::ffi::OsStr;
use std::os::unix::ffi::OsStrExt;

const COMMANDS: [&str; 8] = ["check", "explain", "show", "make", "judge", "member", "gaps", "unfold"];

#[test]
fn bad_usage_has_no_answer() {
    let plan = "samples/plan-a.plan";
    for words in [
        &[][..],
        &["chekc", plan],
        &["check"],
        &["check", "--jsn", plan],
        &["check", "--json=yes", plan],
        &["check", "--rows"],
        &["check", "--rows", "0", plan],
        &["check", "--rows", "4097", plan],
        &["check", "--rows", "many", plan],
        &["check", "--budget", "-1", plan],
        &["check", "--budget", "18446744073709551616", plan],
        &["check", "--start", "64", plan],
        &["check", "--start", "", plan],
        &["check", "--start", "0,,1", plan],
        &["check", "--names", plan, plan],
        &["explain"],
        &["explain", plan, plan],
        &["explain", "--json", plan],
        &["explain", "--svg", "--dot", plan],
        &["explain", "--svg=plan.svg", plan],
        &["check", "--svg", plan],
        &["show", plan, plan],
        &["show", "--rows", "5", plan],
        &["make"],
        &["make", plan, plan, plan],
        &["judge"],
        &["judge", plan, "one"],
        &["judge", plan, "-1"],
        &["member", plan, "1", ""],
        &["gaps", plan, "1"],
        &["unfold", "--wide", plan],
        &["help", "chekc"],
    ] {
        let said = call(words);
        assert_eq!((said.status, said.out.as_str()), (2, ""), "{words:?}");
        assert!(
            said.err.starts_with("bolfrega: ") && said.err.ends_with("; `bolfrega help` says how to call it\n"),
            "{}",
            said.err
        );
        assert_eq!(said.err.matches('\n').count(), 1, "{}", said.err);
    }
}

#[test]
fn every_command_has_its_help() {
    let all = call(&["help"]);
    assert_eq!((all.status, all.err.as_str()), (0, ""));
    assert_eq!(call(&["--help"]), all);
    for command in COMMANDS {
        assert!(all.out.contains(&format!("\n  {command} ")), "{command}");
        let help = call(&["help", command]);
        assert!(help.out.starts_with(&format!("usage: bolfrega {command} ")), "{}", help.out);
        assert!(help.out.contains("Exit status: "), "{}", help.out);
        assert_eq!(call(&[command, "--help"]), help);
        assert_eq!(help.status, 0);
    }
    // What is no part of the product, and what is not proved, is said to be so.
    let says = |command: &[&str], words: &str| {
        let help = call(&[&["help"], command].concat()).out;
        assert!(
            help.split_whitespace().collect::<Vec<_>>().join(" ").contains(words),
            "{help}"
        );
    };
    says(&["make"], "Text plans are no part of the product");
    says(&[], "this command's own and not proved");
    says(
        &["explain"],
        "The stages, the place and the lines of the tree are this command's own.",
    );
    assert_eq!(call(&["--version"]).out, format!("bolfrega {}\n", env!("CARGO_PKG_VERSION")));
}

#[test]
fn a_path_of_any_kind_is_one_line() {
    let plan = read("samples/plan-b.plan");
    let odd = made("odd\nname: holds: it's.plan", &plan);
    let said = call(&["check", &odd]);
    assert_eq!((said.status, said.out.matches('\n').count()), (1, 1), "{}", said.out);
    assert!(said.out.contains("odd\\nname"), "{}", said.out);
    assert!(said.out.contains(r"it'\''s.plan'` shows"), "{}", said.out);
    let json = call(&["check", "--json", &odd]);
    assert!(
        json.out.contains("odd\\u000aname: holds: it's.plan\",\"verdict\":\"broken\""),
        "{}",
        json.out
    );

    let quoted = made("a \"quoted\" \\ name.plan", &plan);
    let json = call(&["check", "--json", &quoted]);
    assert!(json.out.contains(r#"/a \"quoted\" \\ name.plan","verdict""#), "{}", json.out);

    let path = [env!("CARGO_TARGET_TMPDIR").as_bytes(), b"/\xff.plan"].concat();
    let path = OsStr::from_bytes(&path);
    std::fs::write(path, &plan).unwrap();
    assert_eq!(call(&[OsStr::new("check"), path]).status, 1);

    let dashed = made("--json", &plan);
    let (folder, _) = dashed.rsplit_once('/').unwrap();
    let output = crate::calling::command(&["check", "--", "--json"])
        .current_dir(folder)
        .output()
        .unwrap();
    assert_eq!(output.status.code(), Some(1));
    let line = String::from_utf8(output.stdout).unwrap();
    assert!(
        line.starts_with("--json: broken: ") && line.contains("`bolfrega explain ./--json` shows"),
        "{line}"
    );
}
