//! The pictures of the command: they are well-formed, show what they are given, and are those that were looked at.

#[path = "../src/bin/bolfrega/picture/mod.rs"]
mod picture;

use bolfrega::Record;
use picture::{dot, svg, Kind, Move, Node, Picture, Run, Sheet, Stage, Step, Tree};
use std::path::Path;

/// A sheet as a file has it, with each stage that it names.
fn sheet(file: &[u8]) -> Sheet {
    let mut sheet = Sheet::default();
    let (mut stages, mut finishing) = (1_u16, 0_u16);
    for record in bolfrega::records(file).unwrap() {
        match record {
            Record::Move { from, code, to } => {
                stages |= 1 << from | 1 << to;
                sheet.moves.push(Move { from, code, to });
            }
            Record::Finishing { stage } => finishing |= 1 << stage,
            _ => {}
        }
    }
    let stage = |number| Stage {
        number,
        name: String::new(),
        finishing: finishing >> number & 1 == 1,
    };
    let all = stages | finishing;
    sheet.stages = (0..16).filter(|number| all >> number & 1 == 1).map(stage).collect();
    sheet
}

/// The run of a sheet, lost where no stage is left or at its end.
fn run(sheet: &Sheet, codes: &[u8]) -> Run {
    let mut before = 1;
    let mut step = |&code: &u8| {
        let moves = sheet
            .moves
            .iter()
            .filter(|one| one.code == code && before >> one.from & 1 == 1);
        before = if code < 120 {
            moves.fold(0, |set, one| set | 1_u16 << one.to)
        } else {
            before
        };
        Step { code, after: before }
    };
    let steps: Vec<Step> = codes.iter().map(&mut step).collect();
    let lost = steps.iter().position(|step| step.after == 0).map(|at| at + 1);
    Run { steps, lost }
}

fn node(kind: Kind, label: &str, note: &str, children: &[usize]) -> Node {
    Node {
        kind,
        label: label.to_string(),
        note: note.to_string(),
        marked: false,
        children: children.to_vec(),
    }
}

/// Plan B: its sheet, the run 1 3, and how the plan gives it.
fn plan_b() -> Picture {
    let sheet = sheet(include_bytes!("../../samples/plan-b.plan"));
    let mut nodes = vec![
        node(Kind::Procedure, "0", "record 0: 0 gives (procedure 1) 3", &[1, 5]),
        node(Kind::Procedure, "1", "record 2: 1 gives 1 (procedure 2)", &[2, 3]),
        node(Kind::Step, "1", "step 1", &[]),
        node(Kind::Procedure, "2", "record 3: 2 gives (procedure 1)", &[4]),
        node(Kind::Procedure, "1", "record 1: 1 gives nothing", &[]),
        node(Kind::Step, "3", "step 2: no move from stage 1", &[]),
    ];
    nodes[5].marked = true;
    Picture {
        title: "samples/plan-b.plan: broken: the sheet turns away the run 1 3 of procedure 0".to_string(),
        run: Some(run(&sheet, &[1, 3])),
        sheet,
        tree: Some(Tree { nodes }),
    }
}

/// All sixteen stages and a hundred moves, a run of twenty steps, and names with every letter that must be escaped.
fn crowded() -> Picture {
    let mut numbers = making::Numbers::new(7);
    let mut sheet = Sheet::default();
    let stage = |number| Stage {
        number,
        name: if number == 3 {
            "<roof> & \"door\"".to_string()
        } else {
            String::new()
        },
        finishing: number % 5 == 4,
    };
    sheet.stages = (0..16).map(stage).collect();
    let mut draw = |most| numbers.byte(most);
    sheet.moves = (0..100)
        .map(|_| Move {
            from: draw(16),
            code: draw(31),
            to: draw(16),
        })
        .collect();
    sheet.names.insert(7, "a<b".to_string());
    let mut codes = Vec::new();
    while codes.len() < 20 {
        let next = (0..=30).find(|&code| run(&sheet, &[&codes[..], &[code]].concat()).steps[codes.len()].after != 0);
        codes.push(next.unwrap_or(120));
    }
    codes.push(99);
    let run = run(&sheet, &codes);
    Picture {
        title: "sixteen stages & a hundred moves".to_string(),
        sheet,
        run: Some(run),
        tree: None,
    }
}

/// One stage with a loop, and a run of three hundred steps, which the plan gives one by one.
fn deep() -> Picture {
    const STEPS: usize = 300;
    let pair = |at: usize| {
        let children = if at + 1 < STEPS {
            vec![2 * at + 1, 2 * at + 2]
        } else {
            vec![2 * at + 1]
        };
        let rule = if at + 1 < STEPS {
            "record 1: 0 gives 5 (procedure 0)"
        } else {
            "record 0: 0 gives 5"
        };
        let step = format!("step {}", at + 1);
        [node(Kind::Procedure, "0", rule, &children), node(Kind::Step, "5", &step, &[])]
    };
    let mut nodes: Vec<Node> = (0..STEPS).flat_map(pair).collect();
    nodes[2 * STEPS - 1].marked = true;
    let sheet = sheet(&[[2, 0, 5, 0, 0, 0, 0, 0]].concat());
    Picture {
        title: "one by one".to_string(),
        run: Some(run(&sheet, &[5; STEPS])),
        sheet,
        tree: Some(Tree { nodes }),
    }
}

/// A sheet alone.
fn sixteen() -> Picture {
    Picture {
        title: "sixteen.plan: holds".to_string(),
        sheet: sheet(include_bytes!("../../samples/sixteen.plan")),
        ..Picture::default()
    }
}

/// Compares with the picture that was looked at; with `BOLFREGA_PICTURES=new` it is written anew, to be looked at.
fn as_looked_at(name: &str, text: &str) {
    let path = Path::new("tests/pictures").join(name);
    if std::env::var_os("BOLFREGA_PICTURES").is_some_and(|value| value == "new") {
        std::fs::write(&path, text).unwrap();
    }
    assert!(
        std::fs::read_to_string(&path).unwrap() == text,
        "{name} is not as it was looked at"
    );
}

#[test]
fn as_they_were_looked_at() {
    for (name, picture) in [("plan-b", plan_b()), ("crowded", crowded()), ("sixteen", sixteen())] {
        as_looked_at(&format!("{name}.svg"), &svg(&picture));
        as_looked_at(&format!("{name}.dot"), &dot(&picture));
    }
    as_looked_at("deep.svg", &svg(&deep()));
}

/// Takes a text of XML apart: an error where a tag isn't closed by its own, a value isn't quoted, or a letter isn't escaped.
fn well_formed(text: &str) -> Result<(), String> {
    let mut open = Vec::new();
    let mut pieces = text.split('<');
    pieces
        .next()
        .filter(|first| first.is_empty())
        .ok_or("a text before all tags")?;
    for piece in pieces {
        let (tag, words) = piece.split_once('>').ok_or_else(|| format!("an open tag: {piece}"))?;
        let entities = ["&amp;", "&lt;", "&gt;", "&quot;"];
        let rest = entities
            .iter()
            .fold(format!("{tag}{words}"), |rest, entity| rest.replace(entity, ""));
        let control = |letter: char| letter.is_control() && letter != '\n';
        if rest.contains('&') || words.contains('>') || rest.contains(control) || tag.matches('"').count() % 2 != 0 {
            return Err(format!("not escaped: {piece}"));
        }
        let name = |tag: &str| tag.split([' ', '/']).next().unwrap_or_default().to_string();
        match tag.strip_prefix('/') {
            Some(closed) if open.pop().as_deref() != Some(closed) => return Err(format!("closed: {closed}")),
            None if !tag.ends_with('/') => open.push(name(tag)),
            _ => {}
        }
        if open.is_empty() && !words.trim().is_empty() {
            return Err(format!("a text after all tags: {words}"));
        }
    }
    open.is_empty().then_some(()).ok_or_else(|| format!("left open: {open:?}"))
}

#[test]
fn well_formed_is_strict() {
    for wrong in [
        "<a>",
        "<a></b>",
        "<a>&</a>",
        "<a>a>b</a>",
        "<a b=\"c></a>",
        "<a/>x",
        "<a>\u{1}</a>",
        "x<a/>",
    ] {
        assert!(well_formed(wrong).is_err(), "{wrong}");
    }
    assert_eq!(well_formed("<a b=\"c\"><d/>&amp;\n</a>\n"), Ok(()));
}

#[test]
fn all_are_well_formed() {
    let mut strange = plan_b();
    strange.title = "</svg> & \"\u{7}\" <script>".to_string();
    strange.sheet.stages[1].name = "<&>".to_string();
    strange.sheet.names.insert(1, "<b>".to_string());
    let tree = strange.tree.as_mut().unwrap();
    tree.nodes[3].label = "<two>".to_string();
    tree.nodes[3].note = "a & b".to_string();
    for picture in [plan_b(), crowded(), sixteen(), deep(), strange, Picture::default()] {
        assert_eq!(well_formed(&svg(&picture)), Ok(()));
    }
}

#[test]
fn plan_b_shows_all_that_explains_it() {
    let drawn = svg(&plan_b());
    assert!(drawn.contains("record 3: 2 gives (procedure 1)"));
    assert!(drawn.contains("Step 2, code 3: no move from stage 1."));
    assert!(drawn.contains("<title>no move on 3</title>"));
    let path = drawn
        .lines()
        .filter(|line| line.contains("class=\"path\"") && line.contains("from stage"));
    assert_eq!(path.count(), 1, "the run takes one move");
    assert_eq!(drawn.matches("class=\"stage lost\"").count(), 1);
    assert_eq!(drawn.matches("class=\"ring\"").count(), 1);
}

/// The ways to be lost: no move, no way to finish, also from the start, and the end of the run.
#[test]
fn where_the_run_is_lost() {
    let sheet = sheet(include_bytes!("../../samples/plan-b.plan"));
    let said = |run: Run, text: &str| {
        let picture = Picture {
            sheet: sheet.clone(),
            run: Some(run),
            ..Picture::default()
        };
        assert!(svg(&picture).contains(text), "{text}");
    };
    said(run(&sheet, &[1, 2, 1]), "The run ends in stage 1: not finishing.");
    said(run(&sheet, &[]), "The run has no step, and stage 0 is not finishing.");
    let nowhere = Run {
        lost: Some(0),
        ..run(&sheet, &[1])
    };
    said(nowhere, "No way to finish from stage 0, where every run starts.");
    said(run(&sheet, &[2]), "Step 1, code 2: no move from stage 0.");
    let steps = vec![Step { code: 3, after: 0b110 }, Step { code: 9, after: 0b100 }];
    said(
        Run { steps, lost: Some(1) },
        "Step 1, code 3: no way to finish from stages 1 and 2.",
    );
}

/// The largest sheet, and the longest run that is written, in little time.
#[test]
fn the_largest_is_drawn_soon() {
    let stage = |number| Stage {
        number,
        ..Stage::default()
    };
    let moves = (0..1_024_u32).map(|at| Move {
        from: (at / 64) as u8,
        code: (at % 64) as u8,
        to: (at / 4 % 16) as u8,
    });
    let sheet = Sheet {
        stages: (0..16).map(stage).collect(),
        moves: moves.collect(),
        ..Sheet::default()
    };
    let codes: Vec<u8> = (0..65_534).map(|step| (step % 64) as u8).collect();
    let run = Some(run(&sheet, &codes));
    let began = std::time::Instant::now();
    let drawn = svg(&Picture {
        sheet,
        run,
        ..Picture::default()
    });
    assert!(began.elapsed().as_millis() < 1_000 && drawn.len() < 200_000);
    assert_eq!(well_formed(&drawn), Ok(()));
}
