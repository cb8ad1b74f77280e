//! The benchmark files. Each is made anew in every run, and is the same in each.
//!
//! Many rest on groups of mappings of the stages: no mapping contains another, so that a group of n gives n live rows, and the number of
//! joins can be told beforehand. Most use eight stages, as every file did before C-14; those whose names begin with `sixteen` use all.

use bolfrega::{procedure, FileBuilder};
use making::{plan_a, plan_b, Numbers};
use plain::FIRST_REMARK;

/// A file and what it is checked with.
pub struct Case {
    pub name: String,
    pub file: Vec<u8>,
    pub rows: usize,
    pub budget: u64,
    /// Whether a check that forms every candidate ends in good time.
    pub by_every: bool,
}

impl Case {
    fn new(name: &str, making: &FileBuilder) -> Case {
        Case {
            name: name.to_string(),
            file: making.bytes(),
            rows: 4_096,
            budget: 10_000_000,
            by_every: true,
        }
    }

    fn rows(self, rows: usize) -> Case {
        Case { rows, ..self }
    }

    fn budget(self, budget: u64) -> Case {
        Case { budget, ..self }
    }

    /// The same file with the check program's journal and budget (document 01).
    pub fn of_check_program(self) -> Case {
        self.rows(1_024).budget(1_000_000)
    }
}

/// A mapping of eight stages, and of all sixteen.
type Mapping = [u8; 8];
type Mapping16 = [u8; 16];

/// Every order of eight stages is made from these two: 40,320 of them.
const ORDERS: [Mapping; 2] = [[1, 2, 3, 4, 5, 6, 7, 0], [1, 0, 2, 3, 4, 5, 6, 7]];
/// Every order of six stages: 720.
const ORDERS_OF_SIX: [Mapping; 2] = [[1, 2, 3, 4, 5, 0, 6, 7], [1, 0, 2, 3, 4, 5, 6, 7]];
/// The 336 mappings (at + b) / (ct + d) of 0 to 6 and infinity (stage 7), modulo 7: t + 1, 3t and -1 / t make them.
const PROJECTIVE: [Mapping; 3] = [[1, 2, 3, 4, 5, 6, 0, 7], [0, 3, 6, 2, 5, 1, 4, 7], [7, 6, 3, 2, 5, 4, 1, 0]];
/// The 24 turns of a cube, on its corners: a quarter turn and a turn about a diagonal make them.
const TURNS: [Mapping; 2] = [[2, 0, 3, 1, 6, 4, 7, 5], [0, 2, 4, 6, 1, 3, 5, 7]];
/// With the mirror image, the 48 symmetries of a cube.
const CUBE: [Mapping; 3] = [TURNS[0], TURNS[1], [7, 6, 5, 4, 3, 2, 1, 0]];
/// The 8 turns of a ring.
const RING: [Mapping; 1] = [[1, 2, 3, 4, 5, 6, 7, 0]];
/// The 16 turns of a ring of all stages.
const RING_OF_16: Mapping16 = [1, 2, 3, 4, 5, 6, 7, 8, 9, 10, 11, 12, 13, 14, 15, 0];
/// With the ring's turns it makes every order of all stages.
const SWAP_OF_16: Mapping16 = [1, 0, 2, 3, 4, 5, 6, 7, 8, 9, 10, 11, 12, 13, 14, 15];

/// The codes below this one lead to one stage from each in a full sheet; those from here up to the remarks lead to two.
const FIRST_DOUBLE: u8 = FIRST_REMARK - 8;

/// All files of the table.
pub fn all() -> Vec<Case> {
    vec![
        Case::new("plan-a", &plan_a()),
        Case::new("plan-b", &plan_b()),
        nothing_but_codes(),
        chain(),
        Case::new("ring-64", &ring(256)),
        Case::new("cube-largest", &cube_largest()),
        Case::new("left-linear", &left_linear()),
        Case::new("group-336", &closed(&PROJECTIVE)),
        Case::new("group-720", &closed(&ORDERS_OF_SIX)),
        Case::new("broken-late", &broken_late()),
        Case::new("retired", &retired(1, 1)),
        Case::new("retired-most", &retired(2, 2)),
        Case::new("retired-chain", &retired_and_chain()),
        Case::new("random-small", &random_relations(8, 0, 3, 9, 60)),
        Case::new("random-middle", &random_relations(8, 4, 3, 12, 130)),
        Case::new("random-large", &random_relations(8, 2, 6, 20, 240)),
        Case::new("full-1024", &closed(&ORDERS)).rows(1_024),
        Case::new("full-4096", &closed(&ORDERS)),
        Case::new("full-largest", &random_largest()),
        Case::new("full-retired", &retired(2, 1)),
        Case::new("spent-group", &closed(&ORDERS_OF_SIX)).budget(300_000),
        Case::new("spent-largest", &cube_largest()).budget(200_000),
        Case::new("sixteen-ring", &ring_of_sixteen()),
        Case::new("sixteen-cubes", &closed(&two_cubes())),
        Case::new("sixteen-random", &random_relations(16, 2, 4, 14, 330)),
        Case::new("sixteen-full", &closed(&[RING_OF_16, SWAP_OF_16])),
        Case::new("holes", &holes()),
        many_passes(),
    ]
}

/// Files that differ in one quantity, and that quantity in each.
pub struct Growth {
    pub quantity: &'static str,
    pub points: Vec<(usize, Case)>,
}

impl Growth {
    fn new(quantity: &'static str, points: impl IntoIterator<Item = (usize, Case)>) -> Growth {
        let points = points.into_iter().collect();
        Growth { quantity, points }
    }
}

/// The same file with more and more rows: each check ends full.
pub fn by_rows() -> Growth {
    let with = |rows: usize| Case::new(&format!("{rows} rows"), &closed(&ORDERS)).rows(rows);
    Growth::new("rows", [64, 256, 1_024, 4_096].map(|rows| (rows, with(rows))))
}

/// More and more rules over 64 procedures.
pub fn by_rules() -> Growth {
    let with = |rules: usize| Case::new(&format!("{rules} rules"), &ring(rules));
    Growth::new("rules", [64, 128, 192, 256].map(|rules| (rules, with(rules))))
}

/// The same plan, and more and more moves on codes that it doesn't use.
pub fn by_moves() -> Growth {
    let with = |codes: u8| {
        let mut making = closed(&PROJECTIVE);
        for code in 3..codes {
            making.mapping(code, ORDERS[0]);
        }
        let moves = making.count(2);
        (moves, Case::new(&format!("{moves} moves"), &making))
    };
    Growth::new("moves", [3, 32, 64, FIRST_REMARK].map(with))
}

/// 128 codes, remarks among them, each in two rules of its own: two passes, and two or three live rows for each of 64 procedures.
fn nothing_but_codes() -> Case {
    let mut making = FileBuilder::new();
    full_sheet(&mut making, || RING[0]);
    for code in 0..128 {
        making.rule(code % 64, &[code, code]).rule(code % 64, &[code]);
    }
    finish_everywhere(&mut making, 8);
    Case::new("codes", &making)
}

/// A long chain: 64 procedures with one live row each, which come one to a pass.
fn chain() -> Case {
    let mut making = FileBuilder::new();
    full_sheet(&mut making, || RING[0]);
    for code in 0..FIRST_DOUBLE {
        making.rule(63, &[code]);
    }
    for head in 0..63 {
        making
            .rule(head, &[procedure(head + 1), head])
            .rule(head, &[head, procedure(head + 1)]);
    }
    finish_everywhere(&mut making, 8);
    Case::new("chain-64", &making)
}

/// 64 procedures with up to eight live rows each: pairs of procedures at random, over the turns of a ring.
fn ring(rules: usize) -> FileBuilder {
    let mut making = FileBuilder::new();
    making.mapping(0, RING[0]);
    pairs_at_random(&mut making, 7, rules, |_| 0);
    finish_everywhere(&mut making, 8);
    making
}

/// The same over the turns of a ring of all sixteen stages.
fn ring_of_sixteen() -> FileBuilder {
    let mut making = FileBuilder::new();
    making.mapping(0, RING_OF_16);
    pairs_at_random(&mut making, 7, 256, |_| 0);
    finish_everywhere(&mut making, 16);
    making
}

/// Two sheets of eight stages side by side, each with the turns of a cube: each turn of the one with each of the other, 576 products.
fn two_cubes() -> Vec<Mapping16> {
    let beside =
        |one: Mapping, other: Mapping| std::array::from_fn(|stage| if stage < 8 { one[stage] } else { 8 + other[stage - 8] });
    let still = [0, 1, 2, 3, 4, 5, 6, 7];
    let first = TURNS.map(|turn| beside(turn, still));
    let second = TURNS.map(|turn| beside(still, turn));
    [first, second].concat()
}

/// The largest file that holds: 256 rules, 64 procedures, 1,024 moves, 48 live rows for each procedure. Its rules use no code that leads
/// to two stages.
fn cube_largest() -> FileBuilder {
    let symmetries = generated(&CUBE);
    let mut numbers = Numbers::new(8);
    let mut making = FileBuilder::new();
    full_sheet(&mut making, || numbers.pick(&symmetries));
    pairs_at_random(&mut making, 9, 256, |numbers| numbers.byte(FIRST_DOUBLE.into()));
    finish_everywhere(&mut making, 8);
    making
}

/// Rules that add a code on the right, 120 of them, over 720 live rows.
fn left_linear() -> FileBuilder {
    let orders = generated(&ORDERS_OF_SIX);
    let mut numbers = Numbers::new(10);
    let mut making = FileBuilder::new();
    making.rule(1, &[]);
    for code in 0..FIRST_REMARK {
        making.mapping(code, numbers.pick(&orders)).rule(1, &[procedure(1), code]);
    }
    making
}

/// One procedure that gives each product of the mappings, as one live row each.
fn closed<const STAGES: usize>(mappings: &[[u8; STAGES]]) -> FileBuilder {
    let mut making = FileBuilder::new();
    for (code, &mapping) in (0..).zip(mappings) {
        making.mapping(code, mapping).rule(1, &[code]);
    }
    making.rule(1, &[procedure(1), procedure(1)]);
    making
}

/// A check that is broken late: procedure 0 takes the products only after some passes.
fn broken_late() -> FileBuilder {
    let mut making = closed(&PROJECTIVE);
    delay(&mut making, 9);
    making.rule(0, &[procedure(20), procedure(1)]);
    (0..7).for_each(|stage| {
        making.finishing(stage);
    });
    making
}

/// Many rows that retire: at first each code has some moves too many, and the codes without them come some passes later. In the end
/// the 24 turns of a cube are live.
fn retired(passes: u8, too_many: u8) -> FileBuilder {
    let mut making = FileBuilder::new();
    for (code, &turn) in (0..).zip(&TURNS) {
        making.mapping(code, turn).rule(1, &[procedure(20), code]);
        making.mapping(64 + code, turn).rule(1, &[64 + code]);
        for from in code..code + too_many {
            making.step(from, 64 + code, from + 3);
        }
    }
    making.rule(1, &[procedure(1), procedure(1)]);
    delay(&mut making, passes);
    making
}

/// More than a thousand rows retire, and then come many passes over few live rows.
fn retired_and_chain() -> FileBuilder {
    let mut making = retired(1, 1);
    for head in 30..63 {
        making.rule(head, &[procedure(head + 1)]);
    }
    making.rule(63, &[]);
    making
}

/// Rows and passes, many of both: 1,440 live rows of procedure 1, each pair of them a candidate of twelve rules, beside counters that bring
/// 2,520 passes. All pairs are formed in a few of the passes; in the others there is nothing to do but count them.
fn many_passes() -> Case {
    let mut making = closed(&[ORDERS_OF_SIX[0], ORDERS_OF_SIX[1], [0, 1, 2, 3, 4, 5, 7, 6]]);
    for head in 40..51 {
        // The code has no moves, so that its effect covers each pair's.
        making.rule(head, &[100]).rule(head, &[procedure(1), procedure(1)]);
    }
    counters(&mut making, 24);
    Case {
        by_every: false,
        ..Case::new("many-passes", &making).budget(u64::MAX)
    }
}

/// Lets procedures 2 and on, `count` of them, get a row in each pass, one procedure after the other, 105 rows each.
///
/// `TURN` takes the stages of three rings on, so that its powers are 105 mappings. The first counter begins with `START`, which leads from
/// the first stage of each ring to itself, and from the others to stage 15; each counter takes its rows on by `TURN`. The next counter
/// takes these rows by `DONE`, which leads from the last stage of each ring to its first, and from the others to stage 15. So a product
/// leads from some ring's first stage to stage 15, and an effect of `FIRSTS` covers it, unless all three rings have come to their last
/// stage together: then it is the effect of `START` again.
fn counters(making: &mut FileBuilder, count: u8) {
    const RINGS: [std::ops::Range<u8>; 3] = [0..3, 3..8, 8..15];
    const TURN: u8 = 110;
    const DONE: u8 = 111;
    const START: u8 = 112;
    const FIRSTS: [u8; 3] = [113, 114, 115];
    for (ring, first) in RINGS.into_iter().zip(FIRSTS) {
        making.step(ring.start, first, 15);
        for stage in ring.clone() {
            let next = if stage + 1 == ring.end { ring.start } else { stage + 1 };
            making.step(stage, TURN, next);
            making.step(stage, DONE, if next == ring.start { next } else { 15 });
            making.step(stage, START, if stage == ring.start { stage } else { 15 });
        }
    }
    making.step(15, TURN, 15).step(15, DONE, 15);
    for head in 2..2 + count {
        let start: &[u8] = if head == 2 { &[START] } else { &[procedure(head - 1), DONE] };
        making.rule(head, start).rule(head, &[procedure(head), TURN]);
        FIRSTS.iter().for_each(|&first| {
            making.rule(head, &[first]);
        });
    }
}

/// Candidates that each look through thousands of rows: procedure 1 has 3,600 rows that cover none of them, and after those two, of which
/// now the one covers the next candidate and now the other. Few candidates are alike, so that no hint helps.
fn holes() -> FileBuilder {
    let mut making = FileBuilder::new();
    // The orders of stages 0 to 4, 120 of them, times the turns of rings of 2, 3 and 5 stages, 30 of them.
    let still: Mapping16 = std::array::from_fn(|stage| stage as u8);
    let ring = |mut to: Mapping16, ring: std::ops::Range<u8>| {
        ring.clone().for_each(|stage| to[usize::from(stage)] = stage + 1);
        to[usize::from(ring.end) - 1] = ring.start;
        to
    };
    making.mapping(0, ring(still, 0..5)).mapping(1, ring(still, 0..2));
    let turns = ring(ring(ring(still, 5..7), 7..10), 10..15);
    (0..15).for_each(|stage| {
        making.step(stage, 2, turns[usize::from(stage)]);
    });
    making.rule(2, &[0]).rule(2, &[1]).rule(2, &[procedure(2), procedure(2)]);
    making.rule(3, &[2]).rule(3, &[procedure(3), procedure(3)]);
    making.rule(1, &[procedure(2), procedure(3)]);
    hole_candidates(&mut making);
    making
}

/// The two rows that cover, which come late, and the candidates, which come later: the orders of stages 0 to 4, each with a move from stage
/// 15 to itself and with one to stage 14, and then one of 60 codes.
fn hole_candidates(making: &mut FileBuilder) {
    delay(making, 12);
    let mut numbers = Numbers::new(12);
    for (code, to) in [(3, 15), (4, 14)] {
        making.step(15, code, to).rule(1, &[procedure(22), code]);
        // Code 5 or 6 leaves stages 0 to 4 alone, and takes stage 15 to the same as code 3 or 4.
        (0..5).for_each(|stage| {
            making.step(stage, code + 2, stage);
        });
        making.step(15, code + 2, to).rule(5, &[procedure(20), code + 2]);
    }
    making.rule(4, &[procedure(2), procedure(5)]);
    for code in 10..70 {
        (0..8).for_each(|_| {
            making.step(numbers.byte(5), code, numbers.byte(5));
        });
        making.step(14, code, 14).step(15, code, 15).rule(1, &[procedure(4), code]);
    }
}

/// Lets procedure 20 give nothing, from a pass on.
fn delay(making: &mut FileBuilder, passes: u8) {
    for head in 20..20 + passes {
        making.rule(head, &[procedure(head + 1)]);
    }
    making.rule(20 + passes, &[]);
}

/// A few procedures over codes whose moves are drawn at random: rows that cover and retire each other, until an empty effect covers all.
fn random_relations(stages: usize, seed: u64, procedures: usize, codes: u8, moves: usize) -> FileBuilder {
    let mut numbers = Numbers::new(seed);
    let mut making = FileBuilder::new();
    for _ in 0..moves {
        making.step(numbers.byte(stages), numbers.byte(codes.into()), numbers.byte(stages));
    }
    let mut one = || 1 + numbers.byte(procedures);
    for code in 0..codes {
        making.rule(one(), &[code]);
    }
    for _ in 0..3 * procedures {
        making.rule(one(), &[procedure(one()), procedure(one())]);
    }
    making
}

/// 256 rules, in which any code stands, 64 procedures and 1,024 moves at random.
fn random_largest() -> FileBuilder {
    let mut numbers = Numbers::new(3);
    let mut making = FileBuilder::new();
    full_sheet(&mut making, || std::array::from_fn(|_| numbers.byte(8)));
    pairs_at_random(&mut making, 11, 256, |numbers| numbers.byte(128));
    finish_everywhere(&mut making, 8);
    making
}

/// Rules over 64 procedures: a code for procedure 63, and pairs of procedures or a procedure and a code.
fn pairs_at_random(making: &mut FileBuilder, seed: u64, rules: usize, code: impl Fn(&mut Numbers) -> u8) {
    let mut numbers = Numbers::new(seed);
    making.rule(63, &[code(&mut numbers)]);
    for head in 0..63 {
        // Each procedure gives something.
        making.rule(head, &[procedure(head + 1), code(&mut numbers)]);
    }
    while making.count(1) < rules {
        let (head, left, right) = (numbers.byte(64), numbers.byte(64), numbers.byte(64));
        if numbers.once_in(4) {
            let code = code(&mut numbers);
            making.rule(head, &[procedure(left), code]);
        } else {
            making.rule(head, &[procedure(left), procedure(right)]);
        }
    }
}

/// Adds 1,024 moves: a mapping for each code that is no remark, and for the last eight of them the next stages besides.
fn full_sheet(making: &mut FileBuilder, mut mapping: impl FnMut() -> Mapping) {
    for code in 0..FIRST_REMARK {
        let to = mapping();
        making.mapping(code, to);
        if code >= FIRST_DOUBLE {
            making.mapping(code, to.map(|stage| (stage + 1) % 8));
        }
    }
}

/// Makes every stage below `stages` finishing, so that no mapping of these is rejecting.
fn finish_everywhere(making: &mut FileBuilder, stages: u8) {
    (0..stages).for_each(|stage| {
        making.finishing(stage);
    });
}

/// Every product of some mappings.
fn generated(mappings: &[Mapping]) -> Vec<Mapping> {
    let mut found = mappings.to_vec();
    let mut at = 0;
    while at < found.len() {
        for mapping in mappings {
            let product = found[at].map(|stage| mapping[usize::from(stage)]);
            if !found.contains(&product) {
                found.push(product);
            }
        }
        at += 1;
    }
    found
}
