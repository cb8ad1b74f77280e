//! Answers that borrow nothing are those that do.

use bolfrega::{check_from, check_owned, Starts, Verdict, LONGEST_RUN};
use making::{damage, valid_file, Numbers, Size};

const SMALL: Size = Size {
    procedures: 4,
    rules: 10,
    codes: 4,
    moves: 16,
};

#[test]
fn the_same_answers() {
    let mut numbers = Numbers::new(81);
    let mut seen = [0; 3];
    for _ in 0..2_000 {
        let mut file = valid_file(&mut numbers, SMALL);
        if numbers.once_in(4) && !file.is_empty() {
            damage(&mut numbers, &mut file, 8);
        }
        let starts = Starts::from_bits(numbers.below(16) as u64);
        let (rows, budget) = (numbers.pick(&[0, 2, 1_024]), numbers.pick(&[10, 5_000]));
        let mut buffer = vec![0; LONGEST_RUN];
        let lent = check_from(&file, starts, rows, budget, &mut buffer);
        let owned = check_owned(&file, starts, rows, budget);
        assert_eq!(owned.as_ref().map(|owned| owned.told()), lent.as_ref().copied());
        match lent {
            Err(_) => seen[0] += 1,
            Ok(told) => {
                assert_eq!(owned.unwrap().to_string(), told.to_string());
                seen[if matches!(told.answer.verdict, Verdict::Broken(_)) {
                    1
                } else {
                    2
                }] += 1;
            }
        }
    }
    assert!(seen.iter().all(|&times| times > 100), "{seen:?}");
}

/// A run that cannot be written: the one of 65,536 steps, each procedure giving the next one twice.
#[test]
fn a_run_that_is_too_long() {
    let mut file = bolfrega::FileBuilder::new();
    (0..16).for_each(|head| {
        file.rule(head, &[bolfrega::procedure(head + 1); 2]);
    });
    let file = file.rule(16, &[5]).bytes();
    let owned = check_owned(&file, Starts::INITIAL, 1_024, 1_000_000).unwrap();
    assert!(owned.to_string().ends_with(" 65535\nrefused 10\nprocedure 0"), "{owned}");
}
