//! The iterator over records and the builder: what one takes apart the other puts together, and both refuse what the calls refuse.

use bolfrega::{records, refusal, wide_records, wide_refusal, FileBuilder, Record, Records, Refusal};
use making::{damage, valid_file, valid_wide_file, Numbers, Size};

const SIZE: Size = Size {
    procedures: 64,
    rules: 30,
    codes: 120,
    moves: 30,
};

/// The file of these records, which come in the other direction.
fn rebuilt<const WIDTH: usize>(records: Records, mut file: FileBuilder<WIDTH>) -> Vec<u8> {
    for record in records.rev() {
        match record {
            Record::Rule { procedure, body } => file.rule(procedure, body),
            Record::Move { from, code, to } => file.step(from, code, to),
            Record::Finishing { stage } => file.finishing(stage),
            other => panic!("{other}"),
        };
    }
    file.bytes()
}

/// What the plain implementation refuses a sixteen-byte file with, before it looks at bodies and room.
fn wide_fault(file: &[u8]) -> Option<(u64, usize)> {
    match plain::narrow(file, &mut [0; bolfrega::FILE_BYTES]) {
        Err(refusal) if refusal.number != 17 => Some((refusal.number.into(), refusal.record)),
        _ => None,
    }
}

#[test]
fn eight_bytes() {
    let mut numbers = Numbers::new(71);
    let mut refused = 0;
    for _ in 0..3_000 {
        let mut file = valid_file(&mut numbers, SIZE);
        assert_eq!(records(&file).unwrap().len(), file.len() / 8);
        assert_eq!(rebuilt(records(&file).unwrap(), FileBuilder::new()), file);
        damage(&mut numbers, &mut file, 8);
        let theirs = plain::read(&file).err().map(|refusal| refusal.number.into());
        assert_eq!(records(&file).err().map(Refusal::number), theirs);
        assert_eq!(records(&file).err(), refusal(&file).err());
        refused += usize::from(theirs.is_some());
    }
    assert!(refused > 1_000 && refused < 3_000, "{refused}");
}

#[test]
fn sixteen_bytes() {
    let mut numbers = Numbers::new(72);
    let mut refused = 0;
    for _ in 0..3_000 {
        let mut file = valid_wide_file(&mut numbers, SIZE, &[0, 1, 2, 3, 7, 12]);
        assert_eq!(wide_records(&file).unwrap().len(), file.len() / 16);
        assert_eq!(rebuilt(wide_records(&file).unwrap(), FileBuilder::wide()), file);
        damage(&mut numbers, &mut file, 16);
        let theirs = wide_fault(&file);
        let ours = wide_refusal(&file).err();
        assert_eq!(
            ours.map(|refusal| (refusal.number(), refusal.record().unwrap_or(0) as usize)),
            theirs
        );
        assert_eq!(wide_records(&file).err(), ours);
        refused += usize::from(theirs.is_some());
    }
    assert!(refused > 1_000 && refused < 3_000, "{refused}");
}

/// A body that no record has room for, whatever its length: refused, and no panic.
#[test]
fn long_bodies() {
    for length in [3, 5, 6, 12, 13, 14, 100, 255, 256, 257, 1_000] {
        let body = vec![0; length];
        let refused = Err(Refusal::AboveRange { record: 0 });
        assert_eq!(FileBuilder::new().rule(0, &body).file(), refused);
        let wide = FileBuilder::wide().rule(0, &body).file();
        assert_eq!(wide.is_ok(), length <= 12);
        assert!(wide.is_ok() || wide == refused);
    }
}
