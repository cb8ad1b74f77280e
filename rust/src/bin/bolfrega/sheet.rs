//! The stages of a sheet along a run. This is the command's own work: that the run is turned away is the library's word.

use bolfrega::{Record, CODES, FIRST_REMARK, STAGES};

/// A set of stages, bit s for stage s.
pub type Stages = u16;

/// Stage 0 alone, in which every run begins.
pub const FIRST: Stages = 1;

/// The moves and the finishing stages of a file.
pub struct Sheet {
    /// The stages that each code leads to from each stage.
    moves: Vec<[Stages; STAGES as usize]>,
    finishing: Stages,
}

/// The stages in a set, rising.
pub fn members(set: Stages) -> impl Iterator<Item = u8> {
    (0..STAGES).filter(move |stage| set >> stage & 1 == 1)
}

impl Sheet {
    pub fn of<'f>(records: impl Iterator<Item = Record<'f>>) -> Sheet {
        let mut sheet = Sheet {
            moves: vec![[0; STAGES as usize]; CODES.into()],
            finishing: 0,
        };
        for record in records {
            match record {
                Record::Move { from, code, to } => sheet.moves[usize::from(code)][usize::from(from)] |= 1 << to,
                Record::Finishing { stage } => sheet.finishing |= 1 << stage,
                _ => {}
            }
        }
        sheet
    }

    /// The stages after a step from some stages. On a remark they stay.
    pub fn after(&self, stages: Stages, code: u8) -> Stages {
        if code >= FIRST_REMARK {
            return stages;
        }
        let moves = &self.moves[usize::from(code)];
        members(stages).fold(0, |to, from| to | moves[usize::from(from)])
    }

    /// The stages at the start of a run and after each of its steps.
    pub fn along(&self, run: &[u8]) -> Vec<Stages> {
        let mut sets = vec![FIRST];
        let mut now = FIRST;
        for &code in run {
            now = self.after(now, code);
            sets.push(now);
        }
        sets
    }

    /// The stages from which a finishing stage can be reached, by whatever steps.
    pub fn hopeful(&self) -> Stages {
        let mut hopeful = self.finishing;
        loop {
            let leads = |from: usize| self.moves.iter().any(|moves| moves[from] & hopeful != 0);
            let more = (0..usize::from(STAGES))
                .filter(|&from| leads(from))
                .fold(hopeful, |set, from| set | 1 << from);
            if more == hopeful {
                return hopeful;
            }
            hopeful = more;
        }
    }

    /// The first place of a run, 0 for its start and k for the end of step k, from which no finishing stage can be reached any more; none if
    /// one could be reached even from its end.
    pub fn lost(&self, sets: &[Stages]) -> Option<usize> {
        let hopeful = self.hopeful();
        sets.iter().position(|set| set & hopeful == 0)
    }
}
