//! The texts of `bolfrega help`.

pub const ALL: &str = "\
usage: bolfrega COMMAND ..          (bolfrega help COMMAND says more)

  check FILE..        whether the sheet accepts every run of the plan
  explain FILE        why not: the run step by step, and the rules that give it
  show FILE           the records of a file as text
  make TEXT [FILE]    a file from such a text
  judge FILE STEP..   whether the sheet accepts a run
  member FILE STEP..  whether a recorded run is one of the plan's
  gaps FILE           what was forgotten in the sheet, or stands there twice
  unfold WIDE [FILE]  a file of 8-byte records from one of 16-byte records

FILE is a plan file of 8-byte records; - is standard input.

Exit status:
  0  every run is accepted (judge: accepted; member: derived; gaps: none)
  1  a run is turned away, or a plan is empty (judge: turned away; member: not derived;
     gaps: some)
  2  the call cannot be understood, or something cannot be read or written: standard
     error says what
  3  a file or a run is refused, with a number of the papers
  4  undecided: the rows or the joins ran out
Of several files the worst counts, in this order: 2, 3, 1, 4, 0.

The verdicts are those of the proved library. All else that is shown, the text of
records, the stages of a run, the rules that give it, is this command's own and not
proved.
";

pub const CHECK: &str = "\
usage: bolfrega check [--rows N] [--budget N] [--start P,..] [--json] FILE..

Says of each file, in a line, whether the sheet accepts every run of the plan, and what
to do:

  holds    every run is accepted
  broken   a run is turned away, and the line has it
  empty    a procedure never finishes, so that it has no run
  full     undecided: the journal's rows ran out; the line has the next limit
  spent    undecided: the budget of joins ran out; the line has the next limit
  refused  the file is damaged; the number is that of the papers

  --rows N       rows of the journal, 1 to 4096 (1024)
  --budget N     joins that may be made (1000000)
  --start P,..   the procedures whose runs are checked (0)
  --json         a JSON object in each line: path, verdict, joins, used, pass; of a
                 broken check row, pairs, length, procedure and run (null if it has
                 65,535 steps or more); of one that is full or spent limit and next
                 (null if there is none); of a refused file number, record and message.
                 A file that cannot be read has no line.

Exit status: 0 all hold, 1 one is broken or empty, 2 one cannot be read, 3 one is
refused, 4 one is undecided; the worst of these in the order 2, 3, 1, 4, 0.
";

pub const EXPLAIN: &str = "\
usage: bolfrega explain [--names NAMES] [--svg | --dot] [--rows N] [--budget N]
                        [--start P,..] FILE

Says why a file has the verdict that `bolfrega check` gives:

  broken   the run that is turned away, step by step, with the stages that the sheet can
           be in after each step, and the place from which no finishing stage can be
           reached any more; then the rules that give the run, as a tree: a rule stands
           above those that give its procedures, with its record number and the steps
           that come from it
  empty    the procedures that never finish, with the rules of each and what they wait
           for
  refused  the record at fault, with the one before it

  --names NAMES   a text with names, a line for each: `procedure 1 rows`, `step 3
                  close`, `stage 0 ready`
  --svg           a picture in the place of the text: the sheet, the path of the run in
                  it, and the tree beside it
  --dot           the same as text for graphviz
  --rows, --budget, --start   as of `bolfrega check`

The verdict, the run and the rows are the proved library's. The stages, the place and
the lines of the tree are this command's own.

Exit status: that of `bolfrega check`.
";

pub const SHOW: &str = "\
usage: bolfrega show [--wide] FILE

Prints the records of a file, a line for each, with its number in front:

  3: 2 gives (procedure 1)
  5: from stage 0 on code 1 to stage 1
  8: stage 2 is finishing

A record that is refused has its reason in front, and the others are printed all the
same. Of one that says nothing the bytes are printed.

  --wide   the file has 16-byte records; of those that are too many, the first is marked

Exit status: 0 shown, 2 the file cannot be read, 3 shown and refused.
";

pub const MAKE: &str = "\
usage: bolfrega make [--wide] TEXT [FILE]

Makes a plan file of the lines that `bolfrega show` prints, for tests and samples. Text
plans are no part of the product: plans are made, kept and exchanged as files of
records.

The lines may come in any order; numbers before a colon, blank lines and what is behind
a # are not read. The file is written to FILE or, if none is named, to standard output,
and `bolfrega show` prints the same lines again.

  --wide   make 16-byte records, with up to twelve symbols in a body

Exit status: 0 made, 2 a line is no record, or something cannot be read or written, 3
the file would be refused, and is not written.
";

pub const JUDGE: &str = "\
usage: bolfrega judge FILE STEP..

Says whether the sheet in a file accepts the run with these step codes. Remarks, the
codes from 120 to 127, leave the sheet in its stage.

Exit status: 0 accepted, 1 turned away, 2 no answer, 3 the file or the run is refused.
";

pub const MEMBER: &str = "\
usage: bolfrega member FILE STEP..

Says whether a recorded run of at most 64 steps is one of the plan's: whether procedure
0 gives these step codes. Remarks are steps here.

Exit status: 0 derived, 1 not derived, 2 no answer, 3 the file or the run is refused.
";

pub const GAPS: &str = "\
usage: bolfrega gaps FILE

Lists the stages and codes of a sheet whose number of moves is not one: gaps, with none,
and doubles, with more.

Exit status: 0 there is none, 1 there are some, 2 no answer, 3 the file is refused.
";

pub const UNFOLD: &str = "\
usage: bolfrega unfold [--start P,..] WIDE [FILE]

Makes a file of 8-byte records, which the other commands take, of one of 16-byte
records: a body of more than two symbols becomes a chain of procedures. It is written to
FILE or, if none is named, to standard output: `bolfrega unfold WIDE | bolfrega check
-`.

  --start P,..   the procedures that are to be checked (0); none of them becomes part of
                 a chain

Exit status: 0 written, 2 something cannot be read or written, 3 the file is refused,
and nothing is written.
";
