//! The texts that `--help` prints, for the whole program and for each command. Each fits a screen. They are files in cli/help, so that
//! `cli/run` can print them before the program is built.

pub const WHOLE: &str = include_str!("../help/whole.txt");
pub const ANSWER: &str = include_str!("../help/answer.txt");
pub const ASK: &str = include_str!("../help/ask.txt");
pub const SOLVE: &str = include_str!("../help/solve.txt");
pub const SHOW: &str = include_str!("../help/show.txt");
pub const PLOT: &str = include_str!("../help/plot.txt");
pub const BOARD: &str = include_str!("../help/board.txt");
pub const CHECK: &str = include_str!("../help/check.txt");
pub const OPM: &str = include_str!("../help/opm.txt");
