//! Reading the text form of a plant (docs/FORMAT.md) from one file, or from a table's file and one or two files of
//! trees.
use crate::lines::each_line;
use crate::plant::{Fault, Place, Plant, Table, Tree};
use crate::table_text::TableText;
use crate::tree_text::TreeText;
use crate::words::{quote, Line, Word, NAME_LINES};
use std::rc::Rc;

/// A text and the name of its file.
pub struct Text {
    pub file: Rc<str>,
    pub bytes: Vec<u8>,
}

/// What has been read so far.
enum State {
    Nothing,
    InTable(TableText),
    AfterTable(Table),
    InRecorded(Table, TreeText),
    AfterRecorded(Table, Tree),
    InFound(Table, Tree, TreeText),
    AfterFound(Plant),
}

/// The words that begin a tree; `tree` does where the file says which one it is.
const TREES: [&str; 3] = ["recorded", "found", "tree"];

/// The plant that one, two or three texts hold: all in one; or a table, and then both trees in one or in one each.
pub fn read(texts: &[Text]) -> Result<Plant, Fault> {
    let mut state = State::Nothing;
    for (at, text) in texts.iter().enumerate() {
        let file = File { at, of: texts.len() };
        // a line takes the state by value and gives the next one, so it is put back only where no fault ended the
        // reading
        let mut now = Some(state);
        let end = each_line(&text.file, &text.bytes, |line| {
            let before = now.take().unwrap_or(State::Nothing);
            now = Some(file.step(before, line)?);
            Ok(())
        })?;
        state = file.end(now.unwrap_or(State::Nothing), &end)?;
    }
    match state {
        State::AfterFound(plant) => Ok(plant),
        _ => unreachable!("the last file ends with the found tree"),
    }
}

/// Which of how many files is read.
#[derive(Clone, Copy)]
struct File {
    at: usize,
    of: usize,
}

impl File {
    fn holds_recorded(self) -> bool {
        self.at == usize::from(self.of > 1)
    }

    fn holds_found(self) -> bool {
        self.at == self.of - 1
    }

    /// What the state is after one more line.
    fn step(self, state: State, line: &Line) -> Result<State, Fault> {
        let words = line.words()?;
        if NAME_LINES.contains(&words[0].text) && !matches!(state, State::Nothing | State::InTable(_)) {
            return line.fault(words[0].column, format!("`{}` stands in the table, before the trees", words[0].text));
        }
        let begins = TREES.contains(&words[0].text);
        Ok(match state {
            State::Nothing => State::InTable(TableText::begin(line, &words)?),
            State::InTable(table) if begins && words[0].text != "found" => {
                self.recorded(table.finish(&line.place(words[0].column))?, line, &words)?
            }
            State::InTable(mut table) => {
                table.read(line, &words)?;
                State::InTable(table)
            }
            State::AfterTable(table) => self.recorded(table, line, &words)?,
            State::InRecorded(table, tree) if begins => self.found(table, tree.finish()?, line, &words)?,
            State::InRecorded(table, mut tree) => {
                tree.read(line, &words, &table)?;
                State::InRecorded(table, tree)
            }
            State::AfterRecorded(table, tree) => self.found(table, tree, line, &words)?,
            State::InFound(table, recorded, mut tree) => {
                further(line, &words, begins)?;
                tree.read(line, &words, &table)?;
                State::InFound(table, recorded, tree)
            }
            State::AfterFound(_) => return line.fault(words[0].column, "the plant has its two trees already"),
        })
    }

    /// The first line of the recorded tree.
    fn recorded(self, table: Table, line: &Line, words: &[Word]) -> Result<State, Fault> {
        if !self.holds_recorded() {
            return line.fault(words[0].column, "this file is to hold the table alone: the trees stand in the files after it");
        }
        match words[0].text {
            "recorded" => (),
            "tree" if self.of == 3 => (),
            "found" if self.of == 3 => return line.fault(words[0].column, "this is a found tree, and the recorded one belongs here"),
            other => return line.fault(words[0].column, format!("the recorded tree begins with `recorded`, not {}", quote(other))),
        }
        let tree = TreeText::begin(line, words, &table)?;
        Ok(State::InRecorded(table, tree))
    }

    /// The first line of the found tree.
    fn found(self, table: Table, recorded: Tree, line: &Line, words: &[Word]) -> Result<State, Fault> {
        if !self.holds_found() {
            return line.fault(words[0].column, "this file is to hold the recorded tree alone: the found one stands in the file after it");
        }
        match words[0].text {
            "found" => (),
            "tree" if self.of == 3 => (),
            "recorded" => return line.fault(words[0].column, "`recorded` stands once, and the found tree belongs here"),
            other => return line.fault(words[0].column, format!("the found tree begins with `found`, not {}", quote(other))),
        }
        let tree = TreeText::begin(line, words, &table)?;
        Ok(State::InFound(table, recorded, tree))
    }

    /// What the state is after the file, which ends at `end`.
    fn end(self, state: State, end: &Place) -> Result<State, Fault> {
        let state = match state {
            State::InTable(table) if !self.holds_recorded() => State::AfterTable(table.finish(end)?),
            State::InRecorded(table, tree) if !self.holds_found() => State::AfterRecorded(table, tree.finish()?),
            State::InFound(table, recorded, tree) => State::AfterFound(Plant { table, recorded, found: tree.finish()? }),
            other => other,
        };
        let missing = match state {
            State::Nothing => "table",
            State::InTable(_) | State::AfterTable(_) if self.holds_recorded() => "recorded tree",
            State::InRecorded(..) | State::AfterRecorded(..) if self.holds_found() => "found tree",
            other => return Ok(other),
        };
        Err(Fault { place: end.clone(), reason: format!("the text ends before the {missing}") })
    }
}

/// A further line of the found tree begins no other part.
fn further(line: &Line, words: &[Word], begins: bool) -> Result<(), Fault> {
    if begins {
        return line.fault(words[0].column, format!("`{}` stands once, and the plant has its two trees already", words[0].text));
    }
    Ok(())
}
