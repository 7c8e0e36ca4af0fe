//! The writer's part of a comparison.

use super::{difference, hex, question, Checker, Comparison, LONGEST};
use crate::make::words;
use crate::make::written::promised;
use crate::model::held::{self, WORDS};
use crate::model::schedule::{Refusal, MOST_MEMBERS};
use crate::model::writing;

/// Members as words: those that can be read, and how many are lent.
type Lending<'a> = (&'a [u32], usize);

/// The ways to lend words: as they come; without what is left over after the last whole member, which
/// cannot be read; with as much left over as there can be. Of too many members some can be read, or
/// one, or none.
fn lendings((words, length): Lending) -> [Lending; 3] {
    let members = length / WORDS;
    if members > MOST_MEMBERS as usize {
        return [(words, length), (&words[..WORDS.min(words.len())], length), (&[], length)];
    }
    let named = &words[..members * WORDS];
    [(words, length), (named, length), (named, named.len() + WORDS - 1)]
}

/// What the model makes of a list where any schedule has room.
fn file((words, length): Lending) -> Result<Vec<u8>, Refusal> {
    let mut file = vec![0; LONGEST];
    let length = writing::write_schedule(words, length, &mut file)?;
    file.truncate(length);
    Ok(file)
}

impl<C: Checker> Comparison<'_, C> {
    /// One list of members as words, with every room. An accepted one's schedule is compared like any
    /// other, and has the same members.
    pub fn words(&mut self, words: &[u32]) -> Result<(), String> {
        self.lent_words((words, words.len()))
    }

    /// Rooms to try for a schedule of this many members: those for any text, the length that is promised
    /// to be enough, and one byte less.
    fn file_rooms(&self, file: &[u8], members: usize) -> Vec<usize> {
        let promised = promised(members);
        let mut rooms = self.rooms(file.len());
        rooms.extend([promised, promised - 1]);
        rooms
    }

    /// Words of which only these can be read.
    pub fn lent_words(&mut self, lending: Lending) -> Result<(), String> {
        self.word_lists += 1;
        let file = file(lending);
        self.writer_tally.note_list(lending, &file);
        let members = lending.1 / WORDS;
        let rooms = match &file {
            Ok(file) => self.file_rooms(file, members),
            Err(_) => vec![0, 1, self.random.below(400) as usize, LONGEST / 2],
        };
        for room in rooms {
            self.writer_tally.note_room(room, members, &file);
            self.words_in(lending, room)?;
        }
        let Ok(file) = file else {
            return Ok(());
        };
        self.schedule(&file)?;
        let read = words::of_file(&file, self.random);
        if held::read(lending.0, lending.1) == held::read(&read, read.len()) {
            Ok(())
        } else {
            Err(format!("words {lending:?}\nother members in {}", hex(&file)))
        }
    }

    /// One list of members with a buffer of this length.
    fn words_in(&mut self, lending: Lending, room: usize) -> Result<(), String> {
        let before = self.buffer(room);
        let mut expected = before.clone();
        let model = writing::write_schedule(lending.0, lending.1, &mut expected);
        self.writer_answers[question(model)] += 1;
        let [source, out, _] = &mut self.guards;
        for lending in lendings(lending) {
            let source = source.list(lending);
            let found = out.copy(&before);
            let checker = self.checker.write_schedule(source, found);
            self.calls += 1;
            let input = || format!("words {lending:?}");
            difference(input, (model, &expected), (checker, found))?;
            if source.readable() != lending.0 {
                return Err(format!("{} were changed", input()));
            }
        }
        Ok(())
    }

    /// An accepted schedule written from its members: the same bytes.
    pub(super) fn written_again(&mut self, bytes: &[u8]) -> Result<(), String> {
        self.written += 1;
        let words = words::of_file(bytes, self.random);
        let lending = (words.as_slice(), words.len());
        let file = file(lending);
        if file.as_deref() != Ok(bytes) {
            return Err(format!("words {words:?}\nfile {file:?}\nnot {}", hex(bytes)));
        }
        self.writer_tally.note_list(lending, &file);
        let beyond = bytes.len() + self.random.below(300) as usize;
        for room in [bytes.len(), bytes.len() - 1, beyond] {
            self.writer_tally.note_room(room, words.len() / WORDS, &file);
            self.words_in(lending, room)?;
        }
        Ok(())
    }
}
