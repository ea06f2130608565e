//! What a comparison has met of settings: the words that they forbid and those that they leave, and numbers that are none of
//! the six.

use super::{Answer, Case, Kind};
use crate::bytes::read_input;
use crate::refusal;
use crate::row::Row;
use crate::run::MOST_WORDS;
use crate::settings::{Settings, ACT_PLAIN, TURN_ONE_WRITER, TURN_PLAIN};
use crate::word::{split, Parts, FLICKER, GO};

/// The calls that take settings.
const KINDS: [Kind; 3] = [Kind::Step, Kind::Run, Kind::Call];

/// The locations at which FLICKER is forbidden.
const FLICKERS: [u16; 3] = [20, 40, 24];

#[derive(Clone, Debug, Default)]
pub struct Forbidden {
    /// Calls of each of the three kinds that took a word under each of the six.
    pub taken: [[u64; Settings::ALL.len()]; KINDS.len()],
    /// Steps refused with 16 at 20, at 40 and at 24, and with 17.
    pub flickers: [u64; FLICKERS.len()],
    pub goes: u64,
    /// Steps refused with 11 that are forbidden besides: FLICKERs, and GOs.
    pub arguments: [u64; 2],
    /// FLICKERs at 24 that steps took under one writer.
    pub writers_flicker: u64,
    /// Steps from 23 to 24 under one writer, with another process at 24 of another level.
    pub other_level: u64,
    /// Steps from 23 under one writer while another process at 24 has the level: est has too few members, or bb is 1.
    pub few: u64,
    pub bb: u64,
    pub wrong: Wrong,
}

/// Calls under settings that are none of the six.
#[derive(Clone, Debug, Default)]
pub struct Wrong {
    /// Refused with 6 and with 7: steps, and runs.
    pub tables: [[u64; 2]; 2],
    /// Calls on bytes refused with 14, and for their image.
    pub bytes: u64,
    pub images: u64,
    /// Refused with 18 though the run has too many words: a run, and a call.
    pub too_many: [u64; 2],
    /// Calls refused with 18 though too few bytes are lent.
    pub too_few: u64,
    /// Steps refused with 18 though the word has a wrong form.
    pub form: u64,
    /// Runs refused with 18 that have no words.
    pub without_words: u64,
    /// Refused with 18 for act alone, for turn alone, and for both.
    pub numbers: [u64; 3],
}

impl Forbidden {
    pub fn note(&mut self, case: &Case, answer: &Answer) {
        let (settings, words_taken) = match (case, answer) {
            (Case::Step { rows, word, settings }, Answer::Step { stepped, .. }) => {
                self.note_step(rows, *word, *settings, stepped.refusal);
                (*settings, u64::from(stepped.refusal == refusal::NONE))
            }
            (Case::Run { settings, .. }, Answer::Run { ran, .. }) => (*settings, u64::from(ran.taken)),
            (Case::Call { settings, .. }, Answer::Call { number, .. }) => (*settings, number / 256),
            _ => return,
        };
        let kind = KINDS.iter().position(|&kind| kind == case.kind()).expect("one of the three");
        match Settings::ALL.iter().position(|&good| good == settings) {
            Some(place) => self.taken[kind][place] += u64::from(words_taken > 0),
            None => self.wrong.note(case, settings, answer.refusal()),
        }
    }

    /// A step by its refusal, where the rows are sound and the settings among the six.
    fn note_step(&mut self, rows: &[Row], word: u32, settings: Settings, refused: u16) {
        let Ok(Parts { kind, process, .. }) = split(word) else { return };
        let Some(row) = rows.get(process as usize).filter(|_| settings.check_with(rows) == refusal::NONE) else {
            return;
        };
        let at = |place: usize| row.loc == FLICKERS[place];
        let one_writer = settings.turn == TURN_ONE_WRITER;
        match (kind, refused) {
            (FLICKER, refusal::FORBIDDEN_FLICKER) => {
                (0..3).for_each(|place| self.flickers[place] += u64::from(at(place)))
            }
            (FLICKER, refusal::ARGUMENT) => {
                let forbidden = if at(2) { settings.turn == TURN_PLAIN } else { settings.act == ACT_PLAIN };
                self.arguments[0] += u64::from(forbidden);
            }
            (FLICKER, refusal::NONE) => self.writers_flicker += u64::from(one_writer && at(2)),
            (GO, refusal::FORBIDDEN_GO) => self.goes += 1,
            (GO, refusal::NONE | refusal::ARGUMENT) if one_writer && row.loc == 23 => self.note_go(rows, row, refused),
            _ => {}
        }
    }

    /// A GO at 23 under one writer that met no 17.
    fn note_go(&mut self, rows: &[Row], row: &Row, refused: u16) {
        let written = rows.iter().any(|other| other.loc == 24 && other.level == row.level);
        let elsewhere = rows.iter().any(|other| other.loc == 24 && other.level != row.level);
        let few = row.est.count_ones() < row.level.into();
        let goes_to_24 = !few && row.bb == 0;
        if refused == refusal::ARGUMENT {
            self.arguments[1] += u64::from(goes_to_24 && written);
            return;
        }
        self.other_level += u64::from(goes_to_24 && elsewhere);
        self.few += u64::from(written && few && row.bb == 0);
        self.bb += u64::from(written && !few && row.bb == 1);
    }

    /// What the kinds of call that were made have never met.
    pub fn unseen(&self, asked: impl Fn(Kind) -> bool) -> Vec<String> {
        let mut unseen = Vec::new();
        for (kind, taken) in KINDS.into_iter().zip(self.taken).filter(|(kind, _)| asked(*kind)) {
            let missing = Settings::ALL.into_iter().zip(taken).filter(|(_, taken)| *taken == 0);
            unseen.extend(missing.map(|(settings, _)| format!("no word taken by {kind:?} under {settings}")));
        }
        let of_steps = [
            (self.flickers[0], "no FLICKER forbidden at 20"),
            (self.flickers[1], "no FLICKER forbidden at 40"),
            (self.flickers[2], "no FLICKER forbidden at 24"),
            (self.goes, "no GO forbidden"),
            (self.arguments[0], "no forbidden FLICKER refused for its argument"),
            (self.arguments[1], "no forbidden GO refused for its argument"),
            (self.writers_flicker, "no FLICKER at 24 under one writer"),
            (self.other_level, "no GO to 24 under one writer beside a writer of another level"),
            (self.few, "no GO at 23 under one writer beside a writer of its level, with a small est"),
            (self.bb, "no GO at 23 under one writer beside a writer of its level, with bb 1"),
        ];
        unseen.extend(missing(asked(Kind::Step), &of_steps));
        unseen.extend(self.wrong.unseen(asked));
        unseen
    }

    pub fn report(&self) -> String {
        let Forbidden { taken, flickers, goes, arguments, writers_flicker, other_level, few, bb, wrong } = self;
        format!(
            "settings [taken: {taken:?}, 16 at 20, 40, 24: {flickers:?}, 17: {goes}, 11 before them: {arguments:?}, \
             under one writer [FLICKER: {writers_flicker}, beside another level: {other_level}, small est: {few}, \
             bb: {bb}], {}]",
            wrong.report()
        )
    }
}

impl Wrong {
    fn note(&mut self, case: &Case, settings: Settings, refused: u16) {
        if refused == refusal::SETTINGS {
            let (act, turn) = (settings.act > ACT_PLAIN, settings.turn > TURN_PLAIN);
            self.numbers[usize::from(turn) + usize::from(act && turn)] += 1;
        }
        match (case, refused) {
            (Case::Step { .. }, refusal::ROW_COUNT | refusal::UNSOUND) => self.tables[0][usize::from(refused) - 6] += 1,
            (Case::Run { .. }, refusal::ROW_COUNT | refusal::UNSOUND) => self.tables[1][usize::from(refused) - 6] += 1,
            (Case::Step { word, .. }, refusal::SETTINGS) => self.form += u64::from(split(*word).is_err()),
            (Case::Run { words, .. }, refusal::SETTINGS) => {
                self.too_many[0] += u64::from(words.len() > MOST_WORDS);
                self.without_words += u64::from(words.is_empty());
            }
            (Case::Call { .. }, refusal::INPUT_BYTES) => self.bytes += 1,
            (Case::Call { .. }, refusal::NO_HEADER..=refusal::IMAGE_LEVEL) => self.images += 1,
            (Case::Call { input, .. }, refusal::SETTINGS) => {
                let Ok(read) = read_input(&input.bytes) else { return };
                self.too_many[1] += u64::from(read.events.len() > 4 * MOST_WORDS);
                self.too_few += u64::from(input.lent < 4 * crate::image::image_length(read.table.len()));
            }
            _ => {}
        }
    }

    fn unseen(&self, asked: impl Fn(Kind) -> bool) -> Vec<String> {
        let of_steps = [
            (self.tables[0][0], "no step with wrong settings refused with 6"),
            (self.tables[0][1], "no step with wrong settings refused with 7"),
            (self.form, "no step refused with 18 though its word has a wrong form"),
        ];
        let of_runs = [
            (self.tables[1][0], "no run with wrong settings refused with 6"),
            (self.tables[1][1], "no run with wrong settings refused with 7"),
            (self.too_many[0], "no run refused with 18 though it has too many words"),
            (self.without_words, "no run refused with 18 that has no words"),
        ];
        let of_calls = [
            (self.bytes, "no call with wrong settings refused with 14"),
            (self.images, "no call with wrong settings refused for its image"),
            (self.too_many[1], "no call refused with 18 though it has too many words"),
            (self.too_few, "no call refused with 18 though it is lent too little"),
        ];
        let of_all = [
            (self.numbers[0], "nothing refused with 18 for act alone"),
            (self.numbers[1], "nothing refused with 18 for turn alone"),
            (self.numbers[2], "nothing refused with 18 for act and turn"),
        ];
        let mut unseen = missing(asked(Kind::Step), &of_steps);
        unseen.extend(missing(asked(Kind::Run), &of_runs));
        unseen.extend(missing(asked(Kind::Call), &of_calls));
        unseen.extend(missing(KINDS.into_iter().any(asked), &of_all));
        unseen
    }

    fn report(&self) -> String {
        let Wrong { tables, bytes, images, too_many, too_few, form, without_words, numbers } = self;
        format!(
            "wrong [6 and 7: {tables:?}, 14: {bytes}, 1 to 5: {images}, too many words: {too_many:?}, too little lent: \
             {too_few}, wrong form: {form}, no words: {without_words}, act, turn, both: {numbers:?}]"
        )
    }
}

fn missing(asked: bool, all: &[(u64, &str)]) -> Vec<String> {
    all.iter().filter(|(met, _)| asked && *met == 0).map(|(_, what)| what.to_string()).collect()
}
