//! What a comparison has met of passes and of the two forms of an image.

use super::{Answer, Case, Kind};
use crate::bytes::{read_input, words, Bad};
use crate::image::{read, short_length, Header};
use crate::row::{check, competing, Row};
use crate::word::{split, Parts, GO};
use crate::{refusal, StepAnswer};

/// Images by themselves, or those at the start of inputs.
#[derive(Clone, Copy, Debug, Default)]
pub struct Images {
    /// Accepted in the short form, and in the one with passes.
    pub short: u64,
    pub long: u64,
    /// Refused for the length, by the header's form.
    pub short_length: u64,
    pub long_length: u64,
    /// Refused at a word of passes: with 3, and with 4 for passes of a process over itself.
    pub form: u64,
    pub own: u64,
}

/// Images, tables that are refused for passes alone, and words refused with 11 whose count is full.
#[derive(Clone, Debug, Default)]
pub struct Passes {
    pub images: Images,
    pub inputs: Images,
    /// A process has passes over itself.
    pub own: u64,
    /// A process has passes over one that is not there.
    pub past: u64,
    /// GO at 20 with an argument, which is refused for that though a count is full.
    pub argument: u64,
}

impl Passes {
    pub fn note(&mut self, case: &Case, answer: &Answer) {
        match case {
            Case::ReadImage { words, .. } => self.images.note_read(words),
            Case::Call { input, .. } | Case::Print { input, .. } => self.inputs.note_input(&input.bytes),
            Case::Text { bytes } => self.inputs.note_input(bytes),
            Case::Step { rows, word, .. } => {
                self.note_table(rows, answer);
                self.note_word(rows, *word, answer);
            }
            Case::Run { rows, .. } | Case::Census { rows } | Case::Rounds { rows } | Case::WriteImage { rows, .. } => {
                self.note_table(rows, answer)
            }
            Case::Fresh { .. } | Case::TakeApart { .. } | Case::PutTogether { .. } => {}
        }
    }

    /// A table that would be sound without its passes.
    fn note_table(&mut self, rows: &[Row], answer: &Answer) {
        let without: Vec<Row> = rows.iter().map(|row| row.without_passes()).collect();
        if answer.refusal() != refusal::UNSOUND || check(&without) != refusal::NONE {
            return;
        }
        let own = rows.iter().enumerate().any(|(q, row)| row.passes[q] != 0);
        self.own += u64::from(own);
        self.past += u64::from(!own);
    }

    fn note_word(&mut self, rows: &[Row], word: u32, answer: &Answer) {
        let Answer::Step { stepped: StepAnswer { refusal: refusal::ARGUMENT, .. }, .. } = answer else { return };
        let Ok(Parts { kind, process, .. }) = split(word) else { return };
        let (row, competing) = (&rows[process as usize], competing(rows));
        let full = (0..rows.len()).any(|r| competing >> r & 1 == 1 && row.passes[r] == u16::MAX);
        self.argument += u64::from(kind == GO && row.loc == 20 && full);
    }

    /// What the kinds of call that were made have never met.
    pub fn unseen(&self, asked: impl Fn(Kind) -> bool) -> Vec<String> {
        let images = self.images.missing(asked(Kind::ReadImage), "image");
        let inputs = self.inputs.missing([Kind::Call, Kind::Text, Kind::Print].into_iter().any(&asked), "input");
        let tables = [Kind::Step, Kind::Run, Kind::Census, Kind::Rounds, Kind::WriteImage].into_iter().any(&asked);
        let others = [
            (tables && self.own == 0, "no table refused for passes of a process over itself"),
            (tables && self.past == 0, "no table refused for passes over a process that is not there"),
            (asked(Kind::Step) && self.argument == 0, "no GO at 20 with a full count refused for its argument"),
        ];
        let others = others.iter().filter(|(missing, _)| *missing).map(|(_, what)| what.to_string());
        images.into_iter().chain(inputs).chain(others).collect()
    }

    pub fn report(&self) -> String {
        let Passes { images, inputs, own, past, argument } = self;
        format!(
            "images [{}] images of inputs [{}] tables refused for passes [own: {own}, past N: {past}] \
             11 with a full count {argument}",
            images.report(),
            inputs.report()
        )
    }
}

impl Images {
    fn note_read(&mut self, words: &[u32]) {
        let Some(header) = words.first().and_then(|&word| Header::of(word)) else { return };
        self.note(header, read(words).err());
    }

    fn note_input(&mut self, bytes: &[u8]) {
        let Some(header) = words(bytes).next().and_then(Header::of) else { return };
        match read_input(bytes) {
            Ok(_) => self.note(header, None),
            Err(Bad::Image { refusal, place }) => self.note(header, Some((refusal, place))),
            Err(Bad::Bytes) => {}
        }
    }

    /// An image by its header, and by its refusal and place if it has one.
    fn note(&mut self, Header { n, passes }: Header, refused: Option<(u16, usize)>) {
        let at_passes = |place: usize| u64::from(passes && place >= short_length(n));
        match (refused, passes) {
            (None, false) => self.short += 1,
            (None, true) => self.long += 1,
            (Some((refusal::IMAGE_LENGTH, _)), false) => self.short_length += 1,
            (Some((refusal::IMAGE_LENGTH, _)), true) => self.long_length += 1,
            (Some((refusal::IMAGE_FORM, place)), _) => self.form += at_passes(place),
            (Some((refusal::IMAGE_RANGE, place)), _) => self.own += at_passes(place),
            _ => {}
        }
    }

    fn missing(&self, asked: bool, of: &str) -> Vec<String> {
        let Images { short, long, short_length, long_length, form, own } = *self;
        let all = [
            (short, "of the short form accepted"),
            (long, "with passes accepted"),
            (short_length, "of the short form refused with 2"),
            (long_length, "with passes refused with 2"),
            (form, "refused with 3 at a word of passes"),
            (own, "refused with 4 at a word of passes"),
        ];
        all.iter().filter(|(met, _)| asked && *met == 0).map(|(_, what)| format!("no {of} {what}")).collect()
    }

    fn report(&self) -> String {
        let Images { short, long, short_length, long_length, form, own } = self;
        format!(
            "short: {short}, with passes: {long}, short with 2: {short_length}, with passes with 2: {long_length}, \
             3 at passes: {form}, 4 at passes: {own}"
        )
    }
}
