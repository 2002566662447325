//! The answer of the verdict call: its numbers, places, message and type table.

use crate::askings::{listed, Asking, REFUSED};
use crate::numbers;
use crate::reader::{read, Loaded, Origin, Refusal, Spans};
use crate::{check, guardian_errors, Model, TypeError};

#[derive(Clone, Debug, PartialEq, Eq)]
pub struct Answer {
    /// 0 is acceptance.
    pub number: u32,
    /// Every place the verdict may name, in the order of the sheet. There are several only for
    /// refusal 20 among state fields.
    pub places: Vec<u32>,
    /// How many lines are marked.
    pub count: u32,
    pub message: String,
    /// Whether the lent buffer holds the message.
    pub fits: bool,
    /// The code of each line; none for 1 to 11, which leave the type table untouched.
    pub types: Option<Vec<u8>>,
}

impl Answer {
    /// The message as the call writes it: nothing where it doesn't fit.
    pub fn written(&self) -> &str {
        if self.fits {
            &self.message
        } else {
            ""
        }
    }

    /// What the program `shelfcheck` writes.
    pub fn verdict_line(&self) -> String {
        let (number, place) = (self.number, self.places[0]);
        match number {
            0 => "accepted\n".to_string(),
            1..=11 => format!("{number},{place}\n"),
            _ => format!("{number},{place},{}\n", self.written()),
        }
    }
}

pub fn answer(sheet: &[u8], scratch_len: usize, types_len: usize, message_len: usize) -> Answer {
    match read(sheet, scratch_len, types_len, Spans::Numbered) {
        Ok(loaded) => verdict(&loaded, message_len),
        Err(Refusal { number, place }) => Answer {
            number,
            places: vec![place],
            count: 0,
            message: String::new(),
            fits: true,
            types: None,
        },
    }
}

/// The pass's answer to a sheet that is read, its spans being numbered.
fn verdict(loaded: &Loaded, message_len: usize) -> Answer {
    let model = Model::build(&loaded.contract);
    let (result, askings) = listed(|| check(&model));
    let types = type_table(loaded.lines.len(), &loaded.origins, &askings);
    let (number, places, message) = match result {
        Ok(()) => (0, vec![0], String::new()),
        Err(error) => {
            let number = numbers::number(&error.message);
            let errors = all_errors(number, &error, &model);
            (number, places(&errors, &loaded.origins), error.message)
        }
    };
    Answer {
        number,
        places,
        count: types.iter().filter(|&&code| code != 0).count() as u32,
        fits: message.len() <= message_len,
        message,
        types: Some(types),
    }
}

/// The errors `check` may give: its own, or with 20 those of all bad state fields, if any.
fn all_errors(number: u32, error: &TypeError, model: &Model) -> Vec<TypeError> {
    let fields = guardian_errors(model);
    if number == 20 && !fields.is_empty() {
        fields
    } else {
        vec![error.clone()]
    }
}

/// Spans are numbered in the order of the sheet.
fn places(errors: &[TypeError], origins: &[Origin]) -> Vec<u32> {
    let mut spans: Vec<usize> = errors.iter().map(|error| error.span.0 as usize).collect();
    spans.sort_unstable();
    let mut places = Vec::new();
    for place in spans.into_iter().map(|span| origins[span].span) {
        if !places.contains(&place) {
            places.push(place);
        }
    }
    places
}

/// A line's code is 11 if any of its askings has 11, else that of its first asking. The made-up
/// target of a default is asked too, but has no line.
fn type_table(lines: usize, origins: &[Origin], askings: &[Asking]) -> Vec<u8> {
    let mut types = vec![0; lines];
    for asking in askings {
        let Some(line) = origins[asking.span.0 as usize].line else {
            continue;
        };
        let code = &mut types[line as usize - 1];
        if *code == 0 || asking.code == REFUSED {
            *code = asking.code;
        }
    }
    types
}
