//! One track after the other, from the file to what is told of it.
use super::asked::{Asked, Form};
use super::failure::{Failure, refused, refused_about, shown};
use super::json::{self, Layout};
use super::outputs::Prepared;
use super::picture::{Picture, svg};
use super::samples;
use super::text;
use std::ffi::OsStr;
use ulyptesh::{Analysis, Analyzer, Settings};

/// An analyzer, and the samples of the file at work.
pub struct Desk {
    analyzer: Analyzer,
    samples: Vec<f32>,
}

impl Desk {
    pub fn new(settings: Settings) -> Result<Self, Failure> {
        Ok(Self { analyzer: Analyzer::new(settings).map_err(refused)?, samples: vec![] })
    }

    /// Another one for the same settings.
    pub fn another(&self) -> Self {
        Self { analyzer: self.analyzer.clone(), samples: vec![] }
    }

    pub fn analyse(&mut self, file: &OsStr) -> Result<Analysis, Failure> {
        samples::read(file, self.analyzer.settings(), &mut self.samples)?;
        self.analyzer.analyse(&self.samples).map_err(|why| refused_about(file, why))
    }

    fn picture(&self, file: &OsStr, told: &Analysis) -> Vec<u8> {
        svg(&Picture::new(&shown(file), told, &self.analyzer)).into_bytes()
    }

    /// What is printed about a track.
    pub fn printed(&self, asked: &Asked, file: &OsStr, told: &Analysis) -> Result<Vec<u8>, Failure> {
        let (name, rate) = (file.to_string_lossy(), asked.settings.rate);
        Ok(match asked.form {
            Form::Text => {
                format!("{}\n", text::lines(&shown(file), told, asked.notation).join("\n")).into_bytes()
            }
            Form::KeyOnly => {
                let key = text::key_alone(told, asked.notation);
                let behind = if asked.files.len() > 1 { format!("\t{}", shown(file)) } else { String::new() };
                format!("{key}{behind}\n").into_bytes()
            }
            Form::Json => json::track(&name, rate, told, Layout::Lines).into_bytes(),
            Form::JsonLines => format!("{}\n", json::track(&name, rate, told, Layout::OneLine)).into_bytes(),
            Form::Card => told.card().map_err(|why| refused_about(file, why))?,
            Form::Svg => self.picture(file, told),
        })
    }

    /// The card and the picture beside their places, where they are asked for.
    pub fn prepared(&self, asked: &Asked, file: &OsStr, told: &Analysis) -> Result<Prepared, Failure> {
        let mut prepared = Prepared::default();
        if let Some(place) = asked.card_place(file) {
            prepared.add(&place, &told.card().map_err(|why| refused_about(file, why))?)?;
        }
        if let Some(place) = asked.svg_place(file) {
            prepared.add(&place, &self.picture(file, told))?;
        }
        Ok(prepared)
    }
}
