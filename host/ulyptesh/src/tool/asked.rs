//! What `analyse` is asked: files, settings, the form of the answer, and what else is written.
use super::failure::{Failure, bad_usage, quoted, refused_about, shown};
use super::outputs::place_of;
use super::samples::STANDARD_INPUT;
use super::settings;
use super::words::{Known, Words, alone, with_word};
use std::collections::HashMap;
use std::ffi::{OsStr, OsString};
use std::num::NonZeroUsize;
use std::path::{Path, PathBuf};
use ulyptesh::{NoSuchNotation, Notation, Settings};

/// The options beside those for settings.
pub const OPTIONS: [Known; 9] = [
    alone("--json"),
    alone("--json-lines"),
    alone("--key-only"),
    with_word("--notation"),
    with_word("--jobs"),
    with_word("--card"),
    with_word("--svg"),
    with_word("--cards"),
    with_word("--svgs"),
];

/// The word for standard output.
pub const STANDARD_OUTPUT: &str = "-";

/// What is printed about a track.
#[derive(Clone, Copy, PartialEq)]
pub enum Form {
    Text,
    KeyOnly,
    Json,
    JsonLines,
    Card,
    Svg,
}

/// Where one kind of file goes.
pub enum Target {
    Nowhere,
    Printed,
    File(PathBuf),
    /// Under each track's name, with the extension of the kind.
    Folder(PathBuf),
}

/// A track's name without its extension, which is letters and digits behind the last dot.
fn bare_name(track: &Path) -> Option<&OsStr> {
    let is_extension = |word: &OsStr| word.as_encoded_bytes().iter().all(u8::is_ascii_alphanumeric);
    if track.extension().is_some_and(is_extension) { track.file_stem() } else { track.file_name() }
}

/// Whether no file can have this name.
fn is_no_file(word: &OsStr) -> bool {
    word.is_empty() || word.as_encoded_bytes().ends_with(b"/")
}

impl Target {
    /// The one file that an option names.
    pub fn of_one(words: &Words, file: &str) -> Result<Self, Failure> {
        match words.word(file) {
            None => Ok(Self::Nowhere),
            Some(word) if is_no_file(word) => {
                Err(bad_usage(format!("{file}: {} is not the name of a file", quoted(word))))
            }
            Some(word) if word == STANDARD_OUTPUT => Ok(Self::Printed),
            Some(word) => Ok(Self::File(word.into())),
        }
    }

    fn read(words: &Words, file: &str, folder: &str) -> Result<Self, Failure> {
        match (Self::of_one(words, file)?, words.word(folder)) {
            (one, None) => Ok(one),
            (Self::Nowhere, Some(word)) if Path::new(word).is_dir() => Ok(Self::Folder(word.into())),
            (Self::Nowhere, Some(word)) => Err(refused_about(word, "is no folder")),
            (_, Some(_)) => Err(bad_usage(format!("{file} and {folder} do not go together"))),
        }
    }

    /// Where the file of a track goes.
    fn place(&self, track: &OsStr, extension: &str) -> Option<PathBuf> {
        match self {
            Self::Nowhere | Self::Printed => None,
            Self::File(place) => Some(place.clone()),
            Self::Folder(folder) => {
                let mut name = bare_name(Path::new(track))?.to_os_string();
                name.push(format!(".{extension}"));
                Some(folder.join(name))
            }
        }
    }

    pub fn is_printed(&self) -> bool {
        matches!(self, Self::Printed)
    }
}

/// One call of `analyse`.
pub struct Asked {
    pub files: Vec<OsString>,
    pub settings: Settings,
    pub form: Form,
    pub notation: Option<Notation>,
    pub jobs: usize,
    card: Target,
    svg: Target,
}

/// Both forms of JSON, and whether they are asked for.
pub fn json_forms(words: &Words) -> [(bool, Form); 2] {
    [(words.has("--json"), Form::Json), (words.has("--json-lines"), Form::JsonLines)]
}

/// The one form that is asked for, text where none is; where there are more, the words for all are told.
pub fn form_of(forms: &[(bool, Form)], all: &str) -> Result<Form, Failure> {
    let mut asked = forms.iter().filter(|form| form.0).map(|form| form.1);
    match (asked.next(), asked.next()) {
        (Some(_), Some(_)) => Err(bad_usage(format!("of {all} one can be had"))),
        (form, _) => Ok(form.unwrap_or(Form::Text)),
    }
}

/// The form that is asked for; a card or a picture on standard output stands there alone.
fn form(words: &Words, card: &Target, svg: &Target) -> Result<Form, Failure> {
    let others = [
        (words.has("--key-only"), Form::KeyOnly),
        (card.is_printed(), Form::Card),
        (svg.is_printed(), Form::Svg),
    ];
    let forms = [&json_forms(words)[..], &others].concat();
    form_of(&forms, "--json, --json-lines, --key-only and a file to standard output")
}

/// The files that are named; standard input can be one of them.
pub fn files(words: &Words) -> Result<Vec<OsString>, Failure> {
    let from_input = words.plain.iter().filter(|file| *file == STANDARD_INPUT).count();
    match words.plain.len() {
        0 => Err(bad_usage("no file is named")),
        _ if from_input > 1 => Err(bad_usage("standard input can be read once")),
        _ => Ok(words.plain.clone()),
    }
}

/// The notation that is asked for.
pub fn notation(words: &Words) -> Result<Option<Notation>, Failure> {
    words.value("--notation", &format!("a notation; {NoSuchNotation}"))
}

impl Asked {
    pub fn read(words: &Words) -> Result<Self, Failure> {
        let files = files(words)?;
        let settings = settings::read(words)?;
        let card = Target::read(words, "--card", "--cards")?;
        let svg = Target::read(words, "--svg", "--svgs")?;
        let jobs: Option<NonZeroUsize> = words.value("--jobs", "a number of jobs above 0")?;
        let form = form(words, &card, &svg)?;
        let (notation, jobs) = (notation(words)?, jobs.map_or(1, usize::from));
        let asked = Self { files, settings, form, notation, jobs, card, svg };
        asked.check()?;
        Ok(asked)
    }

    /// Where the card of a track goes.
    pub fn card_place(&self, track: &OsStr) -> Option<PathBuf> {
        self.card.place(track, "card")
    }

    /// Where the picture of a track goes.
    pub fn svg_place(&self, track: &OsStr) -> Option<PathBuf> {
        self.svg.place(track, "svg")
    }

    /// What can be told to be wrong before any file is read.
    fn check(&self) -> Result<(), Failure> {
        let for_one = |target: &Target| matches!(target, Target::File(_) | Target::Printed);
        let for_each = |target: &Target| matches!(target, Target::Folder(_));
        let from_input = self.files.iter().any(|file| file == STANDARD_INPUT);
        if self.files.len() > 1 && (for_one(&self.card) || for_one(&self.svg)) {
            return Err(bad_usage("--card and --svg go with one file; --cards and --svgs with several"));
        }
        if from_input && (for_each(&self.card) || for_each(&self.svg)) {
            return Err(bad_usage("standard input has no name for --cards and --svgs"));
        }
        if self.notation.is_some() && !matches!(self.form, Form::Text | Form::KeyOnly) {
            return Err(bad_usage("--notation goes with text and --key-only"));
        }
        self.check_places()
    }

    /// Every file that is written: what it is, of which track, and where it goes.
    fn outputs(&self) -> impl Iterator<Item = (&'static str, &OsStr, PathBuf)> {
        self.files.iter().flat_map(|track| {
            let kinds = [("card", self.card_place(track)), ("picture", self.svg_place(track))];
            kinds.into_iter().filter_map(|(what, place)| Some((what, track.as_os_str(), place?)))
        })
    }

    /// No file is written twice, and none that is read.
    fn check_places(&self) -> Result<(), Failure> {
        let mut taken: HashMap<PathBuf, (&str, &OsStr)> = HashMap::new();
        for (what, track, place) in self.outputs() {
            if let Some((other, its_track)) = taken.insert(place_of(&place), (what, track)) {
                let (track, its_track, place) = (shown(track), shown(its_track), shown(place.as_os_str()));
                let both = format!("the {other} of {its_track} and the {what} of {track}");
                return Err(bad_usage(format!("{both} would be the same file, {place}")));
            }
        }
        not_written(&self.files, |place| taken.contains_key(place))
    }
}

/// None of the files that are read is at a place that is written to.
pub fn not_written(files: &[OsString], is_written: impl Fn(&Path) -> bool) -> Result<(), Failure> {
    match files.iter().find(|file| is_written(&place_of(Path::new(file)))) {
        Some(file) => Err(bad_usage(format!("{} is read, so it is not written", shown(file)))),
        None => Ok(()),
    }
}
