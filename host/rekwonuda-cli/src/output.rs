use crate::account::Account;
use crate::keys::Keys;
use crate::names;
use crate::outcome::{Failure, Outcome};
use crate::source::Source;
use serde_json::{json, Value};
use std::fmt::Display;
use std::io::{self, BufWriter, IsTerminal, Write};
use std::path::Path;
use std::slice;

/// The version of the shape that docs/JSON.md describes.
const VERSION: u64 = 1;

#[derive(Clone, Copy, Debug, PartialEq, Eq)]
pub enum Form {
    /// Lines for a reader.
    Text,
    /// One JSON object on one line.
    Json,
    /// Nothing: somebody else says what came out.
    Silent,
}

/// Where an answer goes, as it comes.
pub struct Output<'a> {
    sink: Box<dyn Write + Send + 'a>,
    form: Form,
    /// How many entries of the open list of the JSON object are written.
    entries: Option<u64>,
    /// Whether the JSON object has its refusals already.
    has_refusals: bool,
}

impl<'a> Output<'a> {
    /// An answer to that command.
    pub fn new(
        form: Form,
        sink: impl Write + Send + 'a,
        command: Option<&str>,
    ) -> Result<Output<'a>, Failure> {
        let mut out = Output {
            sink: Box::new(sink),
            form,
            entries: None,
            has_refusals: false,
        };
        if form == Form::Json {
            let command = Value::from(command);
            write!(out.sink, "{{\"version\":{VERSION},\"command\":{command}")?;
        }
        Ok(out)
    }

    pub fn standard(form: Form, command: Option<&str>) -> Result<Output<'static>, Failure> {
        Output::new(form, BufWriter::new(io::stdout()), command)
    }

    pub fn is_json(&self) -> bool {
        self.form == Form::Json
    }

    /// Whether something shown on standard error may stand where the answer is written: not in the
    /// midst of an unfinished line on a terminal.
    pub fn bears_progress(&self) -> bool {
        !self.is_json() || !io::stdout().is_terminal()
    }

    /// Writes a line of text, to be seen at once.
    pub fn line(&mut self, text: impl Display) -> Result<(), Failure> {
        self.row(text)?;
        Ok(self.sink.flush()?)
    }

    /// Writes a line of text, one of many.
    pub fn row(&mut self, text: impl Display) -> Result<(), Failure> {
        if self.form == Form::Text {
            writeln!(self.sink, "{text}")?;
        }
        Ok(())
    }

    /// Writes bytes as they are.
    pub fn bytes(&mut self, bytes: &[u8]) -> Result<(), Failure> {
        Ok(self.sink.write_all(bytes)?)
    }

    /// Adds a field to the JSON object.
    pub fn fact(&mut self, name: &str, value: impl Into<Value>) -> Result<(), Failure> {
        if self.is_json() {
            write!(self.sink, ",{}:{}", Value::from(name), value.into())?;
        }
        Ok(())
    }

    /// Adds the name of a file to the JSON object.
    pub fn name(&mut self, key: &str, path: &Path) -> Result<(), Failure> {
        for (name, value) in names::fields(key, path) {
            self.fact(&name, value)?;
        }
        Ok(())
    }

    /// Begins a list in the JSON object.
    pub fn begin_list(&mut self, name: &str) -> Result<(), Failure> {
        self.entries = Some(0);
        self.has_refusals |= name == "refusals";
        if self.is_json() {
            write!(self.sink, ",{}:[", Value::from(name))?;
        }
        Ok(())
    }

    /// Writes one entry of the open list.
    pub fn entry(&mut self, entry: &Value) -> Result<(), Failure> {
        if self.is_json() {
            let comma = if self.entries == Some(0) { "" } else { "," };
            write!(self.sink, "{comma}{entry}")?;
        }
        self.entries = self.entries.map(|before| before + 1);
        Ok(())
    }

    pub fn end_list(&mut self) -> Result<(), Failure> {
        if self.entries.take().is_some() && self.is_json() {
            write!(self.sink, "]")?;
        }
        Ok(())
    }

    /// Ends the answer, and says how the command ended.
    pub fn finish(mut self, source: Option<&Source>, result: Result<Outcome, Failure>) -> Outcome {
        match self.end(source, result) {
            Ok(outcome) => outcome,
            Err(Failure::Error(message)) => {
                complain(&message);
                Outcome::Error
            }
            Err(_) => Outcome::Error,
        }
    }

    fn end(
        &mut self,
        source: Option<&Source>,
        result: Result<Outcome, Failure>,
    ) -> Result<Outcome, Failure> {
        self.end_list()?;
        let (outcome, message) = match (result, source) {
            (Ok(outcome), _) => (outcome, None),
            (Err(Failure::Refused(refusal, spot)), Some(source)) => {
                let account = Account::new(source, refusal, &spot, &mut Keys::new(source));
                self.refused(slice::from_ref(&account))?;
                (account.outcome, None)
            }
            (Err(Failure::Absent(message)), _) => (Outcome::Absent, Some(message)),
            (Err(Failure::NotCovered(message)), _) => (Outcome::NotCovered, Some(message)),
            (Err(Failure::Error(message)), _) => (Outcome::Error, Some(message)),
            (Err(failure), _) => return Err(failure),
        };
        if let Some(message) = message {
            self.message(&message)?;
        }
        self.close(outcome)?;
        Ok(outcome)
    }

    /// What the library refused: all of it in the JSON object, or the first on standard error.
    pub fn refused(&mut self, accounts: &[Account]) -> Result<(), Failure> {
        self.sink.flush()?;
        if self.is_json() {
            self.begin_list("refusals")?;
            for account in accounts {
                self.entry(&account.facts())?;
            }
            return self.end_list();
        }
        if let Some(account) = accounts.first() {
            complain_plainly(&account.text());
        }
        Ok(())
    }

    /// Says why an answer is not whole, or is none.
    pub fn message(&mut self, message: &str) -> Result<(), Failure> {
        self.sink.flush()?;
        if self.form == Form::Text {
            complain(message);
        }
        self.fact("message", message)
    }

    fn close(&mut self, outcome: Outcome) -> Result<(), Failure> {
        if !self.has_refusals {
            self.fact("refusals", json!([]))?;
        }
        self.fact("outcome", outcome.word())?;
        self.fact("status", outcome.status())?;
        if self.is_json() {
            writeln!(self.sink, "}}")?;
        }
        Ok(self.sink.flush()?)
    }
}

/// Says on standard error what went wrong. Where that cannot be written, there is nobody to tell.
pub fn complain(message: &str) {
    complain_plainly(&format!("rekwonuda: {message}\n"));
}

pub fn complain_plainly(text: &str) {
    let _ = io::stderr().write_all(text.as_bytes());
}
