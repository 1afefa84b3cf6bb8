//! A log, line by line: what of earlier lines counts for later ones.

use std::borrow::Cow;
use std::collections::HashMap;

use memchr::{memchr, memchr_iter, memmem};

use crate::forms::markup::Markup;
use crate::forms::{bare, coredump, eu_stack, gdb, glibc, kernel, maps, numbered, rust};
use crate::modules::{Modules, Reason};
use crate::process::Process;
use crate::resolve::{resolve, Answer, Meant};
use crate::scan::{decimal, split};
use crate::sighting::{Form, Kind, Sighting};

/// What a log has said so far.
#[derive(Debug, Default)]
pub struct Log {
    /// The mappings of the command line.
    given: Option<Process>,
    /// Those of the log.
    process: Process,
    /// The start of the mapping in the line before.
    last_mapping: Option<u64>,
    markup: Markup,
    /// Build ids of modules by their names, of systemd-coredump.
    build_ids: HashMap<Vec<u8>, Vec<u8>>,
    /// The module of eu-stack's frame in the line before.
    module: Option<Vec<u8>>,
    trace: Option<Trace>,
}

/// The frame before, in the trace that it is of.
#[derive(Debug)]
struct Trace {
    form: Form,
    number: Option<u64>,
    /// The system made it for a signal.
    is_signal: bool,
    /// So many frames of it were inlined, together with those before.
    inlined: u64,
}

/// A frame, where its module is, and what is known of it.
#[derive(Debug)]
pub struct Row<'l> {
    pub sighting: Sighting<'l>,
    /// The path or the name of the module; empty where none is known.
    pub module: Vec<u8>,
    pub build_id: Option<Vec<u8>>,
    pub outcome: Result<Answer, Reason>,
    /// So many inlined frames of its trace are before it.
    pub inlined: u64,
}

/// Build ids of so many modules are kept at most, whose names are no longer.
const MOST: usize = 1 << 14;
const LONGEST: usize = 4096;

impl Log {
    /// A log of a process, where one is known.
    pub fn new(given: Option<Process>) -> Log {
        Log { given, ..Log::default() }
    }

    /// Lines were passed that say nothing.
    pub fn pass(&mut self) {
        self.module = None;
        // A trace without numbers ends where another line stands.
        self.trace.take_if(|trace| trace.number.is_none());
    }

    /// The frames of a line without its end.
    pub fn read<'l>(&mut self, line: &'l [u8], modules: &mut Modules) -> Vec<Row<'l>> {
        let before = self.module.take();
        let found = self.sightings(line, before);
        if found.is_empty() && self.module.is_none() && !gdb::is_signal(line) {
            self.pass();
        }
        found.into_iter().map(|sighting| self.row(sighting, modules)).collect()
    }

    fn process(&self) -> &Process {
        self.given.as_ref().unwrap_or(&self.process)
    }

    /// What a line says, by the first form that it has. The module is that of eu-stack's frame in the
    /// line before.
    fn sightings<'l>(&mut self, line: &'l [u8], module: Option<Vec<u8>>) -> Vec<Sighting<'l>> {
        let marks = Marks::of(line);
        let mapping = if marks.flags { maps::of_system(line) } else { None };
        if let Some(mapping) = mapping.or_else(|| maps::of_gdb(line)) {
            let start = mapping.start;
            self.process.add_of_list(mapping, self.last_mapping.replace(start));
            return Vec::new();
        }
        if memchr(b'{', line).is_some_and(|at| memmem::find(&line[at..], b"{{{").is_some()) {
            return self.markup.read(line);
        }
        if let Some(found) = numbered(line) {
            return self.of_number(found).into_iter().collect();
        }
        if let Some(found) = eu_stack::second(line) {
            let module = module.filter(|_| self.process().is_empty());
            return module.map(|module| Sighting { module: Some(Cow::Owned(module)), ..found }).into_iter().collect();
        }
        if !marks.number {
            self.note(line);
            return Vec::new();
        }
        let of_glibc = if marks.bracket { glibc::find(line) } else { None };
        if let Some(found) = of_glibc.or_else(|| rust::find(line)) {
            return vec![found];
        }
        let found = if marks.plus { kernel::find(line) } else { Vec::new() };
        if !found.is_empty() || self.process().is_empty() || gdb::has_place(line) {
            return found;
        }
        let is_code = |it: &Sighting<'_>| {
            let mapping = it.process.and_then(|address| self.process().find(address));
            mapping.is_some_and(|mapping| mapping.executable != Some(false))
        };
        bare::find(line).filter(is_code).collect()
    }

    /// The frame of a line with a number. eu-stack's is left to the line that follows it where no
    /// process is known; it has the module of that.
    fn of_number<'l>(&mut self, mut found: Sighting<'l>) -> Option<Sighting<'l>> {
        if found.form == Form::EuStack && self.process().is_empty() {
            self.module = Some(found.module.as_deref().unwrap_or_default().to_vec());
            return None;
        }
        if let (Form::Coredump, None, Some(module)) = (found.form, &found.build_id, &found.module) {
            found.build_id = self.build_ids.get(&**module).cloned();
        }
        Some(found)
    }

    /// Keeps what a line says that has no number.
    fn note(&mut self, line: &[u8]) {
        if gdb::is_signal(line) {
            let number = split(line, b"#").and_then(|(_, rest)| decimal(rest)).map(|(number, _)| number);
            let inlined = self.trace.as_ref().map_or(0, |trace| trace.inlined);
            self.trace = Some(Trace { form: Form::Gdb, number, is_signal: true, inlined });
        } else if let Some((module, id)) = coredump::build_id(line) {
            if self.build_ids.len() < MOST && module.len() <= LONGEST {
                self.build_ids.insert(module.to_vec(), id);
            }
        }
    }

    fn row<'l>(&mut self, sighting: Sighting<'l>, modules: &mut Modules) -> Row<'l> {
        let before = self.trace.take().filter(|trace| trace.is_before(&sighting));
        let process = self.given.as_ref().unwrap_or(&self.process);
        let meant = Meant::of(&sighting, process);
        let after_signal = before.as_ref().is_some_and(|trace| trace.is_signal);
        let outcome = resolve(modules, &sighting, &meant, process, after_signal);
        let inlined = before.map_or(0, |trace| trace.inlined);
        let (is_signal, more) = match &outcome {
            Ok(answer) => (answer.is_signal, answer.frames.len().saturating_sub(1) as u64),
            Err(_) => (false, 0),
        };
        let (form, number) = (sighting.form, sighting.number);
        self.trace = Some(Trace { form, number, is_signal, inlined: inlined + more });
        Row { module: meant.name, build_id: meant.build_id, sighting, outcome, inlined }
    }
}

impl Trace {
    /// The frame is the next one of the trace.
    fn is_before(&self, next: &Sighting<'_>) -> bool {
        let counts = match (self.number, next.number) {
            (Some(number), Some(next)) => number + 1 == next,
            (None, None) => next.kind != Kind::Exact,
            _ => false,
        };
        self.form == next.form && counts
    }
}

/// What there is in a line, so that few forms are tried.
#[derive(Debug, Default)]
struct Marks {
    /// `0x`, and that behind a bracket or a plus sign.
    number: bool,
    bracket: bool,
    plus: bool,
    /// The end of the flags of an executable mapping.
    flags: bool,
}

impl Marks {
    fn of(line: &[u8]) -> Marks {
        let mut marks = Marks::default();
        for at in memchr_iter(b'x', line) {
            let (before, after) = (&line[..at], &line[at + 1..]);
            marks.flags |= after.starts_with(b"p ") || after.starts_with(b"s ");
            if let Some(before) = before.strip_suffix(b"0") {
                marks.number = true;
                marks.bracket |= before.ends_with(b"[");
                marks.plus |= before.ends_with(b"+");
            }
        }
        marks
    }
}
