//! The conversation: a reply for each line, written before the next line is read.

use std::io::{self, BufRead, Write};

use lru::LruCache;

use crate::arguments::OutputStyle;
use crate::gnu;
use crate::identity::{Identity, Protocol};
use crate::json;
use crate::llvm;
use crate::names::Names;
use crate::program::Answerer;
use crate::programs::{Opened, Programs};
use crate::reply::{Answer, Reply};
use crate::request::{Kind, Module, Request, Target};
use crate::shape::{compiled, Shape};

/// What the command line says of a conversation.
#[derive(Debug, Clone)]
pub struct Settings {
    pub identity: Identity,
    pub style: OutputStyle,
    pub shape: Shape,
    /// The file that is asked about, where lines don't say.
    pub module: Option<Module>,
    /// Is subtracted from each address.
    pub adjust: u64,
    /// Addresses count from the begin of this section.
    pub section: Option<Vec<u8>>,
    /// Who answers for each file is reported.
    pub explains: bool,
}

/// Why the file of the command line can't be opened.
#[derive(Debug, Clone, PartialEq, Eq)]
pub enum Unopened {
    /// A line for standard error.
    Line(String),
    /// An object for the output.
    Object(String),
}

/// A conversation with its open files.
pub struct Conversation {
    settings: Settings,
    programs: Programs,
    names: Names,
    /// The files of which a line was written to standard error.
    reported: LruCache<Module, ()>,
    /// A file couldn't be opened that the command line has.
    failed: bool,
}

/// Of so many files it is known that they were reported.
const REPORTED: usize = 4096;

impl Conversation {
    pub fn new(settings: Settings, programs: Programs) -> Conversation {
        let names = settings.shape.names();
        Conversation { settings, programs, names, reported: LruCache::new(REPORTED), failed: false }
    }

    /// Whether the file of the command line couldn't be opened.
    pub fn has_failed(&self) -> bool {
        self.failed
    }

    /// Opens the file of the command line, where it has one. The text of an error says why it can't
    /// be, in JSON's style as an object.
    pub fn open_module(&mut self) -> Result<(), Unopened> {
        let Some(module) = &self.settings.module else {
            return Ok(());
        };
        let opened = self.programs.get(module).map(drop);
        opened.map_err(|why| match self.settings.style {
            OutputStyle::Json => Unopened::Object(json::unopened(module, &why).to_string()),
            _ => Unopened::Line(format!("'{}': {why}", module_name(module))),
        })
    }

    /// Looks for the section of the command line, where it has one and the file can be opened. The
    /// text of an error is GNU's.
    pub fn find_section(&mut self) -> Result<(), String> {
        let (Some(module), Some(name)) = (&self.settings.module, &self.settings.section) else {
            return Ok(());
        };
        match self.programs.get(module) {
            Ok(found) if !found.program.has_section(name) => {
                let name = String::from_utf8_lossy(name);
                Err(format!("{}: cannot find section {name}", module_name(module)))
            }
            _ => Ok(()),
        }
    }

    /// Addresses count from now on from the begin of the section that has a name.
    pub fn count_from(&mut self, section: Option<&[u8]>) {
        self.settings.section = section.map(<[u8]>::to_vec);
    }

    /// Replies to each line until there is no more.
    pub fn run(&mut self, mut input: impl BufRead, mut output: impl Write) -> io::Result<()> {
        let (mut line, mut reply) = (Vec::new(), Vec::new());
        while input.read_until(b'\n', &mut line)? > 0 {
            line.retain(|byte| !matches!(byte, b'\n' | b'\r'));
            self.reply(&line, &mut reply);
            output.write_all(&reply)?;
            output.flush()?;
            line.clear();
            reply.clear();
        }
        Ok(())
    }

    /// Replies to requests of the command line.
    pub fn reply_to_all(&mut self, lines: &[&[u8]], mut output: impl Write) -> io::Result<()> {
        let mut replies = Vec::new();
        if self.settings.style == OutputStyle::Json {
            let objects: Vec<_> = lines
                .iter()
                .map(|line| {
                    self.with_reply(line, |settings, reply| {
                        json::object(&settings.shape, settings.module.as_ref(), reply)
                    })
                })
                .collect();
            json::write(&serde_json::Value::from(objects), &mut replies);
        } else {
            lines.iter().for_each(|line| self.reply(line, &mut replies));
        }
        output.write_all(&replies)?;
        output.flush()
    }

    /// Writes the reply to a line without its end.
    pub fn reply(&mut self, line: &[u8], out: &mut Vec<u8>) {
        self.with_reply(line, |settings, reply| match (settings.style, settings.identity) {
            (OutputStyle::Llvm, _) => llvm::write(&settings.shape, reply, out),
            (OutputStyle::Gnu, Identity::Addr2line) => gnu::write(&settings.shape, reply, out),
            (OutputStyle::Gnu, _) => llvm::write_short(&settings.shape, reply, out),
            (OutputStyle::Json, _) => json::write(&json::object(&settings.shape, settings.module.as_ref(), reply), out),
        });
    }

    fn with_reply<T>(&mut self, line: &[u8], write: impl FnOnce(&Settings, &Reply<'_>) -> T) -> T {
        let request = match self.settings.identity.protocol() {
            Protocol::Llvm(spelling) => llvm::parse(spelling, self.settings.module.as_ref(), line),
            Protocol::Gnu => gnu::parse(self.settings.module.as_ref(), line),
        };
        let answered = request.as_ref().map_or(Ok(Found::nothing(Kind::Code)), |request| self.find(request));
        let (found, failure) = match answered {
            Ok(found) => (found, None),
            Err(why) => (Found::nothing(request.as_ref().map_or(Kind::Code, |request| request.kind)), Some(why)),
        };
        let Found { address, answer } = found;
        let answer = self.settings.shape.shown(&mut self.names, answer);
        write(&self.settings, &Reply { line, request: request.as_ref(), address, failure, answer })
    }

    fn find(&mut self, request: &Request) -> Result<Found, String> {
        let mut opened = match self.programs.get(&request.module) {
            Ok(opened) => opened,
            Err(why) => {
                self.failed |= self.settings.module.is_some();
                if !matches!(self.settings.identity.protocol(), Protocol::Llvm(_)) || self.settings.explains {
                    self.report(&request.module, &why);
                }
                return Err(why);
            }
        };
        let who = self.settings.explains.then(|| answerer(&opened));
        let found = find(&self.settings, &mut opened, request);
        let unread =
            opened.program.unread_package().map(|(package, why)| (Module::Path(package.to_owned()), why.to_owned()));
        for (module, what) in who.map(|who| (request.module.clone(), who)).into_iter().chain(unread) {
            self.report(&module, &what);
        }
        Ok(found)
    }

    /// Writes a line to standard error, once for each file.
    fn report(&mut self, module: &Module, what: &str) {
        if self.reported.put(module.clone(), ()).is_none() {
            let name = self.settings.identity.name();
            // Nobody is left who could be told where this can't be written.
            let _ = writeln!(io::stderr(), "{name}: '{}': {what}", module_name(module));
        }
    }
}

/// What a request finds.
struct Found {
    /// The address that was asked about, by its number or by a name.
    address: Option<u64>,
    answer: Answer,
}

impl Found {
    /// What is answered where a file can't be asked.
    fn nothing(kind: Kind) -> Found {
        let answer = match kind {
            Kind::Code => Answer::Frames(Vec::new()),
            Kind::Data => Answer::Variable(None),
            Kind::Frame => Answer::Locals,
        };
        Found { address: None, answer }
    }
}

fn find(settings: &Settings, opened: &mut Opened<'_>, request: &Request) -> Found {
    match &request.target {
        // The greatest number is what clients send where they want nothing to be found.
        Target::Address(u64::MAX) => Found { address: Some(u64::MAX), ..Found::nothing(request.kind) },
        Target::Address(address) => {
            let answer = at_address(settings, opened, request.kind, *address);
            Found { address: Some(*address), answer }
        }
        Target::Symbol { name, offset } if request.kind == Kind::Code => at_symbol(settings, opened, name, *offset),
        Target::Symbol { .. } => Found::nothing(request.kind),
    }
}

fn at_address(settings: &Settings, opened: &mut Opened<'_>, kind: Kind, address: u64) -> Answer {
    let Opened { program, sources } = opened;
    let address = address.wrapping_sub(settings.adjust);
    let place = match &settings.section {
        Some(name) => program.placement().in_section(name, address),
        None => program.placement().place(address, kind == Kind::Code),
    };
    match (kind, place) {
        (Kind::Code, Some(place)) => Answer::Frames(program.find_frames(place, sources)),
        (Kind::Data, Some(place)) => Answer::Variable(program.find_variable(place, sources)),
        (kind, _) => Found::nothing(kind).answer,
    }
}

/// What is at a name of the symbol table: for LLVM's tools a place for each symbol that has it, for
/// GNU's the frames of its address.
fn at_symbol(settings: &Settings, opened: &mut Opened<'_>, name: &[u8], offset: u64) -> Found {
    let Opened { program, sources } = opened;
    let places = program.find_symbols(name, offset, sources);
    if settings.identity.is_llvm() {
        let of_place = |place| compiled(program.find_frames(place, sources)).filter(|frame| frame.path.is_some());
        return Found { address: None, answer: Answer::Places(places.into_iter().filter_map(of_place).collect()) };
    }
    let frames = places.first().map_or_else(Vec::new, |&place| program.find_frames(place, sources));
    let address = places.first().map(|&place| program.placement().address(place));
    Found { address, answer: Answer::Frames(frames) }
}

/// Who answers for a file, as it is reported.
fn answerer(found: &Opened<'_>) -> String {
    let path = found.program.debug_path().display();
    match found.program.answerer() {
        Answerer::Library => format!("answered by liba2l, of {path}"),
        Answerer::Others(why) if found.sources.fallback => {
            format!("answered by the addr2line crate, of {path}: {why}")
        }
        Answerer::Others(why) => format!("not answered, of {path}: {why}"),
        Answerer::Nobody => "no debug information, answered by symbols alone".to_owned(),
    }
}

fn module_name(module: &Module) -> String {
    match module {
        Module::Path(path) => path.display().to_string(),
        Module::BuildId(id) => id.iter().map(|byte| format!("{byte:02x}")).collect(),
    }
}
