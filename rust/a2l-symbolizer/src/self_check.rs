//! Asks about many addresses of a file through both protocols, and compares what is written with
//! the library's answers.

use std::collections::BTreeMap;
use std::ops::Range;
use std::path::Path;

use a2l::{Location, Program};

use crate::arguments::Arguments;
use crate::conversation::Conversation;
use crate::identity::Identity;
use crate::open_file::Opener;
use crate::placement::{PlacedFile, Placement};
use crate::program::open_library;
use crate::settings;

/// So many addresses are asked about.
const WANTED: usize = 1000;
/// So many are looked at for each that is asked about, so that small units have some too.
const LOOKED_AT: usize = 32;

/// What was compared, or the first difference.
pub fn self_check(arguments: &Arguments) -> Result<String, String> {
    let path = arguments.object.as_deref().ok_or("--self-check needs -e FILE")?;
    let file = PlacedFile::of_program(Opener::Map.open(path).map_err(|why| why.to_string())?);
    let mut library = open_library(&file, arguments.cache_size)?;
    let (places, units) = spread(&file.placement, &mut library)?;
    let requests = requests(&file.placement, &places);
    for tool in [Tool::Llvm, Tool::Gnu] {
        let mut conversation = tool.conversation(path)?;
        for (&section, asked) in &requests {
            conversation.count_from(section);
            tool.compare(&mut conversation, asked, &mut library)?;
        }
    }
    Ok(format!("{} addresses of {units} units agree in both protocols", places.len()))
}

/// An address that is asked for, and where that is.
type Asked = (u64, u64);

/// How places are asked for: in a relocatable file by the name of their section, of which that is
/// the first one.
fn requests<'p>(placement: &'p Placement, places: &[u64]) -> BTreeMap<Option<&'p [u8]>, Vec<Asked>> {
    let mut requests = BTreeMap::<_, Vec<Asked>>::new();
    for &place in places {
        requests.entry(placement.name_of_section(place)).or_default().push((placement.address(place), place));
    }
    requests
}

/// Places of code, as many of each unit as there are, and how many units have them.
fn spread(placement: &Placement, library: &mut Program) -> Result<(Vec<u64>, usize), String> {
    let mut by_unit = grouped(of_code(placement), library)?;
    if by_unit.is_empty() && !placement.is_relocatable() {
        by_unit = grouped(library.find_starts().map_err(|why| why.to_string())?, library)?;
    }
    let mut chosen = Vec::new();
    for turn in 0.. {
        let left = WANTED - chosen.len();
        let more: Vec<u64> = by_unit.values().filter_map(|addresses| addresses.get(turn)).copied().take(left).collect();
        if more.is_empty() {
            break;
        }
        chosen.extend(more);
    }
    if chosen.is_empty() {
        return Err("no unit covers any address of code".to_owned());
    }
    Ok((chosen, by_unit.len()))
}

/// The addresses that units cover, by the offset of their unit.
fn grouped(addresses: Vec<u64>, library: &mut Program) -> Result<BTreeMap<u64, Vec<u64>>, String> {
    let mut found = BTreeMap::<u64, Vec<u64>>::new();
    let units = library.find_units(&addresses).map_err(|why| why.to_string())?;
    for (unit, address) in units.into_iter().zip(addresses) {
        found.entry(unit.unwrap_or(u64::MAX)).or_default().push(address);
    }
    found.remove(&u64::MAX);
    Ok(found)
}

/// Places at equal distances in the sections of code that can be asked for.
fn of_code(placement: &Placement) -> Vec<u64> {
    let sections: Vec<Range<u64>> = placement.code().collect();
    let size: u64 = sections.iter().map(|section| section.end - section.start).sum();
    let distance = usize::try_from(size / (WANTED * LOOKED_AT) as u64).unwrap_or(usize::MAX).max(1);
    sections.into_iter().flat_map(|section| section.step_by(distance)).collect()
}

/// A protocol that is spoken.
#[derive(Debug, Clone, Copy)]
enum Tool {
    Llvm,
    Gnu,
}

impl Tool {
    /// A conversation about a file.
    fn conversation(self, path: &Path) -> Result<Conversation, String> {
        let (identity, words): (_, &[&str]) = match self {
            Tool::Llvm => (Identity::LlvmSymbolizer, &["--no-demangle", "--proved", "-e"]),
            Tool::Gnu => (Identity::Addr2line, &["-f", "-i", "--proved", "-e"]),
        };
        let words: Vec<_> = words.iter().map(Into::into).chain([path.as_os_str().to_owned()]).collect();
        let arguments = Arguments::parse_for(identity, &words).map_err(|why| why.to_string())?;
        Ok(settings::conversation(identity, &arguments))
    }

    /// Asks about all these addresses.
    fn compare(self, conversation: &mut Conversation, asked: &[Asked], library: &mut Program) -> Result<(), String> {
        let mut found = Vec::new();
        for &(address, place) in asked {
            let line = format!("{address:#x}");
            found.clear();
            conversation.reply(line.as_bytes(), &mut found);
            let (found, wanted) = (String::from_utf8_lossy(&found), self.wanted(place, library)?);
            if found != wanted {
                return Err(format!("{self:?}: the reply to {line} is {found:?}, the library answers {wanted:?}"));
            }
        }
        Ok(())
    }

    /// The reply that the library's answer makes.
    fn wanted(self, place: u64, library: &mut Program) -> Result<String, String> {
        let found = library.find_frames(place).map_err(|why| why.to_string())?;
        let frames = found.map(|found| found.frames).unwrap_or_default();
        let mut texts: Vec<[String; 2]> =
            frames.iter().map(|frame| [name(frame.function), self.place(&frame.location)]).collect();
        texts.retain(|[name, place]| name != "??" || *place != self.place(&Location::default()));
        let unknown = match self {
            Tool::Llvm => "??\n??:0:0\n",
            Tool::Gnu => "??\n??:0\n",
        };
        let text = match texts.is_empty() {
            true => unknown.to_owned(),
            false => texts.iter().map(|[name, place]| format!("{name}\n{place}\n")).collect(),
        };
        Ok(match self {
            Tool::Llvm => text + "\n",
            Tool::Gnu => text,
        })
    }

    fn place(self, location: &Location) -> String {
        let path = name(location.file.as_deref());
        let is_known = path != "??";
        match (self, location.line.filter(|&line| line > 0 && is_known)) {
            (Tool::Llvm, line) => {
                let column = location.column.filter(|_| is_known).unwrap_or(0);
                format!("{path}:{}:{column}", line.unwrap_or(0))
            }
            (Tool::Gnu, Some(line)) => format!("{path}:{line}"),
            (Tool::Gnu, None) => format!("{path}:?"),
        }
    }
}

/// A name or a path, with no end of a line in it.
fn name(text: Option<&[u8]>) -> String {
    let text = text.filter(|text| !text.is_empty()).unwrap_or(b"??");
    String::from_utf8_lossy(text).replace(['\n', '\r'], "?")
}
