//! What the arguments mean for each of the tools.

use std::path::PathBuf;

use crate::arguments::{Arguments, BuildId, Functions, OutputStyle};
use crate::conversation::{Conversation, Settings};
use crate::debug_files::DebugFiles;
use crate::identity::Identity;
use crate::open_file::Opener;
use crate::program::Sources;
use crate::programs::{CacheSize, Programs};
use crate::request::Module;
use crate::shape::{Frames, Shape};

/// The conversation that a command line asks for.
pub fn conversation(identity: Identity, arguments: &Arguments) -> Conversation {
    Conversation::new(settings(identity, arguments), programs(identity, arguments))
}

fn settings(identity: Identity, arguments: &Arguments) -> Settings {
    let is_symbolizer = identity == Identity::LlvmSymbolizer;
    let style = arguments.output_style.unwrap_or(if is_symbolizer { OutputStyle::Llvm } else { OutputStyle::Gnu });
    let frames = match (arguments.inlines(is_symbolizer), style) {
        (true, _) => Frames::All,
        (false, OutputStyle::Gnu) => Frames::Innermost,
        (false, _) => Frames::Compiled,
    };
    let shape = Shape {
        functions: arguments.functions.unwrap_or(if is_symbolizer { Functions::Linkage } else { Functions::None }),
        frames,
        addresses: arguments.addresses,
        pretty: arguments.pretty_print,
        demangles: arguments.demangles(is_symbolizer),
        tools: identity.tools(),
        basenames: arguments.basenames,
        verbose: arguments.verbose,
        context: arguments.print_source_context_lines,
    };
    Settings {
        identity,
        style,
        shape,
        module: module(identity, arguments),
        adjust: arguments.adjust_vma.unwrap_or(0),
        section: arguments.section.clone().map(String::into_bytes),
        explains: arguments.explain,
    }
}

/// The file of the command line. GNU's addr2line asks about a.out where there is none.
fn module(identity: Identity, arguments: &Arguments) -> Option<Module> {
    let by_build_id = arguments.build_id.clone().map(|BuildId(id)| Module::BuildId(id));
    let usual = (!identity.is_llvm()).then(|| PathBuf::from("a.out"));
    by_build_id.or_else(|| arguments.object.clone().or(usual).map(Module::Path))
}

fn programs(identity: Identity, arguments: &Arguments) -> Programs {
    let size = CacheSize { files: arguments.cache_files, bytes: arguments.cache_size };
    let opener = if arguments.no_mmap { Opener::Read } else { Opener::Map };
    let sources = Sources {
        debug_files: DebugFiles::new(&arguments.debug_folders, !arguments.no_debuginfod, opener)
            .with_package(arguments.dwp.clone()),
        symbols: arguments.symbols().then_some(identity.tools()),
        fallback: !arguments.proved,
        relative: arguments.relativenames,
        starts: arguments.verbose || arguments.output_style == Some(OutputStyle::Json),
        skips_line_zero: arguments.skip_line_zero,
        most: size.bytes,
    };
    Programs::new(sources, opener, size)
}
