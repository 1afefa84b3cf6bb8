//! What goes to standard error: why a module has no answers, once for each.

use std::io::{self, Write};

use a2l_symbolizer::without_controls;
use lru::LruCache;

use crate::log::Row;
use crate::modules::Reason;

/// What was reported.
pub struct Reports {
    seen: LruCache<(Vec<u8>, Reason), ()>,
    is_silent: bool,
}

/// Of so many modules it is known that they were reported.
const KEPT: usize = 4096;

impl Default for Reports {
    fn default() -> Reports {
        Reports { seen: LruCache::new(KEPT), is_silent: false }
    }
}

impl Reports {
    /// Writes nothing.
    pub fn silent() -> Reports {
        Reports { is_silent: true, ..Reports::default() }
    }

    /// Reports why frames have no answer, where that is new.
    pub fn note(&mut self, rows: &[Row<'_>]) {
        for row in rows {
            let Err(why) = &row.outcome else { continue };
            let is_new = *why != Reason::NoModule && self.seen.put((row.module.clone(), why.clone()), ()).is_none();
            if is_new && !self.is_silent {
                let module = without_controls(&row.module);
                // Nobody is left who could be told where this can't be written.
                let _ = writeln!(io::stderr(), "a2l-trace: '{}': {why}", String::from_utf8_lossy(&module));
            }
        }
    }
}
