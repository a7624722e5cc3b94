//! `daybook explain --all`: the reductions of a run written as they are made. None is
//! kept, so that a run of a million takes no more memory than one of ten.

use std::io::{self, Write};

use crate::explain::Telling;
use crate::source::Store;
use daybook_text::trace::told;

/// All reductions of a run, up to so many, which are still to be made and told.
#[derive(Clone, Debug, PartialEq, Eq)]
pub struct AllOf {
    pub telling: Telling,
    pub bytes: Vec<u8>,
    pub store: Store,
    pub most: u64,
}

impl AllOf {
    /// Makes and writes them, and gives what is to be said on standard error.
    pub fn write(&self, out: &mut dyn Write) -> io::Result<String> {
        let telling = &self.telling;
        out.write_all(telling.head().as_bytes())?;
        let (mut shown, mut written) = (0, Ok(()));
        let operator = self.store.operator();
        let trace = told(
            operator,
            &telling.figures,
            &self.bytes,
            self.most,
            &mut |step| {
                shown += 1;
                written = out.write_all(telling.step(step).as_bytes());
                written.is_ok()
            },
        );
        written?;
        // The engine has accepted this run before.
        let trace = trace.map_err(io::Error::other)?;
        let (end, messages) = telling.end(&trace, shown);
        out.write_all(telling.left_out(&trace, shown).as_bytes())?;
        out.write_all(end.as_bytes())?;
        Ok(messages)
    }
}
