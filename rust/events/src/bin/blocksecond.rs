//! `blocksecond [FILE]` runs the lines of `blocklines` on a block that the
//! second program reads and writes.

use events::blocklines::{program, Machine, Said};
use events::program::ended;
use events::show::view;
use second::{block, Event, Held};
use std::process::ExitCode;

fn main() -> ExitCode {
    ended(|arguments| program("blocksecond", arguments, &mut Second::default()))
}

#[derive(Default)]
struct Second {
    block: Vec<u8>,
}

impl Machine for Second {
    fn take(&mut self, block: &[u8]) {
        self.block = block.to_vec();
    }

    fn call(&mut self, call: Event<'_>) -> Said {
        let outcome = block::call(&mut self.block, call);
        Said {
            answer: outcome.answer.to_string(),
            burnt: outcome.burnt,
        }
    }

    fn held(&self) -> Result<Held, u8> {
        block::held(&self.block).map_err(|refusal| refusal.number())
    }

    fn block(&self) -> &[u8] {
        &self.block
    }

    /// The state that a sound block holds, as `eventshow` shows it, or the
    /// clause that it breaks first.
    fn explain(&self) -> String {
        match block::read(&self.block) {
            Ok(table) => format!("sound\n{}", view(&table)),
            Err(broken) => {
                let clause = block::CLAUSES[broken.clause() - 1];
                format!("not sound: {}\n    the clause: {}\n", broken, clause)
            }
        }
    }
}
