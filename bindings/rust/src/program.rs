//! Programs that the verifier has accepted.
use crate::calls::{
    edgebpf_assemble, edgebpf_explain, edgebpf_program_new, edgebpf_program_share, RawAssembled, RawVerdict,
};
use crate::error::{done, zeros, Error, NotAssembled, Refusal, Refused, DONE, LENGTHS, REFUSED, WRONG_TEXT};
use crate::handle::Handle;

/// So many units of 8 bytes may a code have.
const MOST_UNITS: usize = 4096;

/// A program that the verifier has accepted. For another thread, `share` makes another handle of it.
#[derive(Debug)]
pub struct Program {
    pub(crate) handle: Handle,
    pub(crate) record_length: u16,
    verdict: Verdict,
}

/// What the verifier promises of a program's runs.
#[derive(Clone, Copy, Debug, PartialEq, Eq)]
pub struct Verdict {
    /// The most instructions that a run takes.
    pub bound: u32,
    /// The most stack frames that a run has at once.
    pub frames: u32,
}

impl Program {
    /// Verifies code for records of 16 to 256 bytes.
    pub fn verify(record_length: u16, code: &[u8]) -> Result<Program, Refusal> {
        Program::with_table(record_length, code, &[])
    }

    /// Verifies code with a table of at most 4,096 bytes, which each run reads from the address that R3 holds when it begins.
    /// Without a byte there is no table.
    pub fn with_table(record_length: u16, code: &[u8], table: &[u8]) -> Result<Program, Refusal> {
        let mut verdict = RawVerdict::default();
        let handle = Handle::empty();
        // SAFETY: code and table are as long as said, and `handle` is empty.
        let status = unsafe {
            edgebpf_program_new(
                record_length,
                code.as_ptr(),
                code.len(),
                table.as_ptr(),
                table.len(),
                &mut verdict,
                handle.at(),
            )
        };
        match status {
            DONE => {
                let verdict = Verdict { bound: verdict.bound, frames: verdict.frames };
                Ok(Program { handle, record_length, verdict })
            }
            REFUSED => Err(Refusal::Refused(Refused {
                cause: verdict.cause,
                pc: verdict.pc,
                record_length,
                code: code.to_vec(),
                table: table.to_vec(),
            })),
            other => Err(Refusal::Error(Error::of(other))),
        }
    }

    /// What the verifier promises of its runs.
    pub fn verdict(&self) -> Verdict {
        self.verdict
    }

    /// Another handle of the same program, for another thread. `NoMemory`.
    pub fn share(&self) -> Result<Program, Error> {
        let handle = Handle::empty();
        // SAFETY: the program's handle was written by the library, and `handle` is empty.
        done(unsafe { edgebpf_program_share(self.handle.at(), handle.at()) })?;
        Ok(Program { handle, record_length: self.record_length, verdict: self.verdict })
    }
}

/// The code that assembler text means.
pub fn assemble(text: &str) -> Result<Vec<u8>, NotAssembled> {
    let lines = text.lines().count();
    let mut code = zeros(8 * (1 + lines).min(MOST_UNITS)).map_err(|_| NotAssembled::NoMemory)?;
    loop {
        let mut assembled = RawAssembled::default();
        // SAFETY: the text and the code are as long as said.
        let status =
            unsafe { edgebpf_assemble(text.as_ptr(), text.len(), code.as_mut_ptr(), code.len(), &mut assembled) };
        match status {
            DONE => {
                code.truncate(assembled.length);
                return Ok(code);
            }
            LENGTHS => code = zeros(assembled.length).map_err(|_| NotAssembled::NoMemory)?,
            WRONG_TEXT => return Err(NotAssembled::WrongText { line: assembled.line, cause: assembled.cause }),
            _ => return Err(NotAssembled::NoMemory),
        }
    }
}

/// What the verifier knows of a program at each instruction, as text, whether it accepts it or not. Without a byte of a table it has
/// none. `RecordLength`, `CodeLength`, `TableLength` and `NoMemory`.
pub fn explain(record_length: u16, code: &[u8], table: &[u8]) -> Result<String, Error> {
    let mut text = zeros(256 + 16 * code.len().min(8 * MOST_UNITS))?;
    loop {
        let mut count = 0;
        // SAFETY: code, table and text are as long as said.
        let status = unsafe {
            edgebpf_explain(
                record_length,
                code.as_ptr(),
                code.len(),
                table.as_ptr(),
                table.len(),
                text.as_mut_ptr(),
                text.len(),
                &mut count,
            )
        };
        if status == LENGTHS {
            text = zeros(count)?;
            continue;
        }
        done(status)?;
        text.truncate(count);
        return Ok(String::from_utf8_lossy(&text).into_owned());
    }
}
