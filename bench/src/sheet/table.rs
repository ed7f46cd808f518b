//! The typed table that `./run table` prints of one trace: modes and forcing after its last step, frames to be filled in.

use crate::model::Machine;
use crate::report::ending;
use crate::trace::{play, PROGRAM_LIMIT};

/// What the program prints for a trace, or the line that it says on standard error.
pub fn table(trace: &[u8]) -> Result<String, String> {
    let report = play(trace, PROGRAM_LIMIT, &mut ());
    let (refusal, offset) = ending(&report);
    let aic = match report.machine {
        None => {
            return Err(format!(
                "no table: the trace has no beginning, E {refusal} {offset}\n"
            ))
        }
        Some(Machine::Aic(aic)) => aic,
        Some(_) => return Err("no table: the trace is not of an AIC\n".to_owned()),
    };
    let sources = aic.sources().iter().enumerate();
    let rows = sources.clone().map(|(n, source)| {
        let (priority, kind) = (source.priority, source.kind);
        format!("{priority} {kind} 0 # source {n}\n")
    });
    let forced = sources.fold(0, |word, (n, source)| word | u32::from(source.forced) << n);
    Ok([
        "# priority, type and frame in bytes of each source, 0 first; the frames and that of a mark are 0 and to be filled in\n",
        &rows.collect::<String>(),
        &format!("0x{forced:08X} # forced sources\n0 # frame of a mark in bytes\n"),
    ]
    .concat())
}
