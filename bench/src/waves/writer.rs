//! Waves as the text of a dump, from the model: what a dump is compared with byte for byte, and the examples.

use std::fmt::Write;

use super::{code, Waves, TICKS};

/// The whole text.
pub fn write(waves: &Waves) -> Vec<u8> {
    let mut text = format!("$comment {TICKS} $end\n$timescale 1 ns $end\n");
    if let Some(kind) = waves.kind {
        let _ = writeln!(text, "$scope module {}\n$end", kind.name());
        for (nth, signal) in waves.signals().iter().enumerate() {
            let (width, code, name) = (signal.width, code(nth), signal.name);
            let _ = writeln!(text, "$var wire {width} {code} {name} $end");
        }
        text.push_str("$upscope $end\n");
    }
    text.push_str("$enddefinitions $end\n");
    write_ticks(&mut text, waves);
    if let Some((refusal, offset)) = waves.ending {
        let _ = writeln!(text, "$comment E {refusal} {offset} $end");
    }
    text.into_bytes()
}

/// The start with every value, then each step with those that differ from the tick before.
fn write_ticks(text: &mut String, waves: &Waves) {
    let signals = waves.signals();
    let mut before: Option<&Vec<u32>> = None;
    for (tick, values) in waves.ticks.iter().enumerate() {
        let _ = writeln!(text, "#{tick}");
        if tick == 0 {
            text.push_str("$dumpvars\n");
        }
        for (nth, (&value, signal)) in values.iter().zip(&signals).enumerate() {
            if before.is_some_and(|before| before[nth] == value) {
                continue;
            }
            let _ = match signal.width {
                1 => writeln!(text, "{value}{}", code(nth)),
                _ => writeln!(text, "b{value:b} {}", code(nth)),
            };
        }
        if tick == 0 {
            text.push_str("$end\n");
        }
        before = Some(values);
    }
}
