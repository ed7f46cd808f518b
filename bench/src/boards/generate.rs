//! Numbered boards with calls on them: a few that are worked out, then random ones.

use super::text::{call, line, UNSOUND_ANSWERS};
use super::{ask, Call, Reply};
use crate::model::board::{Board, CONTROLLERS, INPUTS, PINS};
use crate::random::Random;

/// Puts calls behind those of a script, given as by `format!`.
macro_rules! calls {
    ($($script:ident).+: $($text:tt)*) => { $($script).+.calls(&format!($($text)*)) };
}

/// The enable registers, FIQ first, and the distance from a FIQ register to its like of the IRQ side.
const ENABLES: [u32; 2] = [0x08, 0x20];
const IRQ_GROUP: u32 = 0x18;

/// A board to be built, and what is asked of it.
#[derive(Clone, Debug)]
pub struct Script {
    pub title: String,
    pub calls: Vec<Call>,
}

impl Script {
    fn new(title: &str) -> Script {
        Script {
            title: title.to_owned(),
            calls: Vec::new(),
        }
    }

    /// Makes calls as they stand in a transcript.
    fn calls(&mut self, text: &str) {
        let call = |text: &str| call(text.trim()).unwrap_or_else(|| panic!("{text:?} is no call"));
        self.calls.extend(text.split(';').map(call));
    }

    /// Asks the outputs and the chain of every controller from 0 on.
    fn ask_all(&mut self, controllers: u32) {
        for controller in 0..controllers {
            calls!(self: "outputs {controller}; chain {controller}");
        }
    }

    /// The transcript that another side would print, which answers each call by `ask`.
    pub fn transcript(&self, mut ask: impl FnMut(&Call) -> Reply) -> String {
        let lines = self.calls.iter().map(|call| line(call, &ask(call)));
        format!("board {}\n{}", self.title, lines.collect::<String>())
    }

    /// The transcript of the model itself.
    pub fn right(&self) -> String {
        let mut board = Board::new();
        self.transcript(|call| ask(&mut board, call))
    }
}

/// The line of a record that breaks a rule. The model holds none, so that the answers are set down as they must be.
pub fn unsound() -> String {
    format!(
        "unsound a record that is not there:{}\n",
        " 12".repeat(UNSOUND_ANSWERS)
    )
}

/// The board of a number.
pub fn script(seed: u64, number: u64) -> Script {
    match number {
        0 => bare(),
        1 => tower("a tower by IRQ", "irq"),
        2 => tower("a tower by FIQ", "fiq"),
        3 => fan(),
        _ => tour(&mut Random::for_item(seed, number), number),
    }
}

/// A board with no controller, on which nothing can be asked.
fn bare() -> Script {
    let mut script = Script::new("no controller");
    for n in [0, 1, 7, 8, u32::MAX] {
        calls!(script: "connect {n} 0 nothing; connect {n} 40 irq {n}; write {n} 0 1; read {n} 1");
        calls!(script: "read {n} 48; input {n} 0; outputs {n}; chain {n}");
    }
    for pin in [0, 319, 320, 321] {
        calls!(script: "pin {pin} 1; pin {pin} 2");
    }
    script.calls("add 9 32 1 1; add 8 33 1 1; add 8 32 2 1; add 8 32 1 2");
    script
}

/// Eight controllers, each of which hears the one below it by one output; a pin raises the lowest.
fn tower(title: &str, side: &str) -> Script {
    let mut script = Script::new(title);
    let (input, enable) = match side {
        "fiq" => (32, ENABLES[0]),
        _ => (0, ENABLES[1]),
    };
    for n in 0..8 {
        calls!(script: "add 1 1 {} {}; write {n} {enable} 1", n % 2, n / 2 % 2);
        script.ask_all(n + 1);
    }
    calls!(script: "add 1 1 0 0; add 9 1 0 0; connect 0 {input} pin 0");
    for n in 1..8 {
        calls!(script: "connect {n} {input} {side} {}", n - 1);
    }
    for level in [1, 0, 1] {
        calls!(script: "pin 0 {level}");
        script.ask_all(9);
    }
    calls!(script: "write 3 {} 1", enable + 4);
    script.ask_all(8);
    calls!(script: "connect 7 {input} {side} 0; connect 7 {} {side} 0", input + 1);
    script.ask_all(8);
    script
}

/// Both outputs of one controller lead to every input of another, used or not.
fn fan() -> Script {
    let mut script = Script::new("both outputs to every input");
    script
        .calls("add 1 1 0 1; add 5 17 1 0; add 0 0 1 0; connect 0 0 pin 318; connect 0 32 pin 319");
    for offset in ENABLES {
        calls!(script: "write 0 {offset} {}; write 1 {offset} 0", u32::MAX);
    }
    for (irq, fiq) in [(0, 0), (0, 1), (1, 0), (1, 1)] {
        calls!(script: "pin 318 {irq}; pin 319 {fiq}");
        for side in ["irq", "fiq"] {
            for input in 0..=INPUTS {
                for n in 1..3 {
                    calls!(script: "connect {n} {input} {side} 0; input {n} {input}");
                    calls!(script: "connect {n} {input} {side} {n}");
                }
            }
            script.ask_all(3);
            (0..0x34).for_each(|offset| calls!(script: "read 1 {offset}"));
            (0..0x34)
                .step_by(4)
                .for_each(|offset| calls!(script: "read 2 {offset}"));
            for offset in ENABLES {
                calls!(script: "write 1 {offset} {}", 1 << irq | 1 << 16);
            }
        }
    }
    script
}

/// A random board. Few inputs, pins and bits are used much, so that they meet.
fn tour(random: &mut Random, number: u64) -> Script {
    let mut script = Script::new(&format!("{number}"));
    let mut there = 0;
    for _ in 0..random.pick(&[1, 2, 3, 4, 5, 6, 7, 8, 8, 8]) {
        grow(random, &mut script, &mut there);
    }
    if random.one_in(3) {
        link(random, &mut script, there);
    }
    for _ in 0..random.within(10, 120) {
        match random.below(100) {
            0..=29 => {
                let (n, input) = (near(random, there), input(random));
                let wire = wire(random, there, n);
                calls!(script: "connect {n} {input} {wire}; input {n} {input}");
            }
            30..=44 => {
                let level = random.pick(&[0, 0, 0, 0, 1, 1, 1, 1, 1, 1, 2, 3]);
                calls!(script: "pin {} {level}", pin(random));
            }
            45..=61 => write(random, &mut script, there),
            62..=71 => calls!(script: "read {} {}", near(random, there), offset(random)),
            72..=79 => calls!(script: "input {} {}", near(random, there), input(random)),
            80..=90 => calls!(script: "outputs {}", near(random, there)),
            91..=97 => calls!(script: "chain {}", near(random, there)),
            _ => grow(random, &mut script, &mut there),
        }
    }
    script.ask_all(there);
    script
}

/// Adds a controller, or tries to, and enables most of its sources. Counts those that are taken.
fn grow(random: &mut Random, script: &mut Script, there: &mut u32) {
    let fiqs = random.pick(&[0, 1, 1, 2, 5, 7, 8, 8]);
    let irqs = random.pick(&[0, 1, 2, 3, 16, 31, 32, 32]);
    let mut numbers = [fiqs, irqs, random.below(2), random.below(2)];
    let limits = [8, 32, 1, 1];
    let bad = random.one_in(12);
    if bad {
        let nth = random.below(4) as usize;
        numbers[nth] = random.pick(&[limits[nth] + 1, limits[nth] + 1, u32::MAX]);
    }
    let [fiqs, irqs, fiq_level, irq_level] = numbers;
    calls!(script: "add {fiqs} {irqs} {fiq_level} {irq_level}");
    if bad || *there == CONTROLLERS as u32 {
        return;
    }
    for enable in ENABLES {
        if !random.one_in(4) {
            let value = random.pick(&[1, 3, u32::MAX, u32::MAX]);
            calls!(script: "write {there} {enable} {value}");
        }
    }
    *there += 1;
}

/// Wires each controller to the one below it, used inputs or not, and raises the lowest by a pin.
fn link(random: &mut Random, script: &mut Script, there: u32) {
    for n in 1..there {
        let side = random.pick(&["irq", "irq", "irq", "fiq"]);
        let input = random.pick(&[0, 0, 0, 0, 0, 0, 1, 32, 39]);
        calls!(script: "connect {n} {input} {side} {}", n - 1);
    }
    script.calls("connect 0 0 pin 0; connect 0 32 pin 0; pin 0 1");
    script.ask_all(there);
}

/// Mostly a controller that is there.
fn near(random: &mut Random, there: u32) -> u32 {
    match random.below(14) {
        0 => there,
        1 => random.pick(&[8, 9, 255, u32::MAX]),
        2 => random.below(CONTROLLERS as u32),
        _ => random.below(there.max(1)),
    }
}

fn input(random: &mut Random) -> u32 {
    match random.below(10) {
        0 => random.pick(&[40, 41, 64, u32::MAX]),
        1 | 2 => random.below(INPUTS as u32),
        3 => random.pick(&[31, 39]),
        4 | 5 => 32 + random.below(3),
        _ => random.below(4),
    }
}

fn pin(random: &mut Random) -> u32 {
    match random.below(12) {
        0 => random.pick(&[320, 321, 1 << 16, u32::MAX]),
        1 => random.below(PINS as u32),
        2 => random.pick(&[255, 256, 319, 319]),
        _ => random.below(5),
    }
}

/// Mostly a wire that leads to a lower number than the controller's.
fn wire(random: &mut Random, there: u32, controller: u32) -> String {
    let side = random.pick(&["irq", "fiq"]);
    match random.below(20) {
        0..=1 => "nothing".to_owned(),
        2..=6 => format!("pin {}", pin(random)),
        7..=9 => format!("{side} {}", near(random, there)),
        10 => format!("{side} {controller}"),
        _ => format!("{side} {}", random.below(controller.clamp(1, 8))),
    }
}

fn offset(random: &mut Random) -> u32 {
    match random.below(12) {
        0 => random.below(0x40),
        1 => random.pick(&[0x30, 0x34, 0x100, u32::MAX - 3, u32::MAX]),
        _ => 4 * random.below(12),
    }
}

/// Mostly a write of soft, enable or one of their clears.
fn write(random: &mut Random, script: &mut Script, there: u32) {
    let controller = near(random, there);
    let own = random.pick(&[0x00, 0x04, 0x08, 0x08, 0x0C]) + IRQ_GROUP * random.below(2);
    let offset = if random.one_in(6) {
        offset(random)
    } else {
        own
    };
    let value = if random.one_in(3) {
        random.word()
    } else {
        random.below(16)
    };
    calls!(script: "write {controller} {offset} {value}");
}
