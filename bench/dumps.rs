// Recordings of walks as Icarus Verilog writes them: value change dumps of a register `pc` alone, beside a clock, and among other registers. At each rising
// edge of the clock the walk goes on or stays, by chance.
use crate::routine::{Random, Routine};
use std::fmt::Write;

const LONGEST: usize = 65_536;
// half a period of 10 ns, in picoseconds
const HALF: u64 = 5_000;

// What is dumped beside `pc`.
#[derive(Clone, Copy)]
pub enum Beside {
    Nothing,
    Clock,
    Registers,
}

// A text and the blocks that it records.
pub struct Dump {
    pub text: String,
    pub walk: Vec<u16>,
}

// Four vectors by width and code, and a real. They change by chance.
struct Registers {
    values: [u32; 4],
    load: f64,
}

const WIDTHS: [(u32, char); 4] = [(8, '"'), (32, '#'), (12, '$'), (24, '%')];

impl Registers {
    // At a rising edge: the vectors' changes, which are written before that of `pc`, and the real's, which is written behind it.
    fn tick(&mut self, random: &mut Random) -> (String, String) {
        let (mut vectors, mut real) = (String::new(), String::new());
        for (value, (width, code)) in self.values.iter_mut().zip(WIDTHS).rev() {
            let new = random.next() >> (32 - width);
            if random.below(2) == 0 && new != *value {
                *value = new;
                writeln!(vectors, "b{new:b} {code}").unwrap();
            }
        }
        let new = f64::from(random.below(1_000_000)) / 1000.0;
        if random.below(4) == 0 && new != self.load {
            self.load = new;
            writeln!(real, "r{new} &").unwrap();
        }
        (vectors, real)
    }
}

// The declarations and the values at time 0. Icarus writes these from the last variable to the first.
fn head(beside: Beside) -> String {
    let (variables, values): (&[&str], &str) = match beside {
        Beside::Nothing => (&[], ""),
        Beside::Clock => (&["reg 1 \" clock"], "0\"\n"),
        Beside::Registers => (
            &["reg 8 \" a [7:0]", "reg 32 # acc [31:0]", "reg 12 $ addr [11:0]", "reg 24 % bus [23:0]", "real 1 & load"],
            "r0 &\nb0 %\nb0 $\nb0 #\nb0 \"\n",
        ),
    };
    let mut text = "$date\n\tTue Nov 17 19:19:35 2026\n$end\n$version\n\tIcarus Verilog\n$end\n$timescale\n\t1ps\n$end\n".to_string();
    for variable in [&["reg 16 ! pc [15:0]"], variables].concat() {
        write!(text, "$scope module tb $end\n$var {variable} $end\n$upscope $end\n").unwrap();
    }
    text + "$enddefinitions $end\n#0\n$dumpvars\n" + values + "b0 !\n$end\n"
}

// What changes at a rising edge, in Icarus' order: the other vectors, `pc`, the real, the clock with its falling edge.
fn changes(beside: Beside, to: Option<u16>, time: u64, registers: &mut Registers, random: &mut Random) -> String {
    let pc = to.map_or(String::new(), |block| format!("b{block:b} !\n"));
    match beside {
        Beside::Nothing => pc,
        Beside::Clock => format!("{pc}1\"\n#{}\n0\"\n", time + HALF),
        Beside::Registers => {
            let (vectors, real) = registers.tick(random);
            vectors + &pc + &real
        }
    }
}

// A walk by chance and its recording, which ends with the walk or where the next step would make the text too long. Nearly all walks are longer than fits.
pub fn dump(routine: &Routine, beside: Beside, seed: u64) -> Dump {
    let random = &mut Random::new(seed);
    let blocks = match beside {
        Beside::Nothing => 3_400,
        Beside::Clock => 1_250,
        Beside::Registers => 650,
    };
    let mut walk = routine.random_walk(blocks, random);
    let mut registers = Registers { values: [0; 4], load: 0.0 };
    let mut text = head(beside);
    let (mut recorded, mut time) = (1, HALF);
    while recorded < walk.len() {
        let to = (random.below(2) == 0).then_some(walk[recorded]);
        let changes = changes(beside, to, time, &mut registers, random);
        let step = if changes.is_empty() { changes } else { format!("#{time}\n{changes}") };
        if text.len() + step.len() > LONGEST {
            break;
        }
        text += &step;
        recorded += usize::from(to.is_some());
        time += 2 * HALF;
    }
    walk.truncate(recorded);
    Dump { text, walk }
}
