// Ratios of the proved library to other ways of doing the same, in one run. The measures alternate, and each counts by its fastest round,
// so that what else the machine does weighs on both alike.
mod dumps;
mod library;
mod program;
mod reading;
mod routine;
mod straight;
mod writing;

use dumps::{Beside, Dump};
use library::Library;
use routine::{Low, Routine};
use csv_core::Reader;
use std::fs;
use std::hint::black_box;
use std::io::Write;
use std::path::Path;
use std::process::{Command, Stdio};
use std::time::Instant;

// The seconds of one call: the fastest of many short rounds.
struct Measure<'a> {
    name: &'a str,
    call: Box<dyn FnMut() + 'a>,
    best: f64,
}

impl<'a> Measure<'a> {
    fn new(name: &'a str, call: impl FnMut() + 'a) -> Self {
        Measure { name, call: Box::new(call), best: f64::INFINITY }
    }

    fn round(&mut self, calls: u32) {
        let start = Instant::now();
        for _ in 0..calls {
            (self.call)();
        }
        self.best = self.best.min(start.elapsed().as_secs_f64() / f64::from(calls));
    }
}

// The result of a call counts as used, so that the call is not left out.
fn keep<T>(result: T) {
    black_box(result);
}

fn measure(rounds: u32, calls: u32, measures: &mut [Measure]) {
    for _ in 0..rounds {
        for measure in measures.iter_mut() {
            measure.round(calls);
        }
    }
}

// Measures ours beside the others and prints a line for each: time, rate over `units`, time for one, and how many times faster ours is.
fn compare(title: &str, (units, unit): (f64, &str), (rounds, calls): (u32, u32), goals: &[f64], measures: &mut [Measure]) {
    measure(rounds, calls, measures);
    println!("{title}");
    let ours = measures[0].best;
    for (i, measure) in measures.iter().enumerate() {
        let rate = units / measure.best / 1e6;
        let one = unit.trim_end_matches('s');
        print!("  {:<24} {:>10.1} us {:>9.1} M{unit}/s {:>7.2} ns/{one}", measure.name, measure.best * 1e6, rate, 1e3 / rate);
        if i > 0 {
            let goal = goals.get(i - 1).map_or(String::new(), |goal| format!(" (goal {goal:.2})"));
            print!("   ratio {:.2}{goal}", measure.best / ours);
        }
        println!();
    }
}

// Our reader beside the others on a text with these line ends, which have this number in our reply.
fn reading_beside(routine: &Routine, bytes: &[u8], line_ends: &str, number: u64) {
    let mut ours = routine::Blocks::room(1024);
    let mut core = routine::Blocks::room(1024);
    let mut kept = routine::Blocks::room(1024);
    let mut libcsv = routine::Blocks::room(1024);
    let mut reader = Reader::new();
    let reply = Library::read_blocks(bytes, &mut ours);
    assert_eq!((reply.value, reply.more), (1024, number));
    assert_eq!(reading::csv_core(&mut reader, bytes, &mut core), Some(1024));
    assert_eq!(reading::libcsv(bytes, &mut libcsv), Some(1024));
    assert!(ours == routine.blocks && core == ours && libcsv == ours);
    compare(
        &format!("reading a plain block table of 1024 rows, {line_ends} line ends, {} bytes", bytes.len()),
        (bytes.len() as f64, "B"),
        (400, 5),
        &[1.6, 1.0, 3.5],
        &mut [
            Measure::new("rolkeyda_read_blocks", || keep(Library::read_blocks(black_box(bytes), &mut ours))),
            Measure::new("csv-core, reader kept", || keep(reading::csv_core(&mut reader, black_box(bytes), &mut kept))),
            Measure::new("csv-core, reader made", || keep(reading::csv_core(&mut Reader::new(), black_box(bytes), &mut core))),
            Measure::new("libcsv, parsed", || keep(reading::libcsv(black_box(bytes), &mut libcsv))),
        ],
    );
}

fn reading(routine: &Routine) {
    let cr_lf = routine.blocks_csv();
    let lf = cr_lf.replace("\r\n", "\n");
    reading_beside(routine, cr_lf.as_bytes(), "CR LF", 0);
    reading_beside(routine, lf.as_bytes(), "LF", 1);
    let mut ours = routine::Blocks::room(1024);
    let mut theirs = routine::Blocks::room(1024);
    compare(
        "reading LF line ends beside CR LF, both by rolkeyda_read_blocks",
        (1024.0, "rows"),
        (400, 5),
        &[1.0],
        &mut [
            Measure::new("LF", || keep(Library::read_blocks(black_box(lf.as_bytes()), &mut ours))),
            Measure::new("CR LF", || keep(Library::read_blocks(black_box(cr_lf.as_bytes()), &mut theirs))),
        ],
    );
    #[cfg(before)]
    reading_before(routine, &cr_lf);
}

// The block reader beside that of an older library.
#[cfg(before)]
fn blocks_before(title: &str, text: &str, blocks: &routine::Blocks) {
    let mut ours = routine::Blocks::room(1024);
    let mut theirs = routine::Blocks::room(1024);
    assert_eq!(Library::read_blocks(text.as_bytes(), &mut ours).value, 1024);
    assert_eq!(Library::read_blocks_before(text.as_bytes(), &mut theirs).value, 1024);
    assert!(ours == *blocks && theirs == *blocks);
    compare(
        &format!("reading 1024 {title}, CR LF line ends, {} bytes, beside the older library", text.len()),
        (1024.0, "rows"),
        (400, 5),
        &[0.95],
        &mut [
            Measure::new("rolkeyda_read_blocks", || keep(Library::read_blocks(black_box(text.as_bytes()), &mut ours))),
            Measure::new("before", || keep(Library::read_blocks_before(black_box(text.as_bytes()), &mut theirs))),
        ],
    );
}

// The loop reader beside that of an older library.
#[cfg(before)]
fn loops_before(routine: &Routine) {
    let text = routine.loops_csv();
    let mut ours = routine::Loops::room(64);
    let mut theirs = routine::Loops::room(64);
    assert_eq!(Library::read_loops(text.as_bytes(), &mut ours).value, 64);
    assert_eq!(Library::read_loops_before(text.as_bytes(), &mut theirs).value, 64);
    assert!(ours == routine.loops && theirs == routine.loops);
    compare(
        &format!("reading 64 loops, CR LF line ends, {} bytes, beside the older library", text.len()),
        (64.0, "rows"),
        (400, 50),
        &[0.95],
        &mut [
            Measure::new("rolkeyda_read_loops", || keep(Library::read_loops(black_box(text.as_bytes()), &mut ours))),
            Measure::new("before", || keep(Library::read_loops_before(black_box(text.as_bytes()), &mut theirs))),
        ],
    );
}

// The readers beside those of an older library: plain blocks, those with costs of ten digits, those with all numbers between quote marks, which go the
// long way, and loops.
#[cfg(before)]
fn reading_before(routine: &Routine, plain: &str) {
    blocks_before("plain blocks", plain, &routine.blocks);
    let mut wide = routine.clone();
    wide.blocks.cost.iter_mut().for_each(|cost| *cost = u32::MAX - *cost);
    blocks_before("plain blocks with costs of ten digits", &wide.blocks_csv(), &wide.blocks);
    let quoted: String = plain.lines().map(|row| format!("\"{}\"\r\n", row.replace(',', "\",\"").replace("\"\"", ""))).collect();
    blocks_before("quoted blocks", &quoted, &routine.blocks);
    loops_before(routine);
}

// Our check beside the straight one, and beside that of an older library, on tables that all answer alike.
fn checking_beside(routine: &Routine, answer: &str, goals: &[f64]) {
    let n = routine.blocks.cost.len();
    #[rustfmt::skip]
    let measures = &mut [
        Measure::new("rolkeyda_check", || keep(Library::check(black_box(routine)))),
        Measure::new("straight Rust", || keep(straight::check(black_box(routine)))),
        #[cfg(before)]
        Measure::new("before", || keep(Library::check_before(black_box(routine)))),
    ];
    #[cfg(before)]
    assert_eq!(Library::check(routine), Library::check_before(routine));
    compare(
        &format!("checking {n} blocks, {} loops, {} edges, {answer}", routine.loops.parent.len(), routine.edges()),
        (n as f64, "blocks"),
        (400, 20),
        goals,
        measures,
    );
}

// Tables of three sizes, which show how the time grows with the edges; then the largest with a cycle that no loop declares, and with a figure
// that is too small. Before 208 is the reply, 209 must be ruled out, so an older library that asks 208 first is faster there.
fn checking() {
    for n in [256, 512, 1024] {
        let routine = Routine::sized(n);
        let ours = Library::check(&routine);
        assert_eq!(ours.number, 0);
        assert_eq!(straight::check(&routine), Ok(ours.value));
        checking_beside(&routine, &format!("bound {}", ours.value), &[1.0, 0.95]);
    }
    let refused = |routine: &Routine, number, place| {
        let ours = Library::check(routine);
        assert_eq!((ours.number, ours.place), (number, place as u32));
        assert_eq!(straight::check(routine), Err((number, place)));
    };
    let cycle = Routine::with_cycle(1024);
    refused(&cycle, 209, 0);
    checking_beside(&cycle, "refused with 209", &[1.0, 0.95]);
    let mut small = Routine::sized(1024);
    small.blocks.figure[0] -= 1;
    refused(&small, 208, 0);
    checking_beside(&small, "refused with 208 at block 0", &[1.0]);
}

// Our check of a second certificate beside the straight one, which answers alike.
fn shortest_beside(routine: &Routine, low: &Low, answer: &str) {
    let n = routine.blocks.cost.len();
    compare(
        &format!("the shortest time of {n} blocks, {} loops, {} edges, {answer}", routine.loops.parent.len(), routine.edges()),
        (n as f64, "blocks"),
        (400, 20),
        &[1.0],
        &mut [
            Measure::new("rolkeyda_shortest", || keep(Library::shortest(black_box(routine), black_box(low)))),
            Measure::new("straight Rust", || keep(straight::shortest(black_box(routine), black_box(low)))),
        ],
    );
}

// Second certificates for tables of three sizes; then for the largest one that is refused with 453 at block 0.
fn shortest() {
    for n in [256, 512, 1024] {
        let routine = Routine::sized(n);
        let low = routine.low();
        let ours = Library::shortest(&routine, &low);
        assert_eq!((ours.number, straight::shortest(&routine, &low)), (0, Ok(ours.value)));
        assert!(ours.value <= Library::check(&routine).value);
        shortest_beside(&routine, &low, &format!("number {}", ours.value));
    }
    let routine = Routine::largest();
    let mut low = routine.low();
    low.figure[0] += 1;
    let ours = Library::shortest(&routine, &low);
    assert_eq!((ours.number, ours.place), (453, 0));
    assert_eq!(straight::shortest(&routine, &low), Err((453, 0)));
    shortest_beside(&routine, &low, "refused with 453 at block 0");
}

// Solves a routine by the library and by the straight solver, compares the columns and the bound, and gives both results.
fn solved(routine: &Routine) -> (Routine, Routine) {
    let (mut ours, mut theirs) = (routine.clone(), routine.clone());
    let reply = Library::solve(&mut ours);
    assert_eq!((reply.number, reply.place), (0, 0));
    assert_eq!(straight::solve(&mut theirs), Ok(reply.value));
    assert!(ours == theirs);
    let checked = Library::check(&ours);
    assert_eq!((checked.number, checked.value), (0, reply.value));
    (ours, theirs)
}

// One line for a routine: the time of a call, and of one edge at one depth.
fn solving_line(routine: &Routine) {
    let (mut ours, mut theirs) = solved(routine);
    let mut measures = [
        Measure::new("rolkeyda_solve", || keep(Library::solve(black_box(&mut ours)))),
        Measure::new("straight Rust", || keep(straight::solve(black_box(&mut theirs)))),
    ];
    measure(200, 5, &mut measures);
    let [ours, theirs] = measures.map(|m| m.best);
    let (loops, depth, edges) = (routine.loops.parent.len() - 1, routine.deepest(), routine.edges());
    let one = ours * 1e9 / (depth * edges) as f64;
    println!("  {loops:>5} {depth:>6} {edges:>6} {:>10.1} us {one:>12.2} ns {:>14.1} us {:>7.2}", ours * 1e6, theirs * 1e6, theirs / ours);
}

fn glpsol(folder: &Path, arguments: &[&str]) {
    assert!(Command::new("glpsol").args(arguments).current_dir(folder).stdout(Stdio::null()).status().unwrap().success());
}

// The optimum of the path-counting program. What glpsol writes has the dual values too, which are figures and multipliers.
fn optimum_by_glpsol(folder: &Path) -> f64 {
    glpsol(folder, &["--freemps", "program.mps", "--write", "solution.txt"]);
    program::optimum(&fs::read_to_string(folder.join("solution.txt")).unwrap()).unwrap()
}

// Ours beside a linear solver on the same routine. Its process is started anew for each call; a round has many calls of ours.
fn solving_beside_glpsol(routine: &Routine, name: &str) {
    let folder = Path::new(name).join("solve");
    fs::create_dir_all(&folder).unwrap();
    fs::write(folder.join("program.mps"), program::free_mps(routine)).unwrap();
    let (mut ours, _) = solved(routine);
    // the program leaves out the entry's own cost; glpsol's numbers are doubles, and its optimum is a whole number but for their rounding
    let optimum = Library::check(&ours).value - i64::from(routine.blocks.cost[0]);
    assert_eq!(-optimum_by_glpsol(&folder).round() as i64, optimum);
    let mut solve = Measure::new("rolkeyda_solve", || keep(Library::solve(black_box(&mut ours))));
    let mut beside = Measure::new("glpsol", || keep(optimum_by_glpsol(&folder)));
    let mut start = Measure::new("glpsol, its start alone", || glpsol(&folder, &["--version"]));
    for _ in 0..60 {
        solve.round(20);
        beside.round(1);
        start.round(1);
    }
    println!("the same, beside glpsol on the path-counting program, its process included; both have the optimum {optimum}");
    println!("  {:<24} {:>10.1} us", solve.name, solve.best * 1e6);
    println!("  {:<24} {:>10.1} us   ratio {:.0} (goal 400)", beside.name, beside.best * 1e6, beside.best / solve.best);
    println!("  {:<24} {:>10.1} us", start.name, start.best * 1e6);
}

fn solving(name: &str) {
    let routine = Routine::nested_six();
    let (mut ours, mut theirs) = solved(&routine);
    let (n, loops, edges) = (routine.blocks.cost.len(), routine.loops.parent.len() - 1, routine.edges());
    compare(
        &format!("solving {n} blocks, {loops} loops at most {} deep, {edges} edges, bound {}", routine.deepest(), Library::check(&ours).value),
        (n as f64, "blocks"),
        (400, 5),
        &[1.0],
        &mut [
            Measure::new("rolkeyda_solve", || keep(Library::solve(black_box(&mut ours)))),
            Measure::new("straight Rust", || keep(straight::solve(black_box(&mut theirs)))),
        ],
    );
    solving_beside_glpsol(&routine, name);
    println!("solving {n} blocks, by the number of loops and by their depth (loop 0 is depth 1 and not counted as a loop)");
    println!("  loops  depth  edges  rolkeyda_solve  per depth, edge    straight Rust   ratio");
    for loops in [8, 16, 32, 63] {
        solving_line(&Routine::nested(&vec![2; loops]));
    }
    for deepest in [2, 4, 8, 16] {
        solving_line(&Routine::nested(&(2..=deepest).collect::<Vec<_>>().repeat(4)));
    }
}

// A routine and a walk of 1,048,576 blocks through it, what it goes through, and what the walk beside straight Rust is to reach.
struct Recording {
    title: &'static str,
    routine: Routine,
    walk: Vec<u16>,
    goal: f64,
}

// One walk through loops three deep, one that visits a header at every step but the last, one through loops 16 deep.
fn recordings() -> [Recording; 3] {
    let of = |title, routine: Routine, goal| Recording { title, walk: routine.walk(1 << 20), routine, goal };
    [
        of("loops three deep", Routine::largest(), 1.5),
        of("headers alone", Routine::headers(), 1.0),
        of("loops 16 deep", Routine::nested_sixteen(), 1.0),
    ]
}

impl Recording {
    // The steps that end at a header.
    fn visits(&self) -> usize {
        let Routine { blocks, loops } = &self.routine;
        self.walk[1..].iter().filter(|&&v| loops.header[blocks.loops[v as usize] as usize] == v).count()
    }

    fn line(&self, what: &str, result: String) -> String {
        let loops = self.routine.loops.parent.len();
        format!("{what} {} blocks through {}, {loops} loops, {} steps to a header ({result})", self.walk.len(), self.title, self.visits())
    }
}

// Our walk beside the straight one, and beside that of an older library.
fn walking() {
    for recording in recordings() {
        let Recording { routine, walk, goal, .. } = &recording;
        let ours = Library::walk(routine, walk);
        assert_eq!((ours.number, ours.place), (0, 0));
        assert_eq!(straight::walk(routine, walk), Ok((ours.value as u64, ours.more)));
        #[cfg(before)]
        assert_eq!(ours, Library::walk_before(routine, walk));
        #[rustfmt::skip]
        let measures = &mut [
            Measure::new("rolkeyda_walk", || keep(Library::walk(routine, black_box(walk)))),
            Measure::new("straight Rust", || keep(straight::walk(routine, black_box(walk)))),
            #[cfg(before)]
            Measure::new("before", || keep(Library::walk_before(routine, black_box(walk)))),
        ];
        let title = recording.line("walking", format!("cost {}", ours.value));
        compare(&title, (walk.len() as f64, "blocks"), (60, 1), &[*goal, 0.95], measures);
    }
}

// Our tally beside a lean straight tally, which has the goal, and beside the straight walker with the same tally, on the same walks.
fn tallying() {
    for recording in recordings() {
        let Recording { routine, walk, .. } = &recording;
        let room = || [vec![u32::MAX; routine.loops.parent.len()], vec![u32::MAX; routine.loops.parent.len()]];
        let ([mut stays, mut greatest], [mut their_stays, mut their_greatest]) = (room(), room());
        let [mut lean_stays, mut lean_greatest] = room();
        let ours = Library::tally(routine, walk, &mut stays, &mut greatest);
        assert_eq!((ours.number, ours.place, ours.more), (0, 0, 0));
        assert_eq!(straight::tally(routine, walk, &mut their_stays, &mut their_greatest).map(|(_, steps)| steps), Ok(ours.value as u64));
        assert_eq!(straight::lean_tally(routine, walk, &mut lean_stays, &mut lean_greatest), Ok(ours.value as u64));
        assert!(stays == their_stays && greatest == their_greatest && stays == lean_stays && greatest == lean_greatest);
        let entered = stays.iter().filter(|&&stays| stays > 0).count();
        let title = recording.line("tallying", format!("{entered} loops entered, {} stays", stays.iter().sum::<u32>()));
        compare(
            &title,
            (walk.len() as f64, "blocks"),
            (60, 1),
            &[1.0],
            &mut [
                Measure::new("rolkeyda_tally", || keep(Library::tally(routine, black_box(walk), &mut stays, &mut greatest))),
                Measure::new("straight Rust, lean", || keep(straight::lean_tally(routine, black_box(walk), &mut lean_stays, &mut lean_greatest))),
                Measure::new("straight Rust, walker", || keep(straight::tally(routine, black_box(walk), &mut their_stays, &mut their_greatest))),
            ],
        );
    }
}

// The program as MPS beside straight C, on a routine of 1,024 blocks and on a smaller one. Both ask 201 to 207 and 209 first.
fn writing_mps() {
    for routine in [Routine::nested_six(), Routine::sized(256)] {
        let mut ours = vec![b'x'; 1 << 18];
        let mut theirs = ours.clone();
        let reply = Library::mps(&routine, &mut ours);
        assert_eq!((reply.number, reply.place), (0, 0));
        assert_eq!(writing::straight(&routine, &mut theirs), Ok(reply.value as usize));
        assert!(ours == theirs);
        let (n, loops, edges) = (routine.blocks.cost.len(), routine.loops.parent.len() - 1, routine.edges());
        compare(
            &format!("writing {n} blocks, {loops} loops and {edges} edges as MPS, {} bytes (goal 500 MB/s, or the ratio)", reply.value),
            (reply.value as f64, "B"),
            (400, 5),
            &[1.0],
            &mut [
                Measure::new("rolkeyda_mps", || keep(Library::mps(black_box(&routine), &mut ours))),
                Measure::new("straight C", || keep(writing::straight(black_box(&routine), &mut theirs))),
            ],
        );
    }
}

// Recordings as VCD beside straight C, eight texts of a kind in turn, so that no branch predictor learns one by heart. Both ask 201 to 207 and 431 first.
fn reading_vcd() {
    let routine = Routine::nested(&[2, 3, 4].repeat(21));
    let kinds = [("alone", Beside::Nothing), ("beside a clock", Beside::Clock), ("among four vectors and a real", Beside::Registers)];
    for (title, beside) in kinds {
        let dumps: Vec<Dump> = (1..=8).map(|seed| dumps::dump(&routine, beside, seed)).collect();
        let mut ours = vec![u16::MAX; 13_107];
        let mut theirs = ours.clone();
        for Dump { text, walk } in &dumps {
            let reply = Library::vcd(&routine, text.as_bytes(), b"!", &mut ours);
            assert_eq!((reply.number, reply.place, reply.value as usize, reply.more), (0, 0, walk.len(), 0));
            assert_eq!(reading::vcd(&routine, text.as_bytes(), b"!", &mut theirs), Ok(walk.len()));
            assert!(ours == theirs && ours.starts_with(walk));
        }
        let mean = |length: fn(&Dump) -> usize| dumps.iter().map(length).sum::<usize>() / dumps.len();
        let (bytes, blocks) = (mean(|dump| dump.text.len()), mean(|dump| dump.walk.len()));
        let (mut next, mut their_next) = (dumps.iter().cycle(), dumps.iter().cycle());
        compare(
            &format!("reading a vector {title} as VCD, {bytes} bytes, {blocks} blocks (goal 300 MB/s, and the ratio)"),
            (bytes as f64, "B"),
            (400, 8),
            &[1.0],
            &mut [
                Measure::new("rolkeyda_vcd", || keep(Library::vcd(black_box(&routine), next.next().unwrap().text.as_bytes(), b"!", &mut ours))),
                Measure::new("straight C", || keep(reading::vcd(black_box(&routine), their_next.next().unwrap().text.as_bytes(), b"!", &mut theirs))),
            ],
        );
    }
}

// One run of a program on a setting, in a folder.
fn run(program: &Path, folder: &Path) -> Vec<u8> {
    let mut child = Command::new(program).current_dir(folder).stdin(Stdio::piped()).stdout(Stdio::piped()).spawn().unwrap();
    // a program that reads no input may be gone by now
    let _ = child.stdin.take().unwrap().write_all(b"header=absent\n");
    child.wait_with_output().unwrap().stdout
}

fn program(routine: &Routine, name: &str) {
    let folder = Path::new(name).join("largest");
    let checker = Path::new("target/bin/checker").canonicalize().unwrap();
    fs::create_dir_all(&folder).unwrap();
    fs::write(folder.join("blocks.csv"), routine.blocks_csv()).unwrap();
    fs::write(folder.join("loops.csv"), routine.loops_csv()).unwrap();
    assert_eq!(run(&checker, &folder), format!("accepted {}\n", Library::check(routine).value).into_bytes());
    let mut measures = [
        Measure::new("checker", || keep(run(&checker, &folder))),
        Measure::new("true", || keep(run(Path::new("/bin/true"), &folder))),
    ];
    measure(60, 5, &mut measures);
    println!("the whole program on these tables, beside one that does nothing");
    println!("  {:<24} {:>10.1} us (goal 3000 us)", measures[0].name, measures[0].best * 1e6);
    println!("  {:<24} {:>10.1} us", measures[1].name, measures[1].best * 1e6);
}

fn main() {
    let routine = Routine::largest();
    let only = std::env::args().nth(1);
    let wanted = |name: &str| only.as_deref().is_none_or(|o| o == name);
    if wanted("read") {
        reading(&routine);
    }
    if wanted("check") {
        checking();
    }
    if wanted("shortest") {
        shortest();
    }
    if wanted("solve") {
        solving("target/bench");
    }
    if wanted("mps") {
        writing_mps();
    }
    if wanted("vcd") {
        reading_vcd();
    }
    if wanted("walk") {
        walking();
    }
    if wanted("tally") {
        tallying();
    }
    if wanted("program") {
        program(&routine, "target/bench");
    }
}
