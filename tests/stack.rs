//! How much stack each call of the library uses: `stack HEADER CASES`, in the repository's root.
//!
//! Each call runs on a stack of its own that was painted before; the lowest byte that is not as
//! painted behind the call tells how deep it went. Its arguments and its return address count. The inputs are
//! the cases written by hand, and a few that are as large as they may be. No call may use more
//! than the header's GIRUVE_STACK; that is at most four times what one of them does use; and
//! recovery and the checks stay below a tenth of it, as the header says.

mod cases;
mod simulator;

use cases::{reading, recovery, run};
use simulator::encode::{ccw, put_fault};
use simulator::faults::Fault;
use simulator::held::{HeldReading, HeldRecovery, HeldRestart, HeldRun};
use simulator::large::{image_of, track_at, track_of, TracksOf};
use std::arch::asm;
use std::collections::{BTreeMap, BTreeSet};
use std::path::Path;
use std::process::ExitCode;

/// A function of the library, of which the address alone is taken: `Measured::call` passes it a model,
/// pointers and lengths as words, and all of them return a byte.
macro_rules! functions {
    ($($function:ident)*) => {
        extern "C" {
            $(fn $function();)*
        }

        #[derive(Clone, Copy, PartialEq, Eq, PartialOrd, Ord)]
        #[allow(non_camel_case_types)]
        enum Function { $($function),* }

        impl Function {
            const ALL: &'static [Function] = &[$(Function::$function),*];

            fn name(self) -> &'static str {
                match self { $(Function::$function => stringify!($function)),* }
            }

            fn address(self) -> usize {
                match self { $(Function::$function => $function as *const () as usize),* }
            }
        }
    };
}

functions! {
    giruve_check_image giruve_check_faults giruve_check_extent giruve_check_areas
    giruve_check_restart_areas giruve_run giruve_run_restart giruve_recover giruve_reading
}

/// Bytes of the painted stack, and the two paints: a byte that a call writes differs from one.
const PAINTED: usize = 1 << 17;
const PAINTS: [u8; 2] = [0xA5, 0x5A];

const WORD: usize = size_of::<usize>();
const IN_REGISTERS: usize = 6;

/// By the System V convention the stack is a multiple of this at a call.
const ALIGNED: usize = 16;

#[repr(C, align(16))]
struct Stack([u8; PAINTED]);

/// Calls a function of words on this stack, and returns its answer and how much of it was used.
fn call_on(stack: &mut Stack, paint: u8, function: Function, words: &[usize]) -> (u8, usize) {
    stack.0.fill(paint);
    let mut registers = [0; IN_REGISTERS];
    let in_registers = words.len().min(IN_REGISTERS);
    registers[..in_registers].copy_from_slice(&words[..in_registers]);
    let on_stack = &words[in_registers..];
    let at = (PAINTED - on_stack.len() * WORD) / ALIGNED * ALIGNED;
    for (place, word) in on_stack.iter().enumerate() {
        stack.0[at + place * WORD..][..WORD].copy_from_slice(&word.to_ne_bytes());
    }
    let top = at + on_stack.len() * WORD;
    let mut answer = stack.0.as_mut_ptr() as usize + at;
    // The function is the library's; its areas are valid for their lengths and do not overlap.
    unsafe {
        asm!(
            "mov r12, rsp",
            "mov rsp, rax",
            "call r10",
            "mov rsp, r12",
            in("rdi") registers[0],
            in("rsi") registers[1],
            in("rdx") registers[2],
            in("rcx") registers[3],
            in("r8") registers[4],
            in("r9") registers[5],
            in("r10") function.address(),
            inout("rax") answer,
            out("r12") _,
            clobber_abi("C"),
        );
    }
    let lowest = stack.0.iter().position(|&byte| byte != paint);
    let lowest = lowest.expect("a return address at least");
    assert!(
        lowest > 0,
        "{}: the painted stack is too small",
        function.name()
    );
    (answer as u8, top - lowest)
}

/// A model as a word. C compilers widen a byte to 32 bits; those above may hold anything: the paint.
fn of_model(model: u8, paint: u8) -> usize {
    let above = u32::from_ne_bytes([paint; 4]);
    (above as usize) << 32 | usize::from(model)
}

/// Pointer and length of an area.
fn lent(area: &mut [u8]) -> [usize; 2] {
    [area.as_mut_ptr() as usize, area.len()]
}

struct Measured {
    stack: Box<Stack>,
    used: BTreeMap<Function, usize>,
    /// What each function returned; behind it, of a recovery, what is to be done and the action.
    seen: BTreeSet<(Function, u8, u8, u8)>,
}

impl Measured {
    fn call(&mut self, paint: u8, function: Function, words: &[usize]) -> u8 {
        let (answer, used) = call_on(&mut self.stack, paint, function, words);
        let most = self.used.entry(function).or_default();
        *most = used.max(*most);
        if function != Function::giruve_recover {
            self.seen.insert((function, answer, 0, 0));
        }
        answer
    }

    fn checks(&mut self, held: &HeldRun) {
        for paint in PAINTS {
            let mut held = held.clone();
            let restart = held.restart.clone().unwrap_or_default();
            let model = of_model(held.model, paint);
            let image = lent(&mut held.image);
            let faults = lent(&mut held.faults);
            let of_image = [&[model], &image[..]].concat();
            let of_faults = [&of_image[..], &faults].concat();
            let lengths = [
                held.chain.len(),
                held.arguments.len(),
                held.storage.len(),
                held.image.len(),
                held.faults.len(),
                held.limit,
            ];
            let restart_lengths = [restart.program.len(), restart.arguments.len()];
            self.call(paint, Function::giruve_check_image, &of_image);
            self.call(paint, Function::giruve_check_faults, &of_faults);
            self.call(paint, Function::giruve_check_areas, &lengths);
            self.call(
                paint,
                Function::giruve_check_restart_areas,
                &restart_lengths,
            );
        }
    }

    fn run(&mut self, held: &HeldRun) {
        self.checks(held);
        for paint in PAINTS {
            let mut held = held.clone();
            let mut answer = [0; 36];
            let model = of_model(held.model, paint);
            let (chain, arguments) = (lent(&mut held.chain), lent(&mut held.arguments));
            let first = [&[model], &chain[..], &arguments].concat();
            let device = [
                lent(&mut held.storage),
                lent(&mut held.image),
                lent(&mut held.faults),
            ]
            .concat();
            let answer = lent(&mut answer);
            match &mut held.restart {
                None => {
                    let words = [&first[..], &device, &[held.limit], &answer].concat();
                    self.call(paint, Function::giruve_run, &words);
                }
                Some(restart) => {
                    let program = lent(&mut restart.program);
                    let arguments = lent(&mut restart.arguments);
                    let words = [&first[..], &program, &arguments, &device, &answer].concat();
                    self.call(paint, Function::giruve_run_restart, &words);
                }
            }
        }
    }

    fn recover(&mut self, held: &HeldRecovery) {
        for paint in PAINTS {
            let mut held = held.clone();
            let mut answer = vec![0; held.answer_length];
            let areas = [
                lent(&mut held.chain),
                lent(&mut held.report),
                lent(&mut held.extent),
                lent(&mut held.storage),
                lent(&mut held.program),
                lent(&mut held.restart_arguments),
                lent(&mut answer),
            ];
            let words = [&[of_model(held.model, paint)], &areas.concat()[..]].concat();
            let number = self.call(paint, Function::giruve_recover, &words);
            let (what, action) = match number {
                0 => (answer[0], answer[1]),
                _ => (0, 0),
            };
            self.seen
                .insert((Function::giruve_recover, number, what, action));
        }
    }

    fn read(&mut self, held: &HeldReading) {
        for paint in PAINTS {
            let mut held = held.clone();
            let mut list = vec![0; held.list_length];
            let mut answer = vec![0; held.answer_length];
            let model = of_model(held.model, paint);
            let extent = lent(&mut held.extent);
            let before = [
                lent(&mut held.chain),
                lent(&mut held.arguments),
                lent(&mut held.storage),
                lent(&mut held.image),
                lent(&mut held.faults),
                extent,
            ]
            .concat();
            let behind = [
                lent(&mut held.program),
                lent(&mut held.restart_arguments),
                lent(&mut list),
                lent(&mut answer),
            ]
            .concat();
            let words = [&[model], &before[..], &[held.limit], &behind].concat();
            let of_extent = [&[model], &extent[..]].concat();
            self.call(paint, Function::giruve_check_extent, &of_extent);
            self.call(paint, Function::giruve_reading, &words);
        }
    }

    /// The numbers that a function returned.
    fn numbers(&self, function: Function) -> Vec<u8> {
        let of_function = self.seen.iter().filter(|seen| seen.0 == function);
        let numbers: BTreeSet<u8> = of_function.map(|seen| seen.1).collect();
        numbers.into_iter().collect()
    }
}

const WHOLE_PACK: [u8; 8] = [0, 0, 0, 0, 0x01, 0x9A, 0, 18];
const READ_DATA: u8 = 0x06;
const TIC: u8 = 0x08;
const CD: u8 = 0x80;
const CC: u8 = 0x40;

/// Readings of the longest chain, the longest record, the largest storage and image, and as many
/// cuts as there may be.
fn large_readings() -> Vec<HeldReading> {
    let fault = |number, error_displacement| Fault {
        track: track_at(0),
        number,
        error_displacement,
        pattern: [1, 2, 3],
    };
    // R1 of 13,030 bytes through 254 data-chained CCWs, then R1 again, which takes what is left.
    let mut data_chained = Vec::new();
    for place in 0..254 {
        data_chained.extend(ccw(READ_DATA, place * 51, CD, 51));
    }
    data_chained.extend(ccw(READ_DATA, 254 * 51, CC, 76));
    data_chained.extend(ccw(READ_DATA, 20_000, 0, 13_030));
    let mut in_the_middle = Vec::new();
    put_fault(&mut in_the_middle, fault(1, 6_000));
    let long_record = HeldRun {
        chain: data_chained,
        storage: vec![0; 65_536],
        image: image_of(1 << 20, TracksOf::LONG_RECORD),
        faults: in_the_middle,
        ..HeldRun::default()
    };
    // A track of 255 records, all faulted, round and round.
    let mut each = Vec::new();
    for number in 1..=255 {
        put_fault(&mut each, fault(number, 1));
    }
    let round = HeldRun {
        chain: [ccw(READ_DATA, 0, CC, 1), ccw(TIC, 0, 0, 0)].concat(),
        storage: vec![0; 1],
        image: track_of(255, 1),
        faults: each,
        ..HeldRun::default()
    };
    let extent = || WHOLE_PACK.to_vec();
    vec![
        HeldReading::of_run(long_record, extent()),
        HeldReading::of_run(round, extent()),
    ]
}

/// The value of a name of the header.
fn named(header: &str, name: &str) -> usize {
    let found = header.lines().find_map(|line| {
        let value = line.trim().strip_prefix(name)?.strip_prefix(" = ")?;
        value.split(',').next()?.parse().ok()
    });
    found.unwrap_or_else(|| panic!("the header has no {name}"))
}

fn main() -> ExitCode {
    let [header, directory] = &std::env::args().skip(1).collect::<Vec<_>>()[..] else {
        panic!("a header and a directory of cases");
    };
    let header = std::fs::read_to_string(header).expect("the header can be read");
    let directory = Path::new(directory);
    let mut measured = Measured {
        stack: Box::new(Stack([0; PAINTED])),
        used: BTreeMap::new(),
        seen: BTreeSet::new(),
    };
    // The dynamic linker may look for a function when it is first called. Readings go deepest, so they
    // come first.
    let readings = cases::read_all::<reading::Said>(&directory.join("reading"));
    let readings = readings.into_iter().map(|(_, case)| case.lent);
    for held in readings.chain(large_readings()) {
        measured.read(&held);
        let mut of_run = HeldRun {
            model: held.model,
            chain: held.chain,
            arguments: held.arguments,
            storage: held.storage,
            image: held.image,
            faults: held.faults,
            limit: held.limit,
            restart: None,
        };
        measured.run(&of_run);
        of_run.restart = Some(HeldRestart {
            program: held.program,
            arguments: held.restart_arguments,
        });
        measured.run(&of_run);
    }
    for (_, case) in cases::read_all::<run::Said>(&directory.join("run")) {
        measured.run(&case.lent);
    }
    for (_, case) in cases::read_all::<recovery::Said>(&directory.join("recover")) {
        measured.recover(&case.lent);
    }
    judge(&measured, named(&header, "GIRUVE_STACK"))
}

/// Prints what was used and tells whether it is as the header says, and whether every number,
/// answer and action was seen.
fn judge(measured: &Measured, stack: usize) -> ExitCode {
    let mut failed = false;
    let mut fail = |what: String| {
        println!("stack: {what}");
        failed = true;
    };
    for (&function, &used) in &measured.used {
        let name = function.name();
        println!("stack: {name} {used} of {stack}");
        let runs_the_drive = [
            Function::giruve_run,
            Function::giruve_run_restart,
            Function::giruve_reading,
        ];
        if used > stack {
            fail(format!("{name} uses more than GIRUVE_STACK"));
        }
        if !runs_the_drive.contains(&function) && used * 10 >= stack {
            fail(format!("{name} uses a tenth of GIRUVE_STACK or more"));
        }
    }
    let most = measured.used.values().max().expect("calls were made");
    if stack > 4 * most {
        fail(format!("GIRUVE_STACK is more than four times {most}"));
    }
    for &function in Function::ALL {
        let expected: &[u8] = match function {
            Function::giruve_check_image => &[0, 1, 2],
            Function::giruve_check_faults => &[0, 1, 2, 3],
            Function::giruve_check_extent => &[0, 1, 5],
            Function::giruve_check_areas | Function::giruve_check_restart_areas => &[0, 1],
            Function::giruve_run | Function::giruve_run_restart => &[0, 1, 2, 3, 64],
            Function::giruve_recover => &[0, 1, 4, 5, 6, 7, 8, 9],
            Function::giruve_reading => &[0, 1, 2, 3, 5, 64, 65],
        };
        let numbers = measured.numbers(function);
        if numbers != expected {
            let name = function.name();
            fail(format!("{name} returned {numbers:?}, not {expected:?}"));
        }
    }
    let answers = [
        (1, 0),
        (2, 0),
        (3, 0),
        (4, 0x05),
        (5, 0x05),
        (6, 0x05),
        (6, 0x15),
        (6, 0x08),
        (6, 0x09),
        (6, 0x0A),
        (6, 0x1A),
        (6, 0x0B),
    ];
    for (what, action) in answers {
        let recovery = (Function::giruve_recover, 0, what, action);
        if !measured.seen.contains(&recovery) {
            fail(format!("no recovery answered {what} by {action:02X}"));
        }
    }
    match failed {
        true => ExitCode::FAILURE,
        false => ExitCode::SUCCESS,
    }
}
