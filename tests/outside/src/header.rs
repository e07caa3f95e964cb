//! What the C compiler makes of grelpicado.h, and what the header declares, against what
//! the crate says and the reference goes by.

use crate::door::Program;
use crate::reference as r;
use crate::tally::Tally;
use std::collections::BTreeSet;

const HEADER: &str = include_str!("../../../include/grelpicado.h");
const CRATE: &str = include_str!("../../../crates/grelpicado/src/lib.rt");
const CAN_CALLS: &str = include_str!("../../../crates/grelpicado/src/can.rt");
const CAN_STRUCTS: &str = include_str!("../../../crates/can_panel/src/lib.rt");
const MANUAL: &str = include_str!("../../../crates/manual/src/lib.rt");

/// The header's structs under the crate's names.
const STRUCTS: [(&str, &str); 18] = [
    ("PanelBoard", "grelpicado_board"),
    ("PanelAnswer", "grelpicado_answer"),
    ("PanelReport", "grelpicado_report_answer"),
    ("PanelStatus", "grelpicado_status_answer"),
    ("PanelCounter", "grelpicado_counter_answer"),
    ("PanelMissing", "grelpicado_missing_answer"),
    ("PanelTable", "grelpicado_table_answer"),
    ("PanelPaint", "grelpicado_paint_answer"),
    ("PanelFrame", "grelpicado_frame_answer"),
    ("PanelLength", "grelpicado_length_answer"),
    ("PanelRequest", "grelpicado_request_answer"),
    ("PanelCanFrame", "grelpicado_can_frame"),
    ("PanelSender", "grelpicado_can_sender"),
    ("PanelReceiver", "grelpicado_can_receiver"),
    ("PanelStarted", "grelpicado_can_start_answer"),
    ("PanelFlowed", "grelpicado_can_flow_answer"),
    ("PanelNext", "grelpicado_can_next_answer"),
    ("PanelTaken", "grelpicado_can_take_answer"),
];

/// The thirteen columns of document 01, in its order, and the fourteenth of document 02.
const COLUMNS: [&str; r::ROW] = [
    "trouble_code",
    "priority",
    "cycle",
    "debounce_kind",
    "p",
    "q",
    "up",
    "down",
    "jumps",
    "confirm",
    "heal",
    "age",
    "indicator",
    "needed",
];

pub fn run(program: &Program, can: &Program) -> Tally {
    let mut tally = Tally::new("grelpicado.h");
    let both = |word: &str| Ok(program.ask(word)? + &can.ask(word)?);
    match both("layout") {
        Ok(found) => same_lines(&mut tally, "layout", &found, &layout()),
        Err(error) => tally.differ(error),
    }
    match both("numbers") {
        Ok(found) => {
            same_lines(&mut tally, "macro", &found, &numbers());
            all_macros(&mut tally, &found);
        }
        Err(error) => tally.differ(error),
    }
    declarations(&mut tally);
    tally
}

fn same_lines(tally: &mut Tally, what: &str, found: &str, wanted: &[String]) {
    let found: BTreeSet<&str> = found.lines().collect();
    let wanted: BTreeSet<&str> = wanted.iter().map(String::as_str).collect();
    tally.ran += wanted.len() as u64;
    for line in wanted.difference(&found) {
        tally.differ(format!("{what}: the C program does not say: {line}"));
    }
    for line in found.difference(&wanted) {
        tally.differ(format!("{what}: only the C program says: {line}"));
    }
}

// ---- the structs

/// Each struct's size, and each field's place and size, as C lays out what the crate declares.
fn layout() -> Vec<String> {
    let mut lines = Vec::new();
    for (name, c_name) in STRUCTS {
        let mut end = 0;
        for (field, kind) in fields(name) {
            let (size, alignment) = size_of(&kind);
            let at = round_up(end, alignment);
            lines.push(format!("{c_name}.{field} {at} {size}"));
            end = at + size;
        }
        lines.push(format!("{c_name} {}", round_up(end, size_of(name).1)));
    }
    for (at, column) in COLUMNS.iter().enumerate() {
        lines.push(format!("grelpicado_event.{column} {} 4", 4 * at));
    }
    lines.push(format!("grelpicado_event {}", 4 * COLUMNS.len()));
    lines
}

/// Names and types of a struct of the crate.
fn fields(name: &str) -> Vec<(String, String)> {
    let start = format!("#[repr(C)]\n#[derive(Clone, Copy)]\npub struct {name} {{\n");
    let crates = CRATE.split_once(&start).or(CAN_STRUCTS.split_once(&start));
    let (_, behind) = crates.expect("a crate has the struct");
    let (body, _) = behind.split_once("\n}").expect("a struct ends");
    let pairs = body.lines().map(|line| {
        let line = line.trim().trim_start_matches("pub ").trim_end_matches(',');
        line.split_once(": ").expect("a field has a type")
    });
    pairs
        .map(|(field, kind)| (field.to_string(), kind.to_string()))
        .collect()
}

/// Size and alignment of a type of the crate.
fn size_of(kind: &str) -> (usize, usize) {
    match kind {
        "u8" | "i8" => (1, 1),
        "u32" => (4, 4),
        "usize" => (8, 8),
        "[u8; manual::CYCLES]" => (cycles(), 1),
        "[u16; manual::CYCLES * manual::BITS]" => (2 * cycles() * bits(), 2),
        "[u8; 8]" => (8, 1),
        name => {
            let parts = fields(name);
            let sizes = parts.iter().map(|(_, kind)| size_of(kind));
            let alignment = sizes.clone().map(|(_, alignment)| alignment).max();
            let alignment = alignment.expect("no struct is empty");
            let end = sizes.fold(0, |end, (size, alignment)| round_up(end, alignment) + size);
            (round_up(end, alignment), alignment)
        }
    }
}

fn round_up(at: usize, alignment: usize) -> usize {
    at.div_ceil(alignment) * alignment
}

fn cycles() -> usize {
    constant("CYCLES")
}

fn bits() -> usize {
    constant("BITS")
}

fn constant(name: &str) -> usize {
    let (_, behind) = MANUAL
        .split_once(&format!("pub const {name}: usize = "))
        .expect("manual has the constant");
    let (number, _) = behind.split_once(';').expect("a constant ends");
    number.parse().expect("a number")
}

// ---- the macros

/// Each macro with what it must stand for.
fn numbers() -> Vec<String> {
    let mut lines: Vec<String> = NAMED
        .iter()
        .map(|(name, value)| format!("GRELPICADO_{name} {value}"))
        .collect();
    lines.push(format!("GRELPICADO_CYCLES {}", cycles()));
    for (n, m, f) in [(1, 1, 0), (2, 1, 5), (7, 3, 5), (7, 3, 32), (512, 64, 32)] {
        lines.extend(sizes(n, m, f));
    }
    for k in 0..r::CONDITIONS {
        lines.push(format!("GRELPICADO_CONDITION({k}) {}", 1u32 << k));
    }
    lines.push("GRELPICADO_LEND(5) 5".to_string());
    let of_seven = 3 + r::ROW * 7;
    lines.push(format!("GRELPICADO_LEND_CONFIG(7) {of_seven}"));
    lines.push(format!("GRELPICADO_CONFIG(7) {}", 4 * of_seven));
    lines
}

fn sizes(n: usize, m: usize, f: usize) -> [String; 7] {
    let memory = 1 + m * (3 + 2 * f);
    let image = 20 + 4 * n + memory + 1;
    let reply = (3 + 4 * n).max(7 + 2 * f).max(11);
    [
        format!("GRELPICADO_CONFIG_NUMBERS({n}) {}", 3 + r::ROW * n),
        format!("GRELPICADO_RECORDS_BYTES({n}) {}", 4 * n),
        format!("GRELPICADO_DEBOUNCE_NUMBERS({n}) {n}"),
        format!("GRELPICADO_MEMORY_BYTES({m},{f}) {memory}"),
        format!("GRELPICADO_IMAGE_BYTES({n},{m},{f}) {image}"),
        format!("GRELPICADO_REPLY_BYTES({n},{f}) {reply}"),
        format!("GRELPICADO_LIST_NUMBERS({n}) {n}"),
    ]
}

const NAMED: [(&str, u32); 73] = [
    ("HEADER_VERSION", 5000),
    ("MAX_EVENTS", 512),
    ("MAX_PLACES", 64),
    ("MAX_FRAME", 32),
    ("MAX_TROUBLE_CODE", 16_777_214),
    ("MAX_TICK", 60_000),
    ("CYCLE_0", 0),
    ("CYCLE_1", 1),
    ("CYCLE_2", 2),
    ("CYCLE_3", 3),
    ("KIND_INTERNAL", r::KIND_INTERNAL as u32),
    ("KIND_COUNTER", r::KIND_COUNTER as u32),
    ("KIND_TIME", r::KIND_TIME as u32),
    ("JUMP_NONE", 0),
    ("JUMP_UP", r::JUMP_UP as u32),
    ("JUMP_DOWN", r::JUMP_DOWN as u32),
    ("JUMP_BOTH", (r::JUMP_UP | r::JUMP_DOWN) as u32),
    ("CONDITIONS", r::CONDITIONS),
    ("ALL_PRESENT", r::ALL_PRESENT),
    ("NONE_MISSING", r::NONE_MISSING),
    ("DONE", r::DONE as u32),
    ("BAD_ARGUMENT", r::BAD_ARGUMENT as u32),
    ("BAD_CONFIGURATION", r::BAD_CONFIGURATION as u32),
    ("BAD_STATE", r::BAD_STATE as u32),
    ("NO_SUCH", r::NO_SUCH as u32),
    ("WRONG_CYCLE_STATE", r::WRONG_CYCLE_STATE as u32),
    ("NO_PRE_RESULT", r::NO_PRE_RESULT as u32),
    ("ROOM_TOO_SMALL", r::ROOM_TOO_SMALL as u32),
    ("BAD_IMAGE", r::BAD_IMAGE as u32),
    ("WRONG_FRAME", r::WRONG_FRAME as u32),
    ("NO_ENTRY", r::NO_ENTRY as u32),
    ("MISSING_CONDITION", r::MISSING_CONDITION as u32),
    ("COUNTS_FULL", r::COUNTS_FULL as u32),
    ("COUNTS", r::COUNTS as u32),
    ("COUNT_ADMITTED", r::ADMITTED as u32),
    ("COUNT_PUSHED_OUT", r::PUSHED_OUT as u32),
    ("COUNT_AGED", r::AGED as u32),
    ("COUNT_CLEARED", r::CLEARED as u32),
    ("COUNT_NOT_STORED", r::NOT_STORED as u32),
    ("TEST_FAILED", r::TEST_FAILED as u32),
    (
        "TEST_FAILED_THIS_OPERATION_CYCLE",
        r::FAILED_THIS_CYCLE as u32,
    ),
    ("PENDING", r::PENDING as u32),
    ("CONFIRMED", r::CONFIRMED as u32),
    (
        "TEST_NOT_COMPLETED_SINCE_LAST_CLEAR",
        r::NOT_COMPLETED_SINCE_CLEAR as u32,
    ),
    ("TEST_FAILED_SINCE_LAST_CLEAR", r::FAILED_SINCE_CLEAR as u32),
    (
        "TEST_NOT_COMPLETED_THIS_OPERATION_CYCLE",
        r::NOT_COMPLETED_THIS_CYCLE as u32,
    ),
    ("WARNING_INDICATOR_REQUESTED", r::WARNING as u32),
    ("FRESH_STATUS", r::FRESH_STATUS as u32),
    ("PASSED", r::PASSED),
    ("FAILED", r::FAILED),
    ("PRE_PASSED", r::PRE_PASSED),
    ("PRE_FAILED", r::PRE_FAILED),
    ("VERDICT_NONE", 0),
    ("VERDICT_PASSED", 1),
    ("VERDICT_FAILED", 2),
    ("PAINT_GREY", 0),
    ("PAINT_RED", 1),
    ("PAINT_LIVE", 2),
    ("FIRST", 0),
    ("LATEST", 1),
    ("ALL_CODES", r::ALL_CODES),
    ("CAN_REFUSED", 13),
    ("CAN_LONGEST", 4095),
    ("CAN_IDLE", 0),
    ("CAN_WAITING", 1),
    ("CAN_RUNNING", 2),
    ("CAN_COLLECTING", 1),
    ("CAN_GO", 1),
    ("CAN_WAIT", 2),
    ("CAN_ABORTED", 3),
    ("CAN_GOING", 1),
    ("CAN_CONTROL", 2),
    ("CAN_COMPLETE", 3),
];

/// No macro of the header may go without being compared, but the guard of the file and those
/// that end in `_`, which are its own.
fn all_macros(tally: &mut Tally, found: &str) {
    let name = |text: &str| {
        let end = text.find(|c: char| !c.is_ascii_alphanumeric() && c != '_');
        text[..end.unwrap_or(text.len())].to_string()
    };
    let said: BTreeSet<String> = found.lines().map(name).collect();
    let lines = HEADER.lines();
    let defined = lines.filter_map(|line| line.strip_prefix("#define ").map(name));
    for name in defined.filter(|name| name != "GRELPICADO_H" && !name.ends_with('_')) {
        if !said.contains(&name) {
            tally.differ(format!("macro: {name} is compared with nothing"));
        }
    }
}

// ---- the calls

/// Each function that the crate exports stands in the header, word for word as its types in C.
fn declarations(tally: &mut Tally) {
    let header = one_space(HEADER);
    let mut exported = 0;
    let exports = |text: &'static str| text.split("pub extern \"C\" fn ").skip(1);
    for text in exports(CRATE).chain(exports(CAN_CALLS)) {
        let wanted = declaration(text);
        exported += 1;
        tally.ran += 1;
        if !header.contains(&wanted) {
            tally.differ(format!("declaration: the header does not say: {wanted}"));
        }
    }
    let plain = |line: &&str| line.starts_with("grelpicado_") && line.ends_with('(');
    let declared = HEADER.lines().filter(plain).count();
    if declared != exported {
        tally.differ(format!(
            "declaration: {declared} calls are declared, {exported} exported"
        ));
    }
}

fn one_space(text: &str) -> String {
    let words: Vec<&str> = text.split_whitespace().collect();
    words.join(" ").replace("( ", "(")
}

/// A function of the crate as C declares it.
fn declaration(text: &str) -> String {
    let (name, behind) = text.split_once('(').expect("parameters follow");
    let (parameters, behind) = behind.split_once(") -> ").expect("an answer follows");
    let answer = behind.lines().next().expect("its type");
    let parameters: Vec<String> = parameters
        .split(',')
        .filter_map(|parameter| parameter.trim().split_once(": "))
        .map(|(name, kind)| parameter(name, kind))
        .collect();
    format!("{} {name}({});", c_type(answer), parameters.join(", "))
}

fn parameter(name: &str, kind: &str) -> String {
    let name = if name == "cfg" { "config" } else { name };
    let lent = |kind: &str| format!("{kind} *{name}, size_t {name}_length");
    match kind {
        "&[i32]" => lent("const int32_t"),
        "&mut [i32]" => lent("int32_t"),
        "&[u8]" => lent("const uint8_t"),
        "&mut [u8]" => lent("uint8_t"),
        "&mut [u16]" => lent("uint16_t"),
        "&mut [u32]" => lent("uint32_t"),
        _ => format!("{} {name}", c_type(kind)),
    }
}

fn c_type(kind: &str) -> &str {
    match kind {
        "usize" => "size_t",
        "u8" => "uint8_t",
        "u32" => "uint32_t",
        _ => {
            let known = STRUCTS.iter().find(|(name, _)| *name == kind);
            known.map_or(kind, |(_, c_name)| c_name)
        }
    }
}
