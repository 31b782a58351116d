//! The C header beside the definitions that the contracts cite: each constant has the value that stands in `specs/`.

use crate::header::constants;
use crate::page::{file, number, table};

/// The number in the one place of a definition's file where the text fits; `{}` stands for the number.
fn value(name: &str, text: &str) -> u32 {
    let source = one_line(&file(&format!("crates/{name}.antt")));
    let (before, behind) = text.split_once("{}").expect("a place for the number");
    let found: Vec<u32> = source
        .match_indices(before)
        .filter_map(|(at, _)| {
            let rest = &source[at + before.len()..];
            let digits = rest.find(|c: char| !c.is_ascii_digit()).unwrap_or(rest.len());
            let number = rest[..digits].parse().ok()?;
            rest[digits..].starts_with(behind).then_some(number)
        })
        .collect();
    assert_eq!(found.len(), 1, "{name}: {text}");
    found[0]
}

/// A file without comments and with single spaces; a definition ends where the next line begins without one.
fn one_line(text: &str) -> String {
    let lines = text.lines().map(|line| line.split("--").next().unwrap_or_default().trim_end());
    let mut joined = String::new();
    for line in lines {
        joined += if line.starts_with(' ') { " " } else { "\n" };
        joined += line.trim_start();
    }
    joined + "\n"
}

/// What stands behind the first words of a definition.
fn definition(name: &str, head: &str) -> String {
    let source = one_line(&file(&format!("crates/{name}.antt")));
    let start = format!("\n{head} = ");
    let (_, rest) = source.split_once(&start).unwrap_or_else(|| panic!("{name}: no `{head}`"));
    rest.split('\n').next().expect("a line").trim().to_string()
}

/// Where a field begins in a list that a definition puts together: `two` has two places, a column as many as it says.
fn place(name: &str, head: &str, field: &str) -> u32 {
    let mut at = 0;
    for part in definition(name, head).replace("++", "∷").split('∷').map(str::trim) {
        if part.contains(field) {
            return at;
        }
        at += match part.split_once(' ') {
            Some(("two", _)) => 2,
            Some(("column", rest)) => {
                let count = rest.rsplit(' ').next().expect("a word");
                count.parse().expect("a column says how long it is")
            }
            _ => 1,
        };
    }
    panic!("{name}: `{head}` has no {field}")
}

const FIELDS: &str = "verdict_record/specs/Fields";
const FAULT: &str = "image_frames/specs/Fault";
const VERDICT: &str = "logic_outline/specs/Verdict";
const OBLIGATION: &str = "verdict_record/specs/ObligationPlace";
const RECORD: &str = "verdict_record/specs/Record";
const REPLAY: &str = "replay_spec/specs/MachineReplay";
const TABLE: &str = "replay_machine/specs/OutputTable";
const ANSWER: &str = "replay_machine/specs/Answer";
const HANDOVER: &str = "handover_spec/specs/Code";
const ENTRIES: &str = "handover_spec/specs/Table";
const ACCOUNT: &str = "service_spec/specs/Account";
const BILL: &str = "bill_spec/specs/Bill";
const LIMITS: &str = "limits/specs/Limits";

/// The codes of all calls.
fn codes() -> Vec<(&'static str, u32)> {
    let trim = "trim_encode/specs/Answer";
    let room = "(cond (adds (instr_at P s t) && leb room (used s P.words))";
    // The numbers of trimming and of bills stand apart from the cases in which they are told.
    assert_eq!(definition(trim, "answer_with s buffer None"), "Err NotAccepted");
    let trimmed = definition(trim, "answered_by t buffer");
    assert!(trimmed.ends_with("(Err Short) (Ok (length t))"), "{trimmed}");
    let bill = definition(BILL, "bill_of s f n");
    assert!(bill.ends_with("(Err NotAccepted)"), "{bill}");
    let billed = definition(BILL, "billed f n os");
    assert!(billed.starts_with("cond (eqb n last_number) (Err NumberAtEnd)"), "{billed}");
    vec![
        ("ACCEPTED", value(FIELDS, "fields_of (Accepted n) = gathered {} 0 nowhere 0 n")),
        (
            "SHORT_OUTPUT",
            value("verdict_record/specs/Output", "(ltb (length out) size) {} (fields_of v).code\n"),
        ),
        ("SIZE", value(FAULT, "code_of Size = {}\n")),
        ("LENGTH", value(FAULT, "code_of Length = {}\n")),
        ("KIND", value(FAULT, "code_of Kind = {}\n")),
        ("BODY", value(FAULT, "code_of Body = {}\n")),
        ("NUMBER", value(FAULT, "code_of Number = {}\n")),
        ("FORMULA", value(FAULT, "code_of Formula = {}\n")),
        ("SORT", value(FAULT, "code_of Sort = {}\n")),
        ("OWNER", value(FAULT, "code_of Owner = {}\n")),
        ("OPERAND", value(FAULT, "code_of Operand = {}\n")),
        ("NO_LINE", value(VERDICT, "code_of true says just = {}\n")),
        ("OTHER_CONCLUSION", value(VERDICT, "code_of false false just = {}\n")),
        ("UNJUSTIFIED", value(VERDICT, "code_of false true false = {}\n")),
        ("CLAIM", value(FIELDS, "fields_of (Denied i p l n) = gathered {} i p l n")),
        ("TRIM_REFUSED", value(trim, "code_number NotAccepted = {}\n")),
        ("TRIM_ROOM", value(trim, "code_number Short = {}\n")),
        ("REPLAY_REFUSED", value("replay_spec/specs/Promise", "declined = record { code = {};")),
        ("STEP_THREAD", value(REPLAY, "replayed P room s k (t ∷ []) = record { code = {};")),
        ("STEP_PICK", value(REPLAY, &format!("{room} 29 0) {{}})"))),
        ("STEP_ROOM", value(REPLAY, &format!("{room} {{}} 0)"))),
        ("BILL_REFUSED", value(BILL, "code_number NotAccepted = {}\n")),
        ("BILL_END", value(BILL, "code_number NumberAtEnd = {}\n")),
        ("UNLIKE", value(HANDOVER, "by_acceptance old new table None b = {}\n")),
        ("TABLE", value(HANDOVER, "(cond lines_serve 0 34) {}\n")),
        ("UNSERVED", value(HANDOVER, "(cond lines_serve 0 {})")),
        ("NO_CALLER", value(ACCOUNT, "admission_at r none = {}\n")),
        ("NO_RIGHT", value(ACCOUNT, "(holds r d.rights) 0 {}\n")),
        ("START", value(OBLIGATION, "place_of (Start t) = record { class = {}; thread = t;")),
        ("STEP", value(OBLIGATION, "place_of (Step t k) = record { class = {}; thread = t;")),
        ("TAKEN", value(OBLIGATION, "place_of (Taken t k) = record { class = {}; thread = t;")),
        (
            "INTERFERENCE",
            value(OBLIGATION, "place_of (Interference u j t k) = record { class = {}; thread = u;"),
        ),
        ("MAY_CHECK", value(ACCOUNT, "holds Check n = eqb (n % 2) {}\n")),
        ("MAY_REPLAY", value(ACCOUNT, "holds Replay n = eqb (n / {} % 2) 1\n")),
        ("MAY_BILL", value(ACCOUNT, "holds Bill n = eqb (n / {} % 2) 1\n")),
    ]
}

/// How much there is at most, and how long an answer is.
fn sizes() -> Vec<(&'static str, u32)> {
    let (callers, threads) =
        (value(ACCOUNT, "\ncallers = {}\n"), value(LIMITS, "\nthreads = {}\n"));
    assert_eq!(definition("service_spec/specs/Opening", "places"), "2 * callers");
    assert_eq!(definition("bill_spec/specs/Output", "size"), "2 + Limits.threads");
    vec![
        ("IMAGE_BYTES", value(LIMITS, "\nimage_bytes = {}\n")),
        ("RECORD_BYTES", value(RECORD, "\nsize = {}\n")),
        ("RECORD_KIND", value(RECORD, "\nkind = {}\n")),
        ("REPLAY_NUMBERS", value(ANSWER, "\nsize = {}\n")),
        (
            "WRITES",
            value("replay_machine/specs/Replayed", "room_of lent = cond (ltb lent {}) lent"),
        ),
        ("WRITE_BYTES", value(TABLE, "entries_in table = length table / {}\n")),
        ("HANDOVER_BYTES", value(ENTRIES, "\nentry_size = {}\n")),
        ("CALLERS", callers),
        ("SERVICE_NUMBERS", 2 * callers),
        ("BILL_NUMBERS", 2 + threads),
    ]
}

/// Where the numbers of a record, an answer, an entry and a service stand.
fn places() -> Vec<(&'static str, u32)> {
    let record = |field| place(RECORD, "record_bytes f", field);
    let answer = |field| place(ANSWER, "numbers_of a", field);
    let write = |field| place(TABLE, "entry_bytes w", field);
    let bill = |field| place("bill_spec/specs/Output", "numbers_of n b", field);
    assert_eq!(definition(ENTRIES, "point_named table i"), "get_or table (entry_size * i) 0");
    assert!(definition(ACCOUNT, "account_at s c").contains("rights = get_or s (c - 1) 0;"));
    vec![
        ("AT_LENGTH", record("(size - 2)")),
        ("AT_KIND", record("kind")),
        ("AT_CODE", record("f.code")),
        ("AT_RECORD", record("f.«record»")),
        ("AT_CLASS", record("f.class")),
        ("AT_THREAD", record("f.thread")),
        ("AT_POINT", record("f.point")),
        ("AT_OTHER_THREAD", record("f.other_thread")),
        ("AT_OTHER_POINT", record("f.other_point")),
        ("AT_LINE", record("f.line")),
        ("AT_COUNT", record("f.count")),
        ("REPLAY_STEPS", answer(".steps")),
        ("REPLAY_POINT", answer(".points")),
        ("REPLAY_REGISTER", answer(".registers")),
        ("WRITE_VALUE", write(".value")),
        ("WRITE_RELEASING", write(".releasing")),
        ("WRITE_COVERED", write(".covered")),
        ("WRITE_VIEW", write(".stored")),
        ("HANDOVER_POINT", 0),
        ("HANDOVER_LINE", value(ENTRIES, "le16 (drop (entry_size * i + {}) table)")),
        ("SERVICE_RIGHTS", 0),
        // The number of caller 1.
        ("SERVICE_BILLED", value(ACCOUNT, "number_place c = {} + c\n") + 1),
        ("BILL_CENTS", bill("cents_of")),
        ("BILL_BILLED", bill("number_after")),
        ("BILL_THREAD", bill("sums_of")),
    ]
}

#[test]
fn every_constant_of_the_header_is_the_definitions_value() {
    let all = [codes(), sizes(), places()].concat();
    let mut defined: Vec<(String, u32)> =
        all.into_iter().map(|(name, value)| (format!("HIDOKPALU_{name}"), value)).collect();
    defined.sort();
    assert_eq!(constants(), defined);
}

/// The limits of the page that stand among the definitions, with the name that they have there.
const NAMED: [(&str, &str); 12] = [
    ("bytes of an image, for every call", "image_bytes"),
    ("bytes of an image, for the program `verdict`", "program_bytes"),
    ("threads", "threads"),
    ("words", "words"),
    ("registers", "registers"),
    ("range", "most_values"),
    ("points of a thread", "points"),
    ("formulas", "formulas"),
    ("bytes of a formula", "formula_bytes"),
    ("nesting of a formula", "nesting"),
    ("lines", "lines"),
    ("claims", "claims"),
];

#[test]
fn every_limit_of_the_page_is_the_definitions_value() {
    let told = table(["Limit", "Least", "Most", "Name in the header"]);
    for (limit, name) in NAMED {
        let [_, least, most, _] = told.iter().find(|[other, ..]| other == limit).expect(limit);
        assert_eq!(number(most), value(LIMITS, &format!("\n{name} = {{}}\n")), "{limit}");
        if limit == "range" {
            assert_eq!(number(least), value(LIMITS, "\nfewest_values = {}\n"));
        }
    }
}
