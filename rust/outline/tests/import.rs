//! `import` and `same`: C files by a real front end, and whether an image's program is theirs.

mod program;

use program::{run, Folder};

/// Message passing with macros, comments, strings, casts and odd layout.
const ODD: &str = "#include <stdatomic.h>\n#include <stdint.h>\n#include <stddef.h>\n\
#define STORE(where, what) atomic_store_explicit(&(where), (what), memory_order_##relaxed)\n\
#define RELEASE memory_order_release\n\
static const char *banner = \"void sender(void) { /* no code */ }\";\n\
static _Atomic uint32_t data; static atomic_int\nflag = ( 0 ) ; // a comment { with braces }\n\
int unused_helper(int a) { return a - 1; }\n\
void *sender ( void * p )\n{ (void) p ; STORE ( data , (uint32_t) 2u ) ;\n\
  atomic_store_explicit(/* where */ & flag, 0x1, // what\n    RELEASE)\n  ;\n  return NULL; }\n\
void *receiver(void *p)\n{\n  int a = (int) atomic_load_explicit(&flag, memory_order_acquire), b = 2;\n\
  if (a == 1)\n    b = atomic_load_explicit(&data, memory_order_relaxed);\n  //@ { b = 2 }\n  return p;\n}\n\
int main(void) { sender(NULL); return atomic_load(&flag); }\n";

/// The same program by hand.
const BY_HAND: &str = "range 3\nword d = 0\nword f = 0\n\
thread first { true } d := 2 { true } f :=rel 1 { true }\n\
thread second registers q, r { true } q <-acq f { true } r := 2 { true } if q != 1 goto 4 { true } r <- d { true }\n";

#[test]
fn macros_comments_strings_casts_and_odd_layout_are_read() {
    let folder = Folder::new("import-odd");
    let (file, out) = (folder.with("odd.c", ODD), folder.file("odd.program"));
    let (status, told, err) = run(&["import", &file, "-o", &out]);
    assert_eq!((status, err.as_str()), (0, ""), "{told}");
    let want = format!("{out}: 2 threads (sender, receiver), 6 instructions\n");
    assert!(told.starts_with(&want), "{told}");
    assert!(
        told.contains("values stay within 0 to 2: by what each word and variable can be given\n"),
        "{told}"
    );
    assert!(told.contains("not looked at, though it names a word: main\n"), "{told}");
    let text = std::fs::read_to_string(&out).expect("written");
    for part in [
        "range 3\nword data = 0\nword flag = 0\n",
        "thread sender\n  L11: { ? }\n    data := 2\n  L12: { ? }\n    flag :=rel 1\n",
        "    a <-acq flag\n",
        "    if a != 1 goto L23\n",
        ": { b = 2 }\n",
    ] {
        assert!(text.contains(part), "{part}: {text}");
    }
    let (outline, image) = (folder.file("odd.outline"), folder.file("odd.image"));
    let (status, told, _) = run(&["infer", &out, "-o", &outline, "--image", &image]);
    assert_eq!(status, 0, "{told}");
    let (status, told, _) = run(&["same", &file, &image]);
    assert!(status == 0 && told.starts_with("SAME: 6 instructions of 2 threads\n"), "{told}");
    assert!(told.contains("ACCEPTED"), "{told}");
}

#[test]
fn a_program_by_hand_is_the_same_or_differs_at_a_place() {
    let folder = Folder::new("same");
    let file = folder.with("odd.c", ODD);
    let hand = folder.with("hand.outline", BY_HAND);
    let (status, told, err) = run(&["same", &file, &hand]);
    assert!(status == 0 && told.starts_with("SAME: 6 instructions"), "{told}{err}");
    for (from, to, line, why) in [
        ("f :=rel 1", "f := 1", 12, "the file has a releasing store, the image a relaxed store"),
        ("d := 2", "d := 1", 11, "another value is worked out"),
        ("q <-acq f", "q <-acq d", 18, "another word is accessed"),
        ("r <- d", "q <- d", 20, "another register is meant"),
        ("goto 4", "goto 3", 19, "the branch goes to another point"),
        ("if q != 1", "if q = 1", 19, "another test is made"),
        (
            "word d = 0",
            "word d = 1",
            7,
            "`data` begins with 0 in the file, and with 1 in the image",
        ),
        (" { true } f :=rel 1", "", 12, "2 instructions in the file, and 1 in the image"),
        ("range 3", "range 8", 0, ""),
    ] {
        let other = folder.with("other.outline", &BY_HAND.replacen(from, to, 1));
        let (status, told, err) = run(&["same", &file, &other]);
        assert_eq!(err, "", "{to}");
        if line == 0 {
            assert_eq!(status, 0, "a wider range holds all values: {told}");
            continue;
        }
        assert_eq!(status, 1, "{to}: {told}");
        assert!(told.starts_with(&format!("{file}:{line}:")) && told.contains(why), "{to}: {told}");
    }
    let narrow =
        folder.with("narrow.outline", &BY_HAND.replace("range 3", "range 2").replace("2 {", "1 {"));
    let (status, told, _) = run(&[
        "same",
        &folder.with("n.c", &ODD.replace("2u", "1u").replace("b = 2;", "b = 1;")),
        &narrow,
    ]);
    assert_eq!(status, 0, "{told}");
}

/// Notes of registers that nothing reads are no part of the C file.
#[test]
fn auxiliary_registers_are_left_out() {
    let folder = Folder::new("same-auxiliary");
    let file = folder.with("a.c", "#include <stdatomic.h>\natomic_int x;\nvoid t(void) { atomic_store_explicit(&x, 1, memory_order_relaxed); }\n");
    let with = "word x = 0\nthread t registers done { true } x := 1 | done := 1 { done = 1 }\n";
    let (status, told, _) = run(&["same", &file, &folder.with("a.outline", with)]);
    assert!(status == 0 && told.contains("left out: done\n"), "{told}");
    let read = "word x = 0\nthread t registers done { true } x := 1 | done := 1 { true } x := done { true }\n";
    let (status, told, _) = run(&["same", &file, &folder.with("b.outline", read)]);
    assert!(status == 1 && told.contains("another number of registers is set"), "{told}");
}

/// A body, and the line and the reason of its refusal. The body begins at line 5.
const REFUSED: [(&str, usize, &str); 23] = [
    ("static int r = 0; r = 1;", 5, "`r` is no number of this function's own"),
    (
        "int x = 1; int r = atomic_load_explicit(&x, memory_order_relaxed);",
        5,
        "`x` is a variable of this function here",
    ),
    ("int memory_order_relaxed = 0;", 5, "the name of an access or an order"),
    (
        "int r = READ_ONCE(x); atomic_store_explicit(&x, r, memory_order_release);",
        5,
        "by a dependency or not at all",
    ),
    ("x = 1;", 5, "a plain access to `x`"),
    ("int r = x;", 5, "a plain access to `x`"),
    ("plain = 1;", 5, "`plain` is no variable of this function"),
    ("x++;", 5, "a plain access to `x`"),
    ("atomic_store(&x, 1);", 5, "seq_cst"),
    ("LOAD(x);", 5, "seq_cst"),
    ("int r;\nint s = r;", 6, "`r` may be read here before it has a value"),
    ("int r; if (LOADED(x)) r = 1;\nint s = r;", 6, "`r` may be read here before it has a value"),
    ("int r = -1;", 5, "`-` is no operation"),
    ("int r = 16;", 5, "values are 0 to 15"),
    ("bool r = 2;", 5, "a value here that its type or the range"),
    ("float f;", 5, "`float` is no type"),
    ("struct s *p;", 5, "`struct` is no type"),
    ("helper();", 5, "`helper` is no access that is known here"),
    ("__asm__(\"nop\");", 5, "`__asm__` is no part of the subset"),
    ("int a[2];", 5, "arrays"),
    ("switch (1) { }", 5, "`switch`"),
    ("int r = LOADED(x) == 1;", 5, "a test is no value"),
    ("//@ { nonsense = 1 }\nint r = LOADED(x);", 5, "`nonsense` is not declared"),
];

#[test]
fn what_is_outside_of_the_subset_is_refused_at_its_line() {
    let folder = Folder::new("import-refused");
    for (body, line, why) in REFUSED {
        let text = format!(
            "#include <stdatomic.h>\n#include <stdbool.h>\n#define LOAD(x) atomic_load(&x) /* a */\n\
             atomic_int x; int plain; void helper(void); void t(void) {{\n{body}\n  (void)LOADED(x);\n}}\n\
             #undef LOAD\n"
        )
        .replace("LOADED(x)", "atomic_load_explicit(&x, memory_order_relaxed)");
        let (file, out) = (folder.with("refused.c", &text), folder.file("none"));
        let (status, told, err) = run(&["import", &file, "-o", &out]);
        assert_eq!((status, told.as_str()), (2, ""), "{body}");
        assert!(err.starts_with(&format!("{file}:{line}:")) && err.contains(why), "{body}: {err}");
        assert!(!std::path::Path::new(&out).exists(), "{body}");
    }
}

/// A mistake inside of an included file is told there; one that a macro makes has the line of its use.
#[test]
fn places_are_those_of_the_files_that_were_written() {
    let folder = Folder::new("import-places");
    folder.with("part.h", "\nvoid t(void) { atomic_thread_fence(1); x; }\n");
    let file =
        folder.with("with.c", "#include <stdatomic.h>\natomic_int x;\n#include \"part.h\"\n");
    let (status, _, err) = run(&["import", &file, "-o", &folder.file("none")]);
    let part = folder.file("part.h");
    assert!(status == 2 && err.starts_with(&format!("{part}:2: ")), "{err}");
    let (status, _, err) = run(&[
        "import",
        &folder.with("bad.c", "#include \"nowhere.h\"\n"),
        "-o",
        &folder.file("none"),
    ]);
    assert!(status == 2 && err.contains("nowhere.h"), "{err}");
    let named = folder.with("d.c", "#include <stdatomic.h>\natomic_int x;\nvoid t(void) { atomic_store_explicit(&x, N, memory_order_relaxed); }\n");
    let (status, told, err) =
        run(&["import", &named, "-o", &folder.file("d.program"), "--cpp", "-DN=5"]);
    assert!(status == 0 && told.contains("0 to 5"), "{told}{err}");
    let (status, _, err) = run(&["import", &named, "-o", &folder.file("none")]);
    assert!(
        status == 2
            && err.starts_with(&format!("{named}:3:"))
            && err.contains("`N` is no variable"),
        "{err}"
    );
}

#[test]
fn threads_are_those_that_are_named() {
    let folder = Folder::new("import-threads");
    let text = "#include <stdatomic.h>\natomic_int x, y;\n\
        void a(void) { atomic_store_explicit(&x, 1, memory_order_relaxed); }\n\
        void b(void) { atomic_store_explicit(&y, 1, memory_order_relaxed); }\n\
        void c(void) { int r = atomic_load_explicit(&x, memory_order_relaxed); (void)r; }\n";
    let (file, out) = (folder.with("t.c", text), folder.file("t.program"));
    let (status, told, _) = run(&["import", &file, "-o", &out, "--threads", "c,a"]);
    assert!(
        status == 0 && told.starts_with(&format!("{out}: 2 threads (c, a), 2 instructions\n")),
        "{told}"
    );
    let (status, _, err) = run(&["import", &file, "-o", &folder.file("none"), "--threads", "d"]);
    assert!(status == 2 && err.contains("there is no function `d` with a body"), "{err}");
    // A function that two threads run is named twice.
    let (status, told, _) = run(&["import", &file, "-o", &out, "--threads", "c,c"]);
    assert!(status == 0 && told.contains("2 threads (c, c)"), "{told}");
    let text = std::fs::read_to_string(&out).expect("written");
    assert!(text.contains("\nthread c\n") && text.contains("\nthread c_2\n"), "{text}");
    assert_eq!(run(&["same", &file, &out, "--threads", "c,c"]).0, 0);
    let own = folder.with("own.c", "int atomic_load_explicit(int *p, int o);\n");
    let (status, _, err) = run(&["import", &own, "-o", &folder.file("none")]);
    assert!(status == 2 && err.contains("the name of an access or an order"), "{err}");
    let none = folder.with("n.c", "int main(void) { return 0; }\n");
    let (status, _, err) = run(&["import", &none, "-o", &folder.file("none")]);
    assert!(status == 2 && err.contains("there is no thread"), "{err}");
}
