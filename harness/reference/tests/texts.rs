//! The questions of a plan text and of event lines, one by one.

use reference::run::run;
use reference::text::read_plan;

fn tabbed(text: &str) -> Vec<u8> {
    text.replace(' ', "\t").replace('/', "\n").into_bytes()
}

/// A text's number, line and shown part; what is shown must be a part of the text itself.
fn answer(text: &[u8]) -> (u32, u32, String) {
    let reading = read_plan(text);
    let whole = text.as_ptr_range();
    let part = reading.shown.as_ptr_range();
    assert!(whole.start <= part.start && part.end <= whole.end);
    let shown = String::from_utf8_lossy(reading.shown).replace('\t', " ");
    (reading.number, reading.line, shown)
}

#[test]
fn questions_of_a_line() {
    let cases = [
        ("C 1 1 0", 2, 1, "C 1 1 0"),
        ("/#x/C 1 1 0/\r/", 2, 4, "\r"),
        ("#/#\u{7f}/", 2, 2, "#\u{7f}"),
        ("R 1 1/", 3, 1, "R 1 1"),
        ("CC 1 1 0/", 3, 1, "CC 1 1 0"),
        (" 1 1 0/", 3, 1, " 1 1 0"),
        ("C 2 1 0/R 1 1/C 2 1 0/", 3, 3, "C 2 1 0"),
        ("C 2 1 0/E/", 3, 2, "E"),
        ("C 2 1 0/X 1/", 3, 2, "X 1"),
        ("C/", 4, 1, "C"),
        ("C 1 1/", 4, 1, "C 1 1"),
        ("C 1 1 0 /", 4, 1, "C 1 1 0 "),
        ("C 1 1 000000/", 4, 1, "C 1 1 000000"),
        ("C 1 1 +0/", 4, 1, "C 1 1 +0"),
        ("C 0 1 0/", 5, 1, "C 0 1 0"),
        ("C 33 1 0/", 5, 1, "C 33 1 0"),
        ("C 32 17 0/", 5, 1, "C 32 17 0"),
        ("C 32 16 33/", 5, 1, "C 32 16 33"),
        ("C 1 1 0/C 33 1 0/", 5, 2, "C 33 1 0"),
        ("C 1 1 0/C 32 16 32/", 6, 2, "C 32 16 32"),
        ("C 1 1 0/R 2 1/", 5, 2, "R 2 1"),
        ("C 1 1 0/R 1 1/R 1 0/", 5, 3, "R 1 0"),
        ("C 1 1 0/R 1 1/R 1 2/", 6, 3, "R 1 2"),
        ("C 1 1 0/T 1 1/S 1 1 1 1/", 5, 3, "S 1 1 1 1"),
        ("C 1 1 0/R 1 1/S 1 1 1 1/", 5, 3, "S 1 1 1 1"),
        ("C 1 1 0/R 1 1/T 1 1/S 1 1 1 2/", 5, 4, "S 1 1 1 2"),
        ("C 1 1 1/B 1 0/B 1 65535/", 6, 3, "B 1 65535"),
        ("C 1 1 1/B 1 65536/", 5, 2, "B 1 65536"),
        ("C 1 1 0/B 1 0/", 5, 2, "B 1 0"),
    ];
    for (text, number, line, shown) in cases {
        let expected = (number, line, shown.to_string());
        assert_eq!(answer(&tabbed(text)), expected, "{text}");
    }
}

#[test]
fn question_7() {
    let whole = "C 2 1 1/R 1 1/R 2 1/T 1 2/S 1 1 1 1/S 1 2 2 1/B 1 0/A 1 1 1 255/K 1 1/K 2 1/";
    assert_eq!(answer(&tabbed(whole)).0, 0);
    for dropped in ["S 1 1 1 1/", "B 1 0/", "K 2 1/"] {
        let text = whole.replace(dropped, "");
        assert_eq!(answer(&tabbed(&text)), (7, 10, String::new()), "{dropped}");
    }
    let unranked = whole
        .replace("K 1 1/K 2 1/", "")
        .replace("A 1 1 1 255/", "");
    assert_eq!(answer(&tabbed(&unranked)).0, 0);
    assert_eq!(answer(b"#\n\n"), (7, 3, String::new()));
}

#[test]
fn longest_text() {
    let mut text = tabbed("C 1 1 0/R 1 1/T 1 1/S 1 1 1 1/#");
    text.resize(65_535, b'x');
    text.push(b'\n');
    assert_eq!(answer(&text), (0, 0, String::new()));
    text.push(b'\n');
    assert_eq!(answer(&text), (1, 0, String::new()));
    assert_eq!(run(&text), tabbed("P 1 0/"));
}

#[test]
fn event_lines() {
    let plan = "C 1 1 0/R 1 9/T 1 1/S 1 1 1 1/";
    let cases = [
        ("E/L 1 1/", "1 0 0 1/"),
        ("E/#\r\u{e9}//L 00001 00001/E/", "1 0 0 1/2 41 0 1/"),
        ("E/#", "1 41 0 0/"),
        ("E/L 1 1", "1 41 0 0/"),
        (
            "E/L 1/A 1 1/U/l 1 1/L 000001 1/",
            "1 41 0 0/2 41 0 0/3 41 0 0/4 41 0 0/5 41 0 0/",
        ),
        (
            "E/X/X /X 1 1/X 1 /X 000001/X 100000/x 1/X 1",
            "1 41 0 0/2 41 0 0/3 41 0 0/4 41 0 0/5 41 0 0/6 41 0 0/7 41 0 0/8 41 0 0/",
        ),
        (
            "E/L 1 1/X 1 1/X 00001/X 00000/X 65536/X 65535/",
            "1 0 0 1/2 41 0 1/3 0 0 0/4 13 0 0/5 13 0 0/6 14 0 0/",
        ),
        ("E/U 99999/L 1 99999/L 1 1 /", "1 13 0 0/2 15 0 0/3 41 0 0/"),
        ("", ""),
    ];
    for (events, printed) in cases {
        let input = tabbed(&format!("{plan}{events}"));
        let expected = tabbed(&format!("P 0 0/Q 21 0 0/{printed}"));
        assert_eq!(run(&input), expected, "{events}");
    }
    assert_eq!(
        run(&tabbed("E/L 1 1/x/X 0/X/")),
        tabbed("P 7 1/1 11 0 0/2 41 0 0/3 11 0 0/4 41 0 0/")
    );
    assert_eq!(run(&tabbed("E\r/L 1 1/")), tabbed("P 2 1/"));
    assert_eq!(run(b"E"), tabbed("P 2 1/"));
}
