//! The command `jundefola`, run as a person would.

use std::fs;
use std::io::Write;
use std::path::PathBuf;
use std::process::{Command, Output, Stdio};

/// A folder of one test's own, removed when the test ends well.
struct Folder(PathBuf);

impl Folder {
    fn new(test: &str) -> Folder {
        let path = PathBuf::from(env!("CARGO_TARGET_TMPDIR")).join(test);
        let _ = fs::remove_dir_all(&path);
        fs::create_dir_all(&path).unwrap();
        Folder(path)
    }

    fn write(&self, name: &str, content: impl AsRef<[u8]>) {
        fs::write(self.0.join(name), content).unwrap();
    }

    fn read(&self, name: &str) -> Vec<u8> {
        fs::read(self.0.join(name)).unwrap()
    }

    /// The names of all files, sorted.
    fn names(&self) -> Vec<String> {
        let entries = fs::read_dir(&self.0).unwrap();
        let mut names: Vec<String> = entries
            .map(|entry| entry.unwrap().file_name().into_string().unwrap())
            .collect();
        names.sort();
        names
    }

    /// Runs the command in the folder, with this on standard input.
    fn run_on(&self, arguments: &[&str], input: &str) -> Outcome {
        let mut child = Command::new(env!("CARGO_BIN_EXE_jundefola"))
            .args(arguments)
            .current_dir(&self.0)
            .stdin(Stdio::piped())
            .stdout(Stdio::piped())
            .stderr(Stdio::piped())
            .spawn()
            .unwrap();
        let mut stdin = child.stdin.take().unwrap();
        // a command that does not read its input may close it early
        let _ = stdin.write_all(input.as_bytes());
        drop(stdin);
        Outcome::from(child.wait_with_output().unwrap())
    }

    fn run(&self, arguments: &[&str]) -> Outcome {
        self.run_on(arguments, "")
    }

    /// A folder with the card of a listing.
    fn with_card(test: &str, listing: &str) -> Folder {
        let folder = Folder::new(test);
        folder.write("listing", listing);
        let made = folder.run(&["make", "listing", "card"]);
        assert_eq!(made.status, 0, "{}", made.errors);
        folder
    }
}

impl Drop for Folder {
    fn drop(&mut self) {
        if !std::thread::panicking() {
            fs::remove_dir_all(&self.0).unwrap();
        }
    }
}

/// What a run of the command printed, and its exit status.
struct Outcome {
    status: i32,
    printed: String,
    errors: String,
}

impl From<Output> for Outcome {
    fn from(output: Output) -> Outcome {
        Outcome {
            status: output.status.code().unwrap(),
            printed: String::from_utf8(output.stdout).unwrap(),
            errors: String::from_utf8(output.stderr).unwrap(),
        }
    }
}

const TWO_WORDS: &str = "\
# torque and bolt
pages 44
3:8 4:0 7:5 13:2 14:9 15:2,5 21:1 43:0
4:1 15:3,6
";

#[test]
fn make_of_show_is_the_same_card() {
    let listing = "# header\n\npages 40 # leaves\n0:1,5 39:0 # first\n\n  \n# none\n7:3";
    let folder = Folder::with_card("make_of_show", listing);
    let shown = folder.run(&["show", "card"]);
    let expected = "pages 40 # edition 2\n0:1,5 39:0 # runs\n\n\n7:3 # runs\n";
    assert_eq!(shown.printed, expected);
    folder.write("shown", &shown.printed);
    let made = folder.run(&["make", "shown", "again"]);
    assert_eq!(
        made.printed,
        "again: 4 words, 40 pages, 267 bytes, edition 2\n"
    );
    assert_eq!(folder.read("again"), folder.read("card"));
}

#[test]
fn the_smallest_card() {
    let folder = Folder::with_card("smallest", "pages 0\n");
    let checked = folder.run(&["check", "card"]);
    assert_eq!(
        checked.printed,
        "card: accepted: 0 words, 0 pages, 11 bytes, edition 2\n"
    );
    let shown = folder.run(&["show", "card"]);
    assert_eq!(shown.printed, "pages 0 # edition 2\n");
}

/// Word 0 is on every page, word 1 on one of four and word 3 on two of four; word 2 is on none.
const DENSE_WORDS: &str = "pages 4\n0:1 1:0 2:10 3:2\n2:1\n\n0:3,9 2:8\n";

#[test]
fn a_card_of_edition_2_has_bitmaps() {
    let folder = Folder::with_card("edition_2", DENSE_WORDS);
    let checked = folder.run(&["check", "card"]);
    let expected = "card: accepted: 4 words, 4 pages, 291 bytes, edition 2\n\
                    pages as a bitmap: words 0 3\n\
                    pages as runs: word 1\n\
                    on no page: word 2\n";
    assert_eq!((checked.printed.as_str(), checked.status), (expected, 0));
    let shown = folder.run(&["show", "card"]);
    let expected =
        "pages 4 # edition 2\n0:1 1:0 2:10 3:2 # bitmap\n2:1 # runs\n\n0:3,9 2:8 # bitmap\n";
    assert_eq!(shown.printed, expected);
    folder.write("shown", &shown.printed);
    for edition in [&[][..], &["--edition", "2"]] {
        let made = folder.run(&[&["make", "shown", "again"], edition].concat());
        assert_eq!(made.status, 0);
        assert_eq!(folder.read("again"), folder.read("card"));
    }
}

#[test]
fn a_card_of_edition_1_has_runs() {
    let folder = Folder::with_card("edition_1", DENSE_WORDS);
    for arguments in [
        ["--edition", "1", "listing", "old"],
        ["listing", "--edition", "1", "old"],
        ["listing", "old", "--edition", "1"],
    ] {
        let made = folder.run(&[&["make"], &arguments[..]].concat());
        let expected = "old: 4 words, 4 pages, 299 bytes, edition 1\n";
        assert_eq!((made.printed.as_str(), made.status), (expected, 0));
    }
    assert_eq!((folder.read("old")[4], folder.read("card")[4]), (1, 2));
    let checked = folder.run(&["check", "old"]);
    let expected = "old: accepted: 4 words, 4 pages, 299 bytes, edition 1\n\
                    pages as runs: words 0-1 3\n\
                    on no page: word 2\n";
    assert_eq!(checked.printed, expected);
    let shown = folder.run(&["show", "old"]).printed;
    assert!(shown.starts_with("pages 4 # edition 1\n0:1 1:0 2:10 3:2 # runs\n"));
    folder.write("shown", &shown);
    let made = folder.run(&["make", "--edition", "1", "shown", "again"]);
    assert_eq!(made.status, 0);
    assert_eq!(folder.read("again"), folder.read("old"));
    for card in ["card", "old"] {
        let asked = folder.run(&["ask", card, "common 0 3", "at 3 1", "phrase 3 _ 0"]);
        let expected = "common 0 3: pages 0 2 (5 seeks, 5 looks)\n\
                        at 3 1: page 2, rank 1; 1 page lies below 1\n\
                        phrase 3 _ 0: page 2 (1 start)\n";
        assert_eq!(asked.printed, expected);
    }
}

#[test]
fn an_edition_that_is_none_is_told() {
    let folder = Folder::new("no_edition");
    folder.write("listing", DENSE_WORDS);
    for edition in ["0", "3", "-1", "two", "", "4294967297"] {
        let made = folder.run(&["make", "--edition", edition, "listing", "card"]);
        let expected = format!("jundefola: `--edition {edition}`: the editions are 1 and 2\n");
        assert_eq!((made.errors, made.status), (expected, 1));
        assert_eq!(folder.names(), ["listing"]);
    }
}

#[test]
fn forms_in_the_wrong_place_are_told() {
    let folder = Folder::with_card("wrong_form", DENSE_WORDS);
    let card = folder.read("card");
    let told =
        "refused 3: the version is not known, or a list has a form that does not belong there";
    // the card's version, and that of the pages of term 0
    for (at, version, place) in [
        (4, 1, "in term 0, the list of pages"),
        (20, 1, "in term 0, the list of pages"),
        (20, 3, "in term 0, the list of pages"),
        (4, 3, "in the card's header"),
    ] {
        let mut damaged = card.clone();
        damaged[at] = version;
        folder.write("damaged", damaged);
        let checked = folder.run(&["check", "damaged"]);
        let expected = format!("damaged: {told} ({place})\n");
        assert_eq!((checked.printed, checked.status), (expected, 1));
    }
}

#[test]
fn questions_among_the_arguments() {
    let folder = Folder::with_card("arguments", TWO_WORDS);
    let quoted = folder.run(&["ask", "card", "common 0 1", "phrase 0 1"]);
    let expected = "common 0 1: pages 4 15 (5 seeks, 5 looks)\n\
                    phrase 0 1: pages 4 (1 start), 15 (2 starts)\n";
    assert_eq!(quoted.printed, expected);
    let plain = folder.run(&["ask", "card", "common", "0", "1", "phrase", "0", "1"]);
    assert_eq!(plain.printed, expected);
}

#[test]
fn phrases_with_dropped_words() {
    let folder = Folder::with_card(
        "dropped",
        "pages 9\ntorque 3:8 4:0,31\nbolt 3:9 4:2,35\n7:6\n",
    );
    let input = "phrase 0 1\nphrase 0 _ 1\nphrase 0 _ _ _ 1\nphrase 0 _ _ 1\nphrase 1 _ _ _ 1\n";
    let asked = folder.run_on(&["ask", "card"], input);
    let expected = "phrase 0 1: page 3 (1 start)\n\
                    phrase 0 _ 1: page 4 (1 start)\n\
                    phrase 0 _ _ _ 1: page 4 (1 start)\n\
                    phrase 0 _ _ 1: no page\n\
                    phrase 1 _ _ _ 1: no page\n";
    assert_eq!((asked.printed.as_str(), asked.status), (expected, 0));
    let named = "phrase torque _ bolt: page 4 (1 start)\n";
    let split = ["phrase", "torque", "_", "bolt"];
    for question in [
        &["phrase torque _ bolt"][..],
        &split,
        &["phrase torque", "_ 1"],
    ] {
        let arguments = [&["ask", "--names", "listing", "card"], question].concat();
        assert_eq!(folder.run(&arguments).printed, named);
    }
}

#[test]
fn phrases_that_are_none_are_told() {
    let folder = Folder::with_card("no_phrases", TWO_WORDS);
    let between =
        "a phrase begins and ends with a word; `_` is a dropped word between two others\n";
    for question in ["phrase _", "phrase _ 0", "phrase 0 _", "phrase 0 1 _ _"] {
        let asked = folder.run(&["ask", "card", "rank 0 0", question]);
        assert_eq!(asked.errors, format!("jundefola: question 2: {between}"));
        assert_eq!((asked.status, asked.printed.as_str()), (1, ""));
    }
    let far = |dropped: usize| format!("phrase 0{} 1", " _".repeat(dropped));
    assert_eq!(folder.run(&["ask", "card", &far(254)]).status, 0);
    for question in [
        far(255),
        "phrase".into(),
        "phrase 0 1 0 1 0 1 0 1 _ 0".into(),
    ] {
        let asked = folder.run_on(&["ask", "card"], &question);
        let expected = format!("jundefola: standard input:1: `{question}`: refused 8: ");
        assert!(asked.errors.starts_with(&expected), "{}", asked.errors);
        assert_eq!((asked.status, asked.printed.as_str()), (1, ""));
    }
}

#[test]
fn questions_on_standard_input() {
    let folder = Folder::with_card("input", TWO_WORDS);
    let input = "# ranks\nrank 0 5\nrank 0 8\n\nat 0 16 # and up\nat 0 44\nphrase 1 0\nrank 1 0";
    let asked = folder.run_on(&["ask", "card"], input);
    let expected = "rank 0 5: page 15\n\
                    rank 0 8: no page\n\
                    at 0 16: page 21, rank 6; 6 pages lie below 16\n\
                    at 0 44: no page; 8 pages lie below 44\n\
                    phrase 1 0: no page\n\
                    rank 1 0: page 4\n";
    assert_eq!(asked.printed, expected);
    assert_eq!(asked.status, 0);
    assert_eq!(folder.run_on(&["ask", "card"], "").printed, "");
}

#[test]
fn bounds_tell_how_many_pages_lie_below() {
    let folder = Folder::with_card("bounds", "pages 44\n4:1 15:3,6\n7:0\n\n");
    let input = "at 0 0\nat 0 5\nat 0 15\nat 0 16\nat 0 4294967295\nat 1 8\nat 2 0\nat 2 44\n";
    let asked = folder.run_on(&["ask", "card"], input);
    let expected = "at 0 0: page 4, rank 0; no page lies below 0\n\
                    at 0 5: page 15, rank 1; 1 page lies below 5\n\
                    at 0 15: page 15, rank 1; 1 page lies below 15\n\
                    at 0 16: no page; 2 pages lie below 16\n\
                    at 0 4294967295: no page; 2 pages lie below 4294967295\n\
                    at 1 8: no page; 1 page lies below 8\n\
                    at 2 0: no page; the word is on none\n\
                    at 2 44: no page; the word is on none\n";
    assert_eq!((asked.printed.as_str(), asked.status), (expected, 0));
}

#[test]
fn bad_questions_are_told_with_their_place() {
    let folder = Folder::with_card("bad_questions", TWO_WORDS);
    let asked = folder.run_on(&["ask", "card"], "rank 0 5\n\ncommon 0 2\nrank 9 9\n");
    assert_eq!(asked.status, 1);
    assert_eq!(asked.printed, "");
    assert!(asked
        .errors
        .starts_with("jundefola: standard input:3: `common 0 2`: refused 8: "));
    let asked = folder.run_on(&["ask", "card"], "rank 0\n");
    let expected = "jundefola: standard input:1: this has to be `rank TERM RANK`\n";
    assert_eq!(asked.errors, expected);
    let asked = folder.run(&["ask", "card", "rank 0 1", "find 3"]);
    assert!(asked
        .errors
        .starts_with("jundefola: question 2: `find` is no question"));
    assert_eq!(asked.status, 1);
}

const NAMED_WORDS: &str = "\
pages 44
torque 3:8 4:0 7:5 13:2 14:9 15:2,5 21:1 43:0
common 4:1 15:3,6
7:6

warranty
";

#[test]
fn names_change_no_card() {
    let folder = Folder::with_card("names_no_card", NAMED_WORDS);
    let shown = folder.run(&["show", "card"]).printed;
    assert_eq!(
        shown,
        "pages 44 # edition 2\n3:8 4:0 7:5 13:2 14:9 15:2,5 21:1 43:0 # runs\n\
         4:1 15:3,6 # runs\n7:6 # runs\n\n\n"
    );
    folder.write("unnamed", shown);
    assert_eq!(folder.run(&["make", "unnamed", "again"]).status, 0);
    assert_eq!(folder.read("again"), folder.read("card"));
}

#[test]
fn questions_by_name() {
    let folder = Folder::with_card("by_name", NAMED_WORDS);
    let input = "rank torque 5\nat torque 16\ncommon torque common # both\nphrase 0 2\ncommon warranty\nat 3 0\n";
    let asked = folder.run_on(&["ask", "--names", "listing", "card"], input);
    let expected = "rank torque 5: page 15\n\
                    at torque 16: page 21, rank 6; 6 pages lie below 16\n\
                    common torque common: pages 4 15 (5 seeks, 5 looks)\n\
                    phrase torque 2: page 7 (1 start)\n\
                    common warranty: no page (1 seek, 0 looks)\n\
                    at 3 0: no page; the word is on none\n";
    assert_eq!(asked.printed, expected);
    assert_eq!((asked.status, asked.errors.as_str()), (0, ""));
}

#[test]
fn questions_by_name_among_the_arguments() {
    let folder = Folder::with_card("by_name_arguments", NAMED_WORDS);
    let expected =
        "rank torque 0: page 3\nphrase torque common: pages 4 (1 start), 15 (2 starts)\n";
    let quoted = ["rank torque 0", "phrase torque common"];
    let mixed = ["rank", "torque", "0", "phrase", "torque", "1"];
    for questions in [&quoted[..], &mixed[..]] {
        let arguments = [&["ask", "card", "--names", "listing"], questions].concat();
        assert_eq!(folder.run(&arguments).printed, expected);
        let arguments = [&["ask", "card"], questions, &["--names", "listing"]].concat();
        assert_eq!(folder.run(&arguments).printed, expected);
    }
}

#[test]
fn names_that_are_not_there_are_told() {
    let folder = Folder::with_card("unknown_names", NAMED_WORDS);
    let asked = folder.run(&["ask", "--names", "listing", "card", "common torque nut"]);
    let expected = "jundefola: question 1: no word is named `nut` in listing, which has 3 names\n";
    assert_eq!((asked.errors.as_str(), asked.status), (expected, 1));
    let expected = "`torque` is not a number from 0 to 4294967295; \
                    a word is taken by its name with `--names LISTING`\n";
    let asked = folder.run(&["ask", "card", "rank", "torque", "5"]);
    assert_eq!(asked.errors, format!("jundefola: question 1: {expected}"));
    let asked = folder.run_on(&["ask", "card"], "rank 0 1\ncommon 0 torque\n");
    assert_eq!(
        asked.errors,
        format!("jundefola: standard input:2: {expected}")
    );
    assert_eq!((asked.status, asked.printed.as_str()), (1, ""));
}

#[test]
fn refused_questions_name_their_words() {
    let folder = Folder::with_card("named_question", NAMED_WORDS);
    let asked = folder.run(&["ask", "--names", "listing", "card", "phrase 0 5 1"]);
    assert!(asked
        .errors
        .starts_with("jundefola: question 1: `phrase torque 5 common`: refused 8: "));
    assert_eq!(asked.status, 1);
}

#[test]
fn damaged_cards_are_told_with_the_name_of_the_word() {
    let folder = Folder::with_card("named_damage", "pages 44\nbolt 4:1\ntorque 3:8 4:0,7\n");
    let mut card = folder.read("card");
    let last = card.len() - 1;
    card[last] ^= 1;
    folder.write("card", &card);
    let asked = folder.run(&["ask", "--names", "listing", "card", "rank bolt 0"]);
    let expected =
        "jundefola: card: refused 6: the runs or pointers, or the bitmap or its numbers, are not those of a valid list \
                    (in term 1, `torque`, the list of positions)\n";
    assert_eq!((asked.errors.as_str(), asked.status), (expected, 1));
    folder.write("card", &card[..5]);
    let asked = folder.run(&["ask", "--names", "listing", "card", "rank bolt 0"]);
    let expected = "jundefola: card: refused 1: ";
    assert!(asked.errors.starts_with(expected), "{}", asked.errors);
}

#[test]
fn a_listing_that_does_not_fit_the_card_is_told() {
    let folder = Folder::with_card("unfit", NAMED_WORDS);
    for (listing, size) in [
        ("pages 44\ntorque 3:8\n", "1 word, 44 pages"),
        ("pages 44\n\n\n\n\n\n\n", "6 words, 44 pages"),
        ("pages 1\n\n\n\n\n\n", "5 words, 1 page"),
    ] {
        folder.write("other", listing);
        let asked = folder.run(&["ask", "card", "--names", "other", "rank 0 0"]);
        let expected =
            format!("jundefola: other: this listing has {size}, and card has 5 words, 44 pages\n");
        assert_eq!((asked.errors, asked.status), (expected, 1));
    }
    let asked = folder.run(&["ask", "card", "--names", "nowhere", "rank 0 0"]);
    assert!(asked.errors.starts_with("jundefola: nowhere: "));
}

#[test]
fn screens_go_straight_into_a_pipe() {
    let folder = Folder::with_card("screens", TWO_WORDS);
    let shown = folder.run_on(&["screens", "--rows", "3", "card", "0"], "q\n");
    let expected = "from 0: pages 3 4 7 (3 seeks, 3 looks)\n\
                    from 8: pages 13 14 15 (3 seeks, 3 looks)\n\
                    from 16: pages 21 43 (3 seeks, 2 looks)\n";
    assert_eq!((shown.printed.as_str(), shown.status), (expected, 0));
    assert_eq!(shown.errors, "");
    let usual = folder.run(&["screens", "card", "0", "1"]);
    assert_eq!(usual.printed, "from 0: pages 4 15 (5 seeks, 5 looks)\n");
}

#[test]
fn screens_start_at_a_page_and_take_names() {
    let folder = Folder::with_card("screens_from", NAMED_WORDS);
    let just_full = "from 4: page 4 (2 seeks, 2 looks)\n\
                     from 5: page 15 (2 seeks, 2 looks)\n\
                     from 16: no page (1 seek, 1 look)\n";
    for arguments in [
        "screens --rows 1 --from 4 card 0 1",
        "screens card --from 4 0 1 --rows 1",
        "screens --names listing --rows 1 --from 4 card torque common",
        "screens card torque --names listing 1 --from 4 --rows 1",
    ] {
        let arguments: Vec<&str> = arguments.split(' ').collect();
        assert_eq!(folder.run(&arguments).printed, just_full);
    }
    let past = folder.run(&["screens", "--from", "4294967295", "card", "0 1"]);
    let expected = "from 4294967295: no page (1 seek, 0 looks)\n";
    assert_eq!((past.printed.as_str(), past.status), (expected, 0));
    let nowhere = folder.run(&["screens", "--names", "listing", "card", "warranty"]);
    assert_eq!(nowhere.printed, "from 0: no page (1 seek, 0 looks)\n");
}

#[test]
fn refused_screens_are_told() {
    let folder = Folder::with_card("refused_screens", NAMED_WORDS);
    let wrong = "refused 8: the question has a wrong form or names a term that is not there";
    for (arguments, place, more) in [
        (
            "--rows 0 card 0",
            "--rows 0",
            " (a screen has 1 to 64 rows)",
        ),
        (
            "--rows 65 card 9",
            "--rows 65",
            " (a screen has 1 to 64 rows)",
        ),
        ("card", "screens", ""),
        ("card 0 5", "screens 0 5", ""),
        ("card 0 0 0 0 0 0 0 0 0", "screens 0 0 0 0 0 0 0 0 0", ""),
        ("--names listing card torque 5", "screens torque 5", ""),
    ] {
        let arguments: Vec<&str> = ["screens"]
            .into_iter()
            .chain(arguments.split(' '))
            .collect();
        let shown = folder.run(&arguments);
        let expected = format!("jundefola: `{place}`: {wrong}{more}\n");
        assert_eq!((shown.errors, shown.status), (expected, 1));
        assert_eq!(shown.printed, "");
    }
    let unknown = folder.run(&["screens", "--names", "listing", "card", "nut"]);
    let expected = "jundefola: no word is named `nut` in listing, which has 3 names\n";
    assert_eq!((unknown.errors.as_str(), unknown.status), (expected, 1));
}

#[test]
fn bad_names_in_a_listing_are_told_with_their_lines() {
    let cases = [
        (
            "pages 4\nbolt 0:1\n# M8\nbolt\n",
            "listing:4: the name `bolt` is given twice, at line 2 and here\n",
        ),
        (
            "pages 4\n17 0:1\n",
            "listing:2: `17` is not of the form page:position,position, and is no name: ",
        ),
        ("pages 4\n_ 0:1\n", "listing:2: `_` is not of the form "),
        (
            "pages 4\na b 0:1\n",
            "listing:2: `a`: `b` is not of the form ",
        ),
        (
            "pages 4\n0:1 bolt\n",
            "listing:2: `bolt` is not of the form ",
        ),
        (
            "pages 4\nbolt 0:16777216\n",
            "listing:2: the positions of `bolt`: refused 4: ",
        ),
    ];
    each_listing_is_refused("bad_names", &cases);
}

/// Each listing is refused with the text beside it, and leaves nothing.
fn each_listing_is_refused(name: &str, cases: &[(&str, &str)]) {
    let folder = Folder::new(name);
    for (listing, expected) in cases {
        folder.write("listing", listing);
        let made = folder.run(&["make", "listing", "card"]);
        let told = made.errors.strip_prefix("jundefola: ").unwrap();
        assert!(told.starts_with(expected), "{listing:?}: {told}");
        assert_eq!(made.status, 1);
        assert_eq!(folder.names(), ["listing"]);
    }
}

#[test]
fn bad_listings_are_told_with_their_line_and_leave_nothing() {
    let cases = [
        ("", "listing:1: the first line has to be `pages N`"),
        (
            "# only\n4:1\n",
            "listing:2: the first line has to be `pages N`",
        ),
        ("pages 16777217\n", "listing:1: 16777217 pages: refused 4: "),
        ("pages 4\n0:1\n4:1\n", "listing:3: page 4 is not below 4"),
        ("pages 4\n0:1 0:2\n", "listing:2: page 0 comes after page 0"),
        (
            "pages 4\n0:16777216\n",
            "listing:2: the positions of this word: refused 4: ",
        ),
        ("pages 4\n\u{e9}:0\n", "listing:2: `\u{e9}` is not a number"),
    ];
    each_listing_is_refused("bad_listings", &cases);
}

#[test]
fn bytes_that_are_no_text_are_told_with_their_line() {
    let folder = Folder::new("no_text");
    folder.write("listing", b"pages 4\n0:1\n\xFF:1\n");
    let made = folder.run(&["make", "listing", "card"]);
    assert_eq!(
        made.errors,
        "jundefola: listing:3: this is not text in UTF-8\n"
    );
}

#[test]
fn too_many_words_are_told() {
    let folder = Folder::new("too_many");
    folder.write("listing", format!("pages 1\n{}", "\n".repeat(4097)));
    let made = folder.run(&["make", "listing", "card"]);
    assert!(made
        .errors
        .starts_with("jundefola: listing: 4097 words: refused 4: "));
    assert_eq!(folder.names(), ["listing"]);
}

#[test]
fn a_failed_make_leaves_the_old_card() {
    let folder = Folder::with_card("old_card", TWO_WORDS);
    let card = folder.read("card");
    folder.write("listing", "pages 4\n9:0\n");
    assert_eq!(folder.run(&["make", "listing", "card"]).status, 1);
    assert_eq!(folder.read("card"), card);
    assert_eq!(folder.names(), ["card", "listing"]);
}

#[test]
fn a_card_that_cannot_be_written_is_told() {
    let folder = Folder::new("no_target");
    folder.write("listing", TWO_WORDS);
    fs::create_dir(folder.0.join("taken")).unwrap();
    let made = folder.run(&["make", "listing", "taken"]);
    assert_eq!(made.errors, "jundefola: taken: this is not a plain file\n");
    let made = folder.run(&["make", "listing", "nowhere/card"]);
    assert!(made.errors.starts_with("jundefola: nowhere/card: "));
    assert_eq!(made.status, 1);
    assert_eq!(folder.names(), ["listing", "taken"]);
}

#[test]
fn damaged_cards_are_told_with_their_place() {
    let folder = Folder::with_card("damaged", TWO_WORDS);
    let mut card = folder.read("card");
    let last = card.len() - 1;
    card[last] ^= 1;
    folder.write("card", &card);
    let told = "card: refused 6: the runs or pointers, or the bitmap or its numbers, are not those of a valid list \
                (in term 1, the list of positions)\n";
    let checked = folder.run(&["check", "card"]);
    assert_eq!((checked.printed.as_str(), checked.status), (told, 1));
    for arguments in [
        &["show", "card"][..],
        &["ask", "card", "rank 0 0"],
        &["screens", "card", "0"],
        &["screens", "--rows", "0", "card"],
    ] {
        let refused = folder.run(arguments);
        assert_eq!((refused.printed.as_str(), refused.status), ("", 1));
        assert_eq!(refused.errors, format!("jundefola: {told}"));
    }
}

#[test]
fn files_that_are_not_there_are_told() {
    let folder = Folder::new("not_there");
    for command in ["check", "show", "ask", "screens"] {
        let run = folder.run(&[command, "card"]);
        assert!(run.errors.starts_with("jundefola: card: "), "{command}");
        assert_eq!(run.status, 1);
    }
}

#[test]
fn wrong_usage_is_told() {
    let folder = Folder::new("usage");
    for arguments in [
        &[][..],
        &["make", "listing"],
        &["make", "--edition", "1", "listing"],
        &["make", "listing", "card", "--edition"],
        &[
            "make",
            "--edition",
            "1",
            "listing",
            "card",
            "--edition",
            "1",
        ],
        &["check"],
        &["press", "card"],
        &["help", "me"],
        &["ask"],
        &["ask", "--names", "listing"],
        &["ask", "card", "--names"],
        &["screens"],
        &["screens", "--rows", "3"],
        &["screens", "card", "0", "--rows"],
        &["screens", "card", "0", "--rows", "-1"],
        &["screens", "card", "0", "--rows", "ten"],
        &["screens", "card", "0", "--from", "4294967296"],
        &["screens", "--from", "1", "card", "0", "--from", "1"],
    ] {
        let run = folder.run(arguments);
        assert!(run.errors.starts_with("usage: jundefola make LISTING CARD"));
        assert_eq!((run.status, run.printed.as_str()), (2, ""));
    }
    let help = folder.run(&["--help"]);
    assert!(help.printed.starts_with("usage: "));
    assert_eq!(help.status, 0);
}
