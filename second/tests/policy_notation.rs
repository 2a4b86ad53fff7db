//! The text notation of policies: what a line may say, faults with their lines, and the way back from any bytes.

use second::damage::damage_policy;
use second::policy::show::show;
use second::policy::text::make;
use second::policy::{random, record};
use second::random as snapshots;

/// What `second make-policy` says of a text that it does not take.
fn fault(notation: &str) -> String {
    make(notation).and_then(|made| made.judged()).expect_err("the notation has a fault").to_string()
}

fn bytes(notation: &str) -> Vec<u8> {
    make(notation).and_then(|made| made.judged()).expect("the notation is sound")
}

#[test]
fn each_line_makes_its_record() {
    let session = [1, 3, 192, 0, 2, 1];
    let with = |line: &str, record: &[u8]| {
        let made = bytes(&format!("session 3 peer 192.0.2.1  # of router 3\n{line}\n"));
        assert_eq!(made, [&session[..], record, &[6, 0, 0, 0, 2]].concat(), "{line}");
    };
    with("med 0", &[5]);
    with("prefix 10.1.0.0/16 preference 65536", &[2, 10, 1, 0, 0, 16, 0, 1, 0, 0]);
    with("as 4294967294 preference 1", &[3, 255, 255, 255, 254, 0, 0, 0, 1]);
    with("  all  preference\t4294967295 ", &[4, 255, 255, 255, 255]);
    assert_eq!(bytes("session 3 peer 3221225985"), [&session[..], &[6, 0, 0, 0, 1]].concat());
}

#[test]
fn faults_name_their_line() {
    let in_session = |line: &str| fault(&format!("session 0 peer 1\n\n{line}"));
    for line in ["prefix 10.0.0.0/8", "prefix", "prefix 10.0.0.0 preference 1", "prefix 10.0.0.0/8 preference"] {
        assert_eq!(in_session(line), "line 3: expected 'prefix A.B.C.D/LENGTH preference N'");
    }
    for line in ["as", "as 1", "as 1 preference", "as 1 preference 2 3", "as 1 path 1 preference 2"] {
        assert_eq!(in_session(line), "line 3: expected 'as N preference N'");
    }
    for line in ["all", "all 90", "all preference", "all preference 90 preference 90"] {
        assert_eq!(in_session(line), "line 3: expected 'all preference N'");
    }
    for line in ["med", "med 5", "med absent", "med 0 0", "med 00"] {
        assert_eq!(in_session(line), "line 3: expected 'med 0'");
    }
    for line in ["session", "session 1", "session 1 192.0.2.1", "session 1 peer 1 2", "session 1 peer"] {
        assert_eq!(in_session(line), "line 3: expected 'session ROUTER peer ADDRESS'");
    }
    for (line, what) in [
        ("session 256 peer 1", "'256' is not a number from 0 to 255"),
        ("session 0 peer 192.0.2", "'192.0.2' is not an address such as 192.0.2.1"),
        ("as 4294967296 preference 1", "'4294967296' is not a number from 0 to 4294967295"),
        ("all preference -1", "'-1' is not a number from 0 to 4294967295"),
        ("prefix 10.0.0.0/256 preference 1", "'256' is not a number from 0 to 255"),
        ("route 0 as 1", "'route' begins no line"),
        ("preference 90", "'preference' begins no line"),
        ("raw", "expected 'raw' and one byte or more"),
        ("end", "expected 'end RECORDS' or 'end none'"),
    ] {
        assert_eq!(in_session(line), format!("line 3: {what}"));
    }
}

/// An empty file is no policy: that no route is touched by name has to be said.
#[test]
fn a_text_without_sessions_says_so() {
    for notation in ["", "\n", "# nothing yet\n", "end none"] {
        assert_eq!(fault(notation), "line 1: no session is named; a policy without any is written 'end 0'");
        assert_eq!(make(notation).expect("encodable").bytes, []);
    }
    assert_eq!(bytes("end 0"), [6, 0, 0, 0, 0]);
}

#[test]
fn a_refused_record_is_traced_to_its_line() {
    for (notation, wanted) in [
        ("# clauses first\nall preference 1", "2: the policy would be refused 4 0 (Place)"),
        ("session 0 peer 0", "1: the policy would be refused 5 0 (Field)"),
        ("session 0 peer 1\nmed 0\n\nmed 0", "4: the policy would be refused 4 7 (Place)"),
        ("session 0 peer 1\nas 0 preference 1\nall preference 1", "2: the policy would be refused 5 6 (Field)"),
        ("session 0 peer 1\nprefix 10.0.0.1/24 preference 1", "2: the policy would be refused 5 6 (Field)"),
        ("session 0 peer 2\nsession 0 peer 1\nmed 0", "2: the policy would be refused 6 6 (Order)"),
        ("session 0 peer 1\nend 3\n", "2: the policy would be refused 9 6 (Count)"),
        ("session 0 peer 1\n\nend none\n", "3: the policy would be refused 2 6 (Cut)"),
        ("session 0 peer 1\nend 1\nraw 04", "3: the policy would be refused 10 11 (Tail)"),
        ("raw 07", "1: the policy would be refused 3 0 (Kind)"),
    ] {
        assert_eq!(fault(notation), format!("line {wanted}"));
    }
    let sessions: String = (1..=65).map(|peer| format!("session 0 peer {peer}\n")).collect();
    assert_eq!(fault(&sessions), "line 65: the policy would be refused 8 384 (Full)");
}

#[test]
fn raw_lines_are_bytes_and_count_as_records() {
    assert_eq!(make("raw 01 02\nraw ff").expect("encodable").bytes, [1, 2, 255]);
    assert_eq!(bytes("session 0 peer 1\nraw 04 00 00 00 07"), bytes("session 0 peer 1\nall preference 7"));
}

#[test]
fn a_policy_is_shown_in_the_notation() {
    let text = "# Sessions: 2, clauses: 3, records before the end: 6, bytes: 42.\n\
                \nsession 0 peer 192.0.2.2\nmed 0\nprefix 198.51.100.0/24 preference 200\nas 65001 preference 150\n\
                \nsession 1 peer 192.0.2.5\nall preference 90\n";
    assert_eq!(show(&bytes(text)), text);
    let refused = "# refused 4 0 (Place). The bytes as they are:\n\
                   raw 05  # at 0: MED 0, refused here\nraw 07 00  # at 1: not a whole record\n";
    assert_eq!(show(&[5, 7, 0]), refused);
}

#[test]
fn whatever_is_shown_makes_the_same_bytes_again() {
    for seed in 0..400 {
        let snapshot = snapshots::random(seed, ["small", "open"][seed as usize % 2]).expect("a kind");
        let kind = if seed % 50 == 0 { "limits" } else { "mixed" };
        let whole = record::write(&random::random(seed, kind, &snapshot).expect("a kind"));
        for bytes in [damage_policy(&whole, seed), whole] {
            assert_eq!(make(&show(&bytes)).expect("what is shown is sound").bytes, bytes);
        }
    }
}
