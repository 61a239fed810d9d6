//! The test pieces of document 01 ("Test pieces"), cases `-0` and 1001 as document 02 (T-02, T-09) has them, flow A ("The report"), and of
//! document 02 the bounds (T-01), distances in exits (T-04), the nine pairs (T-05), the empty text (T-08) and the constants up to 9999 (T-09).

use super::bound::{bound, exact, line, patterns, patterns_listed};
use super::flow::{Flow, Instruction, Refusal};
use super::interpreter::{run, End, Ran};
use super::reader::read;
use super::report::lines;
use super::sample::{faults, part, up_to, wanted};
use super::search::{by_numbers, census, in_steps, Census};

const FLOW_A: &str = "flow,1,0,1\n1,read,1,1,2,3\n2,over,5,1,1,3\n3,stop\n";
const REPORT_A: &str = "report,3,19\n1,p,1\n1,m,1\n2,p,2\n2,m,2\n";
const FLOW_B: &str = "flow,1,1,1\n1,read,1,1,2,3\n2,put,1,1,1\n3,stop\n";
const CHAIN: &str = "flow,1,0,2\n1,read,1,1,2,6\n2,read,1,2,3,6\n3,over,3,1,4,6\n4,less,1,2,5,6\n5,under,2,5,6,6\n6,stop\n";
const SECOND: &str = "flow,1,0,1\n1,read,1,1,3,2\n2,read,1,1,3,3\n3,stop\n";
const UNDER: &str = "flow,1,0,1\n1,under,1,5,2,2\n2,stop\n";
const LESS: &str = "flow,1,0,1\n1,less,1,1,2,2\n2,stop\n";

/// The other text of the flow that the empty text means.
const STOP: &str = "flow,1,0,1\n1,stop\n";

/// Asserts of a text that is read as this flow that it is the flow's text(), or is empty, the flow's text() being `STOP`.
pub fn written_back(text: &[u8], flow: &Flow) {
    let own = if text.is_empty() { STOP.as_bytes() } else { text };
    assert_eq!(flow.text(), String::from_utf8_lossy(own), "a text that is read is written back");
}

fn flow(text: &str) -> Flow {
    let flow = read(text.as_bytes()).expect("a legal text");
    written_back(text.as_bytes(), &flow);
    flow
}

fn refused(text: &str) -> (u32, u64) {
    let Refusal { number, place } = read(text.as_bytes()).expect_err("a text at fault");
    (number, place)
}

/// Line 1 and so many instruction lines.
fn nops(count: usize) -> String {
    (1..=count).fold("flow,1,0,1\n".to_string(), |text, i| text + &format!("{i},nop,1\n"))
}

fn on_one_tape(text: &str, limit: u64, records: &[i32], free: usize) -> Ran {
    run(&flow(text), limit, records, &[records.len()], free).expect("one tape")
}

fn runs() {
    let a = |limit, records: &[i32]| {
        let ran = on_one_tape(FLOW_A, limit, records, 0);
        (ran.end, ran.steps)
    };
    assert_eq!(a(100, &[]), (End::Stopped, 1));
    assert_eq!(a(100, &[5]), (End::Stopped, 2));
    assert_eq!(a(100, &[6]), (End::Stopped, 3));
    assert_eq!(a(100, &[6, 9, 5]), (End::Stopped, 6));
    assert_eq!(a(2, &[6]), (End::Spent, 2));
    assert_eq!(a(3, &[6]), (End::Stopped, 3));
    let ran = on_one_tape(FLOW_A, 100, &[6, 9, 5], 0);
    assert_eq!((ran.p, ran.m), (vec![3, 2, 0], vec![0, 1, 0]));

    let stop = on_one_tape(STOP, 0, &[], 0);
    assert_eq!((stop.end, stop.steps), (End::Stopped, 0));

    let b = |limit, free| {
        let ran = on_one_tape(FLOW_B, limit, &[4, -7], free);
        (ran.end, ran.steps, ran.puts)
    };
    assert_eq!(b(100, 2), (End::Stopped, 5, vec![(1, 4), (1, -7)]));
    assert_eq!(b(100, 1), (End::Full, 3, vec![(1, 4)]));
    assert_eq!(b(3, 1), (End::Spent, 3, vec![(1, 4)]));

    let ends = "flow,1,1,1\n1,set,9999,1,2\n2,put,1,1,3\n3,set,-9999,1,4\n4,put,1,1,5\n5,under,1,-9998,6,7\n6,over,-9999,1,7,7\n7,stop\n";
    let ran = on_one_tape(ends, 100, &[], 2);
    assert_eq!((ran.end, ran.steps, ran.puts), (End::Stopped, 6, vec![(1, 9999), (1, -9999)]));
    assert_eq!((ran.p[4..6].to_vec(), ran.m[4..6].to_vec()), (vec![1, 0], vec![0, 1]));

    let endless = on_one_tape("flow,1,0,1\n1,nop,1\n", u64::MAX, &[], 0);
    assert_eq!((endless.end, endless.steps), (End::Spent, 1_000_000));

    let turned_back = Err(Refusal { number: 12, place: 0 });
    for lengths in [&[][..], &[1], &[3], &[2, 0], &[usize::MAX, 3], &[usize::MAX]] {
        assert_eq!(run(&flow(FLOW_A), 9, &[6, 5], lengths, 0), turned_back);
    }
    let two = Flow { tapes: 2, ..flow(FLOW_A) };
    assert_eq!(run(&two, 9, &[6, 5], &[usize::MAX, 3], 0), turned_back);
    assert!(run(&two, 9, &[6, 5], &[1, 1], 0).is_ok());
}

fn texts() {
    let set = |c: &str| format!("flow,1,0,1\n1,set,{c},1,2\n2,stop\n");
    for c in ["9999", "-9999", "1001", "-1001", "1000", "-1000", "0", "-1"] {
        assert_eq!(flow(&set(c)).instructions[0].constant(), c.parse().ok());
    }
    let long = "9".repeat(500);
    for c in ["10000", "-10000", &long, &format!("-{long}")] {
        assert_eq!(refused(&set(c)), (5, 2));
    }
    for c in ["-0", "", "-", "--1", "+1", "01", "-01", "00", "1 ", "1.0", "x"] {
        assert_eq!(refused(&set(c)), (15, 2));
    }
    assert_eq!(flow(&nops(64)).instructions.len(), 64);
    for (text, refusal) in [
        ("flow,1,0,1".to_string(), (3, 0)),
        ("x".repeat(4097), (1, 0)),
        ("x".repeat(4096), (3, 0)),
        ("x".repeat(4095) + "\n", (13, 1)),
        ("\n".to_string(), (13, 1)),
        ("flow,1,0,1\n".to_string(), (8, 2)),
        ("flow,0,0,1\n".to_string(), (5, 1)),
        ("flow,4,0,x\n1,stop\n".to_string(), (15, 1)),
        ("flow,1,4,1\n1,stop\n".to_string(), (5, 1)),
        ("flow,1,0,5\n1,stop\n".to_string(), (5, 1)),
        ("flow,-1,0,1\n1,stop\n".to_string(), (15, 1)),
        ("flow,1,0,1\n\n".to_string(), (13, 2)),
        ("flow,1,0,1\n1,halt\n".to_string(), (13, 2)),
        ("flow,1,0,1\n1,stop,1\n".to_string(), (14, 2)),
        ("flow,1,0,1\n2,stop\n".to_string(), (6, 2)),
        (format!("flow,1,0,1\n{long},stop\n"), (6, 2)),
        ("flow,1,0,1\n2,read,2,1,1,1\n".to_string(), (6, 2)),
        ("flow,1,0,1\n2,read,2,1,1,01\n".to_string(), (15, 2)),
        ("flow,1,0,1\n1,read,2,1,1,1\n".to_string(), (5, 2)),
        ("flow,1,0,1\n1,put,1,1,1\n".to_string(), (5, 2)),
        ("flow,1,0,1\n1,nop,2\n2,copy,1,2,1\n".to_string(), (5, 3)),
        ("flow,1,0,1\n1,nop,1\n2,nop,0\n3,nop,4\n".to_string(), (7, 3)),
        (format!("flow,1,0,1\n1,nop,1\n2,nop,{long}\n"), (7, 3)),
        ("flow,1,0,1\n1,nop,9\n2,stop,1\n".to_string(), (14, 3)),
        (nops(65), (8, 66)),
        (nops(64) + "halt\n", (8, 66)),
        (nops(63) + "halt\n65,stop\n", (13, 65)),
    ] {
        assert_eq!(refused(&text), refusal, "{text}");
    }
}

/// The borders between 13, 14 and 15, and towards 6, 5, 7 and 8.
fn borders() {
    for (text, refusal) in [
        // Line 1: the first field is not `flow`, whatever else is wrong.
        ("\n1,stop\n", (13, 1)),
        ("halt\n", (13, 1)),
        ("stop\n1,stop\n", (13, 1)),
        ("1,stop\n", (13, 1)),
        ("1,flow,1,0,1\n1,stop\n", (13, 1)),
        ("read,1,0,1\n1,stop\n", (13, 1)),
        ("Flow,1,0,1\n1,stop\n", (13, 1)),
        (",1,0,1\n1,stop\n", (13, 1)),
        ("halt,1,0\n1,stop\n", (13, 1)),
        ("halt,1,0,01\n1,stop\n", (13, 1)),
        ("halt,4,0,1\n1,stop\n", (13, 1)),
        ("halt,-1,x\n1,stop\n", (13, 1)),
        // Line 1: the count of fields.
        ("flow\n", (14, 1)),
        ("flow\n1,stop\n", (14, 1)),
        ("flow,\n1,stop\n", (14, 1)),
        ("flow,1,0\n1,stop\n", (14, 1)),
        ("flow,1,0,1,\n1,stop\n", (14, 1)),
        ("flow,x,-0\n1,stop\n", (14, 1)),
        ("flow,1,0,01,1\n1,stop\n", (14, 1)),
        ("flow,4,0\n1,stop\n", (14, 1)),
        // Line 1: a number badly written, then one out of range.
        ("flow,1,0,x\n", (15, 1)),
        ("flow,01,0,1\n1,stop\n", (15, 1)),
        ("flow,1,-0,1\n1,stop\n", (15, 1)),
        ("flow,1,0,\n1,stop\n", (15, 1)),
        ("flow,4,0,-1\n1,stop\n", (15, 1)),
        ("flow,01,4,5\n1,stop\n", (15, 1)),
        ("flow,4,0,1\n1,stop\n", (5, 1)),
        // An instruction line: the second field is missing or no instruction word, whatever else is wrong.
        ("flow,1,0,1\nstop\n", (13, 2)),
        ("flow,1,0,1\n1\n", (13, 2)),
        ("flow,1,0,1\n2\n", (13, 2)),
        ("flow,1,0,1\n01\n", (13, 2)),
        ("flow,1,0,1\n,\n", (13, 2)),
        ("flow,1,0,1\n1,\n", (13, 2)),
        ("flow,1,0,1\n1,,1\n", (13, 2)),
        ("flow,1,0,1\n1,flow\n", (13, 2)),
        ("flow,1,0,1\n1,flow,1,0,1\n", (13, 2)),
        ("flow,1,0,1\nflow,1,0,1\n1,stop\n", (13, 2)),
        ("flow,1,0,1\nstop,1\n", (13, 2)),
        ("flow,1,0,1\n1,1,stop\n", (13, 2)),
        ("flow,1,0,1\n1,Stop\n", (13, 2)),
        ("flow,1,0,1\n1,stop\r\n", (13, 2)),
        ("flow,1,0,1\n01,halt\n", (13, 2)),
        ("flow,1,0,1\n2,halt\n", (13, 2)),
        ("flow,1,0,1\n1,halt,-0,10000,9\n", (13, 2)),
        // An instruction line: the count of fields.
        ("flow,1,0,1\n1,nop\n", (14, 2)),
        ("flow,1,0,1\n1,stop,\n", (14, 2)),
        ("flow,1,0,1\n01,nop\n", (14, 2)),
        ("flow,1,0,1\n,stop,x\n", (14, 2)),
        ("flow,1,0,1\n1,read,01,-1\n", (14, 2)),
        ("flow,1,0,1\n1,set,-0,1,1,1\n", (14, 2)),
        ("flow,1,0,1\n2,nop\n", (14, 2)),
        ("flow,1,0,1\n1,set,10000,1\n", (14, 2)),
        ("flow,1,0,1\n1,nop,9,9\n", (14, 2)),
        // An instruction line: a number badly written, be it its own, a constant or a target.
        ("flow,1,0,1\n,stop\n", (15, 2)),
        ("flow,1,0,1\n01,stop\n", (15, 2)),
        ("flow,1,0,1\n-1,stop\n", (15, 2)),
        ("flow,1,0,1\nflow,stop\n", (15, 2)),
        ("flow,1,0,1\n02,set,10000,1,1\n", (15, 2)),
        ("flow,1,0,1\n2,set,-0,1,1\n", (15, 2)),
        ("flow,1,0,1\n1,over,-0,2,1,1\n", (15, 2)),
        ("flow,1,0,1\n1,under,-1,5,1,1\n", (15, 2)),
        ("flow,1,0,1\n1,nop,\n", (15, 2)),
        ("flow,1,0,1\n1,nop,-1\n", (15, 2)),
        ("flow,1,0,1\n2,nop,01\n", (15, 2)),
        ("flow,1,0,1\n1,read,2,1,1,-0\n", (15, 2)),
        // Only then out of turn, then out of range, and after all lines the targets.
        ("flow,1,0,1\n0,stop\n", (6, 2)),
        ("flow,1,0,1\n2,set,10000,1,9\n", (6, 2)),
        ("flow,1,0,1\n1,set,10000,1,9\n", (5, 2)),
        ("flow,1,0,1\n1,set,9999,1,9\n", (7, 2)),
        // The first line at fault, and 7 only after all lines.
        ("flow,4,0,1\n1,halt\n", (5, 1)),
        ("flow,1,0,x\n1\n", (15, 1)),
        ("flow,1,0,1\n1,nop,x\n2,halt\n", (15, 2)),
        ("flow,1,0,1\n1,nop\n2,halt\n", (14, 2)),
        ("flow,1,0,1\n2,stop\n2,halt\n", (6, 2)),
        ("flow,1,0,1\n1,set,10000,1,1\n2,nop\n", (5, 2)),
        ("flow,1,0,1\n1,nop,9\n2,halt\n", (13, 3)),
        ("flow,1,0,1\n1,nop,9\n2,nop\n", (14, 3)),
        ("flow,1,0,1\n1,nop,9\n2,nop,-1\n", (15, 3)),
        ("flow,1,0,1\n1,stop\n\n", (13, 3)),
    ] {
        assert_eq!(refused(text), refusal, "{text}");
    }
    for (lines, line, refusal) in [
        (64, "", (8, 66)),
        (64, "65,nop", (8, 66)),
        (64, "065,nop,1", (8, 66)),
        (63, "", (13, 65)),
        (63, "64,nop", (14, 65)),
        (63, "064,nop,1", (15, 65)),
    ] {
        assert_eq!(refused(&format!("{}{line}\n65,nop,1\n", nops(lines))), refusal, "{lines} lines, then {line}");
    }
}

/// The borders of the constants' range, and numbers past it that a narrow or wrapping reader takes for legal ones.
fn constants() {
    for line in ["set,#,1,3", "over,#,1,3,3", "under,1,#,3,3"] {
        let with = |c: &str| format!("flow,1,0,1\n1,nop,2\n2,{}\n3,stop\n", line.replace('#', c));
        for c in [-9999, -9998, -1001, -1000, 1000, 1001, 9998, 9999] {
            assert_eq!(flow(&with(&c.to_string())).instructions[1].constant(), Some(c));
        }
        // The range's ends less and plus 2 to the power 16, 32 and 64, and others.
        #[rustfmt::skip]
        let outside = [
            "10000", "10001", "19999", "32767", "32768", "55537", "65536", "75535", "99990", "99999", "4294957297", "4294967296",
            "4294977295", "18446744073709541617", "18446744073709551616", "18446744073709561615", &format!("1{}", "0".repeat(40)),
        ];
        for c in outside {
            assert_eq!(refused(&with(c)), (5, 3), "{line} {c}");
            assert_eq!(refused(&with(&format!("-{c}"))), (5, 3), "{line} -{c}");
        }
    }
    for (line, refusal) in [
        ("1,set,9999,9999,1", (5, 2)),
        ("1,copy,9999,1,1", (5, 2)),
        ("1,read,9999,1,1,1", (5, 2)),
        ("1,put,1,9999,1", (5, 2)),
        ("1,set,-9999,1,9999", (7, 2)),
        ("1,under,1,9999,10000,1", (7, 2)),
        ("1,over,9999,1,1,9999", (7, 2)),
        ("1,nop,-9999", (15, 2)),
        ("9999,stop", (6, 2)),
        ("9999,set,10000,1,1", (6, 2)),
        ("-9999,stop", (15, 2)),
    ] {
        assert_eq!(refused(&format!("flow,1,1,1\n{line}\n")), refusal, "{line}");
    }
    assert_eq!(refused("flow,9999,0,1\n1,stop\n"), (5, 1));
}

fn reports() {
    assert_eq!(lines(FLOW_A.as_bytes(), 4096), REPORT_A);
    assert_eq!(lines(FLOW_A.as_bytes(), 19), REPORT_A);
    assert_eq!(lines(FLOW_A.as_bytes(), 18), "refused,9,0\n");
    assert_eq!(lines(FLOW_A.as_bytes(), 0), "refused,9,0\n");
    assert_eq!(lines(b"flow,1,0,1\n2,stop\n", 4096), "refused,6,2\n");
    assert!(lines(CHAIN.as_bytes(), 4096).ends_with("\n5,p,none\n5,m,5\n"));
    assert_eq!(lines(SECOND.as_bytes(), 4096), "report,3,6\n1,p,1\n1,m,1\n2,p,none\n2,m,2\n");
    assert_eq!(lines(UNDER.as_bytes(), 4096), "report,2,2\n1,p,1\n1,m,none\n");
    assert_eq!(lines(LESS.as_bytes(), 4096), "report,2,2\n1,p,none\n1,m,1\n");
    for text in [FLOW_A, FLOW_B, CHAIN, SECOND, UNDER, LESS] {
        let flow = flow(text);
        let census = census(&flow, 4096).expect("few configurations");
        assert_eq!(by_numbers(&flow, i64::from(census.depth) + 1), census);
    }
}

/// Two records, below -1, inside or above 1: a comparison for each of the nine pairs, 7 to 9, 12 to 14 and 17 to 19.
const NINE: &str = "flow,1,0,2\n1,read,1,1,2,21\n2,read,1,2,3,21\n3,under,1,-1,5,4\n4,over,1,1,15,10\n\
    5,under,2,-1,7,6\n6,over,1,2,9,8\n7,less,1,2,20,21\n8,less,1,2,20,21\n9,less,1,2,20,21\n\
    10,under,2,-1,12,11\n11,over,1,2,14,13\n12,less,1,2,20,21\n13,less,1,2,20,21\n14,less,1,2,20,21\n\
    15,under,2,-1,17,16\n16,over,1,2,19,18\n17,less,1,2,20,21\n18,less,1,2,20,21\n19,less,1,2,20,21\n20,nop,21\n21,stop\n";

/// The report of NINE, the configurations counted by hand: 1, 5, 29 and 22; with variable 1 below 7, 4, 3, 3, 1, inside 15, 12, 3, 9, 3,
/// above 7, 6, 1, 3, 3; at `nop` the 12 that are less; 29 and, after the end of the tape, 5.
fn nine() {
    #[rustfmt::skip]
    let report = [
        "report,21,183", "1,p,1", "1,m,1", "2,p,2", "2,m,2", "3,p,3", "3,m,3", "4,p,4", "4,m,4",
        "5,p,4", "5,m,4", "6,p,5", "6,m,5", "7,p,5", "7,m,5", "8,p,6", "8,m,none", "9,p,6", "9,m,none",
        "10,p,5", "10,m,5", "11,p,6", "11,m,6", "12,p,none", "12,m,6", "13,p,7", "13,m,7", "14,p,7", "14,m,none",
        "15,p,5", "15,m,5", "16,p,6", "16,m,6", "17,p,none", "17,m,6", "18,p,none", "18,m,7", "19,p,7", "19,m,7", "",
    ];
    assert_eq!(lines(NINE.as_bytes(), 183), report.join("\n"));
    assert_eq!(lines(NINE.as_bytes(), 182), "refused,9,0\n");
    let flow = flow(NINE);
    let found = census(&flow, 4096).expect("few configurations");
    assert_eq!(found.pairs.len(), 15, "six unlike pairs, and three like ones in each order");
    assert_eq!(by_numbers(&flow, i64::from(found.depth) + 1), found);
}

/// Two records above 9999, the second one less.
const BEYOND: &str = "flow,1,0,2\n1,read,1,1,2,6\n2,over,9999,1,3,2\n3,read,1,2,4,6\n4,over,9999,2,5,4\n5,less,2,1,6,6\n6,stop\n";

/// Reports with constants up to 9999, the configurations counted by hand.
fn wide_reports() {
    for (text, configurations, distances) in [
        // One read with 20,001 patterns: 1, 20,001, 20,001 and 1 at the tape's end, 2.
        ("flow,1,0,1\n1,read,1,1,2,3\n2,over,9999,1,3,3\n3,set,-9999,1,4\n4,stop\n", 40_006, "1,p,1\n1,m,1\n2,p,2\n2,m,2\n"),
        // Flow A, its 5 made 9999: 2, 10,002, 10,001 and 2.
        ("flow,1,0,1\n1,read,1,1,2,3\n2,over,9999,1,1,3\n3,stop\n", 20_007, "1,p,1\n1,m,1\n2,p,2\n2,m,2\n"),
        // Only a record below -9998 leads back: 3, 10,001 and 2, 10,000 and 1.
        ("flow,1,0,1\n1,read,1,1,2,2\n2,under,1,-9998,1,3\n3,stop\n", 20_007, "1,p,1\n1,m,1\n2,p,2\n2,m,2\n"),
        ("flow,1,0,1\n1,under,1,-9999,2,2\n2,stop\n", 2, "1,p,none\n1,m,1\n"),
        ("flow,1,0,1\n1,set,-9999,1,2\n2,under,1,-9999,3,3\n3,over,9999,1,4,4\n4,stop\n", 4, "2,p,none\n2,m,1\n3,p,none\n3,m,2\n"),
        // No whole number between 9998 and 9999: 1, 10,002, 2, none, 10,002 and 1.
        (
            "flow,1,0,1\n1,read,1,1,2,5\n2,over,9998,1,3,5\n3,under,1,9999,4,5\n4,nop,5\n5,stop\n",
            20_008,
            "1,p,1\n1,m,1\n2,p,2\n2,m,2\n3,p,none\n3,m,3\n",
        ),
        // One between 9997 and 9999: 1, 10,002, 3, 1, 10,002 and 1.
        (
            "flow,1,0,1\n1,read,1,1,2,5\n2,over,9997,1,3,5\n3,under,1,9999,4,5\n4,nop,5\n5,stop\n",
            20_010,
            "1,p,1\n1,m,1\n2,p,2\n2,m,2\n3,p,3\n3,m,3\n",
        ),
        // Two tapes: 1, 10,002 and 1, three times 10,002 and 1.
        (
            "flow,2,0,1\n1,read,1,1,2,2\n2,read,2,1,3,3\n3,stop\n4,under,1,-9999,3,3\n",
            40_011,
            "1,p,1\n1,m,1\n2,p,2\n2,m,2\n4,p,none\n4,m,none\n",
        ),
        // 1, 10,002, 1, 10,004, 3, 3 and 2.
        (BEYOND, 20_016, "1,p,1\n1,m,1\n2,p,2\n2,m,2\n3,p,3\n3,m,3\n4,p,4\n4,m,4\n5,p,5\n5,m,5\n"),
        // Above, below and above again: 1, 20,001, 1, 20,003, 1, 20,005, 3, 3 and 3.
        (
            "flow,3,0,3\n1,read,1,1,2,8\n2,over,9999,1,3,2\n3,read,2,2,4,8\n4,under,2,-9999,5,4\n5,read,3,3,6,8\n6,over,9999,3,7,6\n\
             7,less,1,3,8,8\n8,stop\n",
            60_021,
            "1,p,1\n1,m,1\n2,p,2\n2,m,2\n3,p,3\n3,m,3\n4,p,4\n4,m,4\n5,p,5\n5,m,5\n6,p,6\n6,m,6\n7,p,7\n7,m,7\n",
        ),
        (
            "flow,1,0,4\n1,set,9999,1,2\n2,set,-9999,2,3\n3,set,9998,3,4\n4,copy,1,4,5\n5,less,2,3,6,6\n6,less,3,4,7,7\n7,less,4,1,8,8\n\
             8,stop\n",
            8,
            "5,p,1\n5,m,none\n6,p,2\n6,m,none\n7,p,none\n7,m,3\n",
        ),
    ] {
        let report = format!("report,{},{configurations}\n{distances}", flow(text).instructions.len());
        for cells in [configurations, 65_536, usize::MAX] {
            assert_eq!(lines(text.as_bytes(), cells), report, "{text}");
        }
        assert_eq!(lines(text.as_bytes(), configurations - 1), "refused,9,0\n", "{text}");
    }
    // Two tapes again, one instruction more: 1, 10,003, twice 30,007.
    let many = b"flow,2,0,1\n1,read,1,1,2,2\n2,read,2,1,3,3\n3,under,1,-9999,4,4\n4,stop\n";
    assert_eq!(lines(many, usize::MAX), "refused,9,0\n");
}

/// Instruction 6 is met by two records, with three exits and six steps, or at the end of the tape, with four exits and four steps.
const FEWER: &str = "flow,1,0,1\n1,read,1,1,2,8\n2,nop,3\n3,nop,4\n4,read,1,1,5,7\n5,nop,6\n6,less,1,1,7,7\n7,stop\n\
    8,less,1,1,7,9\n9,less,1,1,7,6\n";

/// Distances in exits, and the configurations, which count as before.
fn exits() {
    let nops = |count: usize, last: &str| {
        let lines = (1..=count).map(|i| format!("{},nop,{}\n", i + 1, i + 2)).collect::<String>();
        format!("flow,1,0,1\n1,read,1,1,2,2\n{lines}{},{last}\n", count + 2)
    };
    for (text, report) in [
        // The read's distance is 2 no more: 1, 1, 3 and 1.
        ("flow,1,0,1\n1,nop,2\n2,read,1,1,3,3\n3,stop\n".to_string(), "report,3,6\n2,p,1\n2,m,1\n"),
        // Each instruction that adds nothing, and then a comparison of 4 with 4, and one that holds.
        (
            "flow,1,1,2\n1,put,1,1,2\n2,set,4,1,3\n3,copy,1,2,4\n4,nop,5\n5,less,1,2,6,6\n6,put,2,1,7\n7,over,3,2,8,8\n8,stop\n"
                .to_string(),
            "report,8,8\n5,p,none\n5,m,1\n7,p,2\n7,m,none\n",
        ),
        // Flow A with `nop` before it and behind every exit: 1, 2, 2, 8, 8, 1, 7, 9.
        (
            "flow,1,0,1\n1,nop,2\n2,read,1,1,4,3\n3,nop,8\n4,nop,5\n5,over,5,1,6,7\n6,nop,2\n7,nop,8\n8,stop\n".to_string(),
            "report,8,38\n2,p,1\n2,m,1\n5,p,2\n5,m,2\n",
        ),
        // 1; 3 at 2, 3, 4 and 5; 3 and 1; 3 and 3; 1, 1.
        (FEWER.to_string(), "report,9,25\n1,p,1\n1,m,1\n4,p,2\n4,m,2\n6,p,none\n6,m,3\n8,p,none\n8,m,2\n9,p,none\n9,m,3\n"),
        // 62 between two reads: 3 and, after the end, 3, at each of 64.
        (nops(62, "read,1,1,1,1"), "report,64,384\n1,p,1\n1,m,1\n64,p,2\n64,m,2\n"),
        // The same to itself at the end: 1, and 3 and 1 at each of 63.
        (nops(62, "nop,64"), "report,64,253\n1,p,1\n1,m,1\n"),
        ("flow,1,0,1\n1,nop,1\n2,read,1,1,1,1\n".to_string(), "report,2,1\n2,p,none\n2,m,none\n"),
        // Four times round, until the 1 has come to variable 4: 4 at each of five, and 1.
        (
            "flow,1,0,4\n1,copy,3,4,2\n2,copy,2,3,3\n3,copy,1,2,4\n4,set,1,1,5\n5,over,0,4,6,1\n6,stop\n".to_string(),
            "report,6,21\n5,p,4\n5,m,1\n",
        ),
    ] {
        assert_eq!(lines(text.as_bytes(), 4096), report, "{text}");
        let flow = flow(&text);
        let found = census(&flow, 4096).expect("few configurations");
        assert_eq!(by_numbers(&flow, 2), found, "{text}");
    }

    let fewer = flow(FEWER);
    let found = census(&fewer, 4096).expect("few configurations");
    let steps = in_steps(&fewer, 4096).expect("few configurations");
    assert_eq!((found.m[5], steps.m[5], found.configurations == steps.configurations), (Some(3), Some(4), true));
    assert_eq!(wanted(&fewer, 6, false, Ok(&found), 3), Ok(Some(3)));
    assert_eq!(wanted(&fewer, 6, false, Ok(&found), 2), Err(Refusal { number: 10, place: 0 }));
    for row in [[0, 0, 9], [3, -3, 9]] {
        assert!(faults(&fewer, 6, false, 3, &row, &[2]).is_empty());
        let ran = up_to(&fewer, 6, false, 3, &row[..2], &[2]).expect("the exit is taken");
        assert_eq!((ran.steps, ran.p[0], ran.p[3], ran.m[5]), (6, 1, 1, 1));
    }
    for (d, row, length) in [
        // At the end of the tape, with four exits.
        (3, &[0, 0, 0][..], 0),
        // A record that is not read, and one too few, with which the exit is not taken.
        (3, &[0, 0, 0], 3),
        (3, &[0, 0, 0], 1),
        // Four from 0, and as many as there are steps.
        (3, &[4, 0, 0], 2),
        (3, &[0, -4, 0], 2),
        (6, &[0, 0, 0, 0, 0, 0], 2),
        (3, &[0, 0], 2),
    ] {
        assert_eq!(faults(&fewer, 6, false, d, row, &[length]).len(), 1, "{d}, {row:?}, {length}");
    }
}

/// The pattern numbers of T-01 by listing, for C1 and C2 at several places around 0.
fn pattern_numbers() {
    for (variables, most) in [(1, 20), (2, 12), (3, 7), (4, 4)] {
        for w in 1..=most {
            for low in [1 - w, -(w / 2), 0] {
                let listed = patterns_listed(variables, low, low + w - 1);
                assert_eq!(listed, patterns(variables, w as u128), "{variables} variables, {low} to {}", low + w - 1);
            }
        }
    }
    assert_eq!([1, 2, 3, 4].map(|variables| patterns(variables, 1)), [3, 13, 75, 541]);
    assert_eq!([1, 2, 3, 4].map(|variables| patterns(variables, 0)), [2, 8, 44, 308], "all outside");
    assert_eq!(patterns_listed(1, -9999, 9999), 20_001);
}

/// Two instructions with these constants.
fn two(low: i64, high: i64) -> String {
    format!("flow,1,0,1\n1,over,{low},1,2,2\n2,under,1,{high},1,1\n")
}

/// Bounds, counted by hand.
fn bounds() {
    let seven = |c: i64| format!("flow,1,0,1\n1,read,1,1,2,7\n2,set,{c},1,3\n3,nop,4\n4,nop,5\n5,nop,6\n6,nop,7\n7,stop\n");
    for (text, answer) in [
        (String::new(), Some(6)),
        (STOP.to_string(), Some(6)),
        (FLOW_A.to_string(), Some(3 * 2 * 8)),
        (FLOW_B.to_string(), Some(3 * 2 * 3)),
        (CHAIN.to_string(), Some(6 * 2 * 68)),
        (NINE.to_string(), Some(21 * 2 * 29)),
        (BEYOND.to_string(), None),
        ("flow,1,0,1\n1,read,1,1,1,1\n".to_string(), Some(6)),
        ("flow,3,3,4\n1,stop\n".to_string(), Some(8 * 541)),
        // An instruction that is never reached counts, and so does its constant.
        ("flow,2,0,3\n1,stop\n2,set,-1,3,1\n3,under,1,1,1,1\n".to_string(), Some(3 * 4 * 197)),
        // 65,536, and the values next to it with two instructions; then the even numbers next to it.
        (two(-9999, 6382), Some(65_536)),
        (two(-6382, 9999), Some(65_536)),
        (two(-9999, 6381), Some(65_532)),
        (two(-9999, 6383), None),
        (two(-9999, 9999), None),
        (seven(4678), Some(65_534)),
        (seven(-4678), Some(65_534)),
        (seven(4679), None),
        ("flow,1,0,1\n1,set,-9999,1,2\n2,set,921,1,3\n3,stop\n".to_string(), None),
        // Past 65,536, and in 32 bits 49,176.
        ("flow,1,0,3\n1,over,2045,1,1,1\n".to_string(), None),
    ] {
        let flow = flow(&text);
        assert_eq!(bound(&flow), answer, "{text}");
        assert_eq!(line(text.as_bytes()), answer.map_or("bound,over\n".to_string(), |bound| format!("bound,{bound}\n")), "{text}");
    }
    assert_eq!(exact(&flow("flow,1,0,1\n1,set,-9999,1,2\n2,set,921,1,3\n3,stop\n")), 65_538);
    let most = (1..=64).fold("flow,3,0,4\n".to_string(), |text, i| text + &format!("{i},set,{},1,1\n", if i > 32 { 9999 } else { -9999 }));
    assert_eq!(exact(&flow(&most)), 81_936_390_145_024_088_576, "past 64 bits");
    assert_eq!(line(most.as_bytes()), "bound,over\n");
    assert_eq!(line(b"flow,1,0,1\n2,stop\n"), "refused,6,2\n");
    assert_eq!(lines(b"flow,1,0,1\n1,read,1,1,1,1\n", 6), "report,1,6\n1,p,1\n1,m,1\n", "as many as the bound says");
}

fn samples() {
    let refuse = |number| Err(Refusal { number, place: 0 });
    let chain = flow(CHAIN);
    let found = census(&chain, 4096).expect("few configurations");
    let few = Refusal { number: 9, place: 0 };
    assert_eq!(wanted(&chain, 5, false, Ok(&found), 5), Ok(Some(5)));
    assert_eq!(wanted(&chain, 5, false, Ok(&found), 4), refuse(10));
    assert_eq!(wanted(&chain, 5, true, Ok(&found), 0), Ok(None));
    assert_eq!(wanted(&chain, 5, true, Err(few), 0), refuse(9));
    for none in [0, 6, 7, u64::MAX] {
        assert_eq!(wanted(&chain, none, true, Err(few), 0), refuse(11));
    }
    assert!(faults(&chain, 5, false, 5, &[4, 5, 0, 0, 0], &[2]).is_empty());
    assert!(faults(&chain, 5, false, 5, &[4, 5, 0, 0, 0], &[2, 0, 0]).is_empty());
    for (d, row, lengths) in [
        (5, &[4, 5, 0, 0, 0][..], &[3][..]),
        (5, &[4, 5, 0, 0, 0], &[1]),
        (5, &[4, 5, 0, 0, 0], &[6]),
        (5, &[4, 5, 0, 0, 0], &[2, 1]),
        (5, &[4, 5, 0, 0, 0], &[]),
        (5, &[4, 5], &[2]),
        (5, &[4, 4, 0, 0, 0], &[2]),
        (5, &[4, 11, 0, 0, 0], &[2]),
        (4, &[4, 5, 0, 0, 0], &[2]),
        (6, &[4, 5, 0, 0, 0, 0], &[2]),
    ] {
        assert_eq!(faults(&chain, 5, false, d, row, lengths).len(), 1);
    }
    let beyond = flow(BEYOND);
    for row in [[10_001, 10_000, 0, 0, 0], [10_004, 10_003, 0, 0, 0]] {
        assert!(faults(&beyond, 5, true, 5, &row, &[2]).is_empty());
    }
    for row in [[10_005, 10_004, 0, 0, 0], [10_000, 10_000, 0, 0, 0]] {
        assert_eq!(faults(&beyond, 5, true, 5, &row, &[2]).len(), 1);
    }
    assert_eq!([1, 2, 3].map(|tape| part(7, &[2, 0, 3], tape)), [(0, 2), (2, 0), (2, 3)]);
    assert_eq!([0, 4, usize::MAX].map(|tape| part(7, &[2, 0, 3], tape)), [(0, 0); 3]);
    assert_eq!(part(5, &[2, 0, 3], 3), (2, 3));
    assert_eq!(part(4, &[2, 0, 3], 1), (0, 0));
    assert_eq!(part(7, &[2, usize::MAX, 3], 1), (0, 0));
}

/// The borders between the empty text, which is legal, and others of few bytes, few lines or one byte many times.
fn about_empty() {
    assert_eq!(flow(""), Flow { tapes: 1, outputs: 0, variables: 1, instructions: vec![Instruction::Stop] });
    assert_eq!(flow(STOP), flow(""));
    for text in ["\0", "\r", " ", ",", "f", "0", "\t", "\n ", "\n\0", "\u{feff}", "flow,1,0,1", "flow,1,0,1\n1,stop"] {
        assert_eq!(refused(text), (3, 0), "{text:?}");
    }
    for text in ["\n", "\n\n", "\n\n\n", "\r\n", " \n", "\t\n", ",\n", ",,,\n", "\0\n", "\u{feff}\n", "f\n", "1,stop\n", "stop\n"] {
        assert_eq!(refused(text), (13, 1), "{text:?}");
    }
    for (text, refusal) in [
        ("\nflow,1,0,1\n1,stop\n", (13, 1)),
        (" \nflow,1,0,1\n1,stop\n", (13, 1)),
        ("flow\n", (14, 1)),
        ("flow,,,\n", (15, 1)),
        ("flow,1,0,1\n", (8, 2)),
        ("flow,3,3,4\n", (8, 2)),
        ("flow,1,0,1\n\n", (13, 2)),
        ("flow,1,0,1\n \n", (13, 2)),
        ("flow,1,0,1\n\n1,stop\n", (13, 2)),
        ("flow,1,0,1\n1,stop\n\n", (13, 3)),
    ] {
        assert_eq!(refused(text), refusal, "{text:?}");
    }
    for (byte, count, refusal) in [("\n", 4096, (13, 1)), ("\n", 4097, (1, 0)), ("\0", 4096, (3, 0)), ("\0", 4097, (1, 0))] {
        assert_eq!(refused(&byte.repeat(count)), refusal, "{count} times {byte:?}");
    }
}

/// Runs, the report and samples of the empty text.
fn of_empty() {
    let empty = flow("");
    let refuse = |number| Refusal { number, place: 0 };
    for (limit, free) in [(0, 0), (0, 1), (1, 0), (1_000_000, 0), (1_000_000, 3), (1_000_001, 0), (u64::MAX, 0)] {
        let on = |records: &[i32], lengths: &[usize]| run(&empty, limit, records, lengths, free);
        let stopped = Ran { end: End::Stopped, steps: 0, puts: vec![], p: vec![0], m: vec![0] };
        assert_eq!(on(&[], &[0]), Ok(stopped.clone()));
        assert_eq!(on(&[7], &[1]), Ok(stopped.clone()));
        assert_eq!(on(&[7, 8, 9], &[3]), Ok(stopped));
        for lengths in [&[][..], &[1], &[0, 0], &[0, 0, 0], &[usize::MAX]] {
            assert_eq!(on(&[], lengths), Err(refuse(12)), "no records, lengths {lengths:?}");
        }
        for lengths in [&[][..], &[0], &[2], &[1, 0], &[0, 1], &[usize::MAX, 2]] {
            assert_eq!(on(&[7], lengths), Err(refuse(12)), "one record, lengths {lengths:?}");
        }
    }

    for cells in [1, 2, 4096, 65_536, 65_537, usize::MAX] {
        assert_eq!(lines(b"", cells), "report,1,1\n");
    }
    assert_eq!(lines(b"", 0), "refused,9,0\n");
    let found = Census { configurations: 1, p: vec![None], m: vec![None], depth: 0, pairs: Default::default() };
    assert_eq!(census(&empty, 1), Ok(found.clone()));
    assert_eq!(census(&empty, 0), Err(refuse(9)));
    assert_eq!(by_numbers(&empty, 1), found);

    for instruction in [0, 1, 2, 64, 65, 1 << 32, (1 << 32) + 1, u64::MAX] {
        for (exit_p, row) in [(true, 0), (false, 0), (true, 5), (false, 5)] {
            assert_eq!(wanted(&empty, instruction, exit_p, Ok(&found), row), Err(refuse(11)));
            assert_eq!(wanted(&empty, instruction, exit_p, Err(refuse(9)), row), Err(refuse(11)));
        }
    }
}

/// Asserts the pieces, and some that the words of documents 01 and 02 settle directly.
pub fn check() {
    runs();
    texts();
    borders();
    constants();
    about_empty();
    reports();
    exits();
    nine();
    wide_reports();
    pattern_numbers();
    bounds();
    samples();
    of_empty();
}
