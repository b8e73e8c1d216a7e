//! 02, request 1: keys in plain text. A line has one reading or is refused by 17; a name that is no label's, or one of the other class, is
//! 18; then 4, 5 and 6 of the key, all with input 2 and record 0. The bench labels are those of 01.
use super::expectations::Cases;
use super::notation::*;

pub fn put(cases: &mut Cases) {
    accepted(cases);
    refused(cases);
    no_lines(cases);
    cut(cases);
    replaced(cases);
    written(cases);
    inputs(cases);
}

/// A line, and the record of the key that it says.
const ACCEPTED: [(&str, &str); 12] = [
    ("(port, (frame, {@seq}))", "0b 00 02 00 01 03 01 04 01 01 07"),
    ("(port, (frame, {@seq, stamp}))", "0d 00 02 00 01 03 01 04 02 01 05 01 07"),
    ("(port, (frame, {stamp, @seq}))", "0d 00 02 00 01 03 01 04 02 01 05 01 07"),
    ("(., (., {.}))", "08 00 02 00 00 00 01 00"),
    ("(_*, (port._*.frame, {#}))", "0d 00 02 00 01 00 03 03 00 04 01 01 01"),
    ("(., (., {stamp, frame, port, run}))", "0f 00 02 00 00 00 04 01 02 01 03 01 04 01 05"),
    ("(., (run, {frame.stamp, @seq, ., port}))", "10 00 02 00 00 01 02 04 00 01 03 01 07 02 04 05"),
    ("(#, (., {.}))", "09 00 02 00 01 01 00 01 00"),
    ("(@id, (., {.}))", "09 00 02 00 01 06 00 01 00"),
    ("(run, (@id, {.}))", "0a 00 02 00 01 02 01 06 01 00"),
    ("(_*.run._*, (_*, {port.#}))", "0e 00 02 00 03 00 02 00 01 00 01 02 03 01"),
    ("(port.port.port.port.port.port.port.port, (., {.}))", "10 00 02 00 08 03 03 03 03 03 03 03 03 00 01 00"),
];

/// A line of the grammar, and the number by which it is refused: 18 for a name anywhere, then 4, 5, 6.
const REFUSED: [(&str, u32); 31] = [
    ("(., (., {}))", 5),
    ("(_*._*, (port, {}))", 4),
    ("(_*._*, (nobody, {.}))", 18),
    ("(port, (frame, {_*}))", 4),
    ("(port, (frame, {stamp._*}))", 4),
    ("(port, (run._*._*, {.}))", 4),
    ("(@id, (port, {@id, @id}))", 5),
    ("(., (port, {stamp, @id, stamp}))", 5),
    ("(., (port, {., .}))", 5),
    ("(@id, (port, {@id}))", 6),
    ("(#.port, (., {.}))", 6),
    ("(., (@id, {., port}))", 6),
    ("(., (port, {@id.#}))", 6),
    ("(@id, (_*, {.}))", 6),
    ("(., (., {., run, port, frame, stamp}))", 5),
    ("(., (., {., run, port, frame, _*}))", 4),
    ("(., (., {_*, nobody}))", 18),
    ("(port.port.port.port.port.port.port.port.port, (., {.}))", 4),
    ("(., (run.run.run.run.run.run.run.run.run, {.}))", 4),
    ("(., (., {run.run.run.run.run.run.run.run.run}))", 4),
    ("(port.port.port.port.port.port.port.port.nobody, (., {.}))", 18),
    ("(Port, (frame, {@seq}))", 18),
    ("(id, (frame, {@seq}))", 18),
    ("(e, (frame, {@seq}))", 18),
    ("(@port, (frame, {@seq}))", 18),
    ("(port, (frame, {seq}))", 18),
    ("(port, (frame, {@stamp}))", 18),
    ("(port, (frames, {@seq}))", 18),
    ("(port, (fram, {@seq}))", 18),
    ("(a23456789-123456789_123456789-12, (frame, {@seq}))", 18),
    ("(_*._*, (port, {nobody, nobody}))", 18),
];

/// "17 refuses exactly what is not one of its lines".
const NO_LINES: [&[u8]; 56] = [
    b"",
    b"(port,(frame, {@seq}))",
    b"(port, (frame,{@seq}))",
    b"(port, (frame, {@seq}))\n",
    b"(port, (frame, {@seq}))\r",
    b"(port, (frame, {@seq})) ",
    b" (port, (frame, {@seq}))",
    b"\n(port, (frame, {@seq}))",
    b"(port, (frame, {@seq,stamp}))",
    b"(port, (frame, {@seq,  stamp}))",
    b"(port, (frame, {@seq ,stamp}))",
    b"(port, (frame, {@seq , stamp}))",
    b"(port, (frame, {@seq, }))",
    b"(port, (frame, {@seq,}))",
    b"(port, (frame, {, @seq}))",
    b"(port, (frame, {,}))",
    b"(port, (frame, {, }))",
    b"(port., (frame, {@seq}))",
    b"(.port, (frame, {@seq}))",
    b"(port..run, (frame, {@seq}))",
    b"(.., (frame, {@seq}))",
    b"(port, (frame, {stamp.}))",
    b"(port, (frame, {.stamp}))",
    b"(, (frame, {@seq}))",
    b"(port, (, {@seq}))",
    b"(port, (frame, {@}))",
    b"(port, (frame, {@@id}))",
    b"(port, (frame, {@#}))",
    b"(port, (frame, {@_*}))",
    b"(port, (frame, {@.seq}))",
    b"(port, (frame, {##}))",
    b"(port, (frame, {#seq}))",
    b"(_, (frame, {@seq}))",
    b"(*, (frame, {@seq}))",
    b"(*_, (frame, {@seq}))",
    b"(__*, (frame, {@seq}))",
    b"(_*port, (frame, {@seq}))",
    b"(port_*, (frame, {@seq}))",
    b"(9a, (frame, {@seq}))",
    b"(-a, (frame, {@seq}))",
    b"(po rt, (frame, {@seq}))",
    b"(port , (frame, {@seq}))",
    b"(port,  (frame, {@seq}))",
    b"(port, ( frame, {@seq}))",
    b"(port, (frame, { @seq}))",
    b"(port, (frame, { }))",
    b"(port, (frame, {@seq})))",
    b"(port, (frame, {@seq})",
    b"((port, (frame, {@seq}))",
    b"(port, (frame, {@seq}, {stamp}))",
    b"(port, frame, {@seq})",
    b"(port, (frame, (@seq)))",
    b"(port, (frame, {@seq}))(port, (frame, {@seq}))",
    b"(a23456789-123456789_123456789-123, (frame, {@seq}))",
    b"(po\x00rt, (frame, {@seq}))",
    b"(po\x80rt, (frame, {@seq}))",
];

fn text(line: &[u8]) -> String {
    line.iter().map(|&byte| std::ascii::escape_default(byte).to_string()).collect()
}

/// Over the bench labels, in both editions: the edition's record changes nothing here.
fn accepted(cases: &mut Cases) {
    let second = joined(&[&hex("05 00 06 00 02"), &profile(&[])]);
    for (line, record) in ACCEPTED {
        let name = format!("line {}", line);
        cases.put_bytes_by_program(&name, read_line(&profile(&[]), line.as_bytes()), "key", &hex(record));
        cases.put_bytes(&format!("{} in edition 2", name), read_line(&second, line.as_bytes()), "key", &hex(record));
    }
    // The names are the profile's own: a letter, and 32 bytes.
    let long = "z-------------------------------";
    let few = joined(&[&label(2, 1, "A"), &label(200, 2, long)]);
    let line = format!("(A, (A.A, {{@{}}}))", long);
    let record = hex("0c 00 02 00 01 02 02 02 02 01 01 c8");
    cases.put_bytes_by_program("line with the longest name", read_line(&few, line.as_bytes()), "key", &record);
    let line = "(., (., {.}))".as_bytes();
    cases.put_bytes("line without names, of an empty profile", read_line(&[], line), "key", &hex("08 00 02 00 00 00 01 00"));
}

fn refused(cases: &mut Cases) {
    for (line, number) in REFUSED {
        let wanted = format!("refused {} 2 0", number);
        cases.put_by_program(&format!("line {}", line), read_line(&profile(&[]), line.as_bytes()), &wanted);
    }
    cases.put("line with a name, of an empty profile", read_line(&[], b"(port, (., {.}))"), "refused 18 2 0");
}

/// The program takes one newline at the end of its file for the line's end, so it is not asked of lines that end in one.
fn no_lines(cases: &mut Cases) {
    for line in NO_LINES {
        let (name, case) = (format!("no line `{}`", text(line)), read_line(&profile(&[]), line));
        match line.last() {
            Some(b'\n') => cases.put(&name, case, "refused 17 2 0"),
            _ => cases.put_by_program(&name, case, "refused 17 2 0"),
        }
    }
    // 0 and 128 anywhere.
    let line = ACCEPTED[0].0.as_bytes();
    for (byte, at) in [0, 128].into_iter().flat_map(|byte| (0..=line.len()).map(move |at| (byte, at))) {
        let with = joined(&[&line[..at], &[byte], &line[at..]]);
        cases.put(&format!("no line: byte {} before byte {}", byte, at), read_line(&profile(&[]), &with), "refused 17 2 0");
    }
}

/// A line ends in its only `}))`, so no line begins another.
fn cut(cases: &mut Cases) {
    for (line, _) in ACCEPTED {
        for at in 0..line.len() {
            let case = read_line(&profile(&[]), &line.as_bytes()[..at]);
            cases.put(&format!("line {} cut at {}", line, at), case, "refused 17 2 0");
        }
    }
}

/// For each byte of the line the signs that leave it a line when they take its place. What was a label's name is none then, so all of these
/// are refused by 18: a letter or `_` in a name, `.` between two letters, `@` for an element's first letter, a letter for `@`.
const STAYS_A_LINE: [(&str, &str); 23] = [
    ("(", ""),
    ("p", "a@"),
    ("o", "a._"),
    ("r", "a._"),
    ("t", "a_"),
    (",", ""),
    (" ", ""),
    ("(", ""),
    ("f", "a@"),
    ("r", "a._"),
    ("a", "._"),
    ("m", "a._"),
    ("e", "a_"),
    (",", ""),
    (" ", ""),
    ("{", ""),
    ("@", "a"),
    ("s", "a"),
    ("e", "a._"),
    ("q", "a_"),
    ("}", ""),
    (")", ""),
    (")", ""),
];

/// Each byte replaced by each sign of the grammar, and a letter. (The stream of tests/differential.sh has this of every accepted line.)
fn replaced(cases: &mut Cases) {
    let (line, record) = (ACCEPTED[0].0.as_bytes(), hex(ACCEPTED[0].1));
    for (at, (was, stays)) in STAYS_A_LINE.iter().enumerate() {
        assert_eq!(was.as_bytes(), &line[at..=at]);
        for sign in ". , ( ) { } _ * # @ a".split(' ').chain([" "]) {
            let case = read_line(&profile(&[]), &joined(&[&line[..at], sign.as_bytes(), &line[at + 1..]]));
            let name = format!("line with `{}` for byte {}", sign, at);
            match (sign == *was, stays.contains(sign)) {
                (true, _) => cases.put_bytes(&name, case, "key", &record),
                (false, true) => cases.put(&name, case, "refused 18 2 0"),
                (false, false) => cases.put(&name, case, "refused 17 2 0"),
            }
        }
    }
}

/// A question, and its line: paths in record order.
const WRITTEN: [(&str, &str); 9] = [
    ("(port,(frame,{stamp,@seq}))", "(port, (frame, {stamp, @seq}))"),
    ("(e,(run,{e,port,@seq,frame.stamp}))", "(., (run, {., port, @seq, frame.stamp}))"),
    ("(e,(e,{e}))", "(., (., {.}))"),
    ("(_*,(port._*.frame,{#}))", "(_*, (port._*.frame, {#}))"),
    ("(_*,(_*,{run}))", "(_*, (_*, {run}))"),
    ("(run,(@id,{e}))", "(run, (@id, {.}))"),
    ("(#,(e,{e}))", "(#, (., {.}))"),
    ("(e,(e,{run,port,frame,stamp}))", "(., (., {run, port, frame, stamp}))"),
    ("(e,(e,{run.port.frame.stamp.run.port.frame.@id}))", "(., (., {run.port.frame.stamp.run.port.frame.@id}))"),
];

fn written(cases: &mut Cases) {
    let labels = profile(&[]);
    assert_eq!(key(WRITTEN[0].0), hex("0d 00 02 00 01 03 01 04 02 01 05 01 07"));
    assert_eq!((WRITTEN[0].1.len(), WRITTEN[1].1.len()), (30, 40));
    for (question, line) in WRITTEN {
        cases.put_bytes_by_program(&format!("line of {}", question), write_line(&labels, &key(question)), "text", line.as_bytes());
        cases.put_bytes(&format!("line of {} read back", question), read_line(&labels, line.as_bytes()), "key", &key(question));
    }
    let full = "(run.port.run.port.run.port.run.port,(stamp.stamp.stamp.stamp.stamp.stamp.stamp.stamp,{run,port,frame,stamp}))";
    let line = "(run.port.run.port.run.port.run.port, (stamp.stamp.stamp.stamp.stamp.stamp.stamp.stamp, {run, port, frame, stamp}))";
    cases.put_bytes("line of 20 symbols", write_line(&labels, &key(full)), "text", line.as_bytes());
    let good = key("(port,(frame,{@seq}))");
    for (name, question, wanted) in [
        ("symbol 200, not declared", key("(200,(e,{e}))"), "refused 4 2 0"),
        ("its body cut", good[..good.len() - 1].to_vec(), "refused 1 2 0"),
        ("nothing", Vec::new(), "refused 1 2 0"),
        ("a label", label(2, 1, "run"), "refused 2 2 0"),
        ("two keys", good.repeat(2), "refused 2 2 1"),
        ("no key path", key("(e,(e,{}))"), "refused 5 2 0"),
        ("paths not in order", key("(e,(e,{@seq,stamp}))"), "refused 5 2 0"),
        ("an attribute before an element", key("(@id,(port,{e}))"), "refused 6 2 0"),
    ] {
        cases.put_by_program(&format!("line of a question that is refused: {}", name), write_line(&labels, &question), wanted);
    }
}

/// 14 before all, then the profile, then the line or the question.
fn inputs(cases: &mut Cases) {
    let (labels, line, question) = (profile(&[]), ACCEPTED[0].0.as_bytes(), key("(port,(frame,{@seq}))"));
    for room in [0, 1, 65_535] {
        for (name, front, line, question) in [("good", &labels[..], line, &question[..]), ("all refused", &[9][..], &[][..], &[][..])] {
            let name = |what: &str| format!("text, room {}, {}: {}", room, name, what);
            cases.put(&name("reading"), in_room(room, read_line(front, line)), "refused 14 4 0");
            cases.put(&name("writing"), in_room(room, write_line(front, question)), "refused 14 4 0");
        }
    }
    cases.put_bytes("text, a byte more room: reading", in_room(65_537, read_line(&labels, line)), "key", &question);
    cases.put_bytes("text, a byte more room: writing", in_room(65_537, write_line(&labels, &question)), "text", line);
    let twice = profile(&["(e,(run,{@id}))", "(e,(run,{@id}))"]);
    for (name, front, wanted) in [
        ("one byte", &[9][..], "refused 1 1 0"),
        ("a key twice", &twice, "refused 15 1 7"),
        ("over its size", &vec![0; 16_385], "refused 7 1 0"),
    ] {
        cases.put(&format!("text, profile refused, {}: reading", name), read_line(front, b"no line"), wanted);
        cases.put(&format!("text, profile refused, {}: writing", name), write_line(front, &[]), wanted);
    }
    // The profile's keys are not asked, and a line may say one of them.
    let same = profile(&["(port,(frame,{@seq}))"]);
    cases.put_bytes("text, a key of the profile: reading", read_line(&same, line), "key", &question);
    cases.put_bytes("text, a key of the profile: writing", write_line(&same, &question), "text", line);
}
