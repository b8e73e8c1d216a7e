//! Inputs: questions, and the order of refusals: "14; then profile, question, tree or proof. In each input its size, then records
//! from the front; in one record 7, then 1, 2, 3, 4, 5, 6, 8, 9."
use super::expectations::Cases;
use super::notation::*;
use crate::reference::stream::Case;

const Q0: &str = "(e,(e,{e}))";

pub fn put(cases: &mut Cases) {
    questions(cases);
    long_questions(cases);
    second_records(cases);
    two_faults_in_one_record(cases);
    earlier_record_first(cases);
    profile_first(cases);
    question_next(cases);
    answer_buffer_first(cases);
}

/// Every operation that takes a question refuses it alike; the third input is empty, which comes later.
fn refuse(cases: &mut Cases, name: &str, question: &[u8], wanted: &str) {
    let labels = labels(BENCH);
    let name = format!("question: {}", name);
    cases.put(&format!("{} (decide)", name), decide(&labels, question), wanted);
    cases.put(&format!("{} (keep)", name), keep(&labels, question, &[]), wanted);
    cases.put(&format!("{} (proof)", name), check_proof(&labels, question, &[]), wanted);
    cases.put(&format!("{} (tree)", name), check_tree(&labels, question, &[]), wanted);
}

fn questions(cases: &mut Cases) {
    for (name, bytes, wanted) in [
        ("empty", "", "refused 1 2 0"),
        ("one byte", "08", "refused 1 2 0"),
        ("three bytes", "08 00 02", "refused 1 2 0"),
        ("length 3", "03 00 02 00 00 00 01 00", "refused 1 2 0"),
        ("past the end", "09 00 02 00 00 00 01 00", "refused 1 2 0"),
        ("body does not end", "09 00 02 00 00 00 01 00 00", "refused 1 2 0"),
        ("key path missing", "07 00 02 00 00 00 01", "refused 1 2 0"),
        ("label", "07 00 01 00 08 01 61", "refused 2 2 0"),
        ("label without class", "05 00 01 00 08", "refused 1 2 0"),
        ("node", "09 00 03 00 ff ff cb 00 00", "refused 2 2 0"),
        ("node of kind 5", "0b 00 05 00 ff ff cb 00 00 00 00", "refused 2 2 0"),
        ("node of kind 5 with a body of 6", "0a 00 05 00 ff ff cb 00 00 00", "refused 1 2 0"),
        ("proof line", "0d 00 04 00 01 ff ff ff ff 00 00 01 00", "refused 2 2 0"),
        ("kind 0", "08 00 00 00 00 00 01 00", "refused 2 2 0"),
        ("kind 258", "08 00 02 01 00 00 01 00", "refused 2 2 0"),
    ] {
        refuse(cases, name, &hex(bytes), wanted);
    }
    for (name, text, wanted) in [
        ("undeclared", "(8,(e,{e}))", "refused 4 2 0"),
        ("doubled 0", "(e,(_*._*,{e}))", "refused 4 2 0"),
        ("0 in a key path", "(e,(run,{_*}))", "refused 4 2 0"),
        ("9 symbols", "(e,(run.run.run.run.run.run.run.run.run,{e}))", "refused 4 2 0"),
        ("no key path", "(e,(run,{}))", "refused 5 2 0"),
        ("5 key paths", "(e,(run,{e,run,port,frame,stamp}))", "refused 5 2 0"),
        ("out of order", "(e,(run,{run,e}))", "refused 5 2 0"),
        ("repeated", "(e,(run,{run,run}))", "refused 5 2 0"),
        ("not valid", "(e,(@id,{e,run}))", "refused 6 2 0"),
    ] {
        refuse(cases, name, &key(text), wanted);
    }
}

/// A question has no size of its own in 01, so 7 never has input 2.
fn long_questions(cases: &mut Cases) {
    let long_path = joined(&[&[255], &[2; 255]]);
    let body = joined(&[&[0, 0, 200], &long_path.repeat(200)]);
    refuse(cases, "a key record of 51,207 bytes", &of_kind(2, &body), "refused 4 2 0");
    let longest = of_kind(1, &vec![b'a'; 65_531]);
    refuse(cases, "a label record of 65,535 bytes", &longest, "refused 2 2 0");
    refuse(cases, "two records of 65,535 bytes", &longest.repeat(2), "refused 2 2 0");
    let sound = key(Q0);
    refuse(cases, "a second record of 65,535 bytes", &joined(&[&sound, &longest]), "refused 2 2 1");
}

/// "a second question record": record 1 is judged in order, and after all faults of record 0.
fn second_records(cases: &mut Cases) {
    let sound = key(Q0);
    for (name, bytes, wanted) in [
        ("the same again", "08 00 02 00 00 00 01 00", "refused 2 2 1"),
        ("a label", "07 00 01 00 08 01 61", "refused 2 2 1"),
        ("an unknown kind", "04 00 07 00", "refused 2 2 1"),
        ("one byte", "09", "refused 1 2 1"),
        ("past the end", "09 00 02 00 00 00 01 00", "refused 1 2 1"),
        ("body does not end", "09 00 02 00 00 00 01 00 00", "refused 1 2 1"),
        ("a key with a fault of 4", "09 00 02 00 01 c8 00 01 00", "refused 2 2 1"),
    ] {
        refuse(cases, &format!("second record: {}", name), &joined(&[&sound, &hex(bytes)]), wanted);
    }
    for (name, text, wanted) in [
        ("4", "(8,(e,{e}))", "refused 4 2 0"),
        ("5", "(e,(run,{}))", "refused 5 2 0"),
        ("6", "(e,(@id,{run}))", "refused 6 2 0"),
    ] {
        refuse(cases, &format!("{} in record 0 before record 1", name), &joined(&[&key(text), &[9]]), wanted);
    }
}

/// Two faults in one record: the earlier number is given. 7 before 1, 2, 4: profiles.rs, key 65; lines.rs, line 257.
fn two_faults_in_one_record(cases: &mut Cases) {
    let after = |front: &[&str], bytes: &[u8]| rewrite(&joined(&[&profile(front), bytes]));
    let one = ["(e,(run,{@id}))"];
    for (name, case, wanted) in [
        ("1 before 2: a node with a body of 1", after(&[], &hex("05 00 03 00 01")), "refused 1 1 6"),
        ("1 before 2: a node of kind 5 with a body of 5", after(&[], &hex("09 00 05 00 ff ff cb 00 00")), "refused 1 1 6"),
        ("2: a node of kind 5", after(&[], &hex("0b 00 05 00 ff ff cb 00 00 00 00")), "refused 2 1 6"),
        ("1 before 2: a label after a key without class", after(&one, &hex("05 00 01 00 08")), "refused 1 1 7"),
        ("1 before 2: an unknown kind past the end", after(&[], &hex("06 00 07 00 01")), "refused 1 1 6"),
        ("1 before 3: a label past the end with number 255", after(&[], &hex("08 00 01 00 ff 09 2d")), "refused 1 1 6"),
        ("1 before 4: a key with a byte left over", after(&[], &hex("0b 00 02 00 01 c8 00 01 00 00 00")), "refused 1 1 6"),
        ("2 before 3: a label after a key, number 255, class 9, no name", after(&one, &hex("06 00 01 00 ff 09")), "refused 2 1 7"),
        ("2 before 3: a label after a key, name used before", after(&one, &label(8, 1, "run")), "refused 2 1 7"),
        ("4 before 5: undeclared, and no key path", after(&["(8,(run,{}))"], &[]), "refused 4 1 6"),
        ("4 before 5: out of order, and undeclared last", after(&["(e,(run,{run,port.8,@id}))"], &[]), "refused 4 1 6"),
        ("4 before 5: five key paths, the fifth undeclared", after(&["(e,(run,{e,run,port,frame,8}))"], &[]), "refused 4 1 6"),
        ("4 before 5: five key paths, the fifth with 0", after(&["(e,(run,{e,run,port,frame,_*}))"], &[]), "refused 4 1 6"),
        ("4 before 5: repeated, doubled 0 in the context", after(&["(_*._*,(run,{run,run}))"], &[]), "refused 4 1 6"),
        ("4 before 6: attribute before an undeclared symbol", after(&["(@id,(8,{e}))"], &[]), "refused 4 1 6"),
        ("5 before 6: not valid, and out of order", after(&["(@id,(run,{run,e}))"], &[]), "refused 5 1 6"),
        ("5 before 6: not valid, and five key paths", after(&["(e,(@id,{e,run,port,frame,stamp}))"], &[]), "refused 5 1 6"),
        ("5: no key path after a context that is not valid", after(&["(@id.run,(e,{}))"], &[]), "refused 5 1 6"),
    ] {
        cases.put(name, case, wanted);
    }
}

/// "records from the front": a later record's lower number does not come first.
fn earlier_record_first(cases: &mut Cases) {
    let faults = ["(@id,(run,{e}))", "(e,(run,{}))", "(8,(e,{e}))"];
    cases.put("6 in record 6 before 5 and 4 later", rewrite(&profile(&faults)), "refused 6 1 6");
    let cut = joined(&[&profile(&["(e,(run,{run,e}))"]), &[9]]);
    cases.put("5 in record 6 before 1 in record 7", rewrite(&cut), "refused 5 1 6");
    let many = profile_with(&[vec!["(e,(run,{}))".to_string()], different(64, "(run,{@id}))")].concat());
    cases.put("5 in record 6 before the 65th key", rewrite(&many), "refused 5 1 6");
    let label_first = joined(&[&label(9, 3, "a"), &hex("05 00 01 00 02")]);
    cases.put("3 in record 0 before 1 in record 1", rewrite(&label_first), "refused 3 1 0");
}

/// The profile's faults come before all faults of the other inputs, its own late record too.
fn profile_first(cases: &mut Cases) {
    let bad = joined(&[&profile(&["(e,(run,{@id}))"]), &hex("07 00 01 00 08 01 61")]);
    let late = "refused 2 1 7";
    let (junk, large) = (vec![9u8], vec![0u8; 70_000]);
    cases.put("profile before question (decide)", decide(&bad, &junk), late);
    cases.put("profile before question and tree (keep)", keep(&bad, &junk, &junk), late);
    cases.put("profile before question and proof", check_proof(&bad, &junk, &junk), late);
    cases.put("profile before question and tree (tree)", check_tree(&bad, &junk, &junk), late);
    cases.put("profile before tree (list)", list(&bad, &junk, 0), late);
    cases.put("profile before paths", include(&bad, &[8], &[8]), late);
    cases.put("profile's records before the tree's size", keep(&bad, &key(Q0), &large), late);
    cases.put("profile's records before the proof's size", check_proof(&bad, &key(Q0), &large), late);
    cases.put("profile's size before all of keep", keep(&large, &junk, &large), "refused 7 1 0");
    cases.put("profile's size before all of decide", decide(&large, &[]), "refused 7 1 0");
    for (number, text) in [(4, "(8,(e,{e}))"), (5, "(e,(e,{}))"), (6, "(@id,(run,{e}))")] {
        let wanted = format!("refused {} 1 6", number);
        cases.put(&format!("profile's {} before the question's 1", number), decide(&profile(&[text]), &[]), &wanted);
        cases.put(&format!("profile's {} before the tree's 8", number), list(&profile(&[text]), &[], 0), &wanted);
    }
}

/// The question's faults come before those of tree or proof, sizes too.
fn question_next(cases: &mut Cases) {
    let labels = labels(BENCH);
    let bad = key("(e,(@id,{run}))");
    let twice = key(Q0).repeat(2);
    for (name, third) in [("empty", Vec::new()), ("one byte", vec![9]), ("over its size", vec![0; 65_537])] {
        cases.put(&format!("question before a tree that is {} (keep)", name), keep(&labels, &bad, &third), "refused 6 2 0");
        cases.put(&format!("question before a tree that is {} (tree)", name), check_tree(&labels, &bad, &third), "refused 6 2 0");
        cases.put(&format!("question before a proof that is {}", name), check_proof(&labels, &bad, &third), "refused 6 2 0");
        cases.put(&format!("second record before a tree that is {}", name), keep(&labels, &twice, &third), "refused 2 2 1");
        cases.put(&format!("second record before a proof that is {}", name), check_proof(&labels, &twice, &third), "refused 2 2 1");
    }
}

/// 14: "every operation that fills an answer buffer (here decider, rewriting, listing): it is under 65,536 bytes", before all else.
fn answer_buffer_first(cases: &mut Cases) {
    let (sound, large) = (profile(&[]), vec![0u8; 40_000]);
    for room in [0, 1, 65_535] {
        let put = |cases: &mut Cases, name: &str, case: Case| {
            cases.put(&format!("{} in {} bytes", name, room), in_room(room, case), "refused 14 4 0");
        };
        put(cases, "rewriting", rewrite(&sound));
        put(cases, "rewriting nothing", rewrite(&[]));
        put(cases, "rewriting a damaged profile", rewrite(&[9]));
        put(cases, "rewriting a profile over its size", rewrite(&large));
        put(cases, "deciding", decide(&sound, &key(Q0)));
        put(cases, "deciding with a damaged profile", decide(&[9], &[]));
        put(cases, "deciding with a profile over its size", decide(&large, &[9]));
        put(cases, "deciding with an empty question", decide(&sound, &[]));
        put(cases, "listing", list(&sound, &tree(ROOT), 0));
        put(cases, "listing past the end", list(&sound, &tree(ROOT), 9));
        put(cases, "listing with a damaged profile", list(&[9], &[], 0));
        put(cases, "listing an empty tree", list(&sound, &[], 0));
        put(cases, "listing a tree over its size", list(&sound, &large, 0));
    }
    // The others lend no buffer: its size is nothing to them.
    cases.put("keep has no answer buffer", in_room(0, keep(&sound, &key(Q0), &tree(ROOT))), "kept");
    cases.put("inclusion has no answer buffer", in_room(0, include(&sound, &[2], &[0])), "included");
    cases.put("the proof check has no answer buffer", in_room(0, check_proof(&sound, &key(Q0), &[])), "refused 10 3 0");
    cases.put("the tree check has no answer buffer", in_room(0, check_tree(&sound, &key(Q0), &tree(ROOT))), "refused 13 3 0");
    cases.put_bytes("body has no answer buffer", in_room(0, body(&sound, 0)), "body", &hex("02 01 72 75 6e"));
}
