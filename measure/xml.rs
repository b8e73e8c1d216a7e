//! The bench-like segment as XML with schemas for it, so that a validator of XML can be seen beside the tree test, for scale.
use crate::reference::records::{PROFILE_KEYS, TREE_NODES};
use crate::trees::{ports, sets_of_a_frame, FRAMES, OF_A_PORT};
use std::fmt::Write;
use std::fs;
use std::path::Path;

fn trace() -> String {
    let mut text = String::from("<?xml version=\"1.0\"?>\n<trace>\n");
    for number in 0..ports(TREE_NODES) {
        writeln!(text, "<port id=\"{}\">", number).unwrap();
        for seq in 0..FRAMES {
            let id = FRAMES * number + seq;
            writeln!(text, "<frame id=\"{}\" seq=\"{}\"><stamp>{}</stamp></frame>", id, seq, seq).unwrap();
        }
        text.push_str("</port>\n");
    }
    text.push_str("</trace>\n");
    text
}

/// The text of a stamp is what XML Schema compares stamps by.
fn field(path: &str) -> String {
    format!("<xs:field xpath=\"{}\"/>", path.trim_end_matches(".#"))
}

fn unique(number: usize, selector: &str, paths: &[&str]) -> String {
    let fields: String = paths.iter().map(|path| field(path)).collect();
    format!("<xs:unique name=\"key{}\"><xs:selector xpath=\"{}\"/>{}</xs:unique>\n", number, selector, fields)
}

fn selector(target: &str) -> &'static str {
    if target.starts_with("_*") {
        ".//frame"
    } else {
        "frame"
    }
}

/// One `xs:unique` for each of the segment's keys whose context is a port; a port stands at one depth, so `port` and `_*.port` are one.
fn of_a_port() -> Vec<String> {
    let mut all = Vec::new();
    for (_, target) in OF_A_PORT {
        for set in sets_of_a_frame() {
            all.push(unique(all.len(), selector(target), &set));
        }
    }
    all
}

/// And for those of the whole tree; a key whose context is any node is asked of the root.
fn of_the_tree(from: usize) -> Vec<String> {
    let selectors = ["port/frame", ".//frame", "port/frame", ".//frame"];
    selectors.iter().enumerate().map(|(i, selector)| unique(from + i, selector, &["@id"])).collect()
}

fn schema(in_port: &str, in_trace: &str) -> String {
    let attribute = |name| format!("<xs:attribute name=\"{}\" type=\"xs:integer\"/>\n", name);
    let frame = format!(
        "<xs:element name=\"frame\" maxOccurs=\"unbounded\"><xs:complexType><xs:sequence>\
         <xs:element name=\"stamp\" type=\"xs:integer\"/></xs:sequence>\n{}{}</xs:complexType></xs:element>\n",
        attribute("id"),
        attribute("seq")
    );
    let port = format!(
        "<xs:element name=\"port\" maxOccurs=\"unbounded\"><xs:complexType><xs:sequence>\n{}</xs:sequence>\n{}</xs:complexType>\n{}</xs:element>\n",
        frame,
        attribute("id"),
        in_port
    );
    format!(
        "<?xml version=\"1.0\"?>\n<xs:schema xmlns:xs=\"http://www.w3.org/2001/XMLSchema\">\n<xs:element name=\"trace\"><xs:complexType>\
         <xs:sequence>\n{}</xs:sequence></xs:complexType>\n{}</xs:element>\n</xs:schema>\n",
        port, in_trace
    )
}

/// `trace.xml`, and schemas with no, one and 64 `xs:unique`; and one that the trace breaks, to see that the validator looks.
pub fn write_all(folder: &Path) {
    let in_port = of_a_port();
    let in_trace = of_the_tree(in_port.len());
    assert_eq!(in_port.len() + in_trace.len(), PROFILE_KEYS);
    let put = |name: &str, text: String| fs::write(folder.join(name), text).expect("the folder takes files");
    put("trace.xml", trace());
    put("keys0.xsd", schema("", ""));
    put("keys1.xsd", schema(&unique(0, "frame", &["@seq"]), ""));
    put("broken.xsd", schema("", &unique(0, "port/frame", &["@seq"])));
    put("keys64.xsd", schema(&in_port.concat(), &in_trace.concat()));
}
