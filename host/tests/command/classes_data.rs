//! Tests of `phd classes` with `--csv` and `--json`.

use crate::builder::Builder;
use crate::harness::{edited, example, Folder};
use crate::json::{self, number, text, Json};

const HEADING: &str = "class,raw_name,class_address,kind,instances,bytes,bytes_at_most,waiting,references,share_percent,state,reply,place\n";

/// Returns a heap of every kind of line; that of class 0x108 has no class record.
fn heap() -> Builder {
    let mut heap = Builder::new();
    heap.class(0x100, "com/x/A", 24).class(0x104, "com/x/B", 40);
    heap.object(0x1000, 0x100).object(0x1020, 0x100);
    heap.object(0x1040, 0x108).array(0x1060, 0x104, 3, 25);
    heap.primitive(0x2000, 5, 13);
    heap
}

/// The lines of `heap`, without the state.
const LINES: [&str; 4] = [
    "com.x.B[],[Lcom/x/B;,0x00000104,object array,1,100,100,0,3,50.000",
    "short[],[S,,primitive array,1,52,52,0,0,26.000",
    "com.x.A,com/x/A,0x00000100,object,2,48,48,0,2,24.000",
    "class at 0x00000108,,0x00000108,object,1,,32,1,1,",
];

/// Returns the lines of `heap` with a state.
fn lines(state: &str) -> String {
    LINES.map(|line| format!("{line},{state}\n")).concat()
}

#[test]
fn csv_of_every_state() {
    let folder = Folder::new("csv-states");
    let (cut, whole) = (heap().cut(), heap().end());
    let place = cut.len();
    let damaged = [&cut[..], b"\x05"].concat();
    folder.write("whole", &whole);
    folder.write("cut", &cut).write("damaged", &damaged);
    let ran = folder.phd(&["classes", "--csv", "whole"]).exits(0);
    let expected = HEADING.to_string() + &lines(&format!("whole,0,{}", place + 1));
    // The known bytes are 200, and 52 and 48 of them are shares of 26 and 24 percent.
    assert_eq!(ran.no_stderr().out(), expected);
    for (file, state) in [("cut", "cut,1"), ("damaged", "damaged,6")] {
        let ran = folder.phd(&["classes", "--csv", file]).exits(1);
        let expected = HEADING.to_string() + &lines(&format!("{state},{place}"));
        assert_eq!(ran.out(), expected);
        let message = match file {
            "cut" => "phd: cut: cut off (reply 1). The file ends at byte ",
            _ => "phd: damaged: refused (reply 6). The record at byte ",
        };
        ran.stderr_has(message);
    }
}

#[test]
fn csv_without_lines() {
    let folder = Folder::new("csv-empty");
    folder.write("none", &Builder::new().end());
    folder.write("cut", &example()[..20]);
    let ran = folder.phd(&["classes", "--csv", "none"]).exits(0);
    assert_eq!(ran.no_stderr().out(), HEADING);
    let ran = folder.phd(&["classes", "--csv", "cut"]).exits(1);
    assert_eq!(ran.out(), HEADING);
    ran.stderr_has("phd: cut: cut off (reply 1). The file ends inside the header");
}

#[test]
fn csv_in_order() {
    let folder = Folder::new("csv-order");
    folder.write("a", &heap().end());
    let first = |arguments: &[&str]| {
        let ran = folder.phd(&[&["classes", "--csv", "a"], arguments].concat());
        let names: Vec<String> = ran
            .exits(0)
            .no_stderr()
            .out()
            .lines()
            .skip(1)
            .map(|line| line.split(',').next().unwrap().to_string())
            .collect();
        names.join(" ")
    };
    assert_eq!(first(&["--top", "2"]), "com.x.B[] short[]");
    assert_eq!(first(&["--top", "1", "--sort", "instances"]), "com.x.A");
    let raw = "[Lcom/x/B; [S class at 0x00000108 com/x/A";
    assert_eq!(first(&["--raw", "--sort", "name"]), raw);
}

/// Returns the values of a line of CSV.
fn values(line: &str) -> Vec<String> {
    let mut values = vec![String::new()];
    let (mut quoted, mut rest) = (false, line.chars().peekable());
    while let Some(c) = rest.next() {
        let value = values.last_mut().unwrap();
        match c {
            '"' if quoted && rest.next_if_eq(&'"').is_some() => value.push('"'),
            '"' => quoted = !quoted,
            ',' if !quoted => values.push(String::new()),
            _ => value.push(c),
        }
    }
    values
}

/// Names with every character that a name can have, and the longest name.
#[test]
fn odd_names() {
    let folder = Folder::new("data-names");
    let all: String = ('!'..='~').collect();
    let long = "N,\"".repeat(65_535 / 3);
    for name in [
        &all, &long, "\"", ",", "\\", "a,b", "\\\"", "=1+1", "[", "/",
    ] {
        let mut heap = Builder::new();
        heap.class(0x100, name, 24).object(0x1000, 0x100);
        folder.write("a", &heap.end());
        let ran = folder.phd(&["classes", "--csv", "a"]).exits(0).no_stderr();
        let line = ran.out().lines().nth(1).expect("a line");
        let values = values(line);
        assert_eq!(values.len(), 13, "{line}");
        let java = name.replace('/', ".");
        let java = if name.starts_with('[') { name } else { &java };
        assert_eq!((&values[0][..], &values[1][..]), (java, name));
        let ran = folder.phd(&["classes", "--json", "a"]).exits(0).no_stderr();
        let json = json::parse(ran.out());
        let class = &json.get("classes").list()[0];
        assert_eq!(*class.get("class"), text(java));
        assert_eq!(*class.get("raw_name"), text(name));
    }
}

/// The members of a report and of a class in it.
const REPORT: [&str; 10] = [
    "file",
    "state",
    "reply",
    "place",
    "file_bytes",
    "records",
    "instances",
    "bytes",
    "waiting",
    "classes",
];
const CLASS: [&str; 10] = [
    "class",
    "raw_name",
    "class_address",
    "kind",
    "instances",
    "bytes",
    "bytes_at_most",
    "waiting",
    "references",
    "share_percent",
];

/// Checks the members of an object.
fn check(object: &Json, names: &[&str], values: &[Json]) {
    assert_eq!(object.names(), names);
    for (name, value) in names.iter().zip(values) {
        assert_eq!(object.get(name), value, "{name}");
    }
}

#[test]
fn json_of_a_whole_dump() {
    let folder = Folder::new("json-whole");
    let dump = heap().end();
    folder.write("a \"b\"\n", &dump);
    let ran = folder.phd(&["classes", "--json", "a \"b\"\n"]).exits(0);
    let json = json::parse(ran.no_stderr().out());
    let size = dump.len() as u64;
    let numbers = [0, size, size, 7, 5, 200, 1].map(number);
    let report = [&[text("a \"b\"\n"), text("whole")], &numbers[..]].concat();
    check(&json, &REPORT, &report);
    assert_eq!(json.get("classes").list().len(), 4);
}

#[test]
fn json_of_classes() {
    let folder = Folder::new("json-classes");
    folder.write("a", &heap().end());
    let ran = folder.phd(&["classes", "--json", "a"]).exits(0);
    let json = json::parse(ran.no_stderr().out());
    let classes = json.get("classes").list();
    let array = ["com.x.B[]", "[Lcom/x/B;", "0x00000104", "object array"].map(text);
    let numbers = ["1", "100", "100", "0", "3", "50.000"].map(number);
    check(&classes[0], &CLASS, &[&array[..], &numbers].concat());
    assert_eq!(*classes[1].get("class_address"), Json::Null);
    assert_eq!(*classes[1].get("kind"), text("primitive array"));
    let unknown = [
        text("class at 0x00000108"),
        Json::Null,
        text("0x00000108"),
        text("object"),
        number(1),
        Json::Null,
        number(32),
        number(1),
        number(1),
        Json::Null,
    ];
    check(&classes[3], &CLASS, &unknown);
}

#[test]
fn json_of_dumps_that_are_not_whole() {
    let folder = Folder::new("json-states");
    let cases = [
        (example()[..65].to_vec(), "cut", 1, 64, 1),
        (edited(64, b"\xA0"), "damaged", 10, 64, 1),
        (example()[..20].to_vec(), "cut", 1, 0, 0),
        (b"no dump at all".to_vec(), "damaged", 3, 0, 0),
    ];
    for (dump, state, reply, place, classes) in cases {
        folder.write("a", &dump);
        let ran = folder.phd(&["classes", "--json", "a"]).exits(1);
        let ran = ran.stderr_has(&format!(" (reply {reply}). "));
        let json = json::parse(ran.out());
        let report = [text("a"), text(state), number(reply), number(place)];
        check(&json, &REPORT, &report);
        assert_eq!(json.get("classes").list().len(), classes);
    }
}

#[test]
fn json_in_order() {
    let folder = Folder::new("json-order");
    folder.write("a", &heap().end());
    let ran = folder.phd(&[
        "classes", "--json", "--top", "1", "--sort", "name", "--raw", "a",
    ]);
    let json = json::parse(ran.exits(0).no_stderr().out());
    let classes = json.get("classes").list();
    assert_eq!(classes.len(), 1);
    assert_eq!(*classes[0].get("class"), text("[Lcom/x/B;"));
    // The sums are over all classes.
    assert_eq!(*json.get("bytes"), number(200));
}
