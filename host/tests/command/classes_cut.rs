//! Tests of `phd classes` on dumps that are cut off or damaged: what is stated of them, and that no more is.

use crate::builder::Builder;
use crate::harness::{edited, example, Folder, STARTS};

/// Adds eight objects of two classes, 32 and 48 bytes apart, an object array and a char array.
fn objects(heap: &mut Builder) {
    for at in 0..4 {
        heap.object(0x1000 + 80 * at, 0x100);
        heap.object(0x1020 + 80 * at, 0x104);
    }
    heap.array(0x2000, 0x100, 1, 10).primitive(0x2040, 1, 6);
}

/// Adds the records of both classes.
fn class_records(heap: &mut Builder) {
    heap.class(0x100, "com/x/A", 24).class(0x104, "com/x/B", 40);
}

/// With the class records first, a cut dump has names and bytes for all that was read.
#[test]
fn class_records_first() {
    let folder = Folder::new("classes-cut-first");
    let mut heap = Builder::new();
    class_records(&mut heap);
    objects(&mut heap);
    let cut = heap.cut();
    folder.write("a", &cut[..cut.len() - 3]);
    let ran = folder.phd(&["classes", "a"]).exits(1).no_stderr();
    let report = "\
a: cut off (reply 1)
  The file ends inside the record that begins at byte 235 (0xEB), after 10 bytes of it.
  The table counts what was read: 11 records, 95.9 % of the file (235 of 245 bytes).
  What the file lacks is not counted, and nothing in the file shows how much that is.

  rank              bytes    share  cumulative     instances       average                        class
     1                160   54.0 %      54.0 %             4            40  ###########           com.x.B
     2                 96   32.4 %      86.4 %             4            24  ######                com.x.A
     3                 40   13.5 %     100.0 %             1            40  ###                   com.x.A[]
 total                296  100.0 %     100.0 %             9            32                        3 classes
";
    assert_eq!(ran.out(), report);
}

/// With the class records last, a cut dump has instances, bytes of arrays, and bounds from the gaps between addresses.
#[test]
fn class_records_last() {
    let folder = Folder::new("classes-cut-last");
    let mut heap = Builder::new();
    objects(&mut heap);
    folder.write("a", &heap.cut());
    let ran = folder.phd(&["classes", "a"]).exits(1).no_stderr();
    let report = "\
a: cut off (reply 1)
  The file ends at byte 194 (0xC2), where a record or the end tag must begin.
  The table counts what was read: 10 records, 100.0 % of the file (194 of 194 bytes).
  What the file lacks is not counted, and nothing in the file shows how much that is.
  No class record was read, so classes are named by address. What can be said: the instances of each, and the bytes of arrays.
  Unknown are the bytes of 8 objects: only the record of a class has the size of its objects. Shares are of known bytes.
  <= is the most that they can be: the objects of a class have one size, and none reaches past the next address.

  rank              bytes  known %  cumulative     instances       average                        class
     1             <= 192                                  4         <= 48                        class at 0x00000104 (bytes of 4 objects unknown)
     2             <= 128                                  4         <= 32                        class at 0x00000100 (bytes of 4 objects unknown)
     3                 40   62.5 %      62.5 %             1            40                        array of class at 0x00000100
     4                 24   37.5 %     100.0 %             1            24                        char[]
 total              >= 64  100.0 %     100.0 %            10                                      4 classes

  Not in this total are the unknown bytes of 8 objects: at most 320.
";
    assert_eq!(ran.out(), report);
}

/// A cut between two class records: one class has its name and bytes, the other neither.
#[test]
fn between_class_records() {
    let folder = Folder::new("classes-cut-between");
    let mut heap = Builder::new();
    objects(&mut heap);
    heap.class(0x100, "com/x/A", 24);
    folder.write("a", &heap.cut());
    let ran = folder.phd(&["classes", "a"]).exits(1).no_stderr();
    ran.stdout_has("  Classes whose record was not read, named by address: 1.\n")
        .stdout_has("  Unknown are the bytes of 4 objects: ")
        .stdout_has("     1             <= 192                                  4         <= 48                        class at 0x00000104 (bytes of 4 objects unknown)\n")
        .stdout_has("     2                 96   60.0 %      60.0 %             4            24                        com.x.A\n")
        .stdout_has("  com.x.A[]\n")
        .stdout_has(" total             >= 160  100.0 %     100.0 %            10 ")
        .stdout_has("of 4 objects: at most 192.\n");
}

/// The unknown classes that are not shown are counted.
#[test]
fn unknown_bytes_among_the_others() {
    let folder = Folder::new("classes-cut-top");
    let mut heap = Builder::new();
    objects(&mut heap);
    folder.write("a", &heap.cut());
    let ran = folder.phd(&["classes", "a", "--top", "1"]).exits(1);
    ran.stdout_has(
        "                    >= 64  100.0 %     100.0 %             6                                      (3 others, 1 of them with unknown bytes)\n",
    );
    let ran = folder
        .phd(&["classes", "a", "--sort", "instances"])
        .exits(1);
    ran.stdout_has("     1             <= 128 ")
        .stdout_has("     4                 24 ");
}

/// Records out of the order of addresses, and several at one address: the bound is that of the next higher address. An object at
/// the highest address has none.
#[test]
fn bounds_of_unordered_records() {
    let folder = Folder::new("classes-cut-order");
    let mut heap = Builder::new();
    heap.object(0x3000, 0x100).object(0x1000, 0x104);
    heap.object(0x1000, 0x104).primitive(0x1030, 1, 2);
    heap.object(0x2000, 0x100).object(0x9000, 0x108);
    heap.object(0x9000, 0x108);
    folder.write("a", &heap.cut());
    let ran = folder.phd(&["classes", "a"]).exits(1).no_stderr();
    ran.stdout_has("     1           <= 8,192                                  2      <= 4,096                        class at 0x00000100 (bytes of 2 objects unknown)\n")
        .stdout_has("     2              <= 96                                  2         <= 48                        class at 0x00000104 (bytes of 2 objects unknown)\n")
        .stdout_has("     4            unknown                                  2                                      class at 0x00000108 (bytes of 2 objects unknown)\n")
        .stdout_has("of 6 objects: at most 8,288 for 4, and without a bound for 2.\n");
    let mut heap = Builder::new();
    folder.write("a", &heap.object(0x1000, 0x100).cut());
    let ran = folder.phd(&["classes", "a"]).exits(1).no_stderr();
    ran.stdout_has("of 1 object: without a bound.\n");
}

/// A whole dump may lack a class record too.
#[test]
fn a_whole_dump_without_a_class() {
    let folder = Folder::new("classes-whole-without");
    let mut heap = Builder::new();
    class_records(&mut heap);
    heap.array(0x1000, 0x200, 1, 10).object(0x1040, 0x100);
    folder.write("a", &heap.end());
    let ran = folder.phd(&["classes", "a"]).exits(0).no_stderr();
    let ran = ran
        .stdout_has("  Classes whose record was not read, named by address: 1.\n")
        .stdout_has("  array of class at 0x00000200\n");
    assert!(!ran.out().contains("nknown"), "{}", ran.out());
}

/// A damaged dump: the table has what lies before the damage.
#[test]
fn a_damaged_dump() {
    let folder = Folder::new("classes-damaged");
    folder.write("a", &edited(64, b"\xA0"));
    let ran = folder.phd(&["classes", "a"]).exits(1).no_stderr();
    let report = "\
a: refused (reply 10)
  The record at byte 64 (0x40) names its class by a slot that nothing has filled yet.
  The table counts what was read: 2 records, 86.4 % of the file (64 of 74 bytes).
  What lies after that place was not read and is not counted.

  rank              bytes    share  cumulative     instances       average                        class
     1                 16  100.0 %     100.0 %             1            16  ####################  A
 total                 16  100.0 %     100.0 %             1            16                        1 class
";
    assert_eq!(ran.out(), report);
}

/// A name with a control byte is refused with its record, and never shown.
#[test]
fn control_bytes_in_a_name() {
    let folder = Folder::new("classes-control");
    for byte in [0x00, 0x07, 0x0A, 0x1B, 0x20, 0x7F, 0x9B] {
        folder.write("a", &edited(52, &[byte]));
        let ran = folder.phd(&["classes", "a"]).exits(1).no_stderr();
        let ran = ran
            .stdout_has("a: refused (reply 7)\n  The record at byte 38 (0x26) is a class ")
            .stdout_has("\n  No object and no array was read.\n");
        let shown = |c: char| c == '\n' || (' '..='~').contains(&c);
        assert!(ran.out().chars().all(shown), "{:?}", ran.out());
    }
}

/// Every cut of the example: the header, then what was read.
#[test]
fn every_cut() {
    let folder = Folder::new("classes-every-cut");
    for size in 0..74 {
        folder.write("a", &example()[..size]);
        let ran = folder.phd(&["classes", "a"]).exits(1).no_stderr();
        let ran = ran.stdout_has("a: cut off (reply 1)\n  The file ");
        let begun = STARTS.iter().filter(|place| **place <= size).count();
        let total = |bytes, instances| {
            format!("\n total {bytes:>18}  100.0 %     100.0 %  {instances:>12} ")
        };
        ran.stdout_has(&match begun {
            0 => "\n  No record was read, and nothing is known of the header.\n".into(),
            1 | 2 => "\n  No object and no array was read.\n".into(),
            3 => total(16, 1),
            4 => total(32, 2),
            _ => total(56, 3),
        });
    }
}

#[test]
fn no_dump_at_all() {
    let folder = Folder::new("classes-no-dump");
    folder.write("a", b"no dump at all");
    let ran = folder.phd(&["classes", "a"]).exits(1).no_stderr();
    ran.stdout_has("a: refused (reply 3)\n")
        .stdout_has("\n  No record was read, and nothing is known of the header.\n");
}
