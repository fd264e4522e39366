//! Guarded memory: it lies next to its guards, keeps what is lent and tells of padding, and a forbidden touch ends the
//! program with the case told.
use std::os::unix::process::ExitStatusExt;
use std::process::Command;

use lagumtay::raw::Reader;
use lagumtay_bench::guarded::Access::{self, Read, Write};
use lagumtay_bench::guarded::{named, Guarded, Manner, Side};

const SEGV: i32 = 11;
const PAGE: usize = 4096;
const BEFORE: Manner = Manner { side: Side::Before, padding: 0xa5 };
const AFTER: Manner = Manner { side: Side::After, padding: 0xa5 };

#[test]
fn what_is_lent_touches_a_guard() {
    let mut bases = Guarded::default();
    for access in [Read, Write] {
        for elements in [&[][..], &[7u16, 8, 9]] {
            let range = bases.lend(BEFORE, elements, access).as_ptr_range();
            assert_eq!(range.start as usize % PAGE, 0);
            let range = bases.lend(AFTER, elements, access).as_ptr_range();
            assert_eq!(range.end as usize % PAGE, 0);
            assert_eq!(bases.left(), elements);
        }
    }
}

#[test]
fn what_is_written_is_left() {
    let mut bytes = Guarded::default();
    bytes.lend(AFTER, &[1u8, 2, 3], Write)[1] = 9;
    assert_eq!(bytes.left(), [1, 9, 3]);
    assert_eq!(bytes.lend(BEFORE, &[4, 5], Read), [4, 5]);
    assert_eq!(bytes.left(), [4, 5]);
}

#[test]
fn altered_padding_is_told() {
    let mut states = Guarded::default();
    let state = Reader { kind: 1, steps: 2, digits: [3; 16], ..Reader::default() };
    for manner in [BEFORE, AFTER] {
        let lent = states.lend(manner, &[state; 3], Write);
        lent[0].steps = 4;
        let padding = unsafe { (&raw mut lent[1]).cast::<u8>().add(7) };
        unsafe { padding.write(0) };
        assert_eq!(states.altered_padding().collect::<Vec<_>>(), [1]);
        assert_eq!(states.left()[1..], [state; 2]);
    }
}

/// Where the child touches: the manner, what it may do, the byte's place, and whether it is written.
const TOUCHES: [(&str, Manner, Access, isize, bool); 7] = [
    ("nothing forbidden", AFTER, Write, 3, true),
    ("reads past", AFTER, Write, 4, false),
    ("writes past", AFTER, Write, 4, true),
    ("reads past what may be read", AFTER, Read, 4, false),
    ("reads before", BEFORE, Write, -1, false),
    ("reads before what may be read", BEFORE, Read, -1, false),
    ("writes what may be read", BEFORE, Read, 0, true),
];

#[test]
#[ignore = "a child of the test below"]
fn touches() {
    let name = std::env::var("TOUCH").unwrap();
    let (_, manner, access, place, writes) = TOUCHES.into_iter().find(|touch| touch.0 == name).unwrap();
    let mut bytes = Guarded::default();
    let at = bytes.lend(manner, &[1u8, 2, 3, 4], access).as_mut_ptr().wrapping_offset(place);
    named(&name, || unsafe {
        match writes {
            true => at.write_volatile(5),
            false => assert!(at.read_volatile() < 9),
        }
    });
}

#[test]
fn a_forbidden_touch_ends_the_program_and_is_told() {
    for (name, ..) in TOUCHES {
        let mut child = Command::new(std::env::current_exe().unwrap());
        let child = child.args(["touches", "--exact", "--ignored", "--nocapture"]).env("TOUCH", name);
        let output = child.output().unwrap();
        let told = String::from_utf8(output.stderr).unwrap().contains(&format!("{name}: a touch outside"));
        let forbidden = name != "nothing forbidden";
        assert_eq!(output.status.signal(), forbidden.then_some(SEGV), "{name}");
        assert_eq!(told, forbidden, "{name}");
    }
}
