//! The read-only data of the library, which is mostly the table of the sine.

use crate::common::c::{library, printed};

/// The numbers of the phases 0 to 480, at two bytes each.
const TABLE: usize = 2 * 481;

/// The bytes of each section of read-only data in the objects of an archive.
fn read_only_sections(headers: &str) -> Vec<usize> {
    let sections = headers.lines().filter_map(|line| {
        let words: Vec<&str> = line.split_whitespace().collect();
        let named = words.get(1).is_some_and(|name| name.starts_with(".rodata"));
        named.then(|| usize::from_str_radix(words[2], 16).expect("a size"))
    });
    sections.collect()
}

#[test]
fn sections_are_told_by_their_names() {
    let headers = "a.o:     file format elf64-x86-64\n\
        Idx Name          Size      VMA\n\
        0 .text         00000010  0000000000000000\n\
        1 .rodata.cst16 00000420  0000000000000000\n\
                          CONTENTS, ALLOC, LOAD, READONLY, DATA\n\
        2 .rodata       00000008  0000000000000000\n";
    assert_eq!(read_only_sections(headers), [0x420, 8]);
}

/// Four of the five objects have the table, and one of these has it for sending
/// and for reading. One whole cycle would be 2,878 bytes more.
#[test]
fn no_object_holds_more_of_the_sine_than_a_quarter() {
    let archive = format!("{}/libmodem.a", library());
    let sections = read_only_sections(&printed("objdump", &["-h", &archive]));
    let all: usize = sections.iter().sum();
    assert!((5 * TABLE..6_400).contains(&all), "{sections:?}");
}
