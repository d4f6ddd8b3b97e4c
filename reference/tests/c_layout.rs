//! The structs of `c/modem.h` have the layout that the Rust declarations have.

use crate::common::c::{compiled, header_code, printed, written, Linked};
use reference::library::{
    BlockAnswer, CallAnswer, Numbers, ReceiverOpened, Sent, Sheet, Tap, TapOpened, Transmitter,
    TransmitterOpened,
};
use std::mem::{align_of, offset_of, size_of};

/// The name of a struct in C, its size and alignment, and of each field the name
/// in C, the offset and the size.
struct Layout {
    name: &'static str,
    size: [usize; 2],
    fields: Vec<(&'static str, usize, usize)>,
}

fn field_size<S, F>(_: fn(&S) -> &F) -> usize {
    size_of::<F>()
}

macro_rules! layout {
    ($name:ident, $type:ty { $($c:ident: $field:ident),* }) => {
        Layout {
            name: stringify!($name),
            size: [size_of::<$type>(), align_of::<$type>()],
            fields: vec![$((
                stringify!($c),
                offset_of!($type, $field),
                field_size::<$type, _>(|value| &value.$field),
            )),*],
        }
    };
}

fn layouts() -> Vec<Layout> {
    vec![
        layout!(
            modem_answer,
            CallAnswer {
                number: number,
                count: count
            }
        ),
        layout!(
            modem_transmitter,
            Transmitter {
                band: band,
                phase: phase
            }
        ),
        layout!(
            modem_transmitter_opened,
            TransmitterOpened {
                number: number,
                transmitter: transmitter
            }
        ),
        layout!(
            modem_sent,
            Sent {
                transmitter: transmitter,
                number: number,
                count: count
            }
        ),
        layout!(
            modem_receiver,
            Numbers {
                band: band,
                window: window,
                run: run,
                stage: stage,
                wait: wait,
                slot: slot,
                byte: byte,
                measured: measured,
                smallest: smallest
            }
        ),
        layout!(
            modem_receiver_opened,
            ReceiverOpened {
                number: number,
                receiver: receiver
            }
        ),
        layout!(
            modem_block,
            BlockAnswer {
                receiver: state,
                number: number,
                count: count
            }
        ),
        layout!(
            modem_tap,
            Tap {
                first: first,
                second: second
            }
        ),
        layout!(
            modem_tap_opened,
            TapOpened {
                number: number,
                tap: tap
            }
        ),
        layout!(
            modem_tap_reading,
            BlockAnswer<Tap> {
                tap: state,
                number: number,
                count: count
            }
        ),
        layout!(
            modem_sheet,
            Sheet {
                number: number,
                band: band,
                count: count
            }
        ),
    ]
}

/// The structs of the header with the names of their fields.
fn declared_structs() -> Vec<(String, Vec<String>)> {
    let code = header_code();
    let bodies = code.split("typedef struct {").skip(1);
    let declared = bodies.map(|rest| {
        let (body, behind) = rest.split_once('}').expect("a struct ends");
        let name = behind.split(';').next().expect("a name").trim();
        let field = |line: &str| {
            let name = line.split_whitespace().last()?;
            Some(name.split('[').next()?.to_string())
        };
        (
            name.to_string(),
            body.split(';').filter_map(field).collect(),
        )
    });
    declared.collect()
}

/// Every struct and every field is among those that are compared.
#[test]
fn every_field_is_compared() {
    let compared = layouts().into_iter().map(|layout| {
        let fields = layout.fields.iter().map(|&(name, ..)| name.to_string());
        (layout.name.to_string(), fields.collect())
    });
    assert_eq!(declared_structs(), compared.collect::<Vec<_>>());
}

#[test]
fn the_layouts_are_those_of_rust() {
    let mut lines = String::new();
    let mut expected = String::new();
    let mut line = |what: &str, c: &str, rust: usize| {
        lines += &format!("    printf(\"{what} %zu\\n\", {c});\n");
        expected += &format!("{what} {rust}\n");
    };
    for Layout { name, size, fields } in layouts() {
        line(&format!("{name} size"), &format!("sizeof({name})"), size[0]);
        let aligned = format!("offsetof(struct {{ char before; {name} it; }}, it)");
        line(&format!("{name} alignment"), &aligned, size[1]);
        for (field, offset, size) in fields {
            let what = format!("{name} {field}");
            line(
                &format!("{what} at"),
                &format!("offsetof({name}, {field})"),
                offset,
            );
            line(
                &format!("{what} size"),
                &format!("sizeof((({name} *)0)->{field})"),
                size,
            );
        }
    }
    let includes = "#include <stddef.h>\n#include <stdio.h>\n#include \"modem.h\"\n";
    let text = format!("{includes}int main(void)\n{{\n{lines}    return 0;\n}}\n");
    let program = compiled("layout", &written("layout.c", &text), &[], Linked::Static);
    assert_eq!(printed(program, &[]), expected);
}
