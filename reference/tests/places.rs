//! Where a model is malformed: the second number of refusal 2.

mod build;

use build::*;
use lvs_reference::{describe, find_certificate, follow, match_name, verdict, write_model};

/// Version, StartId and NamedPatternCnt, in 12 bytes.
const HEAD: &str = "61 04 00 01 10 00 25 01 00 69 01 00";
/// A Node in 5 bytes.
const NODE: &str = "63 03 25 01 00";

fn judged(bytes: &[u8]) -> String {
    verdict(bytes).to_string()
}

fn place(text: &str) -> String {
    judged(&hex(text))
}

/// Elements behind the head: their first byte is at 12.
fn behind_head(text: &str) -> String {
    place(&format!("{HEAD} {text}"))
}

fn at(place: usize) -> String {
    format!("refused 2 {place}")
}

#[test]
fn examples() {
    assert_eq!(behind_head("63 05 81 00"), at(12));
    assert_eq!(behind_head("63 02 81 00"), at(14));
    assert_eq!(behind_head("63"), at(12));
    assert_eq!(behind_head("63 05 25 01 00 57 05"), at(17));
    assert_eq!(behind_head("63 01 80 63 03 25 01 01"), at(14));
    assert_eq!(behind_head("63 02 80 00"), at(16));
    assert_eq!(place("61 04 FF 01 10"), at(0));
    assert_eq!(place(""), at(0));
    let mut cut = hex(MODEL_A);
    cut.pop();
    assert_eq!(judged(&cut), at(12));
}

#[test]
fn headers() {
    for header in [
        "00 00",
        "FD 00 80 00",
        "FD 00",
        "FE 00 00 FF FE 00",
        "FE 00 01 00",
        "FF 00 00 00 00 FF FF FF FE 00",
        "FF 00 00 00 01 00 00 00 00 00",
        "FF",
        "80",
        "80 FD",
        "80 FD 00 00",
        "80 FE 00 00 00 00",
        "80 FF 00 00 00 00 00 00 00 00",
        "80 FF 00 00 00 01 00 00 00 00",
        "80 01",
        "63 FD 00 03 25 01 00",
        "FD 00 63 03 25 01 00",
        "63 04 25 01 00",
    ] {
        assert_eq!(behind_head(header), at(12), "{header}");
        assert_eq!(behind_head(&format!("{NODE} {header}")), at(17), "{header}");
        assert_eq!(place(header), at(0), "{header}");
        let optional = format!("FE 00 01 00 00 03 AA BB CC {header}");
        assert_eq!(behind_head(&optional), at(21), "{header}");
    }
}

#[test]
fn a_length_is_held_against_the_end_of_the_enclosing_element() {
    // the bytes go on behind the Node, and behind the edge in it
    assert_eq!(behind_head("63 03 25 02 00 63 03 25 01 01"), at(14));
    assert_eq!(behind_head("63 03 80 02 00 63 03 25 01 01"), at(14));
    assert_eq!(
        behind_head("63 0E 25 01 00 53 06 25 01 00 23 02 01 55 01 00"),
        at(22)
    );
    assert_eq!(
        behind_head("63 10 25 01 00 51 08 25 01 00 21 03 08 02 61 55 01 00"),
        at(24)
    );
}

#[test]
fn a_header_comes_before_its_inside_and_that_before_the_next() {
    // too long a Node with a fault in it, and a fault in front of too long a Node
    assert_eq!(behind_head("63 7F 25 03 00 00 00"), at(12));
    assert_eq!(behind_head("63 05 25 03 00 00 00 63 7F"), at(14));
    // two faults inside, the first deeper or higher than the second
    assert_eq!(behind_head("63 09 25 01 00 53 02 81 00 81 00"), at(19));
    assert_eq!(
        behind_head("63 0B 25 01 00 81 00 53 04 25 02 81 00"),
        at(17)
    );
    // plain bytes before what is behind them
    let symbol = "67 08 23 01 01 29 01 39 81 00";
    assert_eq!(behind_head(&format!("{NODE} {symbol}")), at(22));
    // one that is missing comes after the one before it
    assert_eq!(behind_head("63 0A 25 01 00 51 05 25 03 00 00 00"), at(19));
    assert_eq!(behind_head("63 08 25 01 00 51 03 25 01 00"), at(22));
}

#[test]
fn plain_bytes_are_at_fault_where_their_element_starts() {
    assert_eq!(place("61 03 00 01 10 25 01 00"), at(0));
    assert_eq!(place("80 01 00 61 05 00 00 01 10 00"), at(3));
    assert_eq!(place("61 04 00 01 10 00 25 03 00 00 00"), at(6));
    assert_eq!(place("61 04 00 01 10 00 25 00"), at(6));
    assert_eq!(place("61 04 00 01 10 00 25 01 00 69 00"), at(9));
    assert_eq!(behind_head("63 05 25 01 00 57 00"), at(17));
    assert_eq!(behind_head("63 05 25 01 00 55 00"), at(17));
    assert_eq!(behind_head("63 06 25 01 00 29 01 61"), at(17));
    assert_eq!(behind_head("63 03 25 01 00 67 05 23 00 29 01 61"), at(19));
    assert_eq!(behind_head("63 03 25 01 00 67 05 23 01 01 29 00"), at(22));
}

/// The place for a model with this in the first Constraint's first option.
fn in_option(inside: &[u8]) -> String {
    let edge = pattern_edge(0, 1, &[element(0x43, &element(0x41, inside))]);
    judged(&model(0, &[node(0, Some(0), &[edge])]))
}

/// Where that begins.
const IN_OPTION: usize = 32;

#[test]
fn a_value_and_its_component() {
    let value = |text: &str| in_option(&element(0x21, &hex(text)));
    let inside = IN_OPTION + 2;
    assert_eq!(value(""), at(inside));
    for own_fault in [
        "08",
        "08 01",
        "00 00",
        "FD 00 08 00",
        "08 FD 00 00",
        "FE 00 01 00 00 00",
        "FE 00 01 00 00 00 81 00",
        "FF 00 00 00 01 00 00 00 08 00",
    ] {
        assert_eq!(value(own_fault), at(inside), "{own_fault}");
    }
    for behind in ["08", "08 00", "80 00", "00", "FF FF", "08 05"] {
        let text = format!("08 01 61 {behind}");
        assert_eq!(value(&text), at(inside + 3), "{behind}");
    }
    let too_long = [hex("21 05"), hex("08 01 61")].concat();
    assert_eq!(in_option(&too_long), at(IN_OPTION));
}

#[test]
fn what_is_missing_is_missed_at_the_end() {
    // the model's
    assert_eq!(place("80 01 FF"), at(3));
    assert_eq!(place("61 04 00 01 10 00"), at(6));
    assert_eq!(place("61 04 00 01 10 00 25 01 00"), at(9));
    assert_eq!(place("61 04 00 01 10 00 25 01 00 80 00"), at(11));
    // a Node's, a ValueEdge's, a PatternEdge's, a TagSymbol's
    assert_eq!(behind_head(&format!("63 00 {NODE}")), at(14));
    assert_eq!(behind_head("63 05 25 01 00 51 00 55 01 00"), at(17 + 2));
    assert_eq!(behind_head("63 08 25 01 00 51 03 25 01 00"), at(22));
    assert_eq!(behind_head("63 08 25 01 00 53 03 25 01 00"), at(22));
    assert_eq!(behind_head("63 0A 25 01 00 53 05 25 01 00 80 00"), at(24));
    assert_eq!(behind_head(&format!("{NODE} 67 00")), at(19));
    assert_eq!(behind_head(&format!("{NODE} 67 03 23 01 01")), at(22));
    // a UserFnCall's, a UserFnArg's
    assert_eq!(in_option(&element(0x31, &[])), at(IN_OPTION + 2));
    assert_eq!(in_option(&hex("31 02 80 00")), at(IN_OPTION + 4));
    assert_eq!(in_option(&call("$eq", &[vec![]])), at(IN_OPTION + 9));
    assert_eq!(in_option(&call("$eq", &[hex("80 00")])), at(IN_OPTION + 11));
}

#[test]
fn another_stands_where_one_is_missing() {
    assert_eq!(place("25 01 00 69 01 00"), at(0));
    assert_eq!(place("61 04 00 01 10 00 69 01 00"), at(6));
    assert_eq!(behind_head("25 01 00"), at(12));
    assert_eq!(behind_head("63 03 57 01 00"), at(14));
    assert_eq!(behind_head("63 08 25 01 00 51 03 23 01 00"), at(19));
    assert_eq!(
        behind_head("63 0B 25 01 00 53 06 25 01 00 43 01 00"),
        at(22)
    );
    assert_eq!(in_option(&hex("31 02 33 00")), at(IN_OPTION + 2));
    assert_eq!(
        in_option(&call("$eq", &[hex("25 01 00")])),
        at(IN_OPTION + 9)
    );
}

#[test]
fn an_optional_elements_inside_is_unread() {
    assert_eq!(behind_head("80 02 81 00 63 02 81 00"), at(18));
    assert_eq!(behind_head("80 02 FD 00 63 02 81 00"), at(18));
    assert_eq!(behind_head("63 05 80 03 81 00 00"), at(19));
}

#[test]
fn places_behind_wide_lengths() {
    let padding = element(0x80, &[0x81; 300]);
    let long_node = node(0, None, &[padding.clone(), hex("81 00")]);
    let bytes = [hex(HEAD), long_node].concat();
    // the lengths of the Node and of the optional element have three bytes each
    assert_eq!(judged(&bytes), at(12 + 4 + 3 + 4 + 300));
    let full = element(0x80, &vec![0; 32_768 - 4]);
    assert_eq!(full.len(), 32_768);
    assert_eq!(judged(&full), at(32_768));
    let one_more = [full, vec![0]].concat();
    assert_eq!(judged(&one_more), "refused 1 0");
}

#[test]
fn another_version_outranks_what_is_behind_it() {
    assert_eq!(place("61 04 00 01 10 01 00"), "refused 3 0");
    assert_eq!(place("80 00 61 04 00 01 10 01 63 7F"), "refused 3 0");
    assert_eq!(place("80 00 81 00 61 04 00 01 10 01"), at(2));
    assert_eq!(place("80 00 61 03 01 10 01"), at(2));
    assert_eq!(place("80 00 61 04 01 10 01"), at(2));
}

#[test]
fn all_calls_give_the_place() {
    let bytes = hex(&format!("{HEAD} 63 05 25 01 00 57 05"));
    let name = hex(EMPTY_NAME);
    let mut words = [7; 3];
    assert_eq!(match_name(&bytes, &name, &mut words).to_string(), at(17));
    assert_eq!(sign(&bytes, &name, &name).to_string(), at(17));
    assert_eq!(follow(&bytes, &name, &name, &[]).to_string(), at(17));
    assert_eq!(find_certificate(&bytes, &name, &[]).to_string(), at(17));
    let (mut numbers, mut texts) = ([7; 3], [7; 3]);
    let described = describe(&bytes, &mut numbers, &mut texts);
    assert_eq!(described.to_string(), at(17));
    assert_eq!((words, numbers, texts), ([7; 3], [7; 3], [7; 3]));
}

/// The writer's places are in the bytes that it would write: its lengths and
/// integers are as short as they can be.
#[test]
fn the_writer_gives_the_place_in_what_it_would_write() {
    let long_name = format!("#{}", "a".repeat(299));
    let texts = format!("{long_name}$");
    let described = |start: u64, first: usize, second: usize| {
        let numbers = [
            start,
            0,
            1,
            0,
            0,
            2,
            first as u64,
            second as u64,
            0,
            0,
            0,
            0,
        ];
        write_model(&numbers, texts.as_bytes(), &mut []).to_string()
    };
    // Node's header 4, NodeId 3, the first name's header 4
    assert_eq!(described(0, 300, 1), at(12 + 4 + 3 + 4 + 300));
    assert_eq!(described(300, 300, 1), at(13 + 4 + 3 + 4 + 300));
    assert_eq!(described(0, 0, 301), at(12 + 4 + 3));
}
