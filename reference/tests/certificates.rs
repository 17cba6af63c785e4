//! The call that finds a certificate: how a list is cut, what is refused in
//! which order, and which entry is answered.

mod build;

use build::*;
use lvs_reference::find_certificate;

fn found(model: &[u8], packet: &[u8], list: &[u8]) -> String {
    find_certificate(model, packet, list).to_string()
}

/// The answer of model B for the packet /a, which only the key /a may sign.
fn in_b(list: &[u8]) -> String {
    found(&hex(MODEL_B), &hex(NAME_A), list)
}

fn in_b_hex(list: &str) -> String {
    in_b(&hex(list))
}

/// A list of this many times /b, which may not sign.
fn many_b(count: usize) -> Vec<u8> {
    hex(NAME_B).repeat(count)
}

/// So many times /b, and these bytes behind them.
fn behind_b(count: usize, behind: &str) -> String {
    in_b(&[many_b(count), hex(behind)].concat())
}

#[test]
fn models_a_and_b() {
    assert_eq!(in_b(&[]), "none");
    assert_eq!(in_b_hex(NAME_A), "certificate 0");
    assert_eq!(in_b_hex(NAME_B), "none");
    assert_eq!(behind_b(0, EMPTY_NAME), "none");
    assert_eq!(behind_b(1, NAME_A), "certificate 1");
    assert_eq!(behind_b(2, "07 00 07 03 08 01 61"), "certificate 3");
    assert_eq!(behind_b(3, ""), "none");
    let (model_a, empty) = (hex(MODEL_A), hex(EMPTY_NAME));
    assert_eq!(found(&model_a, &empty, &empty), "none");
    assert_eq!(found(&model_a, &hex(NAME_A), &[]), "none");
}

#[test]
fn the_first_of_several_is_answered() {
    let a_twice = [NAME_A, NAME_A].join(" ");
    assert_eq!(in_b_hex(&a_twice), "certificate 0");
    assert_eq!(behind_b(5, &a_twice), "certificate 5");
    let then_b = [hex(NAME_A), many_b(3)].concat();
    assert_eq!(in_b(&then_b), "certificate 0");
}

#[test]
fn a_list_has_at_most_64_entries() {
    assert_eq!(behind_b(63, NAME_A), "certificate 63");
    assert_eq!(behind_b(64, ""), "none");
    assert_eq!(behind_b(64, NAME_A), "refused 33 0");
    assert_eq!(in_b(&hex(NAME_A).repeat(64)), "certificate 0");
    assert_eq!(in_b(&hex(NAME_A).repeat(65)), "refused 33 0");
    assert_eq!(in_b(&hex(EMPTY_NAME).repeat(32_768)), "refused 33 0");
}

/// Whatever the bytes behind 64 entries are.
#[test]
fn any_byte_behind_64_entries_is_too_much() {
    let rests = [
        "00",
        "07",
        "07 05",
        "08 00",
        "FF",
        "FD 00 07 00",
        "07 03 08 02 61",
    ];
    for rest in rests {
        assert_eq!(behind_b(64, rest), "refused 33 0", "{rest}");
        assert_eq!(behind_b(63, rest), "refused 32 63", "{rest}");
        assert_eq!(behind_b(2, rest), "refused 32 2", "{rest}");
        assert_eq!(behind_b(0, rest), "refused 32 0", "{rest}");
    }
}

/// An entry that can be cut off counts, though it is no key name.
#[test]
fn bad_entries_before_a_rest() {
    let with_bad = |bad: &str, place: usize, behind: usize| {
        in_b(&[many_b(place), hex(bad), many_b(behind)].concat())
    };
    for bad in [
        "08 00",
        "07 01 08",
        "80 01 00",
        "FD 01 07 00",
        "FE FF FF FF FF 00",
    ] {
        assert_eq!(with_bad(bad, 3, 60), "refused 32 3", "{bad}");
        assert_eq!(with_bad(bad, 3, 61), "refused 33 0", "{bad}");
        assert_eq!(with_bad(bad, 63, 0), "refused 32 63", "{bad}");
        assert_eq!(with_bad(bad, 63, 1), "refused 33 0", "{bad}");
    }
    let uncuttable = [
        "00 00",
        "FF 00 00 00 01 00 00 00 07 00",
        "FD 00 07 00",
        "07 FD 00 00",
        "07 FE 00 00 00 00",
        "07 FF 00 00 00 00 00 00 00 00",
        "07 FF FF FF FF FF FF FF FF FF",
        "07 FF 00 00 00 01 00 00 00 00",
        "07 FE 00 01 00 00",
    ];
    for bad in uncuttable {
        for behind in [0, 60, 61, 100] {
            assert_eq!(with_bad(bad, 3, behind), "refused 32 3", "{bad}");
        }
        assert_eq!(with_bad(bad, 63, 9), "refused 32 63", "{bad}");
        assert_eq!(with_bad(bad, 64, 9), "refused 33 0", "{bad}");
    }
}

#[test]
fn the_whole_list_is_tested_first() {
    assert_eq!(in_b_hex("07 03 08 01 61 07 01"), "refused 32 1");
    assert_eq!(in_b_hex("07 03 08 01 61 07 00 08 00 07 00"), "refused 32 2");
    assert_eq!(in_b_hex("08 03 08 01 61 07 03 08 01 61"), "refused 32 0");
    let far_behind = [hex(NAME_A), many_b(62), hex("07 01 00")].concat();
    assert_eq!(in_b(&far_behind), "refused 32 63");
}

#[test]
fn the_first_bad_entry_is_named() {
    assert_eq!(behind_b(1, "08 00 07 01"), "refused 32 1");
    assert_eq!(behind_b(1, "08 00 07 00 07 01 08"), "refused 32 1");
    assert_eq!(behind_b(2, "00 00 08 00"), "refused 32 2");
}

/// Types sort nothing here: no entry is passed over.
#[test]
fn entries_of_other_types_are_cut_and_refused() {
    for kind in [
        1, 2, 6, 8, 0x20, 0x21, 0x63, 0x80, 253, 263, 65_535, 65_536, 65_543,
    ] {
        let entry = element(kind, &component("a"));
        assert_eq!(in_b(&[&hex(NAME_A)[..], &entry].concat()), "refused 32 1");
        assert_eq!(in_b(&[&entry[..], &hex(NAME_A)].concat()), "refused 32 0");
        assert_eq!(in_b(&entry.repeat(64)), "refused 32 0");
        assert_eq!(in_b(&entry.repeat(65)), "refused 33 0");
    }
}

#[test]
fn entries_have_the_limits_of_key_names() {
    let of_length = |length: usize| element(7, &element(8, &vec![b'a'; length - 8]));
    let with = |entry: &[u8]| in_b(&[many_b(2), entry.to_vec(), hex(NAME_A)].concat());
    assert_eq!(of_length(1_024).len(), 1_024);
    assert_eq!(with(&of_length(1_024)), "certificate 3");
    assert_eq!(with(&of_length(1_025)), "refused 32 2");
    assert_eq!(with(&of_length(60_000)), "refused 32 2");
    assert_eq!(with(&name(&"/a".repeat(32))), "certificate 3");
    assert_eq!(with(&name(&"/a".repeat(33))), "refused 32 2");
    assert_eq!(with(&hex("07 02 00 00")), "refused 32 2");
    assert_eq!(with(&hex("07 06 FE 00 01 00 00 00")), "refused 32 2");
    assert_eq!(with(&hex("07 03 08 02 61")), "refused 32 2");
    assert_eq!(in_b(&of_length(1_024).repeat(64)), "none");
    assert_eq!(in_b(&of_length(1_025).repeat(64)), "refused 32 0");
    assert_eq!(in_b(&of_length(1_025).repeat(65)), "refused 33 0");
}

#[test]
fn model_then_packet_name_then_list() {
    let bad_lists = [vec![0], hex(NAME_B).repeat(65), hex(NAME_A), vec![]];
    let b = hex(MODEL_B);
    let packets = [
        (vec![0; 1_025], "refused 21 0"),
        (hex("07 01"), "refused 22 0"),
        (name(&"/a".repeat(33)), "refused 23 0"),
    ];
    for list in &bad_lists {
        for (packet, expected) in &packets {
            assert_eq!(found(&b, packet, list), *expected);
            assert_eq!(found(&[], packet, list), "refused 2 0");
        }
        let one_node_too_few = model(0, &[node(0, None, &[]), node(1, None, &[signer(2)])]);
        assert_eq!(found(&one_node_too_few, &hex(NAME_A), list), "refused 9 1");
        let other_version = [&hex("61 04 00 01 10 01")[..], &b[6..]].concat();
        assert_eq!(found(&other_version, &hex(NAME_A), list), "refused 3 0");
        assert_eq!(found(&vec![0; 32_769], &[], list), "refused 1 0");
    }
}

/// A packet that no node matches, or whose node has no signers.
#[test]
fn lists_are_tested_though_nothing_can_be_allowed() {
    for packet in [name("/a/b"), hex(EMPTY_NAME)] {
        let answer = |list: &str| found(&hex(MODEL_B), &packet, &hex(list));
        assert_eq!(answer(NAME_A), "none");
        assert_eq!(answer("07 03 08 01 61 07"), "refused 32 1");
        assert_eq!(answer(&[NAME_A; 65].join(" ")), "refused 33 0");
    }
}

fn pattern(tag: u64) -> Step {
    Step::Pattern(tag, vec![])
}

/// Articles are signed by their author's key, those by an admin's key.
fn blog() -> Vec<u8> {
    let mut schema = Schema::new(2);
    let article = schema.rule(&[Step::Value("post"), pattern(1), pattern(2)]);
    let author = schema.rule(&[Step::Value("author"), pattern(1)]);
    let admin = schema.rule(&[Step::Value("admin"), pattern(2)]);
    schema.sign(article, &[author]);
    schema.sign(author, &[admin]);
    schema.encode()
}

fn in_blog(packet: &str, keys: &[&str]) -> String {
    let list: Vec<u8> = keys.iter().flat_map(|uri| name(uri)).collect();
    found(&blog(), &name(packet), &list)
}

#[test]
fn keys_are_bound_to_the_packet() {
    let keys = ["/author/bob", "/author/eve", "/author/ann", "/author/ann"];
    assert_eq!(in_blog("/post/ann/1", &keys), "certificate 2");
    assert_eq!(in_blog("/post/eve/1", &keys), "certificate 1");
    assert_eq!(in_blog("/post/joe/1", &keys), "none");
}

#[test]
fn nothing_further_up_the_chain_is_looked_at() {
    let keys = ["/admin/joe", "/author/ann"];
    assert_eq!(in_blog("/post/ann/1", &keys[..1]), "none");
    assert_eq!(in_blog("/post/ann/1", &keys[1..]), "certificate 0");
    assert_eq!(in_blog("/post/ann/1", &keys), "certificate 1");
    assert_eq!(in_blog("/author/ann", &keys), "certificate 0");
}

/// What an entry binds is forgotten before the next.
#[test]
fn entries_leave_no_bindings() {
    let keys = ["/admin/joe/x", "/admin/joe", "/admin/ann"];
    assert_eq!(in_blog("/author/ann", &keys), "certificate 1");
    assert_eq!(in_blog("/author/ann", &keys[2..]), "certificate 0");
    // Tag 1 is on both components of a key, so the first entry fails after binding it
    let packet = node(1, Some(0), &[signer(3)]);
    let key = [pattern_edge(3, 1, &[])];
    let model = model(
        0,
        &[
            node(0, None, &[value_edge(1, "p"), pattern_edge(2, 1, &[])]),
            packet,
            node(2, Some(0), &key),
            node(3, Some(2), &[]),
        ],
    );
    let list = [name("/a/b"), name("/b/b")].concat();
    assert_eq!(found(&model, &name("/p"), &list), "certificate 1");
}

/// The packet /x matches node 1 and node 2, which have other signers.
fn two_matches() -> Vec<u8> {
    let edges = [
        value_edge(3, "k"),
        value_edge(4, "l"),
        pattern_edge(1, 1, &[]),
        pattern_edge(2, 2, &[]),
    ];
    let nodes = [
        node(0, None, &edges),
        node(1, Some(0), &[signer(3)]),
        node(2, Some(0), &[signer(4)]),
        node(3, Some(0), &[]),
        node(4, Some(0), &[]),
    ];
    model(0, &nodes)
}

/// The order of the list goes before the order of packet matches.
#[test]
fn every_packet_match_counts_for_each_entry() {
    let answer = |list: &[&str]| {
        let list: Vec<u8> = list.iter().flat_map(|uri| name(uri)).collect();
        found(&two_matches(), &name("/x"), &list)
    };
    let (x, k, l) = (name("/x"), name("/k"), name("/l"));
    assert_eq!(sign(&two_matches(), &x, &k).to_string(), "allowed 1 3");
    assert_eq!(sign(&two_matches(), &x, &l).to_string(), "allowed 2 4");
    assert_eq!(answer(&["/k", "/l"]), "certificate 0");
    assert_eq!(answer(&["/l", "/k"]), "certificate 0");
    assert_eq!(answer(&["/m", "/l", "/k"]), "certificate 1");
    assert_eq!(answer(&["/m", "/n"]), "none");
}
