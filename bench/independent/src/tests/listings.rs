//! Listings.

use super::*;
use crate::listing;

fn list(stream: &[u8]) -> String {
    String::from_utf8(listing(stream)).unwrap()
}

#[test]
fn a_whole_stream() {
    let stream = join(&[
        &[ERASE],
        &movea(-16_384, 100),
        &text(b"AB\r"),
        &head("ARROW", 0x80),
        &pair(5, 1, -2),
        &[0, 0, 0, 0, 0, 0, 0, 0, 0, 0, 0, 0, 0],
        &[SUBEND],
        &call("ARROW", &[0xC0, 1, b'X', 0, 5, 0, 6]),
        &[11, 7, 2, 0x22, 0x80],
        &[12, 3, ENDPIC],
    ]);
    let expected = [
        "0 ERASE",
        "1 MOVEA -16384 100",
        "6 TEXT \"AB\\x0d\"",
        "11 SUBHED ARROW 80",
        "20   DRAWR 1 -2",
        &(25..38)
            .map(|place| format!("{place}   NULL"))
            .collect::<Vec<_>>()
            .join("\n"),
        "38 SUBEND",
        "39 INSTS ARROW AS \"X\" AT 5 6",
        "54 ESCDEV 7 \"\\x22\\x80\"",
        "59 LINMOD 3",
        "61 ENDPIC",
        "whole\n",
    ];
    assert_eq!(list(&stream), expected.join("\n"));
}

#[test]
fn names_of_statements() {
    let stream = join(&[
        &[ERASE, 0],
        &pair(3, 1, 2),
        &pair(4, 1, 2),
        &pair(6, 1, 2),
        &pair(7, -32_767, 2),
        &textr(b""),
        &texto(b"\"\\ ~\x7F"),
        &[13, 255, 18, 19, 20, ENDPIC],
        &head("Z9", 0xC0),
        &[SUBEND],
        &head("Z8", 0x40),
        &[SUBEND],
    ]);
    let expected = "0 ERASE\n1 NULL\n2 MOVER 1 2\n7 DRAWA 1 2\n12 DOTA 1 2\n17 DOTR -32767 2\n\
        22 TEXTR \"\"\n24 TEXTO \"\\x22\\x5c ~\\x7f\"\n31 SETINT 255\n33 MARK\n34 MOVEMK\n\
        35 DRAWMK\n36 ENDPIC\n37 SUBHED Z9 C0\n43 SUBEND\n44 SUBHED Z8 40\n50 SUBEND\nwhole\n";
    assert_eq!(list(&stream), expected);
}

#[test]
fn tails() {
    let stream = join(&[
        &head("A", 0x80),
        &call("ARROW", &[]),
        &call("ARROW", &[0]),
        &call("ARROW", &[0x80, 0]),
        &call("ARROW", &[0x40, 0xFF, 0xFF, 0, 1]),
    ]);
    let expected = "0 SUBHED A 80\n5   INSTS ARROW\n13   INSTS ARROW CODE\n\
        22   INSTS ARROW AS \"\"\n32   INSTS ARROW AT -1 1\nunfinished at 45\n";
    assert_eq!(list(&stream), expected);
}

#[test]
fn last_lines() {
    assert_eq!(list(&[]), "whole\n");
    assert_eq!(list(&[ERASE]), "0 ERASE\nunfinished at 1\n");
    assert_eq!(list(&[15, 1]), "unfinished at 2\n");
    assert_eq!(
        list(&[ERASE, 10, 10]),
        "0 ERASE\n1 ENDPIC\nrefused under 2 at 2\n"
    );
    assert_eq!(
        list(&[ERASE, 0, 2, 0x7F, 0, 0, 0]),
        "0 ERASE\n1 NULL\nrefused under 6 at 2\n"
    );
    assert_eq!(list(&[21]), "refused under 1 at 0\n");
}

#[test]
fn nothing_is_performed() {
    let far = mover(32_767, 0).repeat(3);
    let text = list(&join(&[&[ERASE], &far, &[ENDPIC]]));
    assert!(text.ends_with("16 ENDPIC\nwhole\n"));
    // Nor is anything recorded.
    let text = list(&define("A", &[0; 1_025]));
    assert!(text.ends_with("1029   NULL\n1030 SUBEND\nwhole\n"));
}

#[test]
fn too_long() {
    let escape = join(&[&[11], &string(0, &[7; 512])]);
    let mut stream = vec![ERASE];
    while stream.len() < 16_777_216 {
        stream.extend(&escape);
    }
    // 32,513 statements of 516 bytes end at 16,776,709.
    assert!(list(&stream).ends_with("\nrefused under 15 at 16776709\n"));
    stream.truncate(16_777_216);
    assert!(list(&stream).ends_with("\nunfinished at 16777216\n"));
}
