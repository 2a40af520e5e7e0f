//! The assembler against its listing for every first parcel, the lines that the
//! rules speak of, and what the programs print.

use crate::cal::{assemble, list, spelling, takes_second, SPELLINGS};
use crate::cal::{cal_answer, cal_sheet, listing_answer, listing_wide, LONGEST};
use crate::cases;
use crate::codes::{find, fits, Mode, CODES};
use std::collections::HashSet;

/// Parcels as octal numbers with blanks between them.
fn octal(text: &str) -> Vec<u16> {
    let parcel = |digits| u16::from_str_radix(digits, 8).unwrap();
    text.split(' ').map(parcel).collect()
}

/// What one line assembles to, as octal numbers, or that it is refused.
fn assembled(line: &str) -> String {
    match assemble(format!("{line}\n").as_bytes()) {
        Ok(parcels) => parcels.iter().map(|p| format!(" {p:06o}")).collect(),
        Err(number) => {
            assert_eq!(number, 1);
            " refused".to_string()
        }
    }
}

#[test]
fn rows_are_parts_of_held_codes() {
    let mut used = HashSet::new();
    for first in 0..=u16::MAX {
        let code = find(first).map(|code| &CODES[code]);
        match spelling(first) {
            Some(row) => {
                let two = SPELLINGS[row].code.ends_with('m');
                assert_eq!(two, takes_second(first), "{first:o}");
                used.insert(row);
            }
            // What is held in both modes is spelled.
            None => assert!(code.is_none_or(|code| code.mode == Mode::User), "{first:o}"),
        }
        let fitting = SPELLINGS.iter().any(|row| fits(row.code, first));
        assert_eq!(fitting, spelling(first).is_some(), "{first:o}");
    }
    assert_eq!(used.len(), SPELLINGS.len());
}

#[test]
fn every_first_parcel_comes_back() {
    let (mut spelled, mut unspelled) = (0, 0);
    let mut lines = HashSet::new();
    for first in 0..=u16::MAX {
        let alone = list(&[first]);
        let is_data = alone.starts_with(b"data=");
        assert_eq!(is_data, spelling(first).is_none() || takes_second(first));
        assert_eq!(assemble(&alone), Ok(vec![first]));
        for second in [0, 1, 0o004_000, 0o100_000, 0o020_345, u16::MAX] {
            let text = list(&[first, second]);
            assert_eq!(
                assemble(&text),
                Ok(vec![first, second]),
                "{first:o} {second:o}"
            );
            let ends = text.iter().filter(|byte| **byte == b'\n').count();
            assert_eq!(ends, 2 - usize::from(takes_second(first)));
        }
        if spelling(first).is_some() {
            spelled += 1;
            let parcels = [first, 0o123_456];
            assert!(lines.insert(list(&parcels[..=usize::from(takes_second(first))])));
        } else if find(first).is_some() {
            unspelled += 1;
        }
        if is_data && takes_second(first) {
            let more = [&alone[..], b"PASS\n"].concat();
            assert_eq!(assemble(&more), Err(1), "{first:o}");
        }
    }
    // With W3's 368 it will be 47,920, and with W9's eight 47,928.
    assert_eq!((spelled, lines.len()), (47_552, 47_552));
    // 0012jk with k from 2 on, 0014jk where the pages spell none, 0015jk.
    assert_eq!(unspelled, 48 + 39 + 64);
}

#[test]
fn the_longest_line() {
    let longest = |first| {
        let text = list(&[first, u16::MAX]);
        text.split(|byte| *byte == b'\n').map(<[u8]>::len).max()
    };
    assert_eq!((0..=u16::MAX).map(longest).max(), Some(Some(15)));
    assert_eq!(list(&octal("013777 177777")), b"013 A3 77777777\n");
}

/// Parcels and lines of every row, as `PARCEL [PARCEL] LINE`.
const EXAMPLES: &str = r"
000000 ERR
001000 PASS
001012 CA,A1 A2
001100 CL,A0 A0
001230 CI,A3
001231 MC,A3
001330 XA A3
001430 RT S3
001401 IP 1
001402 IP 0
001423 CLN 2
001434 PCI S3
001405 CCI
001406 ECI
001407 DCI
002000 VL A0
002300 ERI
002400 DRI
002500 DBM
002600 EBM
002700 CMR
003000 VM S0
004000 EX
005007 J B07
006012 000345 J 2400345
007300 000000 R 60000000
010000 000010 JAZ 10
011000 000010 JAN 10
012000 000010 JAP 10
013000 000010 JAM 10
014000 000010 JSZ 10
015000 000010 JSN 10
016000 000010 JSP 10
017377 177777 JSM 77777777
010777 177777 010 A0 77777777
013400 000017 013 A3 17
017543 000002 017 A7 30600002
020100 000005 020 A1 5
021177 177777 021 A1 17777777
022177 022 A1 77
023120 A1 S2
023101 A1 VL
024107 A1 B07
025107 B07 A1
026120 A1 PS2
026121 A1 QS2
027120 A1 ZS2
030100 A1 A0+A0
031123 A1 A2-A3
032123 A1 A2*A3
034276 B76,A2 ,A0
035276 ,A0 B76,A2
036276 T76,A2 ,A0
037276 ,A0 T76,A2
040100 000000 040 S1 0
041100 000001 041 S1 1
042100 S1 <100
042177 S1 <1
043100 S1 >0
044123 S1 S2&S3
045123 S1 #S3&S2
046123 S1 S2\S3
047123 S1 #S2\S3
050123 S1 S2!S1&S3
051123 S1 S2!S3
052107 052 S0 S1<7
053100 053 S0 S1>0
054107 054 S1 S1<7
055177 055 S1 S1>77
056123 S1 S1,S2<A3
057123 S1 S2,S1>A3
060123 S1 S2+S3
061123 S1 S2-S3
071102 S1 A2
071112 S1 +A2
073100 S1 VM
073101 S1 SR0
074107 S1 T07
075107 T07 S1
076123 S1 V2,A3
077103 V1,A3 S0
102100 000005 A1 5,A2
110100 000000 0,A0 A1
122177 177777 S1 17777777,A2
132100 000005 5,A2 S1
140123 V1 S2&V3
141123 V1 V2&V3
142103 V1 S0!V3
143123 V1 V2!V3
144123 V1 S2\V3
145111 V1 V1\V1
146123 V1 S2!V3&VM
147123 V1 V2!V3&VM
150123 V1 V2<A3
151123 V1 V2>A3
152123 V1 V2,V2<A3
153120 V1 V2,V2>A0
154123 V1 S2+V3
155123 V1 V2+V3
156103 V1 S0-V3
157123 V1 V2-V3
174121 V1 PV2
174122 V1 QV2
175020 VM V2,Z
175021 VM V2,N
175022 VM V2,P
175023 VM V2,M
176100 V1 ,A0,A0
177023 ,A0,A3 V2
";

#[test]
fn every_row_has_its_example() {
    let mut rows = HashSet::new();
    for example in EXAMPLES.trim().lines() {
        let first = octal(&example[..6])[0];
        let (parcels, line) = example.split_at(if takes_second(first) { 13 } else { 6 });
        assert_eq!(assembled(&line[1..]), format!(" {parcels}"), "{line}");
        assert_eq!(
            list(&octal(parcels)),
            format!("{}\n", &line[1..]).as_bytes()
        );
        rows.insert(spelling(first));
    }
    assert_eq!(rows.len(), SPELLINGS.len());
}

#[test]
fn lines_of_which_the_rules_speak() {
    let taken = [
        ("022 A1 77", "022177"),
        ("020 A1 17777777", "020177 177777"),
        ("013 A3 77777777", "013777 177777"),
        ("010 A0 0", "010400 000000"),
        ("J 77777777", "006377 177777"),
        ("J B77", "005077"),
        ("J 0", "006000 000000"),
        ("053 S0 S1>0", "053100"),
        ("CA,A0 A1", "001001"),
        ("CLN 3", "001433"),
        ("A1 5,A0", "100100 000005"),
        ("data=006400", "006400"),
        ("data=001272", "001272"),
        ("data=174120", "174120"),
        ("data=177777", "177777"),
        ("data=020100", "020100"),
        ("data=001510", "001510"),
    ];
    for (line, parcels) in taken {
        assert_eq!(assembled(line), format!(" {parcels}"), "{line}");
    }
    for line in cases::REFUSED.iter().chain(cases::LATER) {
        assert_eq!(assembled(line), " refused", "{line}");
    }
    assert_eq!(assemble(b""), Ok(Vec::new()));
    assert_eq!(assemble(b"\n"), Err(1));
    assert_eq!(assemble(b"EX"), Err(1));
    assert_eq!(assemble(b"EX\nEX"), Err(2));
    assert_eq!(assemble(b"EX\n\n"), Err(2));
    assert_eq!(assemble(b"data=020100\nEX\n"), Err(1));
    assert_eq!(assemble(b"EX\ndata=020100\n\n"), Err(2));
    assert_eq!(assemble(b"EX\ndata=020100\n"), Ok(octal("004000 020100")));
}

/// Codes that are still to come, and that now have no line.
#[test]
fn codes_to_come_are_data() {
    let coming = "003405 003637 003700 026127 027127 072100 072102 072123 073102 073123";
    for first in octal(coming) {
        assert_eq!(list(&[first]), format!("data={first:06o}\n").as_bytes());
    }
}

#[test]
fn the_assembler_prints_parcels_or_words() {
    assert_eq!(cal_answer(b"020 A1 5\nEX\n"), b"020100\n000005\n004000\n");
    assert_eq!(cal_answer(b""), b"");
    assert_eq!(cal_answer(b"EX\nEX \n"), b"refused=10\nline=2\n");
    let program = b"022 A1 5\n022 A2 7\nA3 A1+A2\n0,A0 A3\n";
    assert_eq!(
        cal_sheet(program, 0x400),
        b"0400=2445248730CA90C0\n0401=0000000000000000\n"
    );
    assert_eq!(cal_sheet(b"EX\n", 0xFFF), b"0FFF=0800000000000000\n");
    assert_eq!(cal_sheet(b"", 0xFFF), b"");
    let five = b"EX\nEX\nEX\nEX\nPASS\n";
    assert_eq!(
        cal_sheet(five, 0xFFE),
        b"0FFE=0800080008000800\n0FFF=0200000000000000\n"
    );
    assert_eq!(cal_sheet(five, 0xFFF), b"refused=18\n");
    assert_eq!(
        cal_sheet(b"EX\nEX\nEX\nEX\nex\n", 0xFFF),
        b"refused=10\nline=5\n"
    );
}

#[test]
fn the_lister_prints_lines_with_and_without_addresses() {
    assert_eq!(
        listing_answer(b"020100\n000005\n004000\n"),
        b"020 A1 5\nEX\n"
    );
    assert_eq!(listing_answer(b"020100\n"), b"data=020100\n");
    assert_eq!(listing_answer(b""), b"");
    let bad = [
        "\n",
        "00400\n",
        "0004000\n",
        "004008\n",
        "200000\n",
        "777777\n",
        " 04000\n",
    ];
    for line in bad {
        let text = format!("004000\n{line}004000\n");
        assert_eq!(
            listing_answer(text.as_bytes()),
            b"refused=10\nline=2\n",
            "{line}"
        );
        assert_eq!(listing_wide(text.as_bytes(), 0), b"refused=10\nline=2\n");
    }
    assert_eq!(listing_answer(b"004000\n004000"), b"refused=10\nline=2\n");
    let wide = "       0  022105         022 A1 5\n\
                \x20      1  020100 000005  020 A1 5\n\
                \x20      3  174120         data=174120\n";
    assert_eq!(
        listing_wide(b"022105\n020100\n000005\n174120\n", 0),
        wide.as_bytes()
    );
    let wide = "77777777  006000 000000  J 0\n\
                \x20      1  040000         data=040000\n";
    assert_eq!(
        listing_wide(b"006000\n000000\n040000\n", 0o77_777_777),
        wide.as_bytes()
    );
}

#[test]
fn the_longest_texts_and_one_over() {
    let mut text = b"EX\nEX\n".to_vec();
    text.resize(LONGEST, b'\n');
    assert_eq!(cal_answer(&text), b"refused=10\nline=3\n");
    assert_eq!(listing_answer(&text), b"refused=10\nline=1\n");
    text.push(b'\n');
    assert_eq!(cal_answer(&text), b"refused=10\nline=0\n");
    assert_eq!(cal_sheet(&text, 0), b"refused=10\nline=0\n");
    assert_eq!(listing_answer(&text), b"refused=10\nline=0\n");
    assert_eq!(listing_wide(&text, 0), b"refused=10\nline=0\n");
}

#[test]
fn accepted_texts_are_their_own_listing() {
    let mut accepted = 0;
    for kind in ["cal", "cal-damaged"] {
        for seed in 0..600 {
            let text = cases::text(kind, seed).unwrap();
            if text.len() > 65_536 {
                continue;
            }
            if let Ok(parcels) = assemble(&text) {
                assert_eq!(list(&parcels), text, "{kind} {seed}");
                accepted += 1;
            }
        }
    }
    assert!((610..800).contains(&accepted), "{accepted}");
}

#[test]
fn kinds_make_good_and_bad_texts() {
    let good = |kind, seed: u64| cases::text(kind, seed).unwrap();
    assert!((0..300).all(|seed| assemble(&good("cal", seed)).is_ok()));
    // Seeds 1 to 8 hold every row, and each digit wherever it may be.
    let mut rows = HashSet::new();
    for seed in 1..=8 {
        rows.extend(
            assemble(&good("cal", seed))
                .unwrap()
                .into_iter()
                .map(spelling),
        );
    }
    assert!((0..SPELLINGS.len()).all(|row| rows.contains(&Some(row))));
    // The lister refuses a third of the drawn ones.
    let refused = |seed: &u64| listing_answer(&good("octal", *seed)).starts_with(b"refused");
    let count = (300..900).filter(refused).count();
    assert!((150..=200).contains(&count), "{count}");
}

#[test]
fn octal_sweeps_hold_every_first_parcel() {
    let mut seen = HashSet::new();
    for seed in 0..300 {
        let text = cases::text("octal", seed).unwrap();
        if text.len() > 65_536 {
            continue;
        }
        let listed = listing_answer(&text);
        let Ok(parcels) = assemble(&listed) else {
            continue;
        };
        let mut rest = &parcels[..];
        while let Some((first, after)) = rest.split_first() {
            seen.insert(*first);
            rest = after
                .get(usize::from(takes_second(*first))..)
                .unwrap_or(&[]);
        }
    }
    assert_eq!(seen.len(), 65_536);
}
