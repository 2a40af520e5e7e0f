//! CAL: lines with known parcels, rooms of every size, and the independent
//! assembler and lister beside the library's.

use pulxarrid::{assemble, assemble_into, list, list_into, run, start};
use pulxarrid::{BadLine, NoRoom, NotAssembled, LINE_MOST};

beside::tests!(
    lines_with_known_answers,
    nothing_is_nothing,
    rooms_of_every_size,
    a_bad_line_comes_before_too_little_room,
    an_assembled_program_runs,
    every_first_parcel_comes_back,
    lines_with_one_byte_changed,
    generated_texts,
    generated_parcels,
);

/// What a room holds before a call.
const FOUND: u16 = 0o123_456;
const FOUND_BYTE: u8 = 0xEE;

fn bad(line: usize) -> Result<usize, NotAssembled> {
    Err(NotAssembled::BadLine(BadLine(line)))
}

/// The parcels of a text of any bytes, or its first bad line. The room is lent,
/// and must be as the call may leave it.
fn assembled(text: &[u8]) -> Result<Vec<u16>, usize> {
    let mut room = vec![FOUND; text.len() / 2 + 1];
    let count = match assemble_into(text, &mut room) {
        Ok(count) => count,
        Err(NotAssembled::BadLine(BadLine(line))) => {
            assert!(room.iter().all(|parcel| *parcel == FOUND));
            return Err(line);
        }
        Err(NotAssembled::NoRoom(_)) => panic!("a parcel takes at least two bytes"),
    };
    assert!(room[count..].iter().all(|parcel| *parcel == FOUND));
    room.truncate(count);
    Ok(room)
}

/// Lines to try, with their parcels in octal or `refused`; lines with one answer
/// stand together, a bar between them.
const LINES: &str = r"
042100                  S1 <100
refused                 S1 <0 | S1 <101 | S1 >100
043100                  S1 >0
refused                 A1 1 | A1 5 | S1 5
022177                  022 A1 77
refused                 022 A1 100 | 022 A1 07
020177 177777           020 A1 17777777
refused                 020 A1 20000000
013777 177777           013 A3 77777777
refused                 011 A3 1 | 013 A3 100000000
010400 000000           010 A0 0
006377 177777           J 77777777
005077                  J B77
006000 000000           J 0
refused                 J B7
053100                  053 S0 S1>0
refused                 S0 S1>100 | 053 S1 S1>0 | 054 S1 S2<3
050123                  S1 S2!S1&S3
refused                 S1 S2!S4&S3
152123                  V1 V2,V2<A3
refused                 V1 V2,V4<A3
056123                  S1 S1,S2<A3
refused                 S1 S2,S1<A3
045123                  S1 #S3&S2
073101                  S1 SR0
refused                 S1 SR1 | S1 SR
001000                  PASS
001001                  CA,A0 A1
refused                 CA,A0 A0
001433                  CLN 3
refused                 CLN 4 | IP 2
002000                  VL A0
refused                 VL 1
003000                  VM S0
refused                 VM 0
001430                  RT S3
refused                 S1 RT | S1 SM | SM S1 | S1 ST2 | ST2 S1 | A1 SB2 | SB2 A1
refused                 SM05 1,TS | SM5 1,TS | SM40 1,TS | SM37 0 | SM00 1
refused                 EFI | A1 CI | S1 +FA2 | S1 /HS2 | V1 /HV2
100100 000005           A1 5,A0
refused                 A1 5,0 | A1 5, | A1 ,A2
006400                  data=006400
001272                  data=001272
174120                  data=174120
177777                  data=177777
refused                 data=001000 | data=022105 | data=200000 | data=06400
020100                  data=020100
001510                  data=001510
072100                  data=072100
003405                  data=003405
refused                 data=001430
refused                 pass | A1  S2
";

fn lines_with_known_answers() {
    let mut tried = 0;
    for row in LINES.lines().skip(1) {
        let (answer, lines) = row.split_at(24);
        for line in lines.split(" | ") {
            let wanted = match answer.trim_end() {
                "refused" => Err(BadLine(1)),
                octal => Ok(octal
                    .split(' ')
                    .map(|parcel| u16::from_str_radix(parcel, 8).unwrap())
                    .collect::<Vec<u16>>()),
            };
            let text = format!("{line}\n");
            let got = assemble(&text);
            assert_eq!(got, wanted, "{line}");
            if let Ok(parcels) = got {
                assert_eq!(list(&parcels), text);
            }
            tried += 1;
        }
    }
    assert!(tried > 80, "{tried}");
    // blanks at the ends, no line, and no newline
    for text in [
        " PASS\n", "PASS \n", "\n", "PASS", "P", "PASS\r\n", "PASS\0\n",
    ] {
        assert_eq!(assemble(text), Err(BadLine(1)), "{text:?}");
    }
    // a first parcel is data only as the last line
    assert_eq!(
        assemble("PASS\ndata=020100\n"),
        Ok(vec![0o001000, 0o020100])
    );
    assert_eq!(assemble("PASS\ndata=020100\nPASS\n"), Err(BadLine(2)));
    assert_eq!(assemble("data=020100\ndata=020100\n"), Err(BadLine(1)));
    let other = assemble("data=006400\nPASS\n");
    assert_eq!(other, Ok(vec![0o006400, 0o001000]));
}

fn nothing_is_nothing() {
    assert_eq!(assemble(""), Ok(vec![]));
    assert_eq!(list(&[]), "");
    assert_eq!(assemble_into(b"", &mut []), Ok(0));
    assert_eq!(list_into(&[], &mut []), Ok(0));
    let mut room = [FOUND; 3];
    assert_eq!(assemble_into(b"", &mut room), Ok(0));
    assert_eq!(room, [FOUND; 3]);
}

/// Parcels with lines of every length, and their listing.
fn some() -> (Vec<u16>, String) {
    let text = "EX\nJ 0\nPASS\nA1 5,A0\n013 A3 77777777\ndata=177777\nV1 V2!V3&VM\ndata=020100\n";
    let parcels = assemble(text).unwrap();
    assert_eq!((parcels.len(), list(&parcels).as_str()), (11, text));
    (parcels, text.to_string())
}

fn rooms_of_every_size() {
    let (parcels, text) = some();
    for size in 0..parcels.len() + 20 {
        let mut room = vec![FOUND; size];
        let got = assemble_into(text.as_bytes(), &mut room);
        if size < parcels.len() {
            assert_eq!(got, Err(NotAssembled::NoRoom(NoRoom)));
            assert_eq!(room, vec![FOUND; size]);
        } else {
            assert_eq!(got, Ok(parcels.len()));
            assert_eq!(room[..parcels.len()], parcels);
            assert!(room[parcels.len()..].iter().all(|p| *p == FOUND));
        }
    }
    let enough = LINE_MOST * parcels.len();
    for size in 0..enough + 40 {
        let mut room = vec![FOUND_BYTE; size];
        let got = list_into(&parcels, &mut room);
        if size < text.len() {
            assert_eq!(got, Err(NoRoom));
            assert_eq!(room, vec![FOUND_BYTE; size]);
        } else {
            assert_eq!(got, Ok(text.len()));
            assert_eq!(&room[..text.len()], text.as_bytes());
            assert!(room[text.len()..].iter().all(|byte| *byte == FOUND_BYTE));
        }
    }
    // 16 bytes for each parcel are room enough, and half as many parcels as bytes
    for first in 0..=u16::MAX {
        assert!(list(&[first]).len() <= LINE_MOST);
        assert!(list(&[first, u16::MAX]).len() <= 2 * LINE_MOST);
    }
    let jumps = "J 0\n".repeat(50);
    let mut room = [FOUND; 100];
    assert_eq!(assemble_into(jumps.as_bytes(), &mut room), Ok(100));
    let small = assemble_into(jumps.as_bytes(), &mut room[..99]);
    assert_eq!(small, Err(NotAssembled::NoRoom(NoRoom)));
}

fn a_bad_line_comes_before_too_little_room() {
    let (_, text) = some();
    let mut room = [FOUND; 2];
    for (line, wanted) in [("", 1), ("PASS\nPASS\nPASS\n", 4), (&text[..], 8)] {
        let broken = format!("{line}A1 5\n");
        assert_eq!(assemble_into(broken.as_bytes(), &mut room), bad(wanted));
        assert_eq!(assemble_into(broken.as_bytes(), &mut []), bad(wanted));
        assert_eq!(room, [FOUND; 2]);
    }
    let why = assemble("PASS\nA1 5\n").unwrap_err();
    assert_eq!(why.to_string(), "line 2 cannot be assembled");
    let why: Box<dyn std::error::Error> = assemble_into(b"EX\n", &mut []).unwrap_err().into();
    assert_eq!(why.to_string(), "there is more than the lent room holds");
}

fn an_assembled_program_runs() {
    let text = "022 A1 5\n022 A2 7\nA3 A1+A2\n0,A0 A3\ndata=000001\n";
    let parcels = assemble(text).unwrap();
    let mut memory = vec![0; 4_096];
    memory[1] = (0x400 / 32) << 29;
    memory[2] = (0x800 / 32) << 29;
    memory[4] = (0x800 / 32) << 29;
    memory[5] = (0xC00 / 32) << 29;
    for (n, parcel) in parcels.iter().enumerate() {
        memory[0x400 + n / 4] |= u64::from(*parcel) << (48 - n % 4 * 16);
    }
    let mut state = start(&memory, 0, 0).unwrap();
    let ran = run(&mut state, &mut memory, 100).unwrap();
    assert_eq!(ran.ending, pulxarrid::Ending::NotHeld(5));
    assert_eq!((ran.steps, memory[0x800]), (4, 12));
}

/// Second parcels to try with each first.
const SECONDS: [u16; 5] = [0, 1, 0o004_000, 0o020_345, u16::MAX];

/// Each first parcel alone and with each second.
fn instructions() -> impl Iterator<Item = Vec<u16>> {
    (0..=u16::MAX).flat_map(|first| {
        let alone = std::iter::once(vec![first]);
        alone.chain(SECONDS.map(|second| vec![first, second]))
    })
}

fn every_first_parcel_comes_back() {
    for parcels in instructions() {
        let text = list(&parcels);
        assert_eq!(text.as_bytes(), peer::cal::list(&parcels), "{parcels:?}");
        assert_eq!(assemble(&text).as_ref(), Ok(&parcels), "{text}");
    }
    // all of them in one text
    let all: Vec<u16> = (0..=u16::MAX)
        .flat_map(|first| [first, 0o070_707])
        .collect();
    let text = list(&all);
    assert_eq!(text.as_bytes(), peer::cal::list(&all));
    assert_eq!(assemble(&text), Ok(all));
}

/// Bytes that lines have, and a few that they do not.
const BYTES: &[u8] = b"\n 0123456789ABCDEFIJLMNPQRSTVXZ,+-*<>!&#\\=adt\0\xFF";

fn lines_with_one_byte_changed() {
    let mut accepted = 0;
    let mut draw = 0_usize;
    for first in 0..=u16::MAX {
        // numbers of different lengths
        let second = SECONDS[usize::from(first) % SECONDS.len()];
        let mut text = peer::cal::list(&[first, second]);
        let length = 1 + text.iter().position(|byte| *byte == b'\n').unwrap();
        text.truncate(length);
        for at in 0..length {
            let was = text[at];
            for n in 0..3 {
                draw = draw
                    .wrapping_mul(0x5851_F42D_4C95_7F2D)
                    .wrapping_add(0x1405_7B7E_F767_814F);
                text[at] = match n {
                    0 => was ^ 1,
                    1 => was.wrapping_add(1),
                    _ => BYTES[(draw >> 33) % BYTES.len()],
                };
                let got = assembled(&text);
                let wanted = peer::cal::assemble(&text);
                assert_eq!(got, wanted, "{:?}", String::from_utf8_lossy(&text));
                accepted += u32::from(got.is_ok());
            }
            text[at] = was;
        }
    }
    assert!(accepted > 100_000, "{accepted}");
}

fn generated_texts() {
    let (mut good, mut refused) = (0, 0);
    for kind in ["cal", "cal-damaged"] {
        for seed in 0..600 {
            let text = peer::cases::text(kind, seed).expect("a kind of text");
            let got = assembled(&text);
            assert_eq!(got, peer::cal::assemble(&text), "{kind} {seed}");
            match got {
                Ok(parcels) => {
                    good += 1;
                    assert_eq!(list(&parcels).as_bytes(), text, "{kind} {seed}");
                }
                Err(_) => refused += 1,
            }
        }
    }
    assert!(good > 600 && refused > 400, "{good} {refused}");
}

fn generated_parcels() {
    for seed in 0..400 {
        let text = peer::cases::text("octal", seed).expect("a kind of text");
        let parcels: Vec<u16> = text
            .split(|byte| *byte == b'\n')
            .filter_map(|line| std::str::from_utf8(line).ok())
            .filter_map(|line| u16::from_str_radix(line, 8).ok())
            .collect();
        let got = list(&parcels);
        assert_eq!(got.as_bytes(), peer::cal::list(&parcels), "{seed}");
        assert_eq!(assemble(&got), Ok(parcels), "{seed}");
    }
}
