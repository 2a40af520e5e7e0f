//! Answers texts for the assembler and for the lister.
//!
//!   texts                        a pack from standard input: names beginning with
//!                                cal are for the assembler, with octal for the lister
//!   texts cal < TEXT             the parcels in octal
//!   texts cal ADDRESS < TEXT     the words of a case sheet, from a hex address on
//!   texts listing < TEXT         the CAL of parcels in octal
//!   texts listing -w ADDRESS < TEXT
//!       the same with addresses, that of the first parcel given in octal
//!
//! In the answers to a pack, each follows a line `@ NAME`.

use peer::cal::{cal_answer, cal_sheet, listing_answer, listing_wide};
use peer::packs::answer_all;
use std::error::Error;
use std::io::{self, BufWriter, Read, Write};

fn main() -> Result<(), Box<dyn Error>> {
    let arguments: Vec<String> = std::env::args().skip(1).collect();
    let arguments: Vec<&str> = arguments.iter().map(String::as_str).collect();
    let mut out = BufWriter::new(io::stdout().lock());
    match arguments[..] {
        [] => answer_all(io::stdin().lock(), &mut out, by_name)?,
        ["cal"] => out.write_all(&cal_answer(&input()?))?,
        ["cal", address] => {
            let address = below(address, 16, 0x1000)?;
            out.write_all(&cal_sheet(&input()?, address))?;
        }
        ["listing"] => out.write_all(&listing_answer(&input()?))?,
        ["listing", "-w", address] => {
            let address = below(address, 8, 1 << 24)?;
            out.write_all(&listing_wide(&input()?, address))?;
        }
        _ => return Err("texts [cal [ADDRESS] | listing [-w ADDRESS]]".into()),
    }
    out.flush()?;
    Ok(())
}

fn by_name(name: &str, text: &[u8]) -> Vec<u8> {
    if name.starts_with("cal") {
        cal_answer(text)
    } else {
        listing_answer(text)
    }
}

fn below(address: &str, radix: u32, bound: u64) -> Result<u64, Box<dyn Error>> {
    let value = u64::from_str_radix(address, radix)?;
    let good = (value < bound).then_some(value);
    good.ok_or_else(|| format!("the address {address} is too large").into())
}

fn input() -> io::Result<Vec<u8>> {
    let mut text = Vec::new();
    io::stdin().lock().read_to_end(&mut text)?;
    Ok(text)
}
