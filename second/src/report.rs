//! Document 01, The report.

use crate::sector::{repair, LENGTH};

/// What the program prints for this standard input.
pub fn report(input: &[u8]) -> String {
    let (mut clean, mut repaired, mut refused) = (0, 0, 0);
    let mut text = String::from("cd sectors 1\n");
    let sectors = input.chunks_exact(LENGTH);
    let tail = sectors.remainder().len();
    for (index, received) in sectors.enumerate() {
        let mut out = [0; LENGTH];
        let answer = repair(received, &mut out);
        let address = format!("{:02X}{:02X}{:02X}", out[12], out[13], out[14]);
        text += &match answer {
            Ok(0) => {
                clean += 1;
                format!("{index} clean {address}\n")
            }
            Ok(changed) => {
                repaired += 1;
                format!("{index} repaired {address} {changed}\n")
            }
            Err(refusal) => {
                refused += 1;
                format!("{index} refused {}\n", refusal.number())
            }
        };
    }
    if tail > 0 {
        text += &format!("tail {tail}\n");
    }
    text + &format!("clean {clean} repaired {repaired} refused {refused}\n")
}

#[cfg(test)]
mod tests {
    use super::*;
    use crate::sector::write;

    fn sector(address: [u8; 3]) -> Vec<u8> {
        let mut out = vec![0; LENGTH];
        write(1, address, &[0x5A; 2048], &mut out).unwrap();
        out
    }

    #[test]
    fn document_01s_example() {
        let expected =
            "cd sectors 1\n0 refused 5\n1 refused 5\ntail 5\nclean 0 repaired 0 refused 2\n";
        assert_eq!(report(&[0; 4709]), expected);
    }

    #[test]
    fn empty_input() {
        assert_eq!(report(&[]), "cd sectors 1\nclean 0 repaired 0 refused 0\n");
    }

    #[test]
    fn less_than_a_sector() {
        assert_eq!(report(&[0; 2351]), "cd sectors 1\ntail 2351\nclean 0 repaired 0 refused 0\n");
    }

    /// Damage in sync, address, data and Q parity; the address is the one handed out.
    #[test]
    fn all_fates() {
        let clean = sector([0x99, 0x59, 0x74]);
        let mut repaired = sector([0x00, 0x02, 0x09]);
        for at in [0, 11, 12, 100, 2351] {
            repaired[at] ^= 0xFF;
        }
        let mut refused = sector([0x01, 0x00, 0x00]);
        refused[100] ^= 1;
        refused[100 + 86] ^= 1;
        let input = [clean.as_slice(), &repaired, &refused, &clean].concat();
        let expected =
            "cd sectors 1\n0 clean 995974\n1 repaired 000209 5\n2 refused 5\n3 clean 995974\n\
                        clean 2 repaired 1 refused 1\n";
        assert_eq!(report(&input), expected);
        let with_tail = [input.as_slice(), &[7]].concat();
        assert_eq!(report(&with_tail), expected.replace("clean 2 ", "tail 1\nclean 2 "));
    }

    #[test]
    fn more_than_ten_sectors() {
        let one = sector([0x10, 0x20, 0x30]);
        let text = report(&one.repeat(12));
        assert!(text.contains("\n9 clean 102030\n10 clean 102030\n11 clean 102030\n"));
        assert!(text.ends_with("clean 12 repaired 0 refused 0\n"));
    }
}
