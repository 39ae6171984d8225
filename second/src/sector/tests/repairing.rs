//! Annex A and document 01, P and Q: repair.

use super::*;

/// Repairs into a prefilled buffer, and checks that a refusal leaves zeros.
fn repaired(received: &[u8]) -> Result<(usize, Vec<u8>), Refusal> {
    let mut out = vec![0xAA; LENGTH];
    match repair(received, &mut out) {
        Ok(changed) => Ok((changed, out)),
        Err(refusal) => {
            assert_eq!(out, [0; LENGTH]);
            Err(refusal)
        }
    }
}

#[test]
fn a_sector_just_written_comes_back_and_repair_is_settled() {
    let mut random = Random::new(1);
    for _ in 0..20 {
        let sector = some_sector(&mut random, 1);
        assert_eq!(repaired(&sector), Ok((0, sector)));
    }
}

#[test]
fn every_single_wrong_byte_is_mended_and_counted() {
    let mut random = Random::new(2);
    let sector = some_sector(&mut random, 1);
    for at in 0..LENGTH {
        let mut wrong = sector.clone();
        wrong[at] ^= random.change();
        assert_eq!(repaired(&wrong), Ok((1, sector.clone())), "byte {at}");
    }
}

#[test]
fn a_wrong_byte_in_many_p_codewords_with_sync_and_q_parity_lost() {
    let mut random = Random::new(3);
    for round in 0..20 {
        let sector = some_sector(&mut random, 1);
        let mut wrong = sector.clone();
        wrong[..12].copy_from_slice(&random.bytes(12));
        wrong[2248..].copy_from_slice(&random.bytes(104));
        let count = if round == 0 { P_CODEWORDS } else { random.below(P_CODEWORDS) };
        for n in random.places(count, P_CODEWORDS) {
            wrong[p_positions(n)[random.below(26)]] ^= random.change();
        }
        let changed = (0..LENGTH).filter(|&at| wrong[at] != sector[at]).count();
        assert!(changed > count);
        assert_eq!(repaired(&wrong), Ok((changed, sector)));
    }
}

#[test]
fn two_wrong_bytes_in_a_p_codeword_are_refused() {
    let mut random = Random::new(4);
    let sector = some_sector(&mut random, 1);
    for n in 0..P_CODEWORDS {
        let mut wrong = sector.clone();
        for place in random.places(2, 26) {
            wrong[p_positions(n)[place]] ^= random.change();
        }
        assert_eq!(repaired(&wrong), Err(NoSectorNear), "P codeword {n}");
    }
}

/// Byte 15 is the MSB of word 1: row 0 of P codeword 44.
#[test]
fn a_wrong_mode_byte_is_mended_unless_its_p_codeword_has_another_fault() {
    let mut random = Random::new(5);
    let sector = some_sector(&mut random, 1);
    assert_eq!(p_positions(44)[0], 15);
    for mode in [0, 2, 3, 255] {
        let mut wrong = sector.clone();
        wrong[15] = mode;
        assert_eq!(repaired(&wrong), Ok((1, sector.clone())));
        wrong[p_positions(44)[20]] ^= 0x80;
        assert_eq!(repaired(&wrong), Err(NoSectorNear));
    }
}

#[test]
fn correct_sectors_of_other_modes_are_refused() {
    let mut random = Random::new(6);
    for mode in [0, 2] {
        assert_eq!(repaired(&some_sector(&mut random, mode)), Err(NoSectorNear));
    }
    let sector = some_sector(&mut random, 1);
    assert_eq!(repaired(&sealed_with(&sector, 15, &[2])), Err(NoSectorNear));
    assert_eq!(repaired(&[0; LENGTH]), Err(NoSectorNear));
}

#[test]
fn faults_that_parity_cannot_see_are_refused() {
    let sector = some_sector(&mut Random::new(7), 1);
    let with_parity = |change: &dyn Fn(&mut Vec<u8>)| {
        let mut other = sector.clone();
        change(&mut other);
        (0..P_CODEWORDS).for_each(|n| set_parity(&mut other, &p_positions(n)));
        (0..Q_CODEWORDS).for_each(|n| set_parity(&mut other, &q_positions(n)));
        other
    };
    assert_eq!(repaired(&with_parity(&|_| ())), Ok((0, sector.clone())));
    assert_eq!(repaired(&with_parity(&|s| s[500] ^= 1)), Err(NoSectorNear));
    assert_eq!(repaired(&with_parity(&|s| s[2067] ^= 0x80)), Err(NoSectorNear));
    assert_eq!(repaired(&with_parity(&|s| s[2075] ^= 1)), Err(NoSectorNear));
}

#[test]
fn wrong_addresses_are_refused_and_the_highest_is_not() {
    let sector = some_sector(&mut Random::new(8), 1);
    for address in [[0x00, 0x60, 0x00], [0x00, 0x00, 0x75], [0x0A, 0x00, 0x00], [0xFA, 0x00, 0x00]]
    {
        assert_eq!(repaired(&sealed_with(&sector, 12, &address)), Err(NoSectorNear));
    }
    let highest = sealed_with(&sector, 12, &[0x99, 0x59, 0x74]);
    assert_eq!(repaired(&highest), Ok((0, highest)));
}

/// An EDC that fits a wrong sync does not fit the right one.
#[test]
fn sync_is_put_right_before_the_edc_is_taken() {
    let sector = some_sector(&mut Random::new(9), 1);
    let fitting_a_wrong_sync = sealed_with(&sector, 5, &[0xFE]);
    assert_eq!(edc::remainder(&fitting_a_wrong_sync[..2068]), 0);
    assert_eq!(repaired(&fitting_a_wrong_sync), Err(NoSectorNear));
}

/// Document 01's order 1, 2, 5, with one buffer of each length.
#[test]
fn lengths_and_their_order() {
    let sector = some_sector(&mut Random::new(10), 1);
    for length in [0, 1, 2351, 2353] {
        let received = vec![0x55; length];
        assert_eq!(repaired(&received), Err(WrongIncoming));
        let mut out = vec![0xAA; length];
        assert_eq!(repair(&sector, &mut out), Err(WrongOutgoing));
        assert_eq!(repair(&[0; LENGTH], &mut out), Err(WrongOutgoing));
        assert_eq!(repair(&received, &mut out), Err(WrongIncoming));
        assert_eq!(out, vec![0xAA; length]);
    }
}
