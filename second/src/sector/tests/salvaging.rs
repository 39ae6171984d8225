//! Document 02, 10: salvage.

use super::*;

/// Salvages into prefilled buffers, and checks that a refusal leaves zeros.
fn salvaged(received: &[u8], passes: u8) -> Result<(Salvaged, Vec<u8>, Vec<u8>), Refusal> {
    let (mut out, mut list) = (vec![0xAA; LENGTH], vec![0xAA; LIST]);
    match salvage(received, passes, &mut out, &mut list) {
        Ok(salvaged) => Ok((salvaged, out, list)),
        Err(refusal) => {
            assert_eq!((out, list), (vec![0; LENGTH], vec![0; LIST]));
            Err(refusal)
        }
    }
}

#[test]
fn a_clean_sector_takes_one_pass_and_has_no_changes() {
    let sector = some_sector(&mut Random::new(1), 1);
    for passes in [1, 2, 32] {
        let nothing = Salvaged { passes: 1, changes: 0 };
        assert_eq!(salvaged(&sector, passes), Ok((nothing, sector.clone(), vec![0; LIST])));
    }
}

/// Two wrong bytes in one P codeword: Q mends them, as they stand in different Q codewords.
#[test]
fn the_second_pass_mends_what_the_first_leaves() {
    let sector = some_sector(&mut Random::new(2), 1);
    let mut received = sector.clone();
    let (first, second) = (p_positions(50)[3], p_positions(50)[20]);
    received[first] ^= 0x11;
    received[second] ^= 0x22;
    assert_eq!(salvaged(&received, 1), Err(NoSectorNear));
    for passes in [2, 3, 32] {
        let (answer, out, list) = salvaged(&received, passes).unwrap();
        assert_eq!(answer, Salvaged { passes: 2, changes: 2 });
        assert_eq!(out, sector);
        let change = |at: usize| [(at >> 8) as u8, at as u8, received[at], sector[at]];
        assert_eq!(list[..8], [change(first), change(second)].concat());
        assert_eq!(list[8..], [0; LIST - 8]);
    }
}

/// Sync and Q parity are on the list, and Q parity may be anything at the first pass.
#[test]
fn sync_and_q_parity_are_listed() {
    let sector = some_sector(&mut Random::new(3), 1);
    let mut received = sector.clone();
    received[0] = 7;
    received[2248..].iter_mut().for_each(|byte| *byte ^= 0x5A);
    let (answer, out, list) = salvaged(&received, 1).unwrap();
    assert_eq!(answer, Salvaged { passes: 1, changes: 105 });
    assert_eq!(out, sector);
    assert_eq!(list[..8], [0, 0, 7, 0, 8, 200, sector[2248] ^ 0x5A, sector[2248]]);
    assert_eq!(list[4 * 104..4 * 105], [9, 47, sector[2351] ^ 0x5A, sector[2351]]);
}

#[test]
fn what_no_pass_mends_and_passes_out_of_range() {
    let sector = some_sector(&mut Random::new(4), 1);
    assert_eq!(salvaged(&[0x55; LENGTH], 32), Err(NoSectorNear));
    assert_eq!(salvaged(&some_sector(&mut Random::new(4), 2), 3), Err(NoSectorNear));
    for passes in [0, 33, 255] {
        assert_eq!(salvaged(&sector, passes), Err(WrongPasses));
    }
}

/// The order 1, 2, 22, 5; a buffer of the right length is cleared, the other untouched.
#[test]
fn lengths_and_their_order() {
    let sector = some_sector(&mut Random::new(5), 1);
    for (length, out_length, list_length) in [
        (2351, 2352, 9408),
        (2353, 2351, 9408),
        (0, 2352, 9407),
        (2352, 2351, 9408),
        (2352, 2352, 9409),
        (2352, 0, 0),
    ] {
        let received = &[sector.as_slice(), &[0]].concat()[..length];
        for passes in [0, 1] {
            let (mut out, mut list) = (vec![0xAA; out_length], vec![0xAA; list_length]);
            let refusal = if length == LENGTH { WrongOutgoing } else { WrongIncoming };
            assert_eq!(salvage(received, passes, &mut out, &mut list), Err(refusal));
            let left =
                |right: usize, length: usize| vec![if length == right { 0 } else { 0xAA }; length];
            assert_eq!((out, list), (left(LENGTH, out_length), left(LIST, list_length)));
        }
    }
}
