//! Requests whose search is too long for the reference: planned beside the plain version, which
//! agrees with the reference wherever both are tried.

use crate::common::{subject, tell_cut};
use bus_tests::bus::{Bus, TRIES_LEN};
use bus_tests::call::hex;
use bus_tests::comparison::MOST_TRIES;
use bus_tests::generate;
use bus_tests::given_tries;
use bus_tests::plain;
use bus_tests::random::Random;
use bus_tests::reference::PROGRAM_TRIES;
use bus_tests::sheet;

const MOST: u64 = if cfg!(feature = "linked") {
    3_000_000
} else {
    3 * MOST_TRIES
};
const REQUESTS: u64 = if cfg!(feature = "linked") { 200 } else { 10 };

/// The answer of a planning, its count of tries, and all of the table's buffer.
fn planned(
    plan: impl Fn(&[u8], u64, &mut [u8], &mut [u8]) -> i32,
    request: &[u8],
    allowance: u64,
) -> (i32, u64, Vec<u8>) {
    let (mut out, mut tries) = (vec![0x5A; 600], [0x5A; TRIES_LEN]);
    let answer = plan(request, allowance, &mut out, &mut tries);
    (answer, u64::from_le_bytes(tries), out)
}

/// Both sides plan alike; their answer.
fn plans_alike(request: &[u8], allowance: u64) -> i32 {
    let bus: &dyn Bus = subject();
    let actual = planned(
        |request, allowance, out, tries| bus.plan(request, allowance, out, tries),
        request,
        allowance,
    );
    let expected = planned(plain::plan, request, allowance);
    assert_eq!(actual, expected, "{allowance} for {}", hex(request));
    actual.0
}

#[test]
fn long_searches_end_alike() {
    let mut rng = Random::new(41);
    let (mut seen, mut tables, mut most, mut cut) = (0, 0, 0, 0);
    while seen < REQUESTS {
        let bytes = generate::valid_bytes(&mut rng);
        let Some(tries) = plain::tries_within(&bytes, MOST) else {
            assert_eq!(plans_alike(&bytes, MOST), -23);
            cut += 1;
            continue;
        };
        if tries <= MOST_TRIES {
            continue;
        }
        assert_eq!(plans_alike(&bytes, tries - 1), -23);
        let answer = plans_alike(&bytes, tries);
        assert_ne!(answer, -23);
        assert_eq!(plans_alike(&bytes, u64::MAX), answer);
        seen += 1;
        tables += u64::from(answer > 0);
        most = most.max(tries);
    }
    println!("{tables} planned, up to {most} tries");
    tell_cut("long searches", seen, cut, MOST);
}

/// A search that would take years ends with its allowance.
#[test]
fn a_search_without_end_is_ended() {
    for allowance in [0, 1, 65_536, MOST] {
        assert_eq!(plans_alike(&sheet::pigeons(16, 15, 0), allowance), -23);
    }
}

/// What the programs allow, with requests that need just so many tries, one more and one less. The
/// reference would take its time over these, so without the library they are smaller.
#[test]
fn the_last_try() {
    let allowed = if cfg!(feature = "linked") {
        PROGRAM_TRIES
    } else {
        2 * MOST_TRIES
    };
    for tries in [allowed - 1, allowed, allowed + 1] {
        let (with, without) = (
            given_tries::planned_after(tries),
            given_tries::refused_after(tries),
        );
        let ended = tries > allowed;
        assert_eq!(plans_alike(&with, allowed) == -23, ended, "{tries}");
        assert!(plans_alike(&with, tries) > 0, "{tries}");
        let number = if ended { -23 } else { -10 };
        assert_eq!(plans_alike(&without, allowed), number, "{tries}");
        assert_eq!(plans_alike(&without, tries), -10, "{tries}");
    }
}
