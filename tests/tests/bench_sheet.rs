//! The bench sheet P1 to P12 of the scope paper, on the reference and on the linked library.

use crate::common::{checks_as, example, plan, plans_as, refused, subjects, table};
use bus_tests::reference::model::plausible_lengths;
use bus_tests::reference::{listing, read_cycle};
use bus_tests::sheet;

fn lengths(request: &[u8]) -> Vec<i64> {
    plausible_lengths(&read_cycle(request).expect("within the limits"))
}

#[test]
fn the_sheet_s_files_have_its_requests() {
    for (name, bytes) in [
        ("p1.req", sheet::p1()),
        ("p2.req", sheet::p2()),
        ("p3.req", sheet::p3()),
        ("p5.req", sheet::p5()),
        ("p6.req", sheet::p6()),
        ("p7.req", sheet::p7()),
        ("p8.req", sheet::p8()),
        ("p8-long.req", sheet::p8_long()),
        ("p9.req", sheet::p9()),
        ("p10.req", sheet::p10()),
        ("p11.req", sheet::p11()),
        ("p12.req", sheet::p12()),
        ("p12-long.req", sheet::p12_long()),
    ] {
        assert_eq!(example(name), bytes, "{name}");
    }
}

#[test]
fn p1_request_table_and_listing() {
    let bytes = [
        0x03, 0x05, 0x00, 0x14, 0x00, 0x14, 0x00, 0x00, 0x00, 0x05, 0x00, 0x14, 0x00, 0x14, 0x00,
        0x00, 0x00, 0x0A, 0x00, 0x28, 0x00, 0x28, 0x00, 0x00, 0x00, 0x00,
    ];
    assert_eq!(sheet::p1(), bytes);
    let expected = [
        0x02, 0x14, 0x00, 0x28, 0x00, 0x02, 0x00, 0x03, 0x00, 0x00, 0x01, 0x00, 0x02, 0x00, 0x02,
        0x00, 0x01, 0x01, 0x01,
    ];
    for (name, bus) in subjects() {
        assert_eq!(plan(bus, &bytes), Ok(expected.to_vec()), "{name}");
    }
    plans_as(&bytes, 20, 40, "0.0 1.0 2.0 / 0.1 1.1");
    let text = "frame 20 cycle 40 rows 2\n0 20 0.0 1.0 2.0\n1 10 0.1 1.1\n";
    assert_eq!(listing(&bytes), text);
}

#[test]
fn p2_has_no_plausible_length() {
    refused(&sheet::p2(), 9);
    assert_eq!(listing(&sheet::p2()), "refused 9\n");
}

#[test]
fn p3_with_a_pair() {
    let rows = "0.0 1.0 / 2.0 / 0.1 1.1 / 0.2 / 3.0 / 0.3 1.2";
    plans_as(&sheet::p3(), 4, 24, rows);
    assert_eq!(lengths(&sheet::p3()), [4]);
}

#[test]
fn p4_the_printed_table_starts_a_job_too_early() {
    let printed = table(4, 24, "0.0 1.0 / 2.0 / 0.1 1.1 / 0.2 / 0.3 1.2 / 3.0");
    checks_as(&sheet::p3(), &printed, -14);
    assert_eq!(example("p4.table"), printed);
    assert_eq!(example("p4.txt"), b"refused 14\n");
}

#[test]
fn p5_is_plausible_and_has_no_plan() {
    assert_eq!(lengths(&sheet::p5()), [20, 10]);
    refused(&sheet::p5(), 10);
}

#[test]
fn p6_with_phases() {
    plans_as(&sheet::p6(), 20, 60, "2.0 / 0.0 2.1 / 1.0 2.2");
}

#[test]
fn p7_carries_and_leaves_the_first_cycle_out() {
    plans_as(&sheet::p7(), 5, 10, "0.0+ / ");
    let text = "frame 5 cycle 10 rows 2\n0 2 0.0+\n1 0\n";
    assert_eq!(listing(&sheet::p7()), text);
    let served = [0, 0, 1, 0, 1, 0];
    let bytes = table(5, 10, "0.0+ / ");
    for (name, bus) in subjects() {
        let mut state = [0x77; 64];
        assert_eq!(bus.fresh(&mut state), 0, "{name}");
        for (frame, expected) in served.iter().enumerate() {
            let mut entries = [0x77; 32];
            let count = bus.next_frame(&bytes, &mut state, &mut entries);
            assert_eq!(count, *expected, "{name} frame {frame}");
            let mut places = [0; 32];
            if *expected == 1 {
                places[1] = 0x80;
            }
            assert_eq!(entries, places, "{name} frame {frame}");
        }
    }
}

#[test]
fn p8_a_length_whose_window_holds_no_frame() {
    assert_eq!(lengths(&sheet::p8()), [2, 1]);
    plans_as(&sheet::p8(), 2, 10, " / 0.0 / / / ");
    checks_as(&sheet::p8(), &table(5, 10, "0.0 / "), -13);
    checks_as(&sheet::p8(), &table(2, 10, "0.0 / / / / "), -14);
    refused(&sheet::p8_long(), 9);
}

#[test]
fn p9_and_p10_about_256_rows() {
    let rows = format!("0.0{}", " / ".repeat(255));
    plans_as(&sheet::p9(), 1, 256, &rows);
    refused(&sheet::p10(), 9);
}

#[test]
fn p11_too_many_jobs() {
    refused(&sheet::p11(), 8);
}

#[test]
fn p12_the_longest_cycle() {
    plans_as(&sheet::p12(), 10_000, 10_000, "0.0");
    refused(&sheet::p12_long(), 7);
}
