//! The bus timer: what each register reads and takes, events, servings, reports and the line, by the words
//! of R-12; and which number is given when several would do.

use crate::common::{subjects, table};
use bus_tests::bus::{Bus, ENTRIES_LEN, STATE_LEN, TASKS, TIMER_LEN, TIMER_USED};
use bus_tests::bus::{CONTROL_AT, STATUS_AT};
use bus_tests::registers::put_counts;
use bus_tests::sheet;

/// P1 on a tool: its request, its table, a timer with other bytes behind it, and entries.
struct Board {
    name: &'static str,
    bus: &'static dyn Bus,
    request: Vec<u8>,
    table: Vec<u8>,
    timer: Vec<u8>,
    entries: Vec<u8>,
}

const UNTOUCHED: u8 = 0xC3;

/// A board with a fresh timer on each tool.
fn boards() -> Vec<Board> {
    let fresh = |(name, bus): (&'static str, &'static dyn Bus)| {
        let mut timer = vec![UNTOUCHED; TIMER_LEN + 3];
        assert_eq!(bus.timer_fresh(&mut timer), 0, "{name}");
        Board {
            name,
            bus,
            request: sheet::p1(),
            table: table(20, 40, "0.0 1.0 2.0 / 0.1 1.1"),
            timer,
            entries: vec![UNTOUCHED; ENTRIES_LEN + 3],
        }
    };
    subjects().into_iter().map(fresh).collect()
}

impl Board {
    fn read(&self, address: u8) -> i32 {
        self.bus.timer_read(address, &self.timer)
    }

    fn write(&mut self, address: u8, value: u8) -> i32 {
        self.bus.timer_write(address, value, &mut self.timer)
    }

    fn event(&mut self) {
        assert_eq!(self.bus.timer_event(&mut self.timer), 0, "{}", self.name);
    }

    fn serve_with(&mut self, table: &[u8]) -> i32 {
        self.entries.fill(UNTOUCHED);
        let (timer, entries) = (&mut self.timer, &mut self.entries);
        self.bus.timer_serve(table, timer, entries)
    }

    fn serve(&mut self) -> i32 {
        let table = self.table.clone();
        self.serve_with(&table)
    }

    fn report(&mut self, task: u8, ticks: u32) -> i32 {
        let timer = &mut self.timer;
        self.bus.timer_report(&self.request, task, ticks, timer)
    }

    fn line(&self) -> i32 {
        self.bus.timer_line(&self.timer)
    }

    #[track_caller]
    fn reads(&self, registers: [i32; 8]) {
        let read: Vec<i32> = (0..8).map(|address| self.read(address)).collect();
        assert_eq!(read, registers, "{}", self.name);
    }

    /// The board with these bytes for control and status.
    fn with(mut self, control: u8, status: u8) -> Board {
        self.timer[CONTROL_AT] = control;
        self.timer[STATUS_AT] = status;
        self
    }
}

/// Every control and every status, on every tool.
fn every_board() -> impl Iterator<Item = (Board, u8, u8)> {
    let pairs = (0..4).flat_map(|control| (0..8).map(move |status| (control, status)));
    pairs.flat_map(|(control, status)| {
        let boards = boards().into_iter();
        boards.map(move |board| (board.with(control, status), control, status))
    })
}

/// "Fresh, all eight bytes are 0.": and all 72 bytes are those of a fresh state with 0 behind them.
#[test]
fn fresh() {
    for board in boards() {
        board.reads([0; 8]);
        assert_eq!(board.line(), 0, "{}", board.name);
        let mut expected = vec![0; TIMER_LEN];
        assert_eq!(board.bus.fresh(&mut expected), 0);
        expected.extend([UNTOUCHED; 3]);
        assert_eq!(board.timer, expected, "{}", board.name);
    }
}

/// A day of a driver on P1, call by call.
#[test]
fn a_driver_s_day() {
    for mut board in boards() {
        board.event();
        board.reads([0; 8]);
        assert_eq!(board.write(0, 0xFF), 0);
        board.reads([3, 0, 0, 0, 0, 0, 0, 0]);
        assert_eq!(board.line(), 0);
        board.event();
        board.reads([3, 1, 0, 0, 0, 0, 0, 0]);
        assert_eq!(board.line(), 1);
        assert_eq!(board.serve_with(&[]), -12);
        board.reads([3, 1, 0, 0, 0, 0, 0, 0]);
        assert_eq!(board.serve(), 3);
        assert_eq!(board.entries[..6], [0, 0, 1, 0, 2, 0]);
        assert!(board.entries[6..32].iter().all(|byte| *byte == 0));
        assert_eq!(board.entries[32..], [UNTOUCHED; 3]);
        board.reads([3, 0, 1, 0, 0, 0, 0, 0]);
        assert_eq!(board.line(), 0);
        assert_eq!(board.serve_with(&[]), 0);
        assert_eq!(board.entries, [UNTOUCHED; 35]);
        assert_eq!(board.report(0, 6), 0);
        assert_eq!(board.report(0, 5), 0);
        assert_eq!(board.report(3, 9), -16);
        board.reads([3, 2, 1, 0, 1, 0, 0, 0]);
        assert_eq!(board.line(), 1);
        board.event();
        board.event();
        board.reads([3, 7, 1, 0, 1, 0, 0, 0]);
        assert_eq!(board.write(1, 3), 0);
        board.reads([3, 5, 1, 0, 1, 0, 0, 0]);
        assert_eq!(board.write(8, 0), -29);
        assert_eq!(board.read(8), -29);
        assert_eq!(board.write(0, 2), 0);
        board.event();
        board.reads([2, 5, 1, 0, 1, 0, 0, 0]);
        assert_eq!(board.serve(), 2);
        board.reads([2, 4, 0, 0, 1, 0, 0, 0]);
        assert_eq!(board.timer[2], 0, "the first cycle is over");
        assert_eq!(board.line(), 1);
        assert_eq!(board.write(1, 4), 0);
        board.reads([2, 0, 0, 0, 1, 0, 0, 0]);
        assert_eq!(board.line(), 0);
    }
}

/// A report at C and a refused one mark nothing. Bits are cleared one by one. The line needs the enable
/// bit and any one status bit.
#[test]
fn bits_one_by_one() {
    for mut board in boards() {
        let status = |board: &Board, bits| assert_eq!(board.read(1), bits, "{}", board.name);
        assert_eq!(board.write(0, 1), 0);
        assert_eq!(board.report(0, 5), 0);
        assert_eq!(board.bus.timer_report(&[], 0, 9, &mut board.timer), -1);
        status(&board, 0);
        board.event();
        assert_eq!(board.line(), 0);
        board.event();
        assert_eq!(board.report(2, 11), 0);
        assert_eq!(board.write(1, 4), 0);
        status(&board, 3);
        board.event();
        assert_eq!(board.write(1, 2), 0);
        status(&board, 5);
        assert_eq!(board.serve(), 3);
        status(&board, 4);
        assert_eq!(board.line(), 0);
        assert_eq!(board.write(0, 2), 0);
        assert_eq!(board.line(), 1);
        assert_eq!(board.write(1, 4), 0);
        assert_eq!(board.line(), 0);
    }
}

/// Each frame is served before the next event, also if a serving was refused or nothing was due: the
/// entries are those of the flight, and no frame is missed.
#[test]
fn a_punctual_list() {
    for mut board in boards() {
        assert_eq!(board.serve_with(&[]), 0);
        assert_eq!(board.write(0, 1), 0);
        board.event();
        assert_eq!(board.bus.timer_report(&[], 0, 0, &mut board.timer), -1);
        assert_eq!(board.serve_with(&[]), -12);
        assert_eq!((board.serve(), board.serve()), (3, 0));
        assert_eq!(board.read(9), -29);
        assert_eq!(board.write(0, 3), 0);
        for entries in [2, 3] {
            board.event();
            assert_eq!(board.serve(), entries, "{}", board.name);
        }
        board.event();
        board.reads([3, 1, 1, 0, 0, 0, 0, 0]);
    }
}

/// "0: control, bit 0 run, bit 1 interrupt enable.", "Unnamed bits read 0."
#[test]
fn every_byte_written_to_control() {
    for (board, _, status) in every_board() {
        let mut board = board;
        for value in 0..=255 {
            let mut expected = board.timer.clone();
            expected[CONTROL_AT] = value & 3;
            assert_eq!(board.write(0, value), 0);
            assert_eq!(board.timer, expected, "{}: {value}", board.name);
            assert_eq!(board.read(0), i32::from(value & 3));
            assert_eq!(board.read(1), i32::from(status));
        }
    }
}

/// "writing a 1 clears bit 1 or 2, and bit 0 ignores writes"
#[test]
fn every_byte_written_to_every_status() {
    for (board, _, status) in every_board() {
        for value in 0..=255 {
            let mut timer = board.timer.clone();
            let mut expected = timer.clone();
            for bit in [1, 2] {
                if value >> bit & 1 == 1 {
                    expected[STATUS_AT] &= !(1 << bit);
                }
            }
            assert_eq!(board.bus.timer_write(1, value, &mut timer), 0);
            assert_eq!(timer, expected, "{}: {status} {value}", board.name);
        }
    }
}

/// "Bytes 2 to 7 ignore writes.", "It refuses with 29 an address above 7."
#[test]
fn every_address() {
    for (mut board, control, status) in every_board() {
        board.timer[0] = 7;
        board.timer[1] = 1;
        board.timer[3..7].copy_from_slice(&[1, 2, 3, 4]);
        let registers = [control, status, 7, 1, 4, 6, 0, 0].map(i32::from);
        board.reads(registers);
        let timer = board.timer.clone();
        for address in 2..=255 {
            let answer = if address > 7 { -29 } else { 0 };
            for value in [0, 1, 6, 255] {
                assert_eq!(board.write(address, value), answer, "{address}");
            }
            assert_eq!(board.timer, timer, "{}: {address}", board.name);
            let read = registers.get(usize::from(address)).copied();
            assert_eq!(board.read(address), read.unwrap_or(-29));
        }
    }
}

/// "A timer event with run set makes a frame due, or marks a miss if one is due already; with run clear it
/// does nothing."
#[test]
fn every_event() {
    for (mut board, control, status) in every_board() {
        let mut expected = board.timer.clone();
        expected[STATUS_AT] = match (control % 2, status % 2) {
            (0, _) => status,
            (_, 0) => status + 1,
            _ => status | 4,
        };
        board.event();
        assert_eq!(board.timer, expected, "{}: {control} {status}", board.name);
    }
}

/// "The interrupt line is on exactly if enabled and a status bit is set."
#[test]
fn every_line() {
    for (board, control, status) in every_board() {
        let on = control > 1 && status > 0;
        assert_eq!(board.line(), i32::from(on), "{control} {status}");
    }
}

/// "Serving a due frame is one next-frame call and clears bit 0": the bytes are those that next-frame
/// leaves, whatever else stands in control and status.
#[test]
fn every_serving() {
    for (mut board, control, status) in every_board() {
        board.timer[TIMER_USED..TIMER_LEN].copy_from_slice(&[1, 2, 3, 4, 5, 6]);
        let mut expected = board.timer.clone();
        let mut entries = vec![UNTOUCHED; ENTRIES_LEN + 3];
        let (answer, about) = match status % 2 {
            1 => {
                expected[STATUS_AT] -= 1;
                let state = &mut expected[..STATE_LEN];
                let served = board.bus.next_frame(&board.table, state, &mut entries);
                (served, 3)
            }
            _ => (0, 0),
        };
        assert_eq!(answer, about);
        assert_eq!(board.serve(), answer, "{}: {control} {status}", board.name);
        assert_eq!(board.timer, expected, "{}: {control} {status}", board.name);
        assert_eq!(board.entries, entries, "{}: {control} {status}", board.name);
    }
}

/// "unless that call refuses": 12 and 15 leave all bytes, and the frame is served later. "serving with none
/// due refuses nothing, whatever the table, gives no entries and changes nothing".
#[test]
fn every_refused_serving() {
    for (mut board, control, status) in every_board() {
        let good = board.table.clone();
        let one_row = table(20, 20, "0.0");
        board.timer[0] = 1;
        let timer = board.timer.clone();
        let no_tables = [&[][..], &good[..good.len() - 1], &[2; 40]];
        let refused = |number: i32| if status % 2 == 1 { -number } else { 0 };
        for bytes in no_tables {
            assert_eq!(board.serve_with(bytes), refused(12), "{control} {status}");
            assert_eq!(board.timer, timer, "{}", board.name);
            assert_eq!(board.entries, [UNTOUCHED; ENTRIES_LEN + 3]);
        }
        assert_eq!(board.serve_with(&one_row), refused(15), "{status}");
        assert_eq!(board.timer, timer, "{}", board.name);
        assert_eq!(board.entries, [UNTOUCHED; ENTRIES_LEN + 3]);
        let served = if status % 2 == 1 { 2 } else { 0 };
        assert_eq!(board.serve(), served, "{}", board.name);
    }
}

/// In the first cycle a carried entry is left out, and the frame is served all the same.
#[test]
fn a_frame_without_entries() {
    for mut board in boards() {
        board.table = table(5, 10, "0.0+ / ");
        board.write(0, 1);
        for (served, row) in [(0, 1), (0, 0), (1, 1), (0, 0)] {
            board.event();
            assert_eq!(board.read(1), 1);
            assert_eq!(board.serve(), served, "{}", board.name);
            assert!(board.entries[2..ENTRIES_LEN].iter().all(|byte| *byte == 0));
            board.reads([1, 0, row, 0, 0, 0, 0, 0]);
        }
    }
}

/// "A report above C sets bit 1.": not at C, not for a task that is none, not of bytes that are no request;
/// whatever control and status are.
#[test]
fn every_report() {
    for (board, control, status) in every_board() {
        let mut bad = board.request.clone();
        bad.pop();
        let cases = [
            (&board.request, 0, 5, 0, false),
            (&board.request, 0, 6, 0, true),
            (&board.request, 2, 10, 0, false),
            (&board.request, 2, 11, 0, true),
            (&board.request, 2, 0, 0, false),
            (&board.request, 1, 65_536 + 5, 0, true),
            (&board.request, 1, u32::MAX, 0, true),
            (&board.request, 3, u32::MAX, -16, false),
            (&board.request, 16, u32::MAX, -16, false),
            (&board.request, 255, u32::MAX, -16, false),
            (&bad, 0, u32::MAX, -1, false),
            (&Vec::new(), 0, u32::MAX, -1, false),
        ];
        for (request, task, ticks, answer, over) in cases {
            let mut expected = board.timer.clone();
            let state = &mut expected[..STATE_LEN];
            let said = board.bus.report(request, task, ticks, state);
            assert_eq!(said, answer);
            expected[STATUS_AT] |= 2 * u8::from(over);
            let mut timer = board.timer.clone();
            let said = board.bus.timer_report(request, task, ticks, &mut timer);
            assert_eq!(said, answer, "{}: {task} {ticks}", board.name);
            let about = format!("{}: {control} {status} {task} {ticks}", board.name);
            assert_eq!(timer, expected, "{about}");
        }
    }
}

/// The bit is set again by every report above C, also where the count cannot rise.
#[test]
fn overruns_at_the_highest_count() {
    for mut board in boards() {
        let mut counts = [0; TASKS];
        counts[1] = 65_534;
        put_counts(counts, &mut board.timer);
        for _ in 0..3 {
            assert_eq!(board.report(1, 6), 0);
            board.reads([0, 2, 0, 0, 255, 255, 0, 0]);
            assert_eq!(board.write(1, 2), 0);
            board.reads([0, 0, 0, 0, 255, 255, 0, 0]);
        }
        assert_eq!(board.report(1, 5), 0);
        assert_eq!(board.read(1), 0, "{}", board.name);
    }
}

/// "4 and 5: the smaller of 65,535 and the sum of all task counts, as u16."
#[test]
fn sums_of_counts() {
    let one = |task: usize, count: u16| {
        let mut counts = [0; TASKS];
        counts[task] = count;
        counts
    };
    let two = |first: u16, second: u16| {
        let mut counts = one(0, first);
        counts[15] = second;
        counts
    };
    let cases = [
        (two(1, 255), 256),
        (two(300, 500), 800),
        (two(65_000, 534), 65_534),
        (two(65_000, 535), 65_535),
        (two(65_000, 536), 65_535),
        (two(65_535, 65_535), 65_535),
        (two(32_768, 32_768), 65_535),
        ([4_095; TASKS], 65_520),
        ([4_096; TASKS], 65_535),
        ([65_535; TASKS], 65_535),
    ];
    let single = (0..TASKS).map(|task| (one(task, 4_660), 4_660));
    for (counts, sum) in cases.into_iter().chain(single) {
        for mut board in boards() {
            put_counts(counts, &mut board.timer);
            let (low, high) = (sum % 256, sum / 256);
            board.reads([0, 0, 0, 0, low, high, 0, 0]);
        }
    }
}

/// "2 and 3: the row as u16", also one that no table has.
#[test]
fn every_row() {
    for mut board in boards() {
        for row in [0_u16, 1, 255, 256, 300, 65_535] {
            board.timer[..2].copy_from_slice(&row.to_le_bytes());
            let row = i32::from(row);
            board.reads([0, 0, row % 256, row / 256, 0, 0, 0, 0]);
        }
    }
}

/// So many reports that the sum passes 65,535 while no count does.
#[test]
fn many_reports() {
    for mut board in boards() {
        for number in 1..=70_000_u32 {
            assert_eq!(board.report((number % 3) as u8, 11), 0);
            let sum = number.min(65_535) as i32;
            assert_eq!(board.read(4) + 256 * board.read(5), sum, "{}", board.name);
        }
        let counts = bus_tests::bus::counts(&board.timer);
        assert_eq!(counts[..3], [23_333, 23_334, 23_333], "{}", board.name);
    }
}

/// Every call on the timer and the entries, in its order.
fn answers(board: &Board, timer: &[u8], entries: usize) -> Vec<i32> {
    let bus = board.bus;
    let mut rest = timer.to_vec();
    let mut entries = vec![UNTOUCHED; entries];
    let answers = vec![
        bus.timer_read(0, &rest),
        bus.timer_read(8, &rest),
        bus.timer_write(0, 1, &mut rest),
        bus.timer_write(8, 1, &mut rest),
        bus.timer_event(&mut rest),
        bus.timer_serve(&board.table, &mut rest, &mut entries),
        bus.timer_serve(&[], &mut rest, &mut entries),
        bus.timer_report(&board.request, 0, 9, &mut rest),
        bus.timer_report(&board.request, 9, 9, &mut rest),
        bus.timer_report(&[], 0, 9, &mut rest),
        bus.timer_line(&rest),
    ];
    if answers.iter().all(|answer| *answer == -99) {
        assert_eq!(rest, timer, "{}", board.name);
        assert!(entries.iter().all(|byte| *byte == UNTOUCHED));
    }
    answers
}

/// 99 comes before every other number: for a timer of fewer than 72 bytes, a mark above 1, control above 3
/// and status above 7. Nothing is changed then.
#[test]
fn bytes_that_are_no_timer() {
    for board in boards() {
        let good = answers(&board, &board.timer, ENTRIES_LEN);
        assert!(good.iter().all(|answer| *answer != -99), "{good:?}");
        for length in 0..TIMER_LEN {
            let short = &board.timer[..length];
            assert_eq!(answers(&board, short, ENTRIES_LEN), [-99; 11], "{length}");
            assert_eq!(board.bus.timer_fresh(&mut short.to_vec()), -99, "{length}");
        }
        let exact = &board.timer[..TIMER_LEN];
        assert_eq!(answers(&board, exact, ENTRIES_LEN), good);
        for (place, most) in [(2, 1), (CONTROL_AT, 3), (STATUS_AT, 7)] {
            for value in 0..=255 {
                let mut timer = board.timer.clone();
                timer[place] = value;
                let bad = answers(&board, &timer, ENTRIES_LEN) == [-99; 11];
                assert_eq!(bad, value > most, "{}: {place} {value}", board.name);
            }
        }
    }
}

/// Entries of fewer than 32 bytes are refused with 99, also where no frame is due and before 12.
#[test]
fn short_entries() {
    for (board, _, _) in every_board() {
        for length in 0..ENTRIES_LEN {
            for bytes in [&board.table[..], &[]] {
                let (mut timer, mut entries) = (board.timer.clone(), vec![UNTOUCHED; length]);
                let answer = board.bus.timer_serve(bytes, &mut timer, &mut entries);
                assert_eq!(answer, -99, "{}: {length}", board.name);
                assert_eq!(timer, board.timer);
                assert_eq!(entries, vec![UNTOUCHED; length]);
            }
        }
    }
}

/// Bytes 66 to 71 and those behind a timer are kept by every call but fresh, which sets 66 to 71 to 0.
#[test]
fn free_bytes() {
    for mut board in boards() {
        let free = [9, 8, 7, 6, 5, 4, UNTOUCHED, UNTOUCHED, UNTOUCHED];
        board.timer[TIMER_USED..].copy_from_slice(&free);
        board.write(0, 3);
        board.event();
        board.event();
        board.serve();
        board.report(0, 9);
        board.write(1, 7);
        board.read(9);
        assert_eq!(board.timer[TIMER_USED..], free, "{}", board.name);
        assert_eq!(board.bus.timer_fresh(&mut board.timer), 0);
        assert_eq!(board.timer[TIMER_USED..TIMER_LEN], [0; 6]);
        assert_eq!(board.timer[TIMER_LEN..], [UNTOUCHED; 3]);
    }
}
