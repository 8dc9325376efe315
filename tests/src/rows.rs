//! The calls of the library, a row for each.
//!
//! A row has the call's name; its arguments; and the numbers that it may refuse with, in their order.
//! An argument is a number of some width, a buffer that the call may only `read`, or one that it may
//! also `write`. It names the function that draws it for the fuzzer; a buffer that may be written also
//! says which of its bytes may change.
//!
//! All else about a call follows from its row, but what it answers: `reference/calls.rs` has a function
//! of the same name and arguments for each row.

/// Gives every row to a macro.
macro_rules! every_call {
    ($use:ident) => {
        $use! {
            /// The length of the table written to the front of `out`, if so many tries are enough; the
            /// first 8 bytes of `tries` get the count of tries, whatever the answer is but 99.
            plan(
                request: read(Fuzzer::request),
                allowance: u64(Fuzzer::allowance),
                out: write(Fuzzer::room, Change::Answered),
                tries: write(|fuzzer| fuzzer.about(TRIES_LEN), Change::Always(TRIES_LEN)),
            ) refuses [99, 1, 2, 3, 4, 5, 17, 6, 7, 8, 9, 23, 10, 11];

            /// The length of the table written to the front of `out`, however long the search for it is.
            decide(
                request: read(Fuzzer::request),
                out: write(Fuzzer::room, Change::Answered),
            ) refuses [1, 2, 3, 4, 5, 17, 6, 7, 8, 9, 10, 11];

            /// 0, with four counts of phases of the task in the first 8 bytes: how many lead, with so many
            /// tries allowed for each, to a table, to 9, to 10 and to 23.
            phases(
                request: read(Fuzzer::request),
                task: u8(Fuzzer::task_to_shift),
                allowance: u64(Fuzzer::allowance_of_phases),
                counts: write(|fuzzer| fuzzer.about(COUNTS_LEN), Change::First(COUNTS_LEN)),
            ) refuses [99, 1, 2, 3, 4, 5, 17, 6, 7, 8, 16];

            /// 0 if the table describes a plan of the request.
            check(
                request: read(Fuzzer::request),
                table: read(Fuzzer::table),
            ) refuses [1, 2, 3, 4, 5, 17, 6, 7, 8, 12, 13, 14];

            /// The length of the table written to the front of `out`.
            rewrite(
                request: read(Fuzzer::request),
                table: read(Fuzzer::table),
                out: write(Fuzzer::room, Change::Answered),
            ) refuses [1, 2, 3, 4, 5, 17, 6, 7, 8, 12, 13, 14, 11];

            /// 0, with a fresh state in the first 64 bytes.
            fresh(
                state: write(Fuzzer::state, Change::First(STATE_LEN)),
            ) refuses [99];

            /// The number of entries served; `entries` gets 16 places of a task and a job byte, and the
            /// state another row and mark.
            next_frame(
                table: read(Fuzzer::table),
                state: write(Fuzzer::state, Change::First(3)),
                entries: write(|fuzzer| fuzzer.about(ENTRIES_LEN), Change::First(ENTRIES_LEN)),
            ) refuses [99, 12, 15];

            /// 0, with the task's overrun counted in the state.
            report(
                request: read(Fuzzer::request),
                task: u8(Fuzzer::task),
                ticks: u32(Fuzzer::ticks),
                state: write(Fuzzer::state, Change::Part(own_count)),
            ) refuses [99, 1, 2, 3, 4, 5, 17, 6, 16];

            /// The length of the request, of the two joined, written to the front of `out`.
            join(
                first: read(Fuzzer::request),
                second: read(Fuzzer::request),
                out: write(Fuzzer::room, Change::Answered),
            ) refuses [1, 2, 3, 4, 5, 17, 6, 18, 19, 20, 11];

            /// The length of the request, one task of it cut in two, written to the front of `out`.
            cut(
                request: read(Fuzzer::request),
                task: u8(Fuzzer::task_to_cut),
                first: u16(Fuzzer::first_piece),
                out: write(Fuzzer::room, Change::Answered),
            ) refuses [1, 2, 3, 4, 5, 17, 6, 24, 25, 19, 11];

            /// The earliest frame, counted from time 0, with time for the transfer of so many ticks, not
            /// before the one tick and not after the other.
            one_off(
                request: read(Fuzzer::request),
                table: read(Fuzzer::table),
                length: u32(Fuzzer::length),
                from: u32(Fuzzer::from),
                until: u32(Fuzzer::until),
            ) refuses [1, 2, 3, 4, 5, 17, 6, 7, 8, 12, 13, 14, 21, 22];

            /// 0, with the draft of the plan that the table describes in the first 770 bytes.
            draft_start(
                request: read(Fuzzer::request),
                table: read(Fuzzer::table),
                draft: write(|fuzzer| fuzzer.about(DRAFT_LEN), Change::First(DRAFT_LEN)),
            ) refuses [99, 1, 2, 3, 4, 5, 17, 6, 7, 8, 12, 13, 14];

            /// 0, with the job marked as lifted in the draft and its C + g taken off its row.
            draft_lift(
                request: read(Fuzzer::request),
                job: u8(Fuzzer::job_to_lift),
                draft: write(Fuzzer::draft, Change::First(DRAFT_LEN)),
            ) refuses [99, 1, 2, 3, 4, 5, 17, 6, 7, 8, 26];

            /// 0, with the lifted job in the frame named and its C + g in that frame's row.
            draft_put(
                request: read(Fuzzer::request),
                job: u8(Fuzzer::job_to_put),
                frame: u16(Fuzzer::frame_to_put),
                draft: write(Fuzzer::draft, Change::First(DRAFT_LEN)),
            ) refuses [99, 1, 2, 3, 4, 5, 17, 6, 7, 8, 26, 27, 28];

            /// The length of the table, of the draft's frame length and frames, written to the front of
            /// `out`.
            draft_write(
                request: read(Fuzzer::request),
                draft: read(Fuzzer::draft),
                out: write(Fuzzer::room, Change::Answered),
            ) refuses [99, 1, 2, 3, 4, 5, 17, 6, 7, 8, 26, 11];

            /// 0, with a fresh timer in the first 72 bytes.
            timer_fresh(
                timer: write(Fuzzer::timer, Change::First(TIMER_LEN)),
            ) refuses [99];

            /// The byte of the register.
            timer_read(
                address: u8(Fuzzer::address),
                timer: read(Fuzzer::timer),
            ) refuses [99, 29];

            /// 0, with what a write of the byte to the register makes of control or status.
            timer_write(
                address: u8(Fuzzer::address),
                value: u8(Fuzzer::value),
                timer: write(Fuzzer::timer, Change::Part(written_register)),
            ) refuses [99, 29];

            /// 0, with a frame due or a miss marked if run is set.
            timer_event(
                timer: write(Fuzzer::timer, Change::Part(status_of_timer)),
            ) refuses [99];

            /// The number of entries served as by `next_frame` if a frame is due, else 0; then no buffer
            /// is changed.
            timer_serve(
                table: read(Fuzzer::table),
                timer: write(Fuzzer::timer, Change::Parts(|call| vec![0..3, status_of_timer(call)])),
                entries: write(|fuzzer| fuzzer.about(ENTRIES_LEN), Change::First(ENTRIES_LEN)),
            ) refuses [99, 12, 15];

            /// 0, with the task's overrun counted and marked in the timer.
            timer_report(
                request: read(Fuzzer::request),
                task: u8(Fuzzer::task),
                ticks: u32(Fuzzer::ticks),
                timer: write(
                    Fuzzer::timer,
                    Change::Parts(|call| vec![own_count(call), status_of_timer(call)])
                ),
            ) refuses [99, 1, 2, 3, 4, 5, 17, 6, 16];

            /// 1 if the interrupt line is on, else 0.
            timer_line(
                timer: read(Fuzzer::timer),
            ) refuses [99];

            /// 0, with a fresh heater in the first 72 bytes.
            heater_fresh(
                heater: write(Fuzzer::heater, Change::First(HEATER_LEN)),
            ) refuses [99];

            /// The number of entries served; `entries` gets 16 places of a task and a job byte, and the
            /// heater another row and mark, its bits, and whether the board toggled and the command was
            /// answered.
            heater_serve(
                request: read(Fuzzer::request),
                table: read(Fuzzer::table),
                a: u8(Fuzzer::command_task),
                b: u8(Fuzzer::reply_task),
                lost: u8(Fuzzer::lost),
                heater: write(Fuzzer::heater, Change::First(HEATER_USED)),
                entries: write(|fuzzer| fuzzer.about(ENTRIES_LEN), Change::First(ENTRIES_LEN)),
            ) refuses [99, 1, 2, 3, 4, 5, 17, 6, 7, 8, 12, 13, 14, 30, 15];

            /// The number of jobs of a cycle, each with its record in the front of `records`.
            timeline(
                request: read(Fuzzer::request),
                table: read(Fuzzer::table),
                records: write(Fuzzer::records, Change::Places(RECORD_LEN)),
            ) refuses [1, 2, 3, 4, 5, 17, 6, 7, 8, 12, 13, 14, 11];
        }
    };
}

/// The type of an argument.
macro_rules! argument_type {
    (read) => {
        &[u8]
    };
    (write) => {
        &mut [u8]
    };
    ($width:ident) => {
        $width
    };
}

pub(crate) use {argument_type, every_call};
