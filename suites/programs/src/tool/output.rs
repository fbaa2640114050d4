//! Outputs that fail.

use super::support::{assert_is_at, decoded};
use super::writers::Narrow;
use neli_program::listing::{list, out_of_memory};
use neli_program::status::Status;

#[test]
fn a_listing_that_is_not_written_is_no_output(rt: HostRuntime) {
    let alloc = rt.alloc();
    let line = "type 1024 flags 0x0000 number 0 port 0 payload 1\n".len();
    let fault = "fault: short\n".len();
    let rows = [
        ("no room", 0, true, Status::NoOutput),
        ("room for a byte", 1, true, Status::NoOutput),
        ("room for the lines", line, true, Status::NoOutput),
        (
            "room for a part of the fault",
            line + 1,
            true,
            Status::NoOutput,
        ),
        (
            "room for all but a byte",
            line + fault - 1,
            true,
            Status::NoOutput,
        ),
        ("a flush that fails", line + fault, false, Status::NoOutput),
        ("room for all", line + fault, true, Status::Fault),
    ];
    // A message of type 1024 with the payload `61` and three padding bytes, and then one byte.
    let datagram = decoded(&rt, alloc, "1100000000040000000000000000000061ffffff00");
    for (row, room, flushes, want) in rows {
        let mut output = Narrow { room, flushes };
        let status = list(alloc, &mut datagram.as_slice(), &mut output);
        assert_is_at(&rt, row, (status, output.room), (want, 0));
    }
}

#[test]
fn out_of_memory_that_is_not_written_is_no_output(rt: HostRuntime) {
    let whole = "fault: memory\n".len();
    let rows = [
        ("no room", 0, true, Status::NoOutput),
        ("room for all but a byte", whole - 1, true, Status::NoOutput),
        ("a flush that fails", whole, false, Status::NoOutput),
        ("room for all", whole, true, Status::Memory),
    ];
    for (row, room, flushes, want) in rows {
        let mut output = Narrow { room, flushes };
        let status = out_of_memory(&mut output);
        assert_is_at(&rt, row, (status, output.room), (want, 0));
    }
}
