//! The enums that a program adds, `example_enum`, through the library's traits.

use super::support::assert_is_at;
use example_enum::{WirelessAttribute, WirelessCommand};
use neli::consts::genl::{Cmd, NlAttrType};

#[test]
fn commands_and_attributes(rt: HostRuntime) {
    let commands = [
        (WirelessCommand::GetInterface, 5),
        (WirelessCommand::NewInterface, 7),
        (WirelessCommand::GetScan, 32),
        (WirelessCommand::TriggerScan, 33),
        (WirelessCommand::UnrecognizedConst(34), 34),
    ];
    for (command, number) in commands {
        assert_is_at(&rt, command, command.to_number(), number);
        assert_is_at(&rt, number, WirelessCommand::from_number(number), command);
    }
    let attributes = [
        (WirelessAttribute::Ifindex, 3),
        (WirelessAttribute::Ifname, 4),
        (WirelessAttribute::Mac, 6),
        (WirelessAttribute::UnrecognizedConst(5), 5),
    ];
    for (kind, number) in attributes {
        assert_is_at(&rt, kind, kind.to_number(), number);
        assert_is_at(&rt, number, WirelessAttribute::from_number(number), kind);
    }
}
