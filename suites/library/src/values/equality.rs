//! Values are equal where they are the same variant, whatever their numbers.

use super::support::{assert_is, assert_is_at};
use neli::consts::connector::CnMsgVal;
use neli::consts::rtnl::{Arphrd, Frattr};

// The older name is never read.
#[test]
fn names_of_one_number(rt: HostRuntime) {
    let equal = (
        Frattr::Ifname == Frattr::Iifname,
        Arphrd::Atm == Arphrd::Appletlk,
        CnMsgVal::Vss == CnMsgVal::Proc,
        Frattr::UnrecognizedConst(1) == Frattr::Dst,
    );
    assert_is(&rt, equal, (false, false, false, false));
    for number in 0..=u16::MAX {
        let is_older = Frattr::from(number) == Frattr::Ifname;
        assert_is_at(&rt, number, is_older, false);
    }
}
