//! The meanings of a number: the first table that has a name for it.

use super::support::assert_is_at;
use neli::consts::genl::{CtrlAttr, CtrlAttrMcastGrp, Index, NlAttrTypeWrapper};
use neli::consts::netfilter::{LogCfgCmdWrapper, LogCmd, NetfilterMsg, NfLogAttr, NfLogCfg};
use neli::consts::nl::{GenlId, NlTypeWrapper, Nlmsg, NlmsgerrAttr};
use neli::consts::rtnl::{
    Frattr, Ifa, Ifla, IflaInfo, IflaVlan, IflaVlanQos, Nda, Rta, RtaTypeWrapper, Rtm, Tca,
};

#[test]
fn types_of_messages_and_commands(rt: HostRuntime) {
    let rows: [(u16, NlTypeWrapper); 8] = [
        (3, Nlmsg::Done.into()),
        (5, NlTypeWrapper::UnrecognizedConst(5)),
        (16, GenlId::Ctrl.into()),
        (17, GenlId::VfsDquot.into()),
        (19, Rtm::Setlink.into()),
        (1024, NetfilterMsg::LogPacket.into()),
        (1025, NlTypeWrapper::NetfilterMsg(NetfilterMsg::LogConfig)),
        (1026, NlTypeWrapper::UnrecognizedConst(1026)),
    ];
    for (number, wanted) in rows {
        assert_is_at(&rt, number, NlTypeWrapper::from(number), wanted);
        assert_is_at(&rt, wanted, u16::from(wanted), number);
    }
    let commands: [(u8, LogCfgCmdWrapper); 3] = [
        (1, LogCfgCmdWrapper::LogCmd(LogCmd::Bind)),
        (4, LogCmd::PfUnbind.into()),
        (5, LogCfgCmdWrapper::UnrecognizedConst(5)),
    ];
    for (number, wanted) in commands {
        assert_is_at(&rt, number, LogCfgCmdWrapper::from(number), wanted);
        assert_is_at(&rt, wanted, u8::from(&wanted), number);
    }
}

#[test]
fn types_of_attributes(rt: HostRuntime) {
    let rows: [(u16, NlAttrTypeWrapper); 6] = [
        (0, CtrlAttr::Unspec.into()),
        (7, CtrlAttr::McastGroups.into()),
        (8, NfLogAttr::Hwaddr.into()),
        (19, NlAttrTypeWrapper::NfLogAttr(NfLogAttr::CtInfo)),
        (20, Index::from(20).into()),
        (65535, NlAttrTypeWrapper::Index(Index::from(65535))),
    ];
    for (number, wanted) in rows {
        assert_is_at(&rt, number, NlAttrTypeWrapper::from(number), wanted);
        assert_is_at(&rt, wanted, u16::from(wanted), number);
    }
}

// An earlier table has a name for the number of each of these, so they are made by hand alone.
#[test]
fn attributes_that_are_never_read(rt: HostRuntime) {
    let rows: [(NlAttrTypeWrapper, u16); 5] = [
        (CtrlAttrMcastGrp::Name.into(), 1),
        (NfLogAttr::Mark.into(), 2),
        (NfLogCfg::Flags.into(), 6),
        (NlmsgerrAttr::Offset.into(), 2),
        (NlAttrTypeWrapper::UnrecognizedConst(30), 30),
    ];
    for (value, number) in rows {
        assert_is_at(&rt, value, u16::from(&value), number);
        let is_read = NlAttrTypeWrapper::from(number) == value;
        assert_is_at(&rt, number, is_read, false);
    }
}

#[test]
fn types_in_routing_messages(rt: HostRuntime) {
    let rows: [(RtaTypeWrapper, u16, bool); 11] = [
        (Ifla::Master.into(), 10, true),
        (Ifla::Priority.into(), 9, true),
        (Ifa::Flags.into(), 8, false),
        (Rta::Gateway.into(), 5, false),
        (Tca::Kind.into(), 1, false),
        (Nda::Lladdr.into(), 2, false),
        (IflaInfo::Data.into(), 2, false),
        (IflaVlan::Id.into(), 1, false),
        (IflaVlanQos::Mapping.into(), 1, false),
        (Frattr::Max.into(), 31, false),
        (RtaTypeWrapper::UnrecognizedConst(56), 56, true),
    ];
    for (value, number, is_read) in rows {
        assert_is_at(&rt, value, u16::from(&value), number);
        assert_is_at(&rt, number, RtaTypeWrapper::from(number) == value, is_read);
    }
}
