//! The type field of generic attributes: `NLA_F_NESTED` is 0x8000 and `NLA_F_NET_BYTEORDER` 0x4000 in the
//! kernel's linux/netlink.h.

use super::support::{assert_is, assert_is_at};
use neli::consts::Constant;
use neli::consts::genl::CtrlAttr;
use neli::genl::{AttrType, AttrTypeBuilder};

// The flags of the type field, `NLA_F_NESTED` and `NLA_F_NET_BYTEORDER` (the kernel's linux/netlink.h).
#[test]
fn type_fields(rt: HostRuntime) {
    let rows: [(u16, bool, bool, CtrlAttr); 5] = [
        (0x0002, false, false, CtrlAttr::FamilyName),
        (0x8002, true, false, CtrlAttr::FamilyName),
        (0x4002, false, true, CtrlAttr::FamilyName),
        (0xc007, true, true, CtrlAttr::McastGroups),
        (0x3fff, false, false, CtrlAttr::UnrecognizedConst(0x3fff)),
    ];
    for (number, nested, network_order, kind) in rows {
        let field = AttrType::<CtrlAttr>::from(number);
        let parts = (
            *field.nla_nested(),
            *field.nla_network_order(),
            *field.nla_type(),
        );
        assert_is_at(&rt, number, parts, (nested, network_order, kind));
        assert_is(&rt, (u16::from(&field), u16::from(field)), (number, number));
        let built = AttrTypeBuilder::default()
            .nla_nested(nested)
            .nla_network_order(network_order)
            .nla_type(kind)
            .build()
            .expect(&rt, "all fields");
        assert_is_at(&rt, number, built, field);
    }
}

// 0x8000 is `NLA_F_NESTED`, 0x4000 `NLA_F_NET_BYTEORDER`.
#[test]
fn type_fields_on_the_wire(rt: HostRuntime) {
    let field = AttrType::<CtrlAttr>::from_wire(0xc002);
    assert_is(
        &rt,
        (*field.nla_nested(), *field.nla_network_order()),
        (true, true),
    );
    assert_is(&rt, *field.nla_type(), CtrlAttr::FamilyName);
    assert_is(&rt, field.to_wire(), 0xc002);
    let bare = AttrTypeBuilder::default()
        .nla_type(CtrlAttr::Version)
        .build()
        .expect(&rt, "all fields");
    assert_is(&rt, u16::from(bare), 3);
    assert!(rt; bare != AttrType::from(0x8003));
}

// 0x8000 is `NLA_F_NESTED`, 0x4000 `NLA_F_NET_BYTEORDER`.
#[test]
fn type_fields_that_are_changed(rt: HostRuntime) {
    let nested = AttrType::<CtrlAttr>::from(0x4002).as_nested();
    assert_is(&rt, u16::from(nested), 0xc002);
    let typed = AttrType::<u16>::from(0x4002).to_typed::<CtrlAttr>();
    assert_is(&rt, *typed.nla_type(), CtrlAttr::FamilyName);
    assert_is(&rt, u16::from(typed), 0x4002);
}
