//! A program: which commands of a family of generic netlink take which attributes, by the kernel's policies.

use neli::consts::linux::{
    CtrlAttr, CtrlAttrPolicy, CtrlCmd, NetlinkAttributeType, NlPolicyTypeAttr,
};
use neli::consts::nl::{GenlId, NlmF};
use neli::genl::{Genlmsghdr, GenlmsghdrBuilder};
use neli::lent::LentNlattrs;
use neli::router::synchronous::NlRouter;
use neli::short::{Client, LentLookup, Lookup, Put};
use neli::types::{Buffer, GenlBuffer};
use std::alloc::Global;
use std::test::Fail;

/// Appends a line for each command: the policies of its two kinds of requests.
fn commands(alloc: Global, lines: &mut Vec<String>, bytes: &[u8]) -> Result<(), Fail> {
    for command in LentNlattrs::<u16>::new(bytes) {
        let command = command?;
        let by = LentNlattrs::<CtrlAttrPolicy>::new(command.attr_payload());
        let one: Option<u32> = by.get(CtrlAttrPolicy::Do)?;
        let all: Option<u32> = by.get(CtrlAttrPolicy::Dump)?;
        let number = command.attr_type().nla_type();
        lines.push(format!(in alloc; "command {number}: do {one:?}, dump {all:?}")?)?;
    }
    Ok(())
}

/// Appends a line for each attribute of a policy: its kind, and the greatest value.
fn attributes(alloc: Global, lines: &mut Vec<String>, bytes: &[u8]) -> Result<(), Fail> {
    for policy in LentNlattrs::<u16>::new(bytes) {
        let policy = policy?;
        let number = policy.attr_type().nla_type();
        for attr in LentNlattrs::<u16>::new(policy.attr_payload()) {
            let attr = attr?;
            let says = LentNlattrs::<NlPolicyTypeAttr>::new(attr.attr_payload());
            let kind: Option<NetlinkAttributeType> = says.get(NlPolicyTypeAttr::Type)?;
            let most: Option<u64> = says.get(NlPolicyTypeAttr::MaxValueU)?;
            let takes = attr.attr_type().nla_type();
            lines.push(format!(in alloc; "policy {number}: {takes} {kind:?} {most:?}")?)?;
        }
    }
    Ok(())
}

/// The lines of the family with this name, of the kernel's answer in these datagrams.
pub fn list(
    alloc: Global,
    router: &mut NlRouter,
    family: &str,
    datagrams: &[Vec<u8>],
) -> Result<Vec<String>, Fail> {
    let mut name: GenlBuffer<CtrlAttr, Buffer> = GenlBuffer::new(alloc);
    name.put(alloc, CtrlAttr::FamilyName, family)?;
    let body: Genlmsghdr<CtrlCmd, CtrlAttr> = GenlmsghdrBuilder::default()
        .cmd(CtrlCmd::Getpolicy)
        .version(1)
        .attrs(name)
        .build(alloc)?;
    // Your link sends `request.bytes`, and the datagrams come back.
    let mut request = router.request(alloc, GenlId::Ctrl, NlmF::DUMP, body)?;
    for datagram in datagrams {
        router.receive_for(alloc, datagram, &[])?;
    }
    let mut lines = Vec::new(alloc);
    for item in router.read_dump(alloc, &mut request.handle)?.items {
        if let Some(body) = item?.get_payload() {
            if let Some(bytes) = body.attrs().payload_of(CtrlAttr::OpPolicy) {
                commands(alloc, &mut lines, bytes)?;
            }
            if let Some(bytes) = body.attrs().payload_of(CtrlAttr::Policy) {
                attributes(alloc, &mut lines, bytes)?;
            }
        }
    }
    Ok(lines)
}
