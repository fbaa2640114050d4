//! Names of generic netlink: the families and groups of the controller.

use super::shared::Result;
use super::synchronous::{NlRouter, Verdict};
use crate::consts::genl::{CtrlAttr, CtrlAttrMcastGrp, CtrlCmd};
use crate::consts::nl::{GenlId, NlmF};
use crate::err::RouterError;
use crate::genl::{AttrTypeBuilder, Genlmsghdr, GenlmsghdrBuilder, Nlattr, NlattrBuilder};
use crate::link::Link;
use crate::nl::NlPayload;

type Controller = Genlmsghdr<CtrlCmd, CtrlAttr>;

impl<L: Link + 'static> NlRouter<L> {
    /// The bodies of the controller's replies for a family.
    fn get_genl_family(&self, name: &str) -> Result<Vec<Controller>> {
        let kind = AttrTypeBuilder::default().nla_type(CtrlAttr::FamilyName).build()?;
        let asked = NlattrBuilder::default().nla_type(kind).nla_payload(name).build()?;
        let replies = self.send::<_, _, GenlId, Controller>(GenlId::Ctrl, NlmF::ACK, get_family(Some(asked))?)?;
        replies.filter_map(|it| it.map(|it| it.get_payload().cloned()).transpose()).collect()
    }

    /// The number of a family of generic netlink.
    ///
    /// Refused as [`RouterError::Nlmsgerr`] with `ENOENT` if the kernel has no such family, as [`RouterError::Msg`] if no
    /// reply has its number, and as [`NlRouter::send`] and
    /// [`next_typed`](super::synchronous::NlRouterReceiverHandle::next_typed) are.
    pub fn resolve_genl_family(&self, family: &str) -> Result<u16> {
        let bodies = self.get_genl_family(family)?;
        let id = |body: &Controller| body.attrs().get_attr_handle().get_attr_payload_as(CtrlAttr::FamilyId).ok();
        bodies.iter().find_map(id).ok_or_else(|| RouterError::new(format!("no family {family}")))
    }

    /// The number of a multicast group of a family of generic netlink. Refused as
    /// [`list_nl_mcast_groups`](NlRouter::list_nl_mcast_groups) is, and as [`RouterError::Msg`] if there is no such group.
    pub fn resolve_nl_mcast_group(&self, family: &str, group: &str) -> Result<u32> {
        let found = self.list_nl_mcast_groups(family)?.into_iter().find(|(name, _)| name == group);
        found.map(|(_, id)| id).ok_or_else(|| RouterError::new(format!("no group {group} of family {family}")))
    }

    /// The multicast groups of a family of generic netlink, by name and number. Refused as
    /// [`resolve_genl_family`](NlRouter::resolve_genl_family) is, and as [`RouterError::De`] if they can't be read.
    pub fn list_nl_mcast_groups(&self, family: &str) -> Result<Vec<(String, u32)>> {
        Ok(self.get_genl_family(family)?.iter().map(groups_of).collect::<Result<Vec<_>, _>>()?.concat())
    }

    /// The names of the family and the group of generic netlink for this number of a group.
    ///
    /// Refused as [`RouterError::Msg`] if no group has it, or the list that lacks it is not complete; as
    /// [`RouterError::De`] if a family's name or its groups can't be read; and as [`NlRouter::dump`] and its replies are.
    pub fn lookup_id(&self, id: u32) -> Result<(String, String)> {
        let families = self.dump::<_, _, GenlId, Controller>(GenlId::Ctrl, NlmF::empty(), get_family(None)?, 1)?;
        for body in families.messages.iter().filter_map(|it| it.get_payload()) {
            if let Some((group, _)) = groups_of(body)?.into_iter().find(|(_, number)| *number == id) {
                let attributes = body.attrs().get_attr_handle();
                return Ok((attributes.get_attr_payload_as_with_len(CtrlAttr::FamilyName)?, group));
            }
        }
        let none = format!("no group {id}");
        let why = if families.verdict == Verdict::Complete { &none } else { "the list of families is not complete" };
        Err(families.error.unwrap_or_else(|| RouterError::new(why)))
    }
}

/// The request for the family of this name, or for all.
fn get_family(name: Option<Nlattr<CtrlAttr>>) -> Result<NlPayload<GenlId, Controller>> {
    let body = GenlmsghdrBuilder::default().cmd(CtrlCmd::Getfamily).version(2).attrs(name.into_iter().collect());
    Ok(NlPayload::Payload(body.build()?))
}

/// The groups in a body of the controller.
fn groups_of(body: &Controller) -> Result<Vec<(String, u32)>> {
    let attributes = body.attrs().get_attr_handle();
    let Some(list) = attributes.get_attribute(CtrlAttr::McastGroups) else { return Ok(Vec::new()) };
    let groups = list.get_attr_handle::<u16>()?;
    let names = groups.iter().map(|group| {
        let fields = group.get_attr_handle::<CtrlAttrMcastGrp>()?;
        let name = fields.get_attr_payload_as_with_len(CtrlAttrMcastGrp::Name)?;
        Ok((name, fields.get_attr_payload_as(CtrlAttrMcastGrp::Id)?))
    });
    names.collect()
}
