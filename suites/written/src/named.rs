//! Messages by names and values, and what is refused of them.

use neli_tables::Tables;
use neli_tables_walk::built_in;
use neli_tables_write::{Given, Message, message_from_json};
use serde_json::Value;
use std::alloc::Global;
use std::test::Fail;

/// Recording 1101: `ip route add blackhole 10.3.0.0/16 table 500`.
const BLACKHOLE: &[u8] =
    b"\x02\x10\0\0\0\x03\0\x06\0\0\0\0\x08\0\x01\0\x0a\x03\0\0\x08\0\x0f\0\xf4\x01\0\0";

/// Recording 1156: `ethtool veth0`.
const LINK_MODES: &[u8] = b"\x04\x01\0\0\x10\0\x01\x80\x0a\0\x02\0veth0\0\0\0";

/// Recording 1208: pyroute2 removes an address.
const ADDRESS: &[u8] =
    b"\x02\x18\0\0\x09\0\0\0\x08\0\x01\0\xc0\0\x02\x58\x08\0\x02\0\xc0\0\x02\x58";

/// Recording 1216: pyroute2 asks for the family `ethtool`.
const FAMILY: &[u8] = b"\x03\x01\0\0\x0c\0\x02\0ethtool\0";

/// The blackhole.
fn blackhole(alloc: Global, tables: &Tables<'_>) -> Result<Vec<u8>, Fail> {
    let mut message = Message::named(alloc, tables, "RTM_NEWROUTE")?;
    message.field("rtm_family", 2)?;
    message.field("rtm_dst_len", 16)?;
    message.field("rtm_protocol", "boot")?;
    message.field("rtm_type", "blackhole")?;
    message.attr("RTA_DST", "10.3.0.0")?;
    message.attr("RTA_TABLE", 500)?;
    Ok(message.payload()?)
}

/// The link modes of a link.
fn link_modes(alloc: Global, tables: &Tables<'_>) -> Result<Vec<u8>, Fail> {
    let mut message = Message::named(alloc, tables, "ETHTOOL_MSG_LINKMODES_GET")?;
    message.attr(
        "ETHTOOL_A_LINKMODES_HEADER.ETHTOOL_A_HEADER_DEV_NAME",
        "veth0",
    )?;
    Ok(message.payload()?)
}

#[test]
fn messages_are_those_of_other_programs(rt: HostRuntime) -> Result<(), Fail> {
    let alloc = rt.alloc();
    let tables = built_in(alloc)?;
    assert_eq!(rt; &blackhole(alloc, &tables)?[..], BLACKHOLE);
    assert_eq!(rt; &link_modes(alloc, &tables)?[..], LINK_MODES);
    let mut message = Message::named(alloc, &tables, "RTM_DELADDR")?;
    message.field("ifa_family", 2)?;
    message.field("ifa_prefixlen", 24)?;
    message.field("ifa_index", 9)?;
    message.attr("IFA_ADDRESS", "192.0.2.88")?;
    message.attr("IFA_LOCAL", "192.0.2.88")?;
    assert_eq!(rt; &message.payload()?[..], ADDRESS);
    let mut message = Message::named(alloc, &tables, "CTRL_CMD_GETFAMILY")?;
    message.attr("CTRL_ATTR_FAMILY_NAME", "ethtool")?;
    assert_eq!(rt; &message.payload()?[..], FAMILY);
    Ok(())
}

/// The example of docs/WRITING.md: `struct ifinfomsg`, the MTU, and two nests, by linux/if_link.h.
#[test]
fn the_example_of_the_page(rt: HostRuntime) -> Result<(), Fail> {
    let alloc = rt.alloc();
    let tables = built_in(alloc)?;
    let mut message = Message::named(alloc, &tables, "RTM_NEWLINK")?;
    message.field("ifi_index", 3)?;
    message.field("ifi_flags", "up")?;
    message.attr("IFLA_MTU", 1500)?;
    message.attr("IFLA_LINKINFO.IFLA_INFO_KIND", "vlan")?;
    message.attr("IFLA_LINKINFO.IFLA_INFO_DATA.IFLA_VLAN_ID", 100)?;
    let payload = message.payload()?;
    assert_eq!(rt;
        &payload[..],
        &b"\0\0\0\0\x03\0\0\0\x01\0\0\0\0\0\0\0\x08\0\x04\0\xdc\x05\0\0\
        \x1c\0\x12\x80\x09\0\x01\0vlan\0\0\0\0\x0c\0\x02\x80\x06\0\x01\0\x64\0\0\0"[..]
    );
    Ok(())
}

/// Why this value of an attribute at a path of a link is refused, and what is printed of it.
fn refused<'v>(alloc: Global, path: &str, value: impl Into<Given<'v>>) -> Result<String, Fail> {
    let given = value.into();
    let tables = built_in(alloc)?;
    let mut message = Message::named(alloc, &tables, "RTM_NEWLINK")?;
    message.attr("IFLA_MTU", 1500)?;
    let before = message.payload()?;
    let text = match message.attr(path, given) {
        Ok(()) => String::from_str(alloc, "not refused")?,
        Err(refusal) => format!(in alloc; "{refusal}")?,
    };
    if message.payload()? != before {
        return Ok(String::from_str(alloc, "the message has changed")?);
    }
    Ok(text)
}

#[test]
fn refusals_have_paths_and_reasons(rt: HostRuntime) -> Result<(), Fail> {
    let alloc = rt.alloc();
    assert_eq!(rt;
        refused(alloc, "IFLA_MTUU", 1)?.as_str(),
        "IFLA_MTUU: no such name, the nearest is IFLA_MTU"
    );
    assert_eq!(rt;
        refused(alloc, "IFLA_MTU.IFLA_X", 1)?.as_str(),
        "IFLA_MTU.IFLA_X: no nest"
    );
    assert_eq!(rt;
        refused(alloc, "IFLA_LINKINFO", 1)?.as_str(),
        "IFLA_LINKINFO: a nest"
    );
    assert_eq!(rt;
        refused(alloc, "IFLA_LINKINFO.IFLA_INFO_DATA.IFLA_VLAN_ID", 1)?.as_str(),
        "IFLA_LINKINFO.IFLA_INFO_DATA.IFLA_VLAN_ID: nothing before it says what it is"
    );
    assert_eq!(rt;
        refused(alloc, "IFLA_MTU", 4_294_967_296u64)?.as_str(),
        "IFLA_MTU: out of range"
    );
    assert_eq!(rt;
        refused(alloc, "IFLA_MTU", -1)?.as_str(),
        "IFLA_MTU: out of range"
    );
    assert_eq!(rt;
        refused(alloc, "IFLA_MTU", "many")?.as_str(),
        "IFLA_MTU: a value of another sort"
    );
    assert_eq!(rt;
        refused(alloc, "IFLA_IFNAME", "a\0b")?.as_str(),
        "IFLA_IFNAME: a zero in the text"
    );
    assert_eq!(rt;
        refused(alloc, "IFLA_IFNAME", 1)?.as_str(),
        "IFLA_IFNAME: a value of another sort"
    );
    assert_eq!(rt;
        refused(alloc, "IFLA_ADDRESS", "02:42:0")?.as_str(),
        "IFLA_ADDRESS: no address"
    );
    assert_eq!(rt;
        refused(alloc, "IFLA_OPERSTATE", "sideways")?.as_str(),
        "IFLA_OPERSTATE: no such value"
    );
    let long = vec![in alloc; 0u8; 65532]?;
    assert_eq!(rt;
        refused(alloc, "IFLA_ADDRESS", &long[..])?.as_str(),
        "IFLA_ADDRESS: longer than 65531 bytes"
    );
    Ok(())
}

/// The payload of the message that a text of JSON is, or why there is none.
fn from_text(alloc: Global, protocol: u16, text: &str) -> Result<Result<Vec<u8>, String>, Fail> {
    let mut tables = built_in(alloc)?;
    tables.learn(21, b"ethtool")?;
    let value = Value::from_str(alloc, text)?;
    Ok(match message_from_json(alloc, &tables, protocol, &value) {
        Ok(written) => Ok(written.payload),
        Err(refusal) => Err(format!(in alloc; "{refusal}")?),
    })
}

#[test]
fn objects_of_names(rt: HostRuntime) -> Result<(), Fail> {
    let alloc = rt.alloc();
    // What may mean several things comes last: of an address the family says what it is.
    let mut turned = Vec::from_slice(alloc, &BLACKHOLE[..12])?;
    turned.extend_from_slice(&BLACKHOLE[20..])?;
    turned.extend_from_slice(&BLACKHOLE[12..20])?;
    let rows: [(u16, &str, &[u8]); 4] = [
        (
            0,
            "{\"name\":\"RTM_NEWROUTE\",\"attributes\":{\"rtm_family\":2,\"rtm_dst_len\":16,\"rtm_protocol\":\"boot\",\
             \"rtm_type\":\"blackhole\",\"RTA_DST\":\"10.3.0.0\",\"RTA_TABLE\":500}}",
            &turned,
        ),
        (
            16,
            "{\"name\":\"ETHTOOL_MSG_LINKMODES_GET\",\
             \"attributes\":{\"ETHTOOL_A_LINKMODES_HEADER\":{\"ETHTOOL_A_HEADER_DEV_NAME\":\"veth0\"}}}",
            LINK_MODES,
        ),
        (
            0,
            "{\"name\":\"RTM_DELADDR\",\"fields\":{\"ifa_family\":2,\"ifa_prefixlen\":24,\"ifa_index\":9},\
             \"attributes\":{\"IFA_ADDRESS\":\"192.0.2.88\",\"IFA_LOCAL\":\"192.0.2.88\",\"IFA_LABEL\":null}}",
            ADDRESS,
        ),
        (
            16,
            "{\"name\":\"CTRL_CMD_GETFAMILY\",\"attributes\":{\"2\":\"ethtool\"}}",
            FAMILY,
        ),
    ];
    for (protocol, text, payload) in rows {
        match from_text(alloc, protocol, text)? {
            Ok(bytes) => assert_eq!(rt; &bytes[..], payload),
            Err(refusal) => assert_eq!(rt; refusal.as_str(), text),
        }
    }
    Ok(())
}

#[test]
fn refused_objects_of_names(rt: HostRuntime) -> Result<(), Fail> {
    let alloc = rt.alloc();
    let rows: [(u16, &str, &str); 16] = [
        (0, "[]", "name: no such name"),
        (
            0,
            "{\"name\":\"RTM_NEWLINK\",\"attribute\":{\"IFLA_MTU\":1}}",
            "attribute: no such name",
        ),
        (
            0,
            "{\"name\":\"RTM_NEWLINK\",\"attributes\":[{\"name\":\"IFLA_IFNAME\",\"valu\":\"x\"}]}",
            "IFLA_IFNAME: no such value",
        ),
        (0, "{\"name\":\"RTM_NEWLUNK\"}", "RTM_NEWLUNK: no such name"),
        (
            16,
            "{\"name\":\"RTM_NEWLINK\"}",
            "RTM_NEWLINK: no such name",
        ),
        (
            16,
            "{\"name\":\"NL80211_CMD_GET_WIPHY\"}",
            "NL80211_CMD_GET_WIPHY: the number of its family is not known",
        ),
        (
            0,
            "{\"name\":\"RTM_NEWLINK\",\"flags\":[\"NLM_F_ACQ\"]}",
            "flags: no such value",
        ),
        (
            0,
            "{\"name\":\"RTM_NEWLINK\",\"seq\":4294967296}",
            "seq: out of range",
        ),
        (
            0,
            "{\"name\":\"RTM_NEWLINK\",\"fields\":{\"ifi_indx\":1}}",
            "ifi_indx: no such name, the nearest is ifi_index",
        ),
        (
            0,
            "{\"name\":\"RTM_NEWLINK\",\"attributes\":{\"IFLA_MTUU\":1}}",
            "IFLA_MTUU: no such name, the nearest is IFLA_MTU",
        ),
        (
            0,
            "{\"name\":\"RTM_NEWLINK\",\"attributes\":{\"IFLA_MTU\":\"x\"}}",
            "IFLA_MTU: a value of another sort",
        ),
        (
            0,
            "{\"name\":\"RTM_NEWLINK\",\"attributes\":{\"IFLA_LINKINFO\":1}}",
            "IFLA_LINKINFO: a value of another sort",
        ),
        (
            0,
            "{\"name\":\"RTM_NEWLINK\",\"attributes\":{\"IFLA_LINKINFO\":{\"IFLA_INFO_KIND\":\"vlan\",\
             \"IFLA_INFO_DATA\":{\"IFLA_VLAN_ID\":65536}}}}",
            "IFLA_LINKINFO.IFLA_INFO_DATA.IFLA_VLAN_ID: out of range",
        ),
        (
            0,
            "{\"name\":\"RTM_NEWLINK\",\"attributes\":{\"IFLA_LINKINFO\":{\"IFLA_INFO_DATA\":{\"IFLA_VLAN_ID\":1}}}}",
            "IFLA_LINKINFO.IFLA_INFO_DATA: nothing before it says what it is",
        ),
        (
            0,
            "{\"name\":\"RTM_NEWLINK\",\"attributes\":[{\"name\":\"IFLA_LINKINFO\",\
             \"attributes\":[{\"name\":\"IFLA_INFO_KIND\",\"value\":7}]}]}",
            "IFLA_LINKINFO.IFLA_INFO_KIND: a value of another sort",
        ),
        (
            0,
            "{\"name\":\"RTM_NEWLINK\",\"attributes\":{\"999\":1}}",
            "999: a value of another sort",
        ),
    ];
    for (protocol, text, wanted) in rows {
        match from_text(alloc, protocol, text)? {
            Ok(_) => assert_eq!(rt; text, wanted),
            Err(refusal) => assert_eq!(rt; refusal.as_str(), wanted),
        }
    }
    Ok(())
}
