//! Requests that JSON asks for: what `ip` says of them, and why the kernel refuses.

use super::space::alone;
use neli::consts::socket::NlFamily;
use neli::err::RouterError;
use neli::router::synchronous::{NlRouter, NlRouterReceiverHandle};
use neli::schema::{Schema, Validation, WriteError};
use neli::types::Buffer;
use neli::utils::Groups;
use std::process::Command;

/// Flags of a request that makes something new.
const NEW: &str = r#""flags": ["NLM_F_REQUEST", "NLM_F_ACK", "NLM_F_CREATE", "NLM_F_EXCL"]"#;

/// Sends what JSON asks for, and returns the replies as JSON, or the kernel's refusal in a line.
fn done(schema: &Schema, family: NlFamily, json: &str) -> Result<Vec<String>, String> {
    let (router, _) = NlRouter::connect(family, None, Groups::empty()).expect("a router connects");
    let written = schema.write_json(family, json).expect("it is written");
    let (nl_type, flags, body) = written.request();
    let replies: NlRouterReceiverHandle<u16, Buffer> = router.send(nl_type, flags, body).expect("it is sent");
    let mut found = Vec::new();
    for reply in replies {
        match reply {
            Ok(message) if message.get_payload().is_some() => {
                found.push(schema.write(family, &message).expect("a message").message().to_json().expect("JSON"));
            }
            Ok(_) => {}
            Err(RouterError::Nlmsgerr(answer)) => return Err(written.message().diagnosis(&answer).to_string()),
            Err(error) => panic!("{error}"),
        }
    }
    Ok(found)
}

/// What `ip` prints as JSON; none where there is no `ip`.
fn by_ip(words: &[&str]) -> Option<String> {
    let said = Command::new("ip").args(["-d", "-j"]).args(words).output().ok()?;
    String::from_utf8(said.stdout).ok()
}

#[test]
fn what_json_asks_for_is_made() {
    alone(|| {
        let schema = Schema::built_in().expect("tables");
        let asked = format!(
            r#"{{"name": "RTM_NEWLINK", {NEW}, "attributes": {{"IFLA_IFNAME": "br", "IFLA_MTU": 1400,
                "IFLA_LINKINFO": {{"IFLA_INFO_KIND": "bridge", "IFLA_INFO_DATA": {{"IFLA_BR_PRIORITY": 5}}}}}}}}"#
        );
        assert_eq!(done(&schema, NlFamily::Route, &asked), Ok(Vec::new()));
        let Some(said) = by_ip(&["link", "show", "br"]) else { return println!("not run: there is no ip") };
        for wanted in ["\"mtu\":1400", "\"info_kind\":\"bridge\"", "\"priority\":5"] {
            assert!(said.contains(wanted), "{wanted}: {said}");
        }
        let get = r#"{"name": "RTM_GETLINK", "flags": 5, "attributes": {"IFLA_IFNAME": "br"}}"#;
        let found = done(&schema, NlFamily::Route, get).expect("a link");
        assert!(found.len() == 1 && found[0].contains(r#""name":"IFLA_MTU","value":1400"#), "{found:?}");
    });
}

#[test]
fn a_refusal_is_diagnosed() {
    alone(|| {
        let schema = Schema::built_in().expect("tables");
        let long = format!(r#"{{"name": "RTM_NEWLINK", {NEW}, "attributes": {{"IFLA_IFNAME": "a_name_of_16_byte"}}}}"#);
        let line = done(&schema, NlFamily::Route, &long).expect_err("a name has 15 bytes at most");
        let text = "ERANGE: Numerical result out of range: Attribute failed policy validation: IFLA_IFNAME";
        assert!(line.starts_with(text) && line.contains("a_name_of_16_byte"), "{line}");
        let absent = r#"{"name": "RTM_GETLINK", "flags": 5, "attributes": {"ifi_index": 4711}}"#;
        let line = done(&schema, NlFamily::Route, absent).expect_err("no link has this index");
        assert!(line.starts_with("ENODEV: No such device"), "{line}");
    });
}

/// Of generic netlink, where the kernel says from Linux 6.1 on which attribute is missing.
#[test]
fn a_missing_attribute_is_named() {
    alone(|| {
        let schema = Schema::built_in().expect("tables");
        let (router, _) = NlRouter::connect(NlFamily::Generic, None, Groups::empty()).expect("a router connects");
        let Ok(id) = router.resolve_genl_family("ethtool") else { return println!("not run: there is no ethtool") };
        let asked = r#"{"name": "ETHTOOL_MSG_LINKINFO_GET", "flags": 5, "attributes": {}}"#;
        let why = "ETHTOOL_MSG_LINKINFO_GET: the number of its family is not known".to_owned();
        assert_eq!(schema.write_json(NlFamily::Generic, asked).map(|_| ()), Err(WriteError::Unwritten(why)));
        schema.learn(id, "ethtool").expect("it is learnt");
        let line = done(&schema, NlFamily::Generic, asked).expect_err("a header is missing");
        assert!(line.starts_with("EINVAL: Invalid argument"), "{line}");
        if !line.ends_with(": missing ETHTOOL_A_LINKINFO_HEADER") {
            println!("not run: this kernel does not say which attribute is missing: {line}");
        }
    });
}

#[test]
fn a_parser_is_chosen() {
    let schema = Schema::built_in().expect("tables");
    let odd = r#"{"name": "RTM_NEWLINK", "attributes": {"999": {"bytes": "00"}}}"#;
    let written = schema.write_json(NlFamily::Route, odd).expect("it is written");
    assert_eq!(written.message().check_as(Validation::Liberal), Ok(()));
    let violation = written.message().check_as(Validation::Strict).expect_err("a link has no such attribute");
    assert!(violation.to_string().starts_with("999: "), "{violation}");
}
