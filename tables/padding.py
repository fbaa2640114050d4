"""Which bytes of structures no row has, for `into-crates --check`: any other such byte is a field that is missing.

They are what a C compiler leaves before a field or at the end, fields that the kernel's header calls `pad` or
`reserved`, and of a union the bytes that the part in the rows does not have. neli_show leaves them out.
"""
import form

# Of each structure: its table, and the bytes.
BYTES = {
    ('ipvs', 'ipvs_address'): [(4, 16)],
    ('nflog', 'nfulnl_msg_packet_hdr'): [(3, 4)],
    ('nflog', 'nfulnl_msg_packet_hw'): [(2, 4)],
    ('nflog', 'nfulnl_msg_config_mode'): [(5, 6)],
    ('nfqueue', 'nfqnl_msg_packet_hw'): [(2, 4)],
    ('nfqueue', 'nfqnl_msg_config_cmd'): [(1, 2)],
    ('ovs_flow', 'ovs_key_arp'): [(22, 24)],
    ('ovs_flow', 'ovs_key_ct_tuple_ipv4'): [(13, 16)],
    ('ovs_flow', 'ovs_action_push_mpls'): [(6, 8)],
    ('ovs_flow', 'ovs_key_ct_tuple_ipv6'): [(37, 40)],
    ('proc_event', 'proc_event_none'): [(40, 60)],
    ('proc_event', 'proc_event_fork'): [(52, 60)],
    ('proc_event', 'proc_event_exec'): [(44, 60)],
    ('proc_event', 'proc_event_uid'): [(52, 60)],
    ('proc_event', 'proc_event_gid'): [(52, 60)],
    ('proc_event', 'proc_event_sid'): [(44, 60)],
    ('proc_event', 'proc_event_ptrace'): [(52, 60)],
    ('proc_event', 'proc_event_coredump'): [(52, 60)],
    ('rt_addrlabel', 'ifaddrlblmsg'): [(1, 2)],
    ('rt_bridge', 'br_port_msg'): [(1, 4)],
    ('rt_bridge', 'br_vlan_msg'): [(1, 4)],
    ('rt_bridge', 'br_mdb_entry'): [(26, 28)],
    ('rt_dcb', 'dcbmsg'): [(2, 4)],
    ('rt_dcb', 'ieee_pfc'): [(3, 4), (6, 8)],
    ('rt_link', 'ifinfomsg'): [(1, 2)],
    ('rt_link', 'rtnl_link_ifmap'): [(28, 32)],
    ('rt_link', 'if_stats_msg'): [(1, 4)],
    ('rt_link', 'ifla_vf_guid'): [(4, 8)],
    ('rt_link', 'ifla_vf_vlan_info'): [(14, 16)],
    ('rt_link', 'ifla_port_vsi'): [(5, 8)],
    ('rt_link', 'bridge_vlan_xstats'): [(36, 40)],
    ('rt_neigh', 'ndmsg'): [(1, 4)],
    ('rt_neigh', 'ndtmsg'): [(1, 4)],
    ('rt_prefix', 'prefixmsg'): [(1, 4), (11, 12)],
    ('rt_tunnel', 'tunnel_msg'): [(2, 4)],
    ('sock_diag', 'inet_diag_req_v2'): [(3, 4), (16, 28), (32, 44)],
    ('sock_diag', 'inet_diag_req_v2_ipv6'): [(3, 4)],
    ('sock_diag', 'inet_diag_msg'): [(12, 24), (28, 40)],
    ('sock_diag', 'unix_diag_req'): [(2, 4)],
    ('sock_diag', 'unix_diag_msg'): [(3, 4)],
    ('sock_diag', 'netlink_diag_req'): [(2, 4)],
    ('sock_diag', 'packet_diag_req'): [(2, 4)],
    ('tc', 'tcmsg'): [(1, 4)],
    ('tc', 'tc_stats'): [(36, 40)],
    ('tc', 'tc_cbs_qopt'): [(1, 4)],
    ('tc', 'tc_gred_sopt'): [(10, 12)],
    ('tc', 'tc_fq_qd_stats'): [(148, 152)],
    ('tc', 'gnet_stats_basic'): [(12, 16)],
    ('tc', 'tc_u32_sel'): [(3, 4)],
    ('tc', 'tcamsg'): [(1, 4)],
    ('tc', 'tc_connmark'): [(22, 24)],
    ('tc', 'tc_ife'): [(22, 24)],
    ('tc', 'tc_skbmod'): [(20, 24)],
    ('xfrm', 'xfrm_aevent_id'): [(23, 24)],
    ('xfrm', 'xfrm_encap_tmpl'): [(6, 8)],
    ('xfrm', 'xfrm_user_acquire'): [(21, 24), (85, 88), (141, 144), (260, 264)],
    ('xfrm', 'xfrm_user_expire'): [(45, 48), (77, 80), (217, 224), (225, 232)],
    ('xfrm', 'xfrm_user_kmaddress'): [(32, 36), (38, 40)],
    ('xfrm', 'xfrm_user_mapping'): [(23, 24)],
    ('xfrm', 'xfrm_user_migrate'): [(66, 68)],
    ('xfrm', 'xfrm_user_offload'): [(5, 8)],
    ('xfrm', 'xfrm_user_polexpire'): [(45, 48), (164, 168), (169, 176)],
    ('xfrm', 'xfrm_user_report'): [(1, 4), (49, 52)],
    ('xfrm', 'xfrm_user_tmpl'): [(21, 24), (26, 28), (51, 52)],
    ('xfrm', 'xfrm_userpolicy_id'): [(45, 48), (61, 64)],
    ('xfrm', 'xfrm_userpolicy_info'): [(45, 48), (164, 168)],
    ('xfrm', 'xfrm_userpolicy_type'): [(1, 2), (5, 6)],
    ('xfrm', 'xfrm_usersa_id'): [(23, 24)],
    ('xfrm', 'xfrm_usersa_info'): [(45, 48), (77, 80), (217, 224)],
    ('xfrm', 'xfrm_userspi_info'): [(45, 48), (77, 80), (217, 224)],
}


def holes(section):
    """The ranges of bytes of a structure that no row has."""
    found = []
    taken = {at for row in section.rows for at in range(*row.span)}
    for at in (at for at in range(section.span[0]) if at not in taken):
        if found and found[-1][1] == at:
            found[-1] = (found[-1][0], at + 1)
        else:
            found.append((at, at + 1))
    return found


def of_text(name, text):
    """Each structure of a table, and whether the bytes without a row are those of BYTES."""
    return [(section.name, holes(section) == BYTES.get((name, section.name), []))
            for section in form.read_whole(text) if section.word == 'struct']
