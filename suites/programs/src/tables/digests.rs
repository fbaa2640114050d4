//! Of each text in `tables/`: its name, its MD5, and how many lines it has. Written by `tables/into-crates`.

/// Routing and traffic control.
pub const ROUTING: [(&str, &str, usize); 14] = [
    ("rt_addr", "77604a04db6611066a92ff701cdcf707", 59),
    ("rt_addrlabel", "ba896088c8079a09a67141b81346b07a", 13),
    ("rt_bridge", "d68d572357df5e03a754da515e4c23d3", 141),
    ("rt_dcb", "6daeb9d83c57776098c52c095590f934", 237),
    ("rt_link", "84cb344c04153276c423bedbe0af1dae", 1387),
    ("rt_neigh", "e6ca6cfbfa27d6c436b2c06e5effa713", 152),
    ("rt_netconf", "4fceeb79f63334260056eb60d482ba9c", 19),
    ("rt_nsid", "02a6a064d1f90dd691bee93d1650d4d3", 13),
    ("rt_prefix", "1502f2e2d0616e03f197be491e86b328", 18),
    ("rt_report", "d130d451eb4d085c621fdc30470a24ce", 28),
    ("rt_route", "18ce7ed92bf295abcf40c98088fa6222", 398),
    ("rt_rule", "26124b0b87ab0260d35cf2a1a0c7fc7d", 100),
    ("rt_tunnel", "cd6cd3b40829131e224a67d559994608", 29),
    ("tc", "e05ff2df2c52b938decb85b7d2c7c493", 1408),
];

/// Families of generic netlink.
pub const GENERIC: [(&str, &str, usize); 21] = [
    ("devlink", "fd950c266ff164352e47ab7f6a9f4071", 365),
    ("dpll", "cdc5820757e5cbf1f90b0b0426f3a6a8", 97),
    ("ethtool", "56fe6fe066ff4568eb29e3f0b7e85021", 503),
    ("fou", "72df1ac9797a7e84f96296b65ab22de7", 21),
    ("handshake", "deee1722eb3841f58c4d8987ab6a4913", 35),
    ("ioam6", "383fa41faa7998f0a2cc7cdf441a0455", 23),
    ("ipvs", "db0899fcbca3330316cd606a02cb44c2", 101),
    ("l2tp", "69cd96fa6a8663f4584b39fd8b6aceb3", 67),
    ("macsec", "44bebd45459f45baabbfdf5ff9fd112d", 98),
    ("mptcp_pm", "741a3e087bbaffff31d733d1c3600099", 84),
    ("netdev", "d62e42e31a4fe08581e7e941a99a4343", 112),
    ("nfsd", "d20c1d3c6ed39ee15133b3316fdcd249", 44),
    ("nl80211", "f699c148f321f11cc1e4c82a523b0c52", 1184),
    ("nlctrl", "8e1f0e4c77476b03ec8159f5d571f05c", 75),
    ("ovs_datapath", "e91de4c28b406190240625d807f32b97", 33),
    ("ovs_flow", "5c4a52692e62dff76d6e3d114b97e252", 249),
    ("ovs_vport", "7f94207d17772dda77ecd6dd959af892", 43),
    ("seg6", "50cc807920b5278d7ad8844c50adc59e", 13),
    ("tcp_metrics", "1d32ca6103f2b38aaa41c2f93f011b7c", 25),
    ("team", "f768bd4ea495999f5fcc2f8998575e59", 45),
    ("wireguard", "72fedb31d3ea2b88e381137b931b2e0c", 40),
];

/// Filters, sockets, IPsec, processes and every protocol.
pub const SYSTEM: [(&str, &str, usize); 9] = [
    ("conntrack", "85e9e6a254cb096fac821e3a7b12040c", 196),
    ("ipset", "decfc6d44e57a006538fa93862211670", 117),
    ("nflog", "feede7f0030dc6f9162a043035bfd98e", 61),
    ("nfqueue", "f4b1c5d2381e5a5ae1547c8fd3a2c66f", 66),
    ("nftables", "21fc8dd959792d19fca13bad12f79168", 636),
    ("nlmsg", "5e35cfe9c9bc644dde56d25327f2facf", 42),
    ("proc_event", "1678759eae741493f225a6057956de6f", 145),
    ("sock_diag", "8813f7c0f2181c18c38ec9ddf989596a", 358),
    ("xfrm", "39aa8bbccea00f46844d9d122c239687", 475),
];
