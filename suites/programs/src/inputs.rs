//! Tests of `neli_inputs`: pcap and pcapng files, and pasted texts.
//!
//! The datagrams are 0464, a request of an unknown type, and 0465, its refusal (suites/README.md). The pcap files
//! were packed field by field by the page of LINKTYPE_NETLINK; the lines of dumps are those of `xxd`.

mod files;
mod reading;
mod recordings;
mod texts;
