"""What is set up for record and compare: links, addresses, neighbours, routes, rules, queueing, filters, tunnels, keys.

Each line is a command; `nft` takes the rest as one word, and `sh` as a script. What a kernel lacks is left out.
"""
COMMANDS = r'''
ip link set lo up
ip link add d0 mtu 1400 txqueuelen 77 address 02:00:00:00:00:01 type veth peer name d1
ip link set d1 up
ip link add d2 type dummy
ip link set d2 up
ip link set d0 up alias seventh group 5
ip link property add dev d0 altname another
ip link add v0 type veth peer name v1
ip link set v0 up
ip link set v1 up
ip link add b0 type bridge vlan_filtering 1 ageing_time 20000 mcast_snooping 1
ip link set v0 master b0
ip link set b0 up
ip link add link d0 name d0.5 type vlan id 5 egress-qos-map 1:2 3:4 ingress-qos-map 2:6
ip link add x0 type vxlan id 9 remote 10.1.0.2 local 10.1.0.1 dev d0 dstport 4789 ttl 9 srcport 1000 2000
ip link add x1 type vxlan id 10 group ff05::9 dev d0 dstport 4790
ip link add x2 type vxlan external vnifilter dstport 4791
ip link add bond0 type bond mode active-backup miimon 120
ip link add bond1 type bond mode 802.3ad lacp_rate fast ad_actor_sys_prio 9
ip link add d3 type dummy
ip link set d3 master bond0
ip link add d4 type dummy
ip link set d4 master bond1
ip link add vrf0 type vrf table 10
ip link add link d0 name mv0 type macvlan mode private
ip link add link d0 name mv1 type macvlan mode source macaddr add 02:00:00:00:00:0c
ip link add link d2 name iv0 type ipvlan mode l3s
ip link add gre0a type gre local 10.1.0.1 remote 10.1.0.2 key 7 ttl 9 csum
ip link add gt0 type gretap local 10.1.0.1 remote 10.1.0.3 ikey 1 okey 2
ip link add er0 type erspan local 10.1.0.1 remote 10.1.0.4 key 5 seq erspan_ver 1 erspan 99
ip link add g60 type ip6gre local fd00::1 remote fd00::2 flowlabel 9 tclass 8
ip link add ii0 type ipip local 10.1.0.1 remote 10.1.0.5 ttl 3
ip link add si0 type sit local 10.1.0.1 remote 10.1.0.6
ip link add vt0 type vti local 10.1.0.1 remote 10.1.0.7 key 3
ip link add v60 type vti6 local fd00::1 remote fd00::7 key 3
ip link add t60 type ip6tnl mode any local fd00::1 remote fd00::8
ip link add ge0 type geneve id 77 remote 10.1.0.9 ttl 7
ip link add ba0 type bareudp dstport 6635 ethertype mpls_uc
ip link add link d0 name ms0 type macsec sci 1 cipher gcm-aes-256 encrypt on
ip macsec add ms0 tx sa 0 pn 100 on key 01 11111111111111111111111111111111
ip macsec add ms0 rx address 02:00:00:00:00:09 port 5
ip macsec add ms0 rx address 02:00:00:00:00:09 port 5 sa 0 pn 3 on key 02 22222222222222222222222222222222
ip link add wg0 type wireguard
sh echo AAAAAAAAAAAAAAAAAAAAAAAAAAAAAAAAAAAAAAAAAAM= | wg set wg0 listen-port 5555 private-key /dev/stdin peer AAAAAAAAAAAAAAAAAAAAAAAAAAAAAAAAAAAAAAAAAAE= endpoint 10.1.0.2:7777 allowed-ips 10.9.0.0/16,fd09::/64 persistent-keepalive 25
sh wg set wg0 fwmark 7 peer AAAAAAAAAAAAAAAAAAAAAAAAAAAAAAAAAAAAAAAAAAI= endpoint [fd00::2]:8888 allowed-ips 10.10.0.0/16
ip link add xf0 type xfrm dev d0 if_id 42
ip link add ifb0a type ifb
ip link add team0 type team
ip link add vc0 type vcan
ip link add d5 type dummy
ip link add d6 type dummy
ip link add hs0 type hsr slave1 d5 slave2 d6 supervision 45 version 1
ip link add nk0 type netkit mode l3
ip link add amt0 type amt mode gateway dev d0 local 10.1.0.1 discovery 10.1.0.2
ip tuntap add dev tun0 mode tun user 0 group 0
ip tuntap add dev tap0 mode tap multi_queue
ip addr add 10.1.0.1/24 brd 10.1.0.255 dev d0 label d0:one valid_lft 1000 preferred_lft 500
ip addr add 10.1.0.7 peer 10.1.0.8 dev d0
ip -6 addr add fd00::1/64 dev d0 nodad
ip neigh add 10.1.0.9 lladdr 02:00:00:00:00:09 dev d0 nud permanent
ip -6 neigh add fd00::9 lladdr 02:00:00:00:00:09 dev d0 nud stale router
ip neigh add proxy 10.1.0.10 dev d0
bridge fdb add 02:00:00:00:00:0a dev v0 master static vlan 1
bridge fdb add 02:00:00:00:00:0b dev x0 dst 10.1.0.3 self
bridge vlan add dev v0 vid 7 pvid untagged
bridge vlan add dev b0 vid 20-25 self
bridge vni add dev x2 vni 100-110
bridge mdb add dev b0 port v0 grp 239.1.1.1 permanent vid 7
bridge mdb add dev b0 port v0 grp 239.1.1.2 src 10.1.0.2 permanent
bridge mdb add dev b0 port v0 grp ff0e::5 temp
ip link set v0 type bridge_slave cost 9 guard on
ip rule add from 10.2.0.0/16 to 10.3.0.0/16 table 100 priority 50
ip rule add iif d0 fwmark 0x5/0xff uidrange 0-0 ipproto tcp sport 1-9 dport 80 goto 32766 priority 60
ip -6 rule add to fd01::/64 unreachable priority 70
ip nexthop add id 1 via 10.1.0.2 dev d0
ip nexthop add id 2 via 10.1.0.3 dev d0
ip nexthop add id 3 group 1,3/2,5
ip nexthop add id 4 blackhole
ip nexthop add id 5 group 1/2 type resilient buckets 4 idle_timer 60
ip route add 10.4.0.0/16 via 10.1.0.2 metric 12 mtu 1300 advmss 1200 proto static
ip route add 10.5.0.0/16 nexthop via 10.1.0.2 weight 2 nexthop via 10.1.0.3 weight 3
ip route add 10.6.0.0/16 nhid 3
ip route add blackhole 10.7.0.0/16 table 100
ip route add 10.8.0.0/16 via inet6 fd00::2 dev d0
ip route add 10.11.0.0/16 via 10.1.0.2 congctl reno initcwnd 20 features ecn
ip -6 route add fd02::/64 via fd00::2 dev d0 pref high expires 900
ip -6 route add fd04::/64 encap seg6 mode encap segs fd05::1,fd05::2 dev d0
ip -6 route add fd06::/64 encap seg6local action End.DT6 table 10 dev d0
ip -6 route add fd07::/64 encap ioam6 trace prealloc type 0x800000 ns 1 size 12 dev d0
ip -6 route add fd08::/64 encap rpl segs fd05::1,fd05::2 dev d0
ip route add 10.12.0.0/16 encap ip id 5 dst 10.1.0.9 src 10.1.0.1 ttl 4 tos 8 dev ge0
ip route add 10.13.0.0/16 encap ip6 id 6 dst fd00::9 hoplimit 4 dev ge0
ip route add 10.14.0.0/16 encap mpls 100/200 via 10.1.0.2
ip -6 route add fd0a::/64 encap ila 1:2:3:4 csum-mode neutral-map-auto ident-type luid hook-type input via fd00::2 dev d0
sh echo 1000 > /proc/sys/net/mpls/platform_labels
ip -M route add 300 as 400 via inet 10.1.0.2
ip addrlabel add prefix fd03::/64 label 99
ip xfrm state add src 10.1.0.1 dst 10.1.0.2 proto esp spi 0x99 reqid 7 mode tunnel enc 'cbc(aes)' 0x0102030405060708090a0b0c0d0e0f10 auth-trunc 'hmac(sha256)' 0x0102030405060708090a0b0c0d0e0f101112131415161718191a1b1c1d1e1f20 128 replay-window 32 mark 5 mask 0xff
ip xfrm state add src fd00::1 dst fd00::2 proto esp spi 0x98 mode transport aead 'rfc4106(gcm(aes))' 0x0102030405060708090a0b0c0d0e0f1011121314 128 sel proto tcp sport 5 encap espinudp 4500 4500 ::
ip xfrm state add src 10.1.0.1 dst 10.1.0.3 proto ah spi 0x97 mode tunnel auth 'hmac(sha1)' 0x0102030405060708090a0b0c0d0e0f1011121314 flag nopmtudisc flag esn replay-window 64
ip xfrm policy add src 10.20.0.0/16 dst 10.21.0.0/16 proto udp sport 5 dir out priority 9 tmpl src 10.1.0.1 dst 10.1.0.2 proto esp reqid 7 mode tunnel mark 5 mask 0xff
ip xfrm policy add src fd20::/64 dst fd21::/64 dir in action block if_id 42
ip fou add port 5551 ipproto 4
ip fou add port 5552 gue
ip l2tp add tunnel tunnel_id 1 peer_tunnel_id 2 encap udp local 10.1.0.1 remote 10.1.0.2 udp_sport 5001 udp_dport 5002
ip l2tp add session name l20 tunnel_id 1 session_id 3 peer_session_id 4 cookie 0011223344556677
ip mptcp limits set subflow 4 add_addr_accepted 3
ip mptcp endpoint add 10.1.0.1 dev d0 signal
ip mptcp endpoint add fd00::1 dev d0 subflow backup id 9
ip ioam namespace add 5 data 0x7 wide 0x9
ip ioam schema add 3 abcd
ip sr tunsrc set fd00::1
ipset create s4 hash:ip family inet hashsize 64 maxelem 100 timeout 600 comment counters
ipset add s4 10.1.0.5 timeout 300 comment those packets 5 bytes 6
ipset create s6 hash:net,port family inet6 skbinfo
ipset add s6 fd01::/64,tcp:80 skbmark 0x1/0xff skbprio 1:2 skbqueue 3
ipset create sb bitmap:port range 1-1000
ipset add sb 80-90
ipset create sm hash:mac
ipset add sm 02:00:00:00:00:09
ipset create sl list:set size 4
ipset add sl s4
ipvsadm -A -t 10.1.0.1:80 -s wrr -p 60
ipvsadm -a -t 10.1.0.1:80 -r 10.1.0.2:8080 -m -w 5
ipvsadm -A -u [fd00::1]:53 -s rr
tc qdisc add dev d0 root handle 1: htb default 0x20
tc class add dev d0 parent 1: classid 1:10 htb rate 5mbit ceil 9mbit burst 9k
tc qdisc add dev d0 parent 1:10 handle 10: fq_codel limit 900 target 6ms
tc qdisc add dev v1 root handle 2: prio bands 4
tc qdisc add dev v0 root handle 3: tbf rate 1mbit burst 10k latency 70ms
tc qdisc add dev v0 ingress
tc qdisc add dev b0 root handle 4: netem delay 10ms 2ms loss 1% duplicate 2% corrupt 0.1% reorder 5% rate 1mbit
tc qdisc add dev d0.5 root handle 5: sfq perturb 9
tc qdisc add dev x0 root handle 6: fq
tc qdisc add dev x1 root handle 7: cake bandwidth 10mbit
tc qdisc add dev bond0 root handle 8: red limit 400000 min 30000 max 90000 avpkt 1000 burst 55 bandwidth 10mbit
tc qdisc add dev d1 root handle 9: hfsc default 1
tc class add dev d1 parent 9: classid 9:1 hfsc sc rate 1mbit ul rate 2mbit
tc qdisc add dev d1 parent 9:1 handle 11: codel limit 99
tc qdisc add dev d2 root handle 12: drr
tc class add dev d2 parent 12: classid 12:1 drr quantum 600
tc qdisc add dev d3 root handle 13: choke limit 1000 bandwidth 10mbit min 83 max 250
tc qdisc add dev d4 root handle 14: pie target 20ms ecn
tc qdisc add dev d5 root handle 15: fq_pie limit 500
tc qdisc add dev d6 root handle 16: qfq
tc class add dev d6 parent 16: classid 16:1 qfq weight 10
tc qdisc add dev mv0 root handle 17: gred setup DPs 3 default 2 grio
tc qdisc change dev mv0 root handle 17: gred limit 60KB min 15K max 25K burst 64 avpkt 400 bandwidth 10Mbit DP 1 probability 0.1 prio 2
tc qdisc add dev mv1 root handle 18: hhf limit 900
tc qdisc add dev vrf0 root handle 19: sfb
tc qdisc add dev ifb0a root handle 20: ets bands 4 strict 2 quanta 1500 3000
tc qdisc add dev team0 root handle 21: plug
tc qdisc add dev tap0 root handle 22: multiq
tc qdisc add dev gt0 root handle 23: skbprio
tc qdisc add dev ge0 root handle 24: pfifo limit 33
tc qdisc add dev wg0 root handle 25: bfifo limit 3300
tc qdisc add dev ii0 root handle 26: stab overhead 10 linklayer ethernet tbf rate 1mbit burst 10k latency 70ms
tc qdisc add dev si0 root handle 27: etf clockid CLOCK_TAI delta 300000
tc qdisc add dev iv0 clsact
tc qdisc add dev d2 clsact
ip link add q0 numtxqueues 4 type veth peer name q1
ip link set q0 up
tc qdisc add dev q0 root handle 28: mqprio num_tc 2 map 0 1 queues 1@0 1@1 hw 0
ip link add q2 numtxqueues 4 type dummy
tc qdisc add dev q2 root handle 29: taprio num_tc 2 map 0 1 queues 1@0 1@1 base-time 0 sched-entry S 01 300000 sched-entry S 02 300000 clockid CLOCK_TAI
tc filter add dev v0 ingress protocol ip pref 1 u32 match ip src 10.1.0.0/16 match ip dport 80 0xffff action drop
tc filter add dev v0 ingress protocol ip pref 2 flower ip_proto tcp dst_ip 10.1.0.5/24 src_port 99 tcp_flags 0x2/0x3 ip_tos 4/0xff action mirred egress redirect dev v1
tc filter add dev v0 ingress protocol 802.1q pref 3 flower vlan_id 5 vlan_prio 2 vlan_ethtype ipv6 src_ip fd00::1 action vlan pop
tc filter add dev v0 ingress protocol ip pref 4 matchall action police rate 1mbit burst 10k conform-exceed drop/pipe
tc filter add dev v0 ingress protocol ip pref 5 fw classid 1:1 action skbedit mark 7 priority 3 ptype host
tc filter add dev v0 ingress protocol ip pref 6 basic match 'cmp(u8 at 9 layer 1 eq 6)' action pass
tc filter add dev v0 ingress protocol ip pref 7 bpf bytecode '1,6 0 0 4294967295,' flowid 1:2
tc filter add dev v0 ingress protocol ip pref 8 flow hash keys src,dst divisor 1024
tc filter add dev v0 ingress chain 5 protocol ip pref 9 flower enc_key_id 9 enc_dst_ip 10.1.0.1 enc_dst_port 4789 geneve_opts 0102:80:00880022/ffff:ff:ffffffff action tunnel_key unset
tc filter add dev v0 ingress protocol ip pref 10 flower ct_state +trk+est ct_zone 3 ct_mark 5 ct_label 0102 action ct commit zone 3 mark 9 nat src addr 10.1.0.1
tc filter add dev v0 ingress protocol arp pref 11 flower arp_op request arp_sip 10.1.0.1 arp_sha 02:00:00:00:00:01 action gact drop random netrand pipe 5
tc filter add dev v0 ingress protocol mpls_uc pref 12 flower mpls_label 100 mpls_ttl 9 action mpls pop protocol ip
tc filter add dev iv0 egress protocol ip pref 1 matchall action pedit ex munge ip ttl set 9 munge tcp dport set 80 pipe action csum ip4h tcp
tc filter add dev iv0 egress protocol ip pref 2 matchall action nat egress 10.1.0.1/32 10.1.0.9
tc filter add dev iv0 egress protocol ip pref 3 matchall action sample rate 10 group 5 trunc 100
tc filter add dev iv0 egress protocol ip pref 4 matchall action simple sdata those index 4
tc filter add dev iv0 egress protocol ip pref 5 matchall action tunnel_key set src_ip 10.1.0.1 dst_ip 10.1.0.2 id 7 dst_port 4789 ttl 9 geneve_opts 0102:80:00880022
tc filter add dev iv0 egress protocol ip pref 6 matchall action vlan push id 9 priority 3 protocol 802.1ad
tc filter add dev iv0 egress protocol ip pref 7 matchall action connmark zone 3
tc filter add dev iv0 egress protocol ip pref 8 matchall action ctinfo dscp 0xfc000000 0x01000000
tc filter add dev iv0 egress protocol ip pref 9 matchall action skbmod set dmac 02:00:00:00:00:09 swap mac
tc filter add dev iv0 egress protocol ip pref 10 matchall action bpf bytecode '1,6 0 0 4294967295,'
tc filter add dev iv0 egress protocol ip pref 11 matchall action ife encode use mark 5 type 0xED3E
tc filter add dev iv0 egress protocol ip pref 12 matchall action gate clockid CLOCK_TAI sched-entry open 200000000 -1 8000000 sched-entry close 100000000
tc filter add dev d2 egress protocol ip pref 1 route from 5 classid 12:1
tc filter add dev d2 egress protocol ip pref 2 cgroup
tc chain add dev v0 ingress chain 9 protocol ip flower ip_proto tcp
tc actions add action gact pass index 99 cookie aabb
nft add table ip t { chain c { type filter hook input priority 5 ; policy accept ; } ; }
nft add rule ip t c ip saddr 10.0.0.0/8 tcp dport 80 counter log prefix "seen" limit rate 5/second accept
nft add set ip t s { type ipv4_addr ; timeout 1h ; comment "those" ; }
nft add element ip t s { 10.1.1.1, 10.1.1.2 timeout 30m }
nft add map ip t m { type inet_service : ipv4_addr ; }
nft add element ip t m { 80 : 10.1.1.1, 81 : 10.1.1.2 }
nft add map ip t v { type ipv4_addr : verdict ; }
nft add chain ip t d
nft add element ip t v { 10.1.1.1 : drop, 10.1.1.2 : jump d }
nft add set ip t i { type ipv4_addr . inet_service ; flags interval ; counter ; }
nft add element ip t i { 10.1.0.0/24 . 80-90 comment "first" }
nft add counter ip t n
nft add quota ip t q 25 mbytes
nft add limit ip t l rate 400/minute
nft add synproxy ip t y mss 1460 wscale 7 timestamp
nft add secmark ip t k { "unconfined_u:object_r:user_home_t:s0" ; }
nft add ct helper ip t h { type "ftp" protocol tcp ; }
nft add ct timeout ip t o { protocol tcp ; policy = { established : 300, close : 4 } ; }
nft add ct expectation ip t e { protocol tcp ; dport 5432 ; timeout 1h ; size 12 ; }
nft add rule ip t c ip daddr @s masquerade
nft add rule ip t c ct state established meta mark set 7 drop
nft add rule ip t c ip saddr vmap @v
nft add rule ip t c ct mark set meta mark and 0xff or 0x5
nft add rule ip t c meta iifname "d0" ip protocol { tcp, udp } counter name "n" quota name "q" return
nft add rule ip t c tcp flags & (syn|ack) == syn tcp option maxseg size set 1400
nft add rule ip t c ip daddr . tcp dport @i reject with icmp type host-prohibited
nft add rule ip t c add @s { ip saddr timeout 10s limit rate 5/second }
nft add rule ip t c meta cgroup 5 socket transparent 1 fib saddr oif missing drop
nft add rule ip t c numgen inc mod 2 vmap { 0 : accept, 1 : drop }
nft add rule ip t c jhash ip saddr mod 2 seed 0x5 vmap { 0 : accept, 1 : drop }
nft add rule ip t c ct count over 5 drop
nft add rule ip t c queue num 3-5 fanout,bypass
nft add rule ip t c log group 7 snaplen 80 queue-threshold 3
nft add rule ip t c osf name "Linux" notrack
nft add rule ip t c rt nexthop 10.1.0.9 meta l4proto tcp synproxy name "y"
nft add rule ip t c ct helper set "h"
nft add rule ip t c last
nft add table ip u { chain p { type nat hook prerouting priority -100 ; } ; chain o { type nat hook postrouting priority 100 ; } ; }
nft add rule ip u p tcp dport 80 dnat to 10.1.0.5:8080
nft add rule ip u p tcp dport 81 redirect to :8081
nft add rule ip u o snat to 10.1.0.1-10.1.0.9 random,persistent
nft add rule ip u p tcp dport 82 tproxy to :9999
nft add table netdev w { chain g { type filter hook ingress device d0 priority 0 ; } ; }
nft add rule netdev w g ip saddr 10.1.0.99 dup to v0 fwd to v1
nft add flowtable ip t f { hook ingress priority 0 ; devices = { d0, v1 } ; }
nft add rule ip t c ip protocol tcp flow add @f
nft add table inet x { flags dormant ; comment "sleeps" ; }
nft add table bridge y
conntrack -I -p tcp -s 10.1.0.1 -d 10.1.0.2 --sport 5 --dport 80 --state ESTABLISHED -t 500 -m 7 --src-nat 10.1.0.9
conntrack -I -p udp -s 10.1.0.1 -d 10.1.0.3 --sport 5 --dport 53 -t 100 --label-add 1
conntrack -I -p sctp -s 10.1.0.1 -d 10.1.0.3 --sport 5 --dport 53 -t 100 --state ESTABLISHED --orig-vtag 1 --reply-vtag 2
conntrack -I -p icmp -s 10.1.0.1 -d 10.1.0.4 --icmp-type 8 --icmp-code 0 --icmp-id 5 -t 100
conntrack -I -p tcp -s fd00::1 -d fd00::2 --sport 5 --dport 80 --state ESTABLISHED -t 500
conntrack -I -p gre -s 10.1.0.1 -d 10.1.0.3 --srckey 1 --dstkey 2 -t 60
conntrack -I expect --orig-src 10.1.0.1 --orig-dst 10.1.0.2 --tuple-src 10.1.0.1 --tuple-dst 10.1.0.2 --mask-src 255.255.255.255 --mask-dst 255.255.255.255 -p tcp --orig-port-src 5 --orig-port-dst 80 -t 60 --tuple-port-src 0 --tuple-port-dst 99 --mask-port-src 0 --mask-port-dst 65535
sh iw reg set US
sh iw dev wlan0 set type mesh || iw dev wlan0 info
ip link set wlan1 up
iw dev wlan1 scan
ethtool -s d0 msglvl drv on
sh ping -c 2 -i 0.2 -W 1 -I d0 10.1.0.9
'''
