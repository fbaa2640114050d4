//! That each law can be called at real types. The calls do nothing when they run.

use neli::consts::laws;
use neli::consts::nl::Nlmsg;
use neli::laws::{bytes_of_number, constant_is_read_back, list_is_its_elements};

#[test]
fn laws_are_called() {
    bytes_of_number();
    constant_is_read_back::<Nlmsg>();
    list_is_its_elements::<u16>();
    laws::messages::equality();
    laws::routing::equality();
    laws::route_attributes::equality();
    laws::route_attributes::ifname_is_never_read();
    laws::routing_flags::equality();
    laws::linux::equality();
    laws::systems::equality();
}
