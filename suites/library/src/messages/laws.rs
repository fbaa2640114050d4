//! That each law can be called at real types. The calls do nothing when they run.

use neli::consts::genl::CtrlAttr;
use neli::consts::rtnl::Ifla;
use neli::genl::AttrType;
use neli::lent::laws::{
    attributes_are_looked_up_by_type, lent_attributes_are_the_list,
    lent_message_becomes_what_is_read, walks_give_what_is_left, written_message_is_walked,
};
use neli::nl::laws::{
    equality, has_a_cut, has_few_messages, has_one_cut, rewritten_datagram_is_zeroed,
    typed_reading_agrees,
};
use neli::nl::laws_of_messages::{
    answer_is_its_parts, answers_are_read, answers_print_their_codes, builders_begin_with_no_field,
    copies_of_what_takes_none, errors_of_links_say_why, errors_of_routers_say_why,
    header_is_its_bytes, message_is_its_frame,
};
use neli::types::Buffer;

#[test]
fn laws_are_called() {
    has_a_cut::<u16, Vec<u8>>();
    has_one_cut::<u16, Vec<u8>>();
    has_few_messages::<u16, Vec<u8>>();
    typed_reading_agrees::<u16, Vec<u8>>();
    rewritten_datagram_is_zeroed();
    lent_message_becomes_what_is_read::<u16, Buffer>();
    lent_attributes_are_the_list::<AttrType<CtrlAttr>>();
    lent_attributes_are_the_list::<Ifla>();
    written_message_is_walked::<u16, Buffer>();
    equality::<u16, Buffer>();
    walks_give_what_is_left::<Ifla, u16>();
    attributes_are_looked_up_by_type::<CtrlAttr, Ifla>();
    header_is_its_bytes::<u16>();
    message_is_its_frame::<u16, Buffer, Buffer>();
    answer_is_its_parts::<()>();
    answers_are_read::<u16, Buffer>();
    copies_of_what_takes_none::<u16, Buffer>();
    builders_begin_with_no_field::<u16, Buffer>();
    answers_print_their_codes::<()>();
    errors_of_links_say_why::<0, Buffer>();
    errors_of_routers_say_why::<u16, Buffer, 0, Buffer>();
}
