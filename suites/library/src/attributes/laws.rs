//! That each law can be called at real types. The calls do nothing when they run.

use neli::attr::laws::{
    built_generic_attribute_reads_back, built_routing_attribute_reads_back, equality,
    errors_of_builders_say_why, errors_of_reading_say_why, errors_of_writing_say_why,
    list_is_its_frames, messages_print_their_texts, nested_attribute_comes_last,
};
use neli::consts::genl::CtrlAttr;
use neli::consts::rtnl::{Ifla, Rta};
use neli::genl::AttrType;
use neli::rtnl::Rtattr;
use neli::short::laws::{
    all_attributes_are_looked_up, answers_and_bodies_are_their_parts,
    lent_bodies_are_those_of_owned_messages, made_attributes_are_their_parts,
    refusals_are_their_parts,
};
use neli::types::{Buffer, FrameList};

#[test]
fn laws_are_called() {
    list_is_its_frames::<Rta, Buffer>();
    list_is_its_frames::<AttrType<CtrlAttr>, Buffer>();
    built_generic_attribute_reads_back::<CtrlAttr, u32>();
    built_routing_attribute_reads_back::<Rta, Buffer>();
    nested_attribute_comes_last::<Ifla, Ifla, Buffer>();
    equality::<CtrlAttr, Buffer>();
    errors_of_builders_say_why::<0, Buffer>();
    errors_of_writing_say_why::<Buffer>();
    errors_of_reading_say_why::<Buffer>();
    messages_print_their_texts();
    made_attributes_are_their_parts::<Ifla, CtrlAttr>();
    all_attributes_are_looked_up::<FrameList<Rtattr<Rta, Buffer>>, Rtattr<Rta, Buffer>, Rta>();
    answers_and_bodies_are_their_parts::<(), u16>();
    lent_bodies_are_those_of_owned_messages::<u16>();
    refusals_are_their_parts();
}
