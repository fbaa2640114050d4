//! That each law can be called at real types. The calls do nothing when they run.

use neli::simulator::laws::{
    acknowledged_request_is_answered, acknowledgement_is_delivered, answers_are_complete,
    answers_are_given_in_turn, answers_are_one_frame, attributes_are_read_back,
    datagrams_bring_their_own, datagrams_keep_the_limit, dump_is_delivered,
    dump_is_read_as_its_messages, dump_request_is_answered, error_is_delivered,
    finished_dump_is_delivered, message_is_one_frame, refused_request_is_answered,
    replied_request_is_answered, reply_is_delivered, request_is_answered,
    requests_are_answered_in_turn,
};
use neli::types::Buffer;

#[test]
fn laws_are_called() {
    message_is_one_frame::<u16, Buffer>();
    answers_are_one_frame();
    attributes_are_read_back();
    dump_is_read_as_its_messages();
    datagrams_keep_the_limit();
    reply_is_delivered::<u16, Buffer>();
    dump_is_delivered();
    acknowledgement_is_delivered();
    error_is_delivered();
    finished_dump_is_delivered();
    answers_are_given_in_turn::<u16, Buffer>();
    answers_are_complete();
    datagrams_bring_their_own();
    requests_are_answered_in_turn::<u16, Buffer, u16, Buffer>();
    request_is_answered::<u16, Buffer, u16, Buffer>();
    acknowledged_request_is_answered::<u16, Buffer, u16, Buffer>();
    refused_request_is_answered::<u16, Buffer, u16, Buffer>();
    replied_request_is_answered::<u16, Buffer, u16, Buffer, u16, Buffer>();
    dump_request_is_answered::<u16, Buffer, u16, Buffer>();
}
