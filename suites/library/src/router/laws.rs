//! That each law can be called at real types. The calls do nothing when they run.

use neli::router::synchronous::laws::{
    answers_only_grow, cuts_join, deliveries_only_grow, later_commands_leave_answers,
    reads_of_others_change_nothing, reads_of_others_leave_outcomes, regrouping_leaves_deliveries,
    regrouping_leaves_outcomes, request_is_one_frame,
};
use neli::router::synchronous::laws_of_handles;
use neli::types::Buffer;

#[test]
fn laws_are_called() {
    laws_of_handles::equality();
    laws_of_handles::lent_items_are_read::<u16, Buffer>();
    answers_only_grow::<u16, Buffer>();
    deliveries_only_grow::<u16, Buffer, u16, Buffer>();
    later_commands_leave_answers::<u16, Buffer, u16, Buffer>();
    reads_of_others_change_nothing::<u16, Buffer, u16, Buffer>();
    reads_of_others_leave_outcomes::<u16, Buffer, u16, Buffer>();
    cuts_join::<u16, Buffer>();
    regrouping_leaves_deliveries::<u16, Buffer, u16, Buffer>();
    regrouping_leaves_outcomes::<u16, Buffer, u16, Buffer>();
    request_is_one_frame::<u16, Buffer>();
}
