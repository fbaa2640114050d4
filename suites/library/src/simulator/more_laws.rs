//! That each law on notifications, marks, control messages and messages after an answer can be called at real types.
//! The calls do nothing when they run.

use neli::router::synchronous::laws::notifications_leave_outcomes;
use neli::simulator::laws::{
    control_messages_are_replies, dump_keeps_its_marks, marks_are_given,
    messages_after_an_answer_are_not_given, notification_is_delivered, notifications_are_heard,
    unacknowledged_reply_is_an_error,
};
use neli::types::Buffer;

#[test]
fn more_laws_are_called() {
    control_messages_are_replies();
    dump_keeps_its_marks::<u16, Buffer>();
    marks_are_given::<u16, Buffer, u16, Buffer>();
    messages_after_an_answer_are_not_given::<u16, Buffer, u16, Buffer>();
    notification_is_delivered::<u16, Buffer>();
    notifications_are_heard::<u16, Buffer, u16, Buffer, u16, Buffer>();
    unacknowledged_reply_is_an_error::<u16, Buffer>();
    notifications_leave_outcomes::<u16, Buffer, u16, Buffer>();
}
