//! That each law can be called. The calls do nothing when they run.

use neli_program::laws::{has_good_lines, names_the_first_bad_line};

#[test]
fn laws_are_called() {
    has_good_lines();
    names_the_first_bad_line();
}
