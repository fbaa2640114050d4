//! Any one request for memory may be refused in this test: `suites/run` refuses each in turn. The cache is stale then, and
//! its table as it was; the script is played again from its start.

use super::folded::SCRIPTS;
use super::script::play;
use neli::cache::Keys;

#[test]
fn stale_after_out_of_memory(rt: HostRuntime) {
    for script in SCRIPTS.iter() {
        let played = play(&rt, rt.alloc(), Keys::links(), *script);
        if played.is_err() {
            assert!(rt; play(&rt, rt.alloc(), Keys::links(), *script).is_ok());
        }
    }
}
