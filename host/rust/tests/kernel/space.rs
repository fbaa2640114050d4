//! A network namespace of its own for each test, so that no interface of the machine is touched.

use std::process::Command;
use std::{env, thread};

const OWN: &str = "NELI_OWN_NAMESPACE";

/// Why no namespace can be made, where `host/test` has found so.
const NONE: &str = "NELI_NO_NAMESPACE";

/// Runs the test again in a process in a network namespace of its own, or, in that, does it. Where no namespace can be
/// made, it says that the test was not run.
pub fn alone(test: impl FnOnce()) {
    if env::var_os(OWN).is_some() {
        return test();
    }
    let name = thread::current().name().expect("a test's thread has its name").to_owned();
    let is_made = || Command::new("unshare").args(["-Urn", "true"]).status().is_ok_and(|it| it.success());
    if env::var_os(NONE).is_some() || !is_made() {
        println!("{name}: not run, this kernel makes no network namespace");
        return;
    }
    let program = env::current_exe().expect("the program has a path");
    let ran = Command::new("unshare")
        .arg("-Urn")
        .arg(program)
        .args(["--exact", &name, "--nocapture", "--test-threads=1"])
        .env(OWN, "yes")
        .output()
        .expect("the program runs in a namespace");
    let said = String::from_utf8_lossy(&ran.stdout);
    assert!(ran.status.success(), "{said}{}", String::from_utf8_lossy(&ran.stderr));
    assert!(said.contains("1 passed"), "{said}");
}
