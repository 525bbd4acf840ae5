//! The driver against the stub: with no fault it passes, and each single fault is found (`cargo test --features stub`).

use std::process::Command;

fn run(fault: u32, count: u32) -> (bool, String) {
    let mut driver = Command::new(env!("CARGO_BIN_EXE_differential"));
    let out = driver.env("FAULT", fault.to_string()).args(["--count", &count.to_string()]).output().unwrap();
    (out.status.success(), String::from_utf8_lossy(&out.stdout).into_owned())
}

#[test]
fn no_fault() {
    let (passed, said) = run(0, 20_000);
    assert!(passed && said.contains("differential: "), "{said}");
}

#[test]
fn each_fault_is_found() {
    for fault in 1..=55 {
        let (passed, said) = run(fault, 50_000);
        assert!(!passed && said.contains("MISMATCH"), "fault {fault} is not found:\n{said}");
    }
}
