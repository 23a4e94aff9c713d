//! `tools/bench` with another program in the place of the proved one: what it makes of what the program prints.
#![cfg(target_arch = "x86_64")]

use std::os::unix::fs::PermissionsExt;
use std::path::{Path, PathBuf};
use std::process::Command;
use std::sync::{Mutex, PoisonError};

/// Held while a test writes programs and starts one: a child that another thread forks meanwhile has the
/// file open for writing until its exec, and such a file can't be started ("Text file busy").
static ALONE: Mutex<()> = Mutex::new(());

fn script(path: &Path, text: &str) {
    std::fs::create_dir_all(path.parent().expect("it has a folder")).expect("the folder for tests can be written");
    std::fs::write(path, text).expect("it can be written");
    std::fs::set_permissions(path, std::fs::Permissions::from_mode(0o755)).expect("it is ours");
}

/// Status, standard output and standard error, where the program prints this.
fn bench(printed: &str, arguments: &[&str]) -> (i32, String, String) {
    let _alone = ALONE.lock().unwrap_or_else(PoisonError::into_inner);
    let root = PathBuf::from(env!("CARGO_TARGET_TMPDIR")).join(format!("bench-{}-{}", printed.len(), arguments.len()));
    script(&root.join("tools/bench"), include_str!("../../../tools/bench"));
    script(&root.join("tools/prebuilt"), "#!/bin/sh\nexit 0\n"); // it fits
    script(&root.join("prebuilt/bench"), &format!("#!/bin/sh\nprintf '{printed}'\n"));
    std::fs::write(root.join("my.bin"), "").expect("it can be written");
    let mut command = Command::new(root.join("tools/bench"));
    let output = command.args(arguments).current_dir(&root).output().expect("there is a shell");
    let text = |bytes: &[u8]| String::from_utf8_lossy(bytes).into_owned();
    (output.status.code().unwrap_or(-1), text(&output.stdout), text(&output.stderr))
}

#[test]
fn a_table_has_status_0() {
    let table = "point verdict steps held\n0 yes 2 0\n1 refused 11 1000000 17\n";
    assert_eq!(bench(table, &["my.bin"]), (0, table.to_string(), String::new()));
}

#[test]
fn a_refused_case_has_status_2_and_its_limits() {
    for (number, words) in [
        (1, "this is no sound case"),
        (2, "at most 65,536 bytes"),
        (8, "the last node must be a condition, a count or a sum"),
    ] {
        let printed = format!("refused {number}\n");
        let (status, output, error) = bench(&printed, &["my.bin"]);
        assert_eq!((status, output), (2, printed.clone()), "{error}");
        assert!(error.contains(&format!("tools/bench: my.bin: refused {number}")) && error.contains(words), "{error}");
    }
    assert!(bench("refused 1\n", &["my.bin"]).2.contains("a text is packed first"));
    let error = bench("refused 2\n", &["my.bin"]).2;
    for limit in ["65,536 bytes", "16,384 strings", "1,024 nodes", "16 variables", "1,000,000 steps", "256 rows"] {
        assert!(error.contains(limit), "{limit}: {error}");
    }
}

#[test]
fn a_wrong_call_has_status_2() {
    assert_eq!(bench("", &["none.bin"]).0, 2);
    assert_eq!(bench("", &["my.bin", "my.bin"]).0, 2);
}
