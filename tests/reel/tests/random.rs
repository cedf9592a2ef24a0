//! Files of no sense: every subcommand ends with a status of its own and never breaks off.

use model::gen::{nonsense, Rng};
use reel_tests::{reel, Scratch};

#[test]
fn no_file_breaks_the_tool() {
    let scratch = Scratch::new("random");
    let page = scratch.path("page.html").display().to_string();
    let mut rng = Rng::new(11);
    for round in 0..60 {
        let bytes = match round % 2 {
            0 => nonsense(&mut rng),
            _ => {
                let length = rng.pick(&[1, 7, 80, 900, 70_000]);
                rng.bytes(length)
            }
        };
        let file = scratch.file("bytes", &bytes);
        let other = file.display().to_string();
        let kept = ["--tables", &other[..], "--stores", &other];
        let commands: [(&str, &[&str], &[i32]); 10] = [
            ("show", &["--strict"], &[0, 1]),
            ("show", &["--json", "--frame", "3"], &[0]),
            ("show", &["--summary"], &[0]),
            ("show", &kept, &[2]),
            ("frame", &["7"], &[0]),
            ("diff", &[&other], &[0]),
            ("page", &["0", "--at", "0"], &[0]),
            ("page", &["63"], &[0]),
            ("view", &["-o", &page], &[0]),
            ("write", &[], &[0, 2]),
        ];
        for (command, words, statuses) in commands {
            let output = reel(command, &file, words);
            let errors = String::from_utf8_lossy(&output.stderr);
            let status = output.status.code();
            let is_due = status.is_some_and(|status| statuses.contains(&status));
            assert!(is_due, "round {round}, {command}: {status:?}, {errors}");
            assert!(
                errors.lines().count() <= 2,
                "round {round}, {command}: {errors}"
            );
        }
    }
}
