//! An edit whose text is not found as often as it says stops the build, and says where.
#[allow(dead_code)]
#[path = "../edits.rs"]
mod edits;

use edits::{Edit, edited};

fn edit(find: &'static str, until: Option<&'static str>, put: &'static str, times: usize) -> [Edit; 1] {
    [Edit { file: "f.rs", find, until, put, times }]
}

fn run(text: &str, e: &[Edit]) -> Result<String, String> {
    edited("f.rs", text.to_string(), e)
}

#[test]
fn replaces_as_often_as_it_says() {
    assert_eq!(run("a b a", &edit("a", None, "c", 2)).as_deref(), Ok("c b c"));
    assert!(run("a b a", &edit("a", None, "c", 1)).is_err_and(|e| e.contains("f.rs: found 2 times, and it must be 1")));
    assert!(run("b", &edit("a", None, "c", 1)).is_err_and(|e| e.contains("found 0 times")));
}

#[test]
fn cuts_up_to_its_end() {
    assert_eq!(run("keep [cut] keep", &edit("[", Some("] "), "", 1)).as_deref(), Ok("keep ] keep"));
    assert_eq!(run("keep [cut", &edit("[", Some(""), "", 1)).as_deref(), Ok("keep "));
    assert!(run("keep [cut", &edit("[", Some("]"), "", 1)).is_err_and(|e| e.contains("is not there once after")));
    assert!(run("keep [cut] ]", &edit("[", Some("]"), "", 1)).is_err());
    assert!(run("keep cut] ]", &edit("[", Some("]"), "", 1)).is_err());
}

#[test]
fn leaves_other_files_alone() {
    assert_eq!(edited("g.rs", "a".into(), &edit("a", None, "b", 7)).as_deref(), Ok("a"));
}
