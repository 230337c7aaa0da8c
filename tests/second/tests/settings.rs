//! Numbers that the tests are told from outside: one that is none, or a count of 0, fails the test
//! that asks for it, since it would compare less than it says.

use second::beside::{count, number};
use std::ffi::OsString;
use std::os::unix::ffi::OsStringExt;

#[test]
fn what_is_no_number_is_refused() {
    let wrong = ["", " 3", "3 ", "x", "-1", "+-1", "1.5", "1e3", "0x10", "18446744073709551616"];
    for text in wrong {
        assert!(number("N", Some(text.into())).is_err(), "{text:?}");
        assert!(count("N", Some(text.into())).is_err(), "{text:?}");
    }
    assert!(number("N", Some(OsString::from_vec(vec![0x31, 0xFF]))).is_err());
}

#[test]
fn a_count_of_0_is_refused() {
    assert_eq!(number("N", Some("0".into())), Ok(Some(0)));
    assert!(count("N", Some("0".into())).is_err_and(|told| told.starts_with("N is 0")));
    assert!(count("N", Some("00".into())).is_err());
    assert_eq!(count("N", Some("7".into())), Ok(Some(7)));
    assert_eq!(count("N", None), Ok(None));
}
