//! The merge rule of 02, Wish 2: "01 drops a value that meets an empty tally. From now on it is
//! kept." One branch of quorumread.rs is replaced in a copy, so that all else is still the file's.
//! `build.rs` compiles this file, too.

/// The files as they are, 01's rule: the switch `--old-rule` of `oracle/oracle`.
pub const OLD_RULE: bool = cfg!(feature = "old-rule");

/// The branch of the file: a value meets nothing held, and the slot alone is stored.
const DROPPED: &str = "
                        Some((slot, Some(value))) => match *max_reply {
                            None => {
                                *max_reply = Some((slot, None));
                            }
";

/// What stands in its place.
const KEPT: &str = "
                        Some((slot, Some(value))) => match *max_reply {
                            None => {
                                *max_reply = Some((slot, Some(value)));
                            }
";

/// The file with the branch replaced. The branch must stand in it once, and the copy may differ
/// from the file in it alone.
pub fn first_value_kept(file: &str) -> Result<String, String> {
    let found = file.matches(DROPPED).count();
    if found != 1 {
        return Err(format!(
            "the branch of a value that meets nothing held is found {found} times"
        ));
    }
    let copy = file.replacen(DROPPED, KEPT, 1);
    let changed = changed_lines(file, &copy);
    if copy.lines().count() != file.lines().count() || changed != changed_lines(DROPPED, KEPT) {
        return Err(format!("the copy differs from the file in {changed:?}"));
    }
    Ok(copy)
}

/// Each line that differs from the one at its place, as it was and as it is.
pub fn changed_lines<'a>(before: &'a str, after: &'a str) -> Vec<(&'a str, &'a str)> {
    before.lines().zip(after.lines()).filter(|(old, new)| old != new).collect()
}
