use super::super::request::Place;
use super::*;

fn refusal(job: u8, revision: u8, number: u8) -> [u8; 16] {
    [12, 0, 0, 0, 3, 0, job, 0, 0, 0, revision, 0, 0, 0, number, 0]
}

/// Reads records for one request or, if `listed` is true, for a list that has this request twice, and returns what is chosen for it.
fn chosen(records: &[[u8; 16]], request: &dyn Fn() -> Request, listed: bool) -> Result<Vec<u8>, String> {
    let bytes = Box::new(std::io::Cursor::new(records.concat()));
    let input = &mut Input { name: "in".into(), bytes, file: None };
    let requests: Vec<Request> = (0..=usize::from(listed)).map(|_| request()).collect();
    let outcomes = Outcomes::read(input, &requests).ok().expect("records");
    outcomes.chosen(&requests[0]).map(<[u8]>::to_vec)
}

fn asked(place: Place, job: Option<u32>, revision: Option<u32>) -> Request {
    Request { place, job, revision, entry: None, texts: Default::default() }
}

fn options(records: &[[u8; 16]], job: Option<u32>, revision: Option<u32>) -> Result<Vec<u8>, String> {
    chosen(records, &|| asked(Place::Options, job, revision), false)
}

fn line(records: &[[u8; 16]], job: u32, revision: Option<u32>) -> Result<Vec<u8>, String> {
    chosen(records, &|| asked(Place::Line("list".into(), 3), Some(job), revision), true)
}

#[test]
fn the_only_record_that_fits_is_chosen() {
    let (first, later, other) = (refusal(5, 1, 9), refusal(5, 2, 11), refusal(6, 2, 8));
    let records = [later, other, first, later];
    for (job, revision, record) in
        [(Some(5), Some(1), first), (Some(5), Some(2), later), (Some(6), None, other), (None, Some(1), first)]
    {
        assert_eq!(options(&records, job, revision), Ok(record.to_vec()));
    }
    assert_eq!(options(&[later, later], None, None), Ok(later.to_vec()));
    assert_eq!(line(&records, 5, Some(1)), Ok(first.to_vec()));
    assert_eq!(line(&records, 6, None), Ok(other.to_vec()));
}

#[test]
fn what_does_not_choose_one_record_is_said() {
    let records = [refusal(5, 1, 9), refusal(5, 2, 11), refusal(6, 1, 8), refusal(6, 1, 9)];
    let said = |job, revision| options(&records, job, revision).expect_err("a reason");
    let none = "in: has no record of";
    assert_eq!(said(Some(7), None), format!("{none} job 7"));
    assert_eq!(said(Some(5), Some(3)), format!("{none} job 5, revision 3"));
    assert_eq!(said(None, Some(9)), format!("{none} revision 9"));
    let keys = "\n  job 5, revision 1\n  job 5, revision 2";
    let words = "in: has records of several jobs or revisions: choose with --job and --revision";
    assert_eq!(said(None, None), format!("{words}{keys}\n  job 6, revision 1"));
    let words = "in: has records of several revisions of job 5: choose";
    assert_eq!(said(Some(5), None), format!("{words} with --revision{keys}"));
    assert_eq!(line(&records, 5, None), Err(format!("{words} in the column revision{keys}")));
    let words = "in: has different records of job 6, revision 1, which is a conflict:";
    assert_eq!(said(Some(6), None), format!("{words} opm cannot tell which of them is right"));
    assert_eq!(options(&[], None, None), Err("in: has no record".into()));
    assert_eq!(line(&[refusal(9, 1, 9)], 5, None), Err("in: has no record of job 5".into()));
}

#[test]
fn a_long_list_is_cut_and_says_so() {
    let records: Vec<_> = (1..=25).map(|job| refusal(job, 1, 9)).collect();
    for records in [&records[..], &records[..21]] {
        let said = options(records, None, None).expect_err("a reason");
        assert!(said.ends_with("\n  job 20, revision 1\n  and more"));
    }
    let said = options(&records[..20], None, None).expect_err("a reason");
    assert!(said.ends_with("\n  job 20, revision 1"));
}
