//! The records of a sheet in other arrangements.

use super::random::Random;
use crate::job::Job;
use std::cmp::Reverse;

/// The job with the same records, each as often, in five arrangements: backwards; sorted by the outputs named and then by
/// the inputs tested, as mills do; turned round, with the stop records in front or at the end; one record moved; shuffled.
/// Bytes past the last whole record stay at the end.
pub fn arranged(job: &Job, seed: u64, index: u64) -> [Job; 5] {
    let random = &mut Random::new(500, seed, index);
    let (records, rest) = job.sheet.as_chunks::<8>();
    let mut lists = [(); 5].map(|()| records.to_vec());
    let [backwards, sorted, by_kind, moved, shuffled] = &mut lists;
    backwards.reverse();
    sorted.sort_by_key(|r| (r[4] | r[5], r[0], r[1]));
    if records.len() > 1 {
        by_kind.rotate_left(random.within(1, records.len() - 1));
        let from = random.below(records.len());
        let to = (from + random.within(1, records.len() - 1)) % records.len();
        let record = moved.remove(from);
        moved.insert(to, record);
    }
    if random.coin() {
        by_kind.sort_by_key(|r| r[6]);
    } else {
        by_kind.sort_by_key(|r| Reverse(r[6]));
    }
    random.shuffle(shuffled);
    lists.map(|list| Job {
        sheet: [list.as_flattened(), rest].concat(),
        ..job.clone()
    })
}
