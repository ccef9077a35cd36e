//! The numbers 1 to 11 and 14, each at its place and before the faults that come after it.

use super::*;
use crate::draft::{fields, image, pack, place, Field, Kind};
use crate::image::{read, Refusal};

fn refused(image: &[u8]) -> (u32, u32) {
    let Refusal { number, place } = read(image).expect_err("refused");
    (number, place)
}

/// The places of all fields of a kind in S.
fn indices(fields: &[Field], kind: Kind) -> Vec<usize> {
    (0..fields.len()).filter(|&index| fields[index].kind == kind).collect()
}

/// Each field of a kind in S with a value: refused with that number, at the field.
fn each_refused(kind: Kind, values: &[i64], number: u32) {
    let good = fields(&s());
    for index in indices(&good, kind) {
        for &value in values {
            let mut fields = good.clone();
            fields[index].value = value;
            let expected = (number, place(&fields, index) as u32);
            assert_eq!(refused(&pack(&fields)), expected, "{kind:?} {value}");
        }
    }
}

#[test]
fn an_empty_image_is_1_at_0() {
    assert_eq!(refused(&[]), (1, 0));
}

#[test]
fn every_cut_is_1_at_the_field_it_falls_in() {
    let fields = fields(&s());
    let image = pack(&fields);
    for length in 0..image.len() {
        let is_cut = |&index: &usize| place(&fields, index + 1) > 8 * length;
        let index = (0..fields.len()).find(is_cut).unwrap();
        assert_eq!(refused(&image[..length]), (1, place(&fields, index) as u32), "{length} bytes");
    }
}

#[test]
fn each_field_has_its_number() {
    each_refused(Kind::Edition, &[0, 2, 3, 15], 2);
    each_refused(Kind::Frame, &[0], 3);
    each_refused(Kind::TransactionCount, &[0], 4);
    each_refused(Kind::Period, &[0, 3, 7, 19, 21, 40], 5);
    each_refused(Kind::ModeCount, &[0, 9, 15], 6);
    each_refused(Kind::TaskCount, &[0, 17, 31], 7);
    each_refused(Kind::Deadline, &[0], 8);
    each_refused(Kind::Time, &[0], 9);
}

/// 6 bits hold no number of transactions that is too great: the image of S ends before their third.
#[test]
fn every_count_of_transactions_but_0_is_good() {
    let mut fields = fields(&s());
    for count in [3, 32, 33, 62, 63] {
        fields[2].value = count;
        assert_eq!(refused(&pack(&fields)), (1, 490));
    }
    for count in [1, 32, 33, 62, 63] {
        let table = Table { frame: 20, transactions: vec![transaction(20, vec![task(0, &[1], 1)]); count] };
        assert_eq!(read(&image(&table)), Ok(table));
    }
}

/// At the transaction where they pass 128, be it the last or not.
#[test]
fn the_sum_of_tasks_counts_the_present_ones() {
    let with = |count| transaction(20, vec![task(0, &[1], 1); count]);
    let table = |counts: &[usize]| Table { frame: 20, transactions: counts.iter().map(|&count| with(count)).collect() };
    for counts in [&[16; 8][..], &[16, 16, 16, 16], &[16, 16, 16, 16, 1], &[13; 5], &[[15; 8], [1; 8]].concat()] {
        assert!(read(&image(&table(counts))).is_ok(), "{counts:?}");
    }
    let crowded: [(&[usize], usize); 5] = [
        (&[[16; 8].to_vec(), vec![1]].concat(), 8),
        (&[[16; 8].to_vec(), vec![1, 1]].concat(), 8),
        (&[[16; 7].to_vec(), vec![15, 2]].concat(), 8),
        (&[[16; 7].to_vec(), vec![15, 16, 1, 1]].concat(), 8),
        (&[vec![2; 60], vec![3; 3]].concat(), 62),
    ];
    for (counts, last) in crowded {
        let table = table(counts);
        let count = indices(&fields(&table), Kind::TaskCount)[last];
        assert_eq!(refused(&image(&table)), (7, place(&fields(&table), count) as u32), "{counts:?}");
    }
}

#[test]
fn no_time_in_any_mode_is_9_at_the_first_time() {
    let table = above_lower(20, 20, vec![task(0, &[4, 1], 9), task(4, &[0, 0], 9)], 1);
    let first_time = indices(&fields(&table), Kind::Time)[2];
    assert_eq!(refused(&image(&table)), (9, place(&fields(&table), first_time) as u32));
    // Cut in the last of those times: 1, at that time.
    let last_time = place(&fields(&table), first_time + 1);
    assert_eq!(refused(&image(&table)[..last_time / 8 + 2]), (1, last_time as u32));
    // A zero in one mode is no fault.
    assert!(read(&image(&above_lower(20, 20, vec![task(0, &[0, 1], 9)], 1))).is_ok());
}

/// S with this deadline of its task 1, whose offset is 4 and whose time is 3.
fn s_with_deadline(deadline: i64) -> Vec<Field> {
    let mut fields = fields(&s());
    let index = indices(&fields, Kind::Deadline)[1];
    fields[index].value = deadline;
    fields
}

#[test]
fn a_deadline_below_offset_plus_time_is_14_at_the_deadline() {
    for deadline in [1, 3, 4, 5, 6] {
        assert_eq!(refused(&pack(&s_with_deadline(deadline))), (14, 269), "{deadline}");
    }
    for deadline in [7, 8, (1 << 26) - 1] {
        assert!(read(&pack(&s_with_deadline(deadline))).is_ok(), "{deadline}");
    }
    assert_eq!(refused(&pack(&s_with_deadline(0))), (8, 269));
}

/// Offset 10, and times whose greatest is in any of three modes.
#[test]
fn the_greatest_time_of_all_modes_counts() {
    for times in [[5, 1, 0], [1, 5, 0], [0, 1, 5], [5, 5, 5]] {
        let due = |deadline| alone(Task { deadline, ..task(10, &times, 1) });
        assert_eq!(refused(&image(&due(14))), (14, 139), "{times:?}");
        assert!(read(&image(&due(15))).is_ok(), "{times:?}");
    }
}

/// The sum may need 25 bits, and the deadline has 26.
#[test]
fn a_sum_beyond_24_bits_counts_whole() {
    let most = (1 << 24) - 1;
    for (offset, time) in [(most, 1), (1, most), (most, 2), (most, most), (most - 1, most), (1 << 23, 1 << 23)] {
        let due = |deadline| alone(Task { deadline, ..task(offset, &[time], 1) });
        for deadline in [1, (offset + time) % (1 << 24), offset, time, offset + time - 1] {
            let number = if deadline == 0 { 8 } else { 14 };
            assert_eq!(refused(&image(&due(deadline))), (number, 139), "{offset} {time} {deadline}");
        }
        for deadline in [offset + time, 1 << 25, (1 << 26) - 1] {
            assert!(read(&image(&due(deadline))).is_ok(), "{offset} {time} {deadline}");
        }
    }
}

/// S cut in or behind the last time of task 1, which ends 327 bits in.
#[test]
fn a_cut_in_the_last_time_comes_before_14() {
    let short = pack(&s_with_deadline(6));
    for length in 38..=40 {
        assert_eq!(refused(&short[..length]), (1, 303), "{length} bytes");
    }
    for length in 41..=61 {
        assert_eq!(refused(&short[..length]), (14, 269), "{length} bytes");
    }
}

/// Beside 14 of task 1: a fault before it, of the task itself, or behind it.
#[test]
fn faults_before_14_and_behind_it() {
    let short = s_with_deadline(3);
    let with = |kind: Kind, which: usize, value: i64| {
        let mut fields = short.clone();
        fields[indices(&short, kind)[which]].value = value;
        refused(&pack(&fields))
    };
    assert_eq!(with(Kind::Period, 0, 15), (5, 34));
    assert_eq!(with(Kind::Deadline, 0, 0), (8, 139));
    assert_eq!(with(Kind::Time, 0, 0), (9, 173));
    assert_eq!(with(Kind::Deadline, 0, 1), (14, 139));
    assert_eq!(with(Kind::Time, 1, 0), (9, 303));
    let behind = [
        (Kind::Period, 1, 15),
        (Kind::ModeCount, 1, 9),
        (Kind::TaskCount, 1, 0),
        (Kind::Deadline, 2, 0),
        (Kind::Deadline, 2, 1),
        (Kind::Time, 2, 0),
    ];
    for (kind, which, value) in behind {
        assert_eq!(with(kind, which, value), (14, 269), "{kind:?}");
    }
    let mut padded = pack(&short);
    padded[61] |= 1;
    assert_eq!(refused(&padded), (14, 269));
    assert_eq!(refused(&[pack(&short), vec![0]].concat()), (14, 269));
}

#[test]
fn padding_and_bytes_that_follow() {
    // S ends 34 + 2·33 + 3·130 = 490 bits in: 6 padding bits.
    let good = image(&s());
    assert_eq!(good.len(), 62);
    for bit in 0..6 {
        let mut padded = good.clone();
        padded[61] |= 1 << bit;
        assert_eq!(refused(&padded), (10, 490));
        padded.push(0);
        assert_eq!(refused(&padded), (10, 490));
    }
    for more in [vec![0], vec![255], vec![0; 6000]] {
        assert_eq!(refused(&[good.clone(), more].concat()), (11, 496));
    }
}

#[test]
fn the_first_fault_counts() {
    let mut fields = fields(&s());
    let deadline = indices(&fields, Kind::Deadline)[0];
    let later_period = indices(&fields, Kind::Period)[1];
    fields[deadline].value = 0;
    fields[later_period].value = 0;
    assert_eq!(refused(&pack(&fields)), (8, place(&fields, deadline) as u32));
    fields[1].value = 0;
    assert_eq!(refused(&pack(&fields)), (3, 4));
}

#[test]
fn the_longest_image() {
    let table = longest(task(0, &[1; 8], 1));
    // 34 + 63·33 + 128·298 bits.
    assert_eq!(place(&fields(&table), fields(&table).len()), 40_257);
    assert_eq!(image(&table).len(), Table::LONGEST_IMAGE);
    assert_eq!(read(&image(&table)), Ok(table.clone()));
    let mut longer = image(&table);
    longer.push(0);
    assert_eq!(refused(&longer), (11, 40_264));
    longer[5032] |= 1;
    assert_eq!(refused(&longer), (10, 40_257));
    assert_eq!(refused(&longer[..5032]), (1, 40_233));
}
