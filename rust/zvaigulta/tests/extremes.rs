//! Every call answers the ends of its numbers and empty buffers, and a refusal changes no byte.

use zvaigulta::*;

const ENDS: [usize; 8] = [0, 1, 83, 84, 85, 16_800_000, usize::MAX - 1, usize::MAX];

/// Numbers of 64 bits with either sign, at their ends and around 0.
const SIGNED: [i64; 9] = [i64::MIN, i64::MIN + 1, -10_000_000, -1, 0, 1, 10_000_000, i64::MAX - 1, i64::MAX];

#[test]
fn buffers_and_lengths() {
    for buffer in [&b""[..], b"M ", &EXAMPLE[..84], &EXAMPLE[..], &[0xff; 168]] {
        for used in ENDS {
            let accepted = used == EXAMPLE.len() && buffer == EXAMPLE;
            assert_eq!(judge_sheet(buffer, used).is_ok(), accepted);
            assert!(judge_index(buffer, used).is_err());
            assert!(judge_directory(buffer, used).is_err() && judge_either_edition(buffer, used).is_err());
            for place in ENDS {
                assert!(way_up(buffer, used, place).is_err());
                assert!(jump(buffer, used, place).is_err() && jump_either_edition(buffer, used, place).is_err());
                let mut changed = buffer.to_vec();
                assert!(remove(&mut changed, used, place).is_err());
                assert!(insert(&mut changed, used, place, b"").is_err());
                assert!(insert(&mut changed, used, place, EXAMPLE).is_err());
                assert!(append_directory(&mut changed, used).is_err() && append_second_edition(&mut changed, used).is_err());
                assert_eq!(changed, buffer);
            }
            let mut second = [b'.'; 4];
            assert!(normal_sheet(buffer, used, &mut second).is_err());
            assert!(normal_index(buffer, used, &mut second).is_err());
            assert!(normal_sheet(buffer, used, &mut []).is_err());
            assert_eq!(second, [b'.'; 4]);
        }
    }
}

#[test]
fn columns_of_every_width_hold_what_was_written() {
    for width in 0..40 {
        for value in SIGNED {
            let mut column = vec![b'~'; width];
            let fits = (1..=18).contains(&width) && value.to_string().len() <= width;
            match write_column(&mut column, value) {
                Ok(()) => assert_eq!((fits, read_column(&column)), (true, Ok(value))),
                Err(refusal) => assert_eq!((fits, refusal.number(), column), (false, 16, vec![b'~'; width])),
            }
        }
    }
}

#[test]
fn corners_at_the_ends() {
    for unit in [0, 1, 2, 10, 999, 1_000, u64::MAX].map(Unit::from) {
        for a in SIGNED {
            for b in SIGNED {
                if let Ok(millimetres) = join(unit, a, b) {
                    assert_eq!(split(unit, millimetres), Ok(Corner { whole: a, fraction: b }));
                }
            }
            if let Ok(corner) = split(unit, a) {
                assert_eq!(join(unit, corner.whole, corner.fraction), Ok(a));
            }
        }
    }
}
