//! Looking up members and positions, on generated tables.

use second::generate::*;
use second::lookup::{Member, lookup, position};
use second::rules::NESTING_LIMIT;
use second::{ByRows, Write, write_within};

#[test]
fn tables_of_structs_are_writable() {
    let mut random = Random::new(11);
    for _ in 0..4_000 {
        let table = structs(&mut random);
        let (words, rows, text) = (&table.words, table.rows, &table.text);
        let answer = write_within::<ByRows>(words, rows, text, NESTING_LIMIT, &mut [0; 65_536]);
        assert!(matches!(answer, Write::Accepted { .. }), "{answer:?}");
    }
}

#[test]
fn every_answer_occurs() {
    let mut random = Random::new(12);
    let (mut sorts, mut refused) = ([0; 5], [0; 20]);
    let mut positions = [0; 20];
    for _ in 0..20_000 {
        let mut table = structs(&mut random);
        if random.one_in(8) {
            damage(&mut random, &mut table);
        }
        let row = row(&mut random, &table);
        let key = key(&mut random, &table, row);
        match lookup::<ByRows>(&table.words, table.rows, &table.text, row, &key) {
            Ok(Member::Whole(_)) => sorts[0] += 1,
            Ok(Member::Decimal(_)) => sorts[1] += 1,
            Ok(Member::YesOrNo(_)) => sorts[2] += 1,
            Ok(Member::Text { .. }) => sorts[3] += 1,
            Ok(Member::Row(_)) => sorts[4] += 1,
            Err(number) => refused[usize::from(number)] += 1,
        }
        match position::<ByRows>(&table.words, table.rows, &table.text, row) {
            Ok(_) => positions[0] += 1,
            Err(number) => positions[usize::from(number)] += 1,
        }
    }
    assert!(sorts.iter().all(|&count| count > 100), "{sorts:?}");
    for number in [11, 18, 19] {
        assert!(refused[number] > 100, "{number}: {refused:?}");
    }
    for number in [0, 11, 18, 19] {
        assert!(positions[number] > 100, "{number}: {positions:?}");
    }
}

#[test]
fn a_position_is_its_three_members() {
    let mut random = Random::new(13);
    for _ in 0..20_000 {
        let table = structs(&mut random);
        let row = row(&mut random, &table);
        let members = ["x", "y", "turn"].map(|key| {
            lookup::<ByRows>(&table.words, table.rows, &table.text, row, key.as_bytes())
        });
        let decimals = members.map(|member| match member {
            Ok(Member::Decimal(number)) => Ok(number.to_bits()),
            Ok(_) => Err(18),
            Err(number) => Err(number),
        });
        let refusal = [18, 19]
            .into_iter()
            .find(|&number| decimals.contains(&Err(number)));
        match position::<ByRows>(&table.words, table.rows, &table.text, row) {
            Ok(position) => {
                let parts = [position.x, position.y, position.turn];
                assert_eq!(parts.map(|part| Ok(part.to_bits())), decimals);
            }
            Err(number) => assert_eq!(Some(number), refusal),
        }
    }
}
