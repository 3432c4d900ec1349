//! Any sequence of a builder's calls, under the conditions of the theorem `any-building-calls` and no others: the areas start with no memory at
//! all, and at each call they are other memory, of other lengths, that holds what the call before left in the slots which the record
//! counts; behind them lies noise.
mod model;

use idzulgar::calls::{self, BuilderRecord};
use idzulgar::{Column, Value};
use model::memory::{needs, parts, unfit, Memory};
use model::Chance;

/// Finish, estimate and should_finish say what the accepted rows say, and hand the builder back.
fn ask(
    column: Column,
    (target, key_target): (usize, usize),
    record: BuilderRecord,
    memory: &Memory,
    accepted: &[Value],
    next: &Value,
    chance: &mut Chance,
) {
    let block = model::block_of(column, accepted);
    let mut out = vec![0x5a; (block.len() + 3).saturating_sub(chance.below(6) as usize)];
    let before = out.clone();
    let Memory { items, ends, flags, counts, keys, lens } = memory;
    let finished = calls::finish(record, items, ends, flags, counts, keys, lens, &mut out);
    assert_eq!(finished.builder, record);
    if out.len() < block.len() {
        assert_eq!((finished.number, finished.len, out), (4, 0, before));
    } else {
        assert_eq!((finished.number, finished.len), (0, block.len()));
        assert_eq!(out[..block.len()], block[..], "{column:?} {accepted:?}");
        assert_eq!(out[block.len()..], before[block.len()..]);
    }
    let estimated = calls::estimate(record);
    assert_eq!((estimated.number, estimated.size, estimated.builder), (0, model::estimate(column, accepted), record));
    let (present, _, bytes) = parts(next);
    let asked = calls::should_finish(record, present, bytes.len());
    assert_eq!((asked.number, asked.builder), (0, record));
    assert_eq!(asked.full, model::should_finish(column, target, key_target, accepted, next));
}

#[test]
fn calls_on_memory_that_starts_empty_and_is_another_at_each_call() {
    let mut chance = Chance::new(13);
    let (mut at_once, mut second, mut refused) = (0u32, 0u32, 0u32);
    for round in 0..5_500 {
        let column = model::column(round % model::PAIRS, 1 + chance.below(20));
        let (kind, encoding, width) = column.numbers();
        let rows = model::some_rows(column.kind, 40, &mut chance);
        let target = chance.below(300) as usize;
        let (creation, key_target) = if chance.one_in(2) {
            (calls::create(kind, encoding, width, target), target)
        } else {
            let key_target = chance.below(80) as usize;
            (calls::create_with_key_target(kind, encoding, width, target, key_target), key_target)
        };
        let targets = (target, key_target);
        let mut record = creation.builder;
        let mut memory = Memory::none();
        let mut accepted: Vec<Value> = vec![];
        for value in &rows {
            let few = std::array::from_fn(|_| chance.below(3) as usize);
            memory = memory.moved(column, &record, few, &mut chance);
            ask(column, targets, record, &memory, &accepted, value, &mut chance);
            let unfit = unfit(column.kind, &mut chance);
            if let Some(bad) = unfit.filter(|_| chance.one_in(4)) {
                let before = memory.clone();
                let (present, value, bytes) = parts(&bad);
                let answer = calls::append(record, memory.lent(), present, value, bytes);
                assert_eq!((answer.number, answer.builder, &memory), (2, record, &before), "{column:?} {bad:?}");
                refused += 1;
            }
            let (before, lent) = (memory.clone(), memory.lengths());
            let (present, number, bytes) = parts(value);
            let mut answer = calls::append(record, memory.lent(), present, number, bytes);
            if answer.number == 4 {
                assert_eq!((answer.builder, &memory), (record, &before));
                let one_more = [bytes.len().max(8).max(width), 1, 1, 1, 1, 1];
                memory = memory.moved(column, &record, one_more, &mut chance);
                answer = calls::append(record, memory.lent(), present, number, bytes);
                assert_eq!(answer.number, 0, "{column:?} {value:?}");
                // 4 was right: an area was below the need of the list with the row
                assert!(needs(column, &answer.builder).iter().zip(lent).any(|(need, len)| len < *need));
                second += 1;
            } else {
                assert_eq!(answer.number, 0, "{column:?} {value:?}");
                // and 0 was: none was
                assert!(needs(column, &answer.builder).iter().zip(lent).all(|(need, len)| *need <= len));
                at_once += 1;
            }
            record = answer.builder;
            accepted.push(value.clone());
        }
        ask(column, targets, record, &memory, &accepted, &Value::Null, &mut chance);
        assert_eq!(accepted, rows);
    }
    assert!(at_once > 1_000 && second > 1_000 && refused > 1_000, "{at_once} {second} {refused}");
}
