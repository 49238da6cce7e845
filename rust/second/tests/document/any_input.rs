//! Every input has an answer, and document 01's words on the buffers hold for
//! it.

use crate::dice::Dice;
use second::{compile, rehearse, run};

fn inputs(dice: &mut Dice) -> Vec<Vec<u8>> {
    let count = 1 + dice.roll(12);
    let ragged = dice.roll(40) as usize;
    vec![dice.records(count), dice.bytes(ragged, 256), dice.bytes(count as usize * 8, 9)]
}

#[test]
fn compiling_any_table() {
    let mut dice = Dice::new(2);
    for _ in 0..20_000 {
        for table in inputs(&mut dice) {
            let room = dice.roll(200) as usize;
            let mut code = vec![0xAA; room];
            let compiled = compile(&table, &mut code);
            let written = compiled.length as usize * 8;
            assert!(compiled.refusal <= 6);
            assert_eq!(compiled.refusal == 0, compiled.length > 0);
            assert!(code[written..].iter().all(|&byte| byte == 0xAA));
        }
    }
}

#[test]
fn running_any_code() {
    let mut dice = Dice::new(3);
    let mut seen = [0_u32; 16];
    for _ in 0..20_000 {
        for code in inputs(&mut dice) {
            let status = dice.roll(20).saturating_sub(17) as u8;
            let schedule = dice.bytes(3, 256);
            let bytes = 4_095 + dice.roll(20) as usize;
            let mut stack = vec![0xAA; bytes];
            let answer = run(status, &code, &schedule, &mut stack);
            seen[answer.refusal as usize] += 1;
            assert_eq!(answer.kind == 2, answer.refusal > 0);
            if (7..=12).contains(&answer.refusal) {
                assert!(stack.iter().all(|&byte| byte == 0xAA));
                assert_eq!((answer.steps, answer.reached), (0, 0));
            } else {
                assert!(stack[..4_096].iter().all(|&byte| byte == 0));
                assert!(stack[4_096..].iter().all(|&byte| byte == 0xAA));
                assert!(answer.steps <= 1_535);
            }
        }
    }
    assert!([0, 7, 8, 9, 10, 11, 12, 14].iter().all(|&r| seen[r] > 0));
}

#[test]
fn rehearsing_any_input() {
    let mut dice = Dice::new(4);
    for _ in 0..20_000 {
        for table in inputs(&mut dice) {
            let status = dice.roll(3) as u8;
            let announced = (table.len() + dice.roll(8) as usize / 7) as u16;
            let mut input = vec![status];
            input.extend(announced.to_le_bytes());
            input.extend(table);
            input.extend(dice.bytes(2, 256));
            for line in [rehearse(&input), rehearse(&input[1..])] {
                let first = line.split(' ').next();
                assert!(matches!(first, Some("number" | "throw" | "refused")));
                assert_eq!(line.find('\n'), Some(line.len() - 1));
            }
        }
    }
}
