//! A plain loop over the bytes of a compiled script, to compare the machine with: it takes the
//! bytes as they are, without a proof that they may be run, and knows the operations of one loop.
//! `rustc -O plain_loop.rs`, and `plain_loop N` runs so many rounds.
use std::env;
use std::hint::black_box;

#[derive(Clone, Debug)]
enum Value {
    Int(i32),
    Bool(bool),
    Str(String),
    Invalid,
}

enum Fault {
    Stack,
    Operation,
    Turns,
}

fn to_int(value: &Value) -> Option<i32> {
    match value {
        Value::Int(number) => Some(*number),
        Value::Bool(truth) => Some(i32::from(*truth)),
        Value::Str(text) => text.parse().ok(),
        Value::Invalid => None,
    }
}

fn to_bool(value: &Value) -> Option<bool> {
    match value {
        Value::Int(number) => Some(*number != 0),
        Value::Bool(truth) => Some(*truth),
        Value::Str(text) => Some(!text.is_empty()),
        Value::Invalid => None,
    }
}

fn to_str(value: &Value) -> String {
    match value {
        Value::Int(number) => number.to_string(),
        Value::Bool(truth) => truth.to_string(),
        Value::Str(text) => text.clone(),
        Value::Invalid => "invalid".to_string(),
    }
}

fn add(left: Value, right: Value) -> Value {
    match (left, right) {
        (Value::Str(mut left), right) => {
            left.push_str(&to_str(&right));
            Value::Str(left)
        }
        (left, Value::Str(right)) => Value::Str(to_str(&left) + &right),
        (left, right) => match (to_int(&left), to_int(&right)) {
            (Some(left), Some(right)) => left.checked_add(right).map_or(Value::Invalid, Value::Int),
            _ => Value::Invalid,
        },
    }
}

fn is_less(left: Value, right: Value) -> Value {
    match (left, right) {
        (Value::Invalid, _) | (_, Value::Invalid) => Value::Invalid,
        (Value::Str(left), right) => Value::Bool(left < to_str(&right)),
        (left, Value::Str(right)) => Value::Bool(to_str(&left) < right),
        (left, right) => match (to_int(&left), to_int(&right)) {
            (Some(left), Some(right)) => Value::Bool(left < right),
            _ => Value::Invalid,
        },
    }
}

fn run(code: &[u8], variables: &mut [Value], turns: &mut u64) -> Result<Value, Fault> {
    let mut stack: Vec<Value> = Vec::new();
    let mut place = 0;
    while place < code.len() {
        let operation = code[place];
        place += 1;
        match operation {
            0xE0..=0xFF => stack.push(variables[usize::from(operation & 0x1F)].clone()),
            0x2F | 0x20 => {
                let right = stack.pop().ok_or(Fault::Stack)?;
                let left = stack.pop().ok_or(Fault::Stack)?;
                stack.push(if operation == 0x20 { add(left, right) } else { is_less(left, right) });
            }
            0xC0..=0xDF => {
                if to_bool(&stack.pop().ok_or(Fault::Stack)?) != Some(true) {
                    place += usize::from(operation & 0x1F);
                }
            }
            0x15 => stack.push(Value::Int(1)),
            0x40..=0x4F => {
                variables[usize::from(operation & 0xF)] = stack.pop().ok_or(Fault::Stack)?;
            }
            0x70..=0x77 => {
                let index = usize::from(operation & 7);
                variables[index] = add(variables[index].clone(), Value::Int(1));
            }
            0xA0..=0xBF => {
                *turns = turns.checked_sub(1).ok_or(Fault::Turns)?;
                place -= usize::from(operation & 0x1F) + 1;
            }
            0x3A => return stack.pop().ok_or(Fault::Stack),
            _ => return Err(Fault::Operation),
        }
    }
    Ok(Value::Str(String::new()))
}

fn main() {
    let rounds = env::args().nth(1).and_then(|word| word.parse().ok()).unwrap_or(0);
    // while (i < n) { sum = sum + 1; i++; } return sum;
    let code = [0xE1, 0xE0, 0x2F, 0xC6, 0xE2, 0x15, 0x20, 0x42, 0x71, 0xA9, 0xE2, 0x3A];
    let mut variables = [Value::Int(rounds), Value::Int(0), Value::Int(0)];
    match run(black_box(&code), &mut variables, &mut 4_294_967_295) {
        Ok(value) => println!("{value:?}"),
        Err(_) => println!("fault"),
    }
}
