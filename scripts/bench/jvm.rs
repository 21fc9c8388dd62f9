//! An interpreter of the instructions that scripts/bench-jvm runs, as one writes it by hand: a `match` on the opcode
//! in a loop, over tagged values on a stack.
//!
//! `jvm CODE FILE LEAVES TIMES`: the code of a method of ints in hexadecimal digits, a file of leaves, 8 bytes each, the
//! highest byte first, how many leaves an input has, and how often all inputs are run. Prints a line for each run.

use std::io::Write;

const STEPS: u64 = 200_000;
const ELEMENTS: usize = 65_536;
const MAX_STACK: usize = 8;

#[derive(Clone, Copy)]
enum Value {
    Int(i32),
    Array(usize),
}

enum Stop {
    WrongOperand,
    BadCode,
    ArrayIndex,
    NegativeSize,
    MoreElements,
    MoreSteps,
}

struct Machine {
    locals: Vec<Option<Value>>,
    stack: Vec<Value>,
    arrays: Vec<Vec<i32>>,
    made: usize,
}

impl Machine {
    fn push(&mut self, value: Value) -> Result<(), Stop> {
        if self.stack.len() == MAX_STACK {
            return Err(Stop::BadCode);
        }
        self.stack.push(value);
        Ok(())
    }

    fn int(&mut self) -> Result<i32, Stop> {
        match self.stack.pop() {
            Some(Value::Int(number)) => Ok(number),
            _ => Err(Stop::WrongOperand),
        }
    }

    fn array(&mut self) -> Result<usize, Stop> {
        match self.stack.pop() {
            Some(Value::Array(number)) => Ok(number),
            _ => Err(Stop::WrongOperand),
        }
    }

    fn load(&mut self, local: usize) -> Result<(), Stop> {
        match self.locals.get(local) {
            Some(Some(value)) => self.push(*value),
            Some(None) => Err(Stop::WrongOperand),
            None => Err(Stop::BadCode),
        }
    }

    fn store(&mut self, local: usize, value: Value) -> Result<(), Stop> {
        *self.locals.get_mut(local).ok_or(Stop::BadCode)? = Some(value);
        Ok(())
    }

    fn binary(&mut self, apply: fn(i32, i32) -> i32) -> Result<(), Stop> {
        let second = self.int()?;
        let first = self.int()?;
        self.push(Value::Int(apply(first, second)))
    }

    fn new_array(&mut self) -> Result<(), Stop> {
        let count = usize::try_from(self.int()?).map_err(|_| Stop::NegativeSize)?;
        if self.made + count > ELEMENTS {
            return Err(Stop::MoreElements);
        }
        self.made += count;
        self.arrays.push(vec![0; count]);
        self.push(Value::Array(self.arrays.len() - 1))
    }

    fn run(&mut self, code: &[u8], arguments: &[i32]) -> Result<i32, Stop> {
        self.locals.clear();
        self.locals
            .extend(arguments.iter().map(|argument| Some(Value::Int(*argument))));
        self.locals.resize(4, None);
        self.stack.clear();
        self.arrays.clear();
        self.made = 0;
        let byte = |at: usize| code.get(at).copied().ok_or(Stop::BadCode);
        let short =
            |at: usize| Ok::<i32, Stop>(i32::from(i16::from_be_bytes([byte(at)?, byte(at + 1)?])));
        let target = |pc: usize| -> Result<usize, Stop> {
            let place = pc as i32 + short(pc + 1)?;
            usize::try_from(place)
                .ok()
                .filter(|place| *place < code.len())
                .ok_or(Stop::BadCode)
        };
        let mut pc = 0;
        for _ in 0..STEPS {
            match byte(pc)? {
                op @ 2..=8 => {
                    self.push(Value::Int(i32::from(op) - 3))?;
                    pc += 1;
                }
                0x10 => {
                    self.push(Value::Int(i32::from(byte(pc + 1)? as i8)))?;
                    pc += 2;
                }
                0x11 => {
                    self.push(Value::Int(short(pc + 1)?))?;
                    pc += 3;
                }
                op @ 0x1a..=0x1d => {
                    self.load(usize::from(op - 0x1a))?;
                    pc += 1;
                }
                op @ 0x2a..=0x2d => {
                    self.load(usize::from(op - 0x2a))?;
                    pc += 1;
                }
                0x2e => {
                    let index = self.int()?;
                    let array = self.array()?;
                    let element = self.arrays[array].get(index as u32 as usize);
                    let element = *element.ok_or(Stop::ArrayIndex)?;
                    self.push(Value::Int(element))?;
                    pc += 1;
                }
                op @ 0x3b..=0x3e => {
                    let value = Value::Int(self.int()?);
                    self.store(usize::from(op - 0x3b), value)?;
                    pc += 1;
                }
                op @ 0x4b..=0x4e => {
                    let value = Value::Array(self.array()?);
                    self.store(usize::from(op - 0x4b), value)?;
                    pc += 1;
                }
                0x4f => {
                    let value = self.int()?;
                    let index = self.int()?;
                    let array = self.array()?;
                    let element = self.arrays[array].get_mut(index as u32 as usize);
                    *element.ok_or(Stop::ArrayIndex)? = value;
                    pc += 1;
                }
                0x60 => {
                    self.binary(i32::wrapping_add)?;
                    pc += 1;
                }
                0x64 => {
                    self.binary(i32::wrapping_sub)?;
                    pc += 1;
                }
                0x68 => {
                    self.binary(i32::wrapping_mul)?;
                    pc += 1;
                }
                0x7e => {
                    self.binary(|first, second| first & second)?;
                    pc += 1;
                }
                0x82 => {
                    self.binary(|first, second| first ^ second)?;
                    pc += 1;
                }
                0x84 => {
                    let local = usize::from(byte(pc + 1)?);
                    let amount = i32::from(byte(pc + 2)? as i8);
                    match self.locals.get_mut(local) {
                        Some(Some(Value::Int(number))) => *number = number.wrapping_add(amount),
                        Some(_) => return Err(Stop::WrongOperand),
                        None => return Err(Stop::BadCode),
                    }
                    pc += 3;
                }
                0xa2 => {
                    let second = self.int()?;
                    let first = self.int()?;
                    pc = if first >= second { target(pc)? } else { pc + 3 };
                }
                0xa7 => pc = target(pc)?,
                0xac => return self.int(),
                0xbc if byte(pc + 1)? == 10 => {
                    self.new_array()?;
                    pc += 2;
                }
                _ => return Err(Stop::BadCode),
            }
        }
        Err(Stop::MoreSteps)
    }
}

fn name(stop: Stop) -> &'static str {
    match stop {
        Stop::WrongOperand => "refused: wrong operand",
        Stop::BadCode => "refused: bad code",
        Stop::ArrayIndex => "java.lang.ArrayIndexOutOfBoundsException",
        Stop::NegativeSize => "java.lang.NegativeArraySizeException",
        Stop::MoreElements => "more elements",
        Stop::MoreSteps => "more steps",
    }
}

fn main() {
    let words: Vec<String> = std::env::args().skip(1).collect();
    let digit = |at: usize| u8::from_str_radix(&words[0][at..at + 2], 16).unwrap();
    let code: Vec<u8> = (0..words[0].len() / 2).map(|k| digit(2 * k)).collect();
    let count: usize = words[2].parse().unwrap();
    let times: u32 = words[3].parse().unwrap();
    let mut out = std::io::BufWriter::new(std::io::stdout());
    for _ in 0..times {
        let leaves = std::fs::read(&words[1]).unwrap();
        let mut machine = Machine {
            locals: vec![],
            stack: vec![],
            arrays: vec![],
            made: 0,
        };
        for input in leaves.chunks_exact(8 * count) {
            let leaf = |leaf: &[u8]| i64::from_be_bytes(leaf.try_into().unwrap()) as i32;
            let arguments: Vec<i32> = input.chunks_exact(8).map(leaf).collect();
            match machine.run(&code, &arguments) {
                Ok(number) => writeln!(out, "{} ", number as u32).unwrap(),
                Err(stop) => writeln!(out, "{}", name(stop)).unwrap(),
            }
        }
    }
}
