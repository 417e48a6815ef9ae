//! Plays a script of the program hotline: project text, a line `%%` and commands on standard input, what each answers on
//! standard output (docs/use/PROGRAM.md). What an edit would cost is asked before it is carried out.

use std::error::Error;
use std::io::{self, Read, Write};
use zangjulf::{Arrival, BlockOutcomeKind, Dir, Edit, Fault, Line, Outcome, OutcomeKind, FRAMES, IMAGE};

type Printed = Result<(), Box<dyn Error>>;

fn number(word: &str) -> Result<u32, Box<dyn Error>> {
    Ok(match word.strip_prefix("0x") {
        Some(digits) => u32::from_str_radix(digits, 16)?,
        None => word.parse()?,
    })
}

fn hex(bytes: &[u8]) -> String {
    bytes.iter().map(|byte| format!("{byte:02x}")).collect()
}

fn bytes_in(word: &str) -> Result<Vec<u8>, Box<dyn Error>> {
    let pairs = (0..word.len() / 2).map(|i| u8::from_str_radix(&word[2 * i..2 * i + 2], 16));
    Ok(pairs.collect::<Result<_, _>>()?)
}

fn layout(line: &Line, out: &mut impl Write) -> Printed {
    writeln!(out, "epoch {}", line.epoch())?;
    for task in 0..8 {
        let mut number = 0;
        while let Some(datagram) = line.datagram(task, number) {
            if number == 0 {
                let sizes = line.image_sizes(task);
                writeln!(out, "task {task} parts {} {}", sizes.outputs, sizes.inputs)?;
            }
            let (address, length, expected) = (datagram.address, datagram.length, datagram.expected);
            writeln!(out, "datagram {number} address {address:#010x} length {length} expected {expected}")?;
            number += 1;
        }
    }
    Ok(())
}

fn regs(line: &Line, station: u16, out: &mut impl Write) -> Printed {
    line.position(station)?;
    let mut bytes = [0; 16];
    for number in 0.. {
        let Some(block) = line.block(station, number, &mut bytes)? else { break };
        // sync managers begin at 0x0800, 8 bytes each; FMMUs at 0x0600, 16 bytes each
        let (word, index) = match number % 2 {
            0 => ("sm", (block.start - 0x0800) / 8),
            _ => ("fmmu", (block.start - 0x0600) / 16),
        };
        write!(out, "{word} {index} at {:#06x}:", block.start)?;
        for byte in &bytes[..block.size] {
            write!(out, " {byte:02x}")?;
        }
        writeln!(out)?;
    }
    Ok(())
}

fn place(line: &Line, variable: u32, out: &mut impl Write) -> Printed {
    let Some(place) = line.place(variable) else { return Ok(writeln!(out, "none")?) };
    let dir = if place.dir == Dir::In { "in" } else { "out" };
    let (task, datagram, bit, bits) = (place.task, place.datagram, place.bit, place.bits);
    Ok(writeln!(out, "var {variable} task {task} datagram {datagram} bit {bit} bits {bits} dir {dir}")?)
}

/// The serial from which sendings are of the epoch that the edit begins is left in `first`.
fn edit(line: &mut Line, edit: Edit<'_>, first: &mut u64, out: &mut impl Write) -> Printed {
    let asked = line.cost(&edit);
    let cost = line.edit(&edit);
    assert_eq!(asked, cost, "an edit does what it was told to cost");
    let cost = cost?;
    *first = line.next_serial();
    Ok(writeln!(out, "epoch {} recut {} moved {}", cost.epoch, cost.recut, cost.moved)?)
}

fn outcome(it: Outcome, out: &mut impl Write) -> Printed {
    match it.kind {
        OutcomeKind::Inputs => writeln!(out, "inputs {} {}", it.task, it.datagram)?,
        OutcomeKind::WrongCount => writeln!(out, "wrong count {} {}", it.expected, it.got)?,
        OutcomeKind::SentAgain => writeln!(out, "stale")?,
    }
    Ok(())
}

fn arrive(line: &mut Line, bytes: &[u8], out: &mut impl Write) -> Printed {
    match line.arrive(bytes)? {
        Arrival::Stale { .. } => writeln!(out, "stale")?,
        Arrival::Tasks { mut outcomes, .. } => outcomes.try_for_each(|it| outcome(it, out))?,
        // a command sends one block at a time
        Arrival::Blocks { blocks, .. } => {
            for block in blocks {
                let is_written = block.kind == BlockOutcomeKind::Written;
                writeln!(out, "write {}", if is_written { "done" } else { "missed" })?;
            }
        }
    }
    Ok(())
}

/// What a task reads of sendings from a serial on: the program prints the data of the present epoch alone.
fn read(line: &Line, task: u8, first: u64, out: &mut impl Write) -> Printed {
    let mut data = vec![0; IMAGE];
    let image = line.read(task, &mut data)?;
    writeln!(out, "epoch {}", image.epoch)?;
    for number in 0..image.datagrams as u8 {
        let datagram = line.datagram(task, number).ok_or("a datagram is missing")?;
        let at = usize::from(datagram.offset);
        match image.serial(number) {
            Some(serial) if serial >= first => writeln!(out, "slot {number} {}", hex(&image.bytes[at..at + usize::from(datagram.length)]))?,
            _ => writeln!(out, "slot {number} none")?,
        }
    }
    Ok(())
}

/// A refusal, as the program prints it.
fn refused(fault: &Fault, out: &mut impl Write) -> Printed {
    write!(out, "refused {} {}", fault.number(), fault.name())?;
    match fault {
        Fault::TooManyDatagrams(task) => write!(out, " {task}")?,
        _ => {}
    }
    Ok(writeln!(out)?)
}

/// The program sends no task while a block is owed, and doesn't wait for slaves outside the line: they are unplugged.
fn send(line: &mut Line, tasks: &[u8], frames: &mut [u8], out: &mut impl Write) -> Printed {
    if tasks.iter().any(|task| *task > 7) {
        return Err(Fault::NoSuchTask.into());
    }
    if line.owed() > 0 {
        return Ok(writeln!(out, "refused 17 Unprogrammed {}", line.owed())?);
    }
    for task in tasks {
        while let Some(station) = line.held_by(*task, 0) {
            line.unplugged(station)?;
        }
    }
    let sent = line.send(tasks, frames)?;
    if sent.frames.clone().next().is_none() {
        writeln!(out, "no frame")?;
    }
    for (number, frame) in sent.frames.enumerate() {
        writeln!(out, "sent {}: {}", sent.first_serial + number as u64, hex(frame))?;
    }
    Ok(())
}

fn run(line: &mut Line, words: &[&str], first: &mut u64, frames: &mut [u8], out: &mut impl Write) -> Printed {
    let serial = line.next_serial();
    match words {
        ["layout"] => layout(line, out),
        ["regs", station] => regs(line, number(station)? as u16, out),
        ["show", task, _] if number(task)? > 7 => Err(Fault::NoSuchTask.into()),
        ["show", task, datagram] => match line.preview(number(task)? as u8, number(datagram)? as u8, frames)? {
            Some(frame) => Ok(writeln!(out, "frame {serial}: {}", hex(frame))?),
            None => Ok(writeln!(out, "none")?),
        },
        ["place", variable] => place(line, number(variable)?, out),
        ["connect", alias] => edit(line, Edit::Connect(number(alias)? as u16), first, out),
        ["disconnect", alias] => edit(line, Edit::Disconnect(number(alias)? as u16), first, out),
        ["remap", station, area, pdos @ ..] => {
            let pdos = pdos.iter().map(|pdo| Ok(number(pdo)? as u16)).collect::<Result<Vec<_>, Box<dyn Error>>>()?;
            edit(line, Edit::Remap { station: number(station)? as u16, area: number(area)? as u8, pdos: &pdos }, first, out)
        }
        ["move", station, area, task] => {
            let (station, area, task) = (number(station)? as u16, number(area)? as u8, number(task)? as u8);
            edit(line, Edit::MoveArea { station, area, task }, first, out)
        }
        ["write"] => Ok(writeln!(out, "sent {serial}: {}", hex(line.next_write(frames)?.frame))?),
        ["send", tasks @ ..] => {
            let tasks = tasks.iter().map(|task| Ok(number(task)? as u8)).collect::<Result<Vec<_>, Box<dyn Error>>>()?;
            send(line, &tasks, frames, out)
        }
        ["arrive", word] => arrive(line, &bytes_in(word)?, out),
        ["read", task] => read(line, number(task)? as u8, *first, out),
        _ => Err("bad command".into()),
    }
}

fn main() -> Printed {
    let mut input = Vec::new();
    io::stdin().read_to_end(&mut input)?;
    let text = String::from_utf8(input)?;
    let (project, commands) = text.split_once("\n%%\n").ok_or("there is no line %%")?;
    let mut line = Line::open(format!("{project}\n").as_bytes())?;
    let (mut frames, mut first) = (vec![0; FRAMES], 0);
    let mut out = io::stdout().lock();
    for command in commands.lines() {
        let words: Vec<&str> = command.split(' ').filter(|word| !word.is_empty()).collect();
        if words.is_empty() {
            continue;
        }
        if let Err(error) = run(&mut line, &words, &mut first, &mut frames, &mut out) {
            refused(error.downcast_ref::<Fault>().ok_or_else(|| error.to_string())?, &mut out)?;
        }
    }
    Ok(())
}
