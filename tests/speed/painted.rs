//! `painted PROGRAM ADDRESS INPUT`: how much stack the calls of one function take. The program runs on the input. Each time that it comes
//! to the function at this address (as `nm` prints it), the stack below is painted; when the function returns, the paint that is gone
//! tells how deep the stack went. Prints the octets of each call on a line, its return address among them. For Linux on x86-64.
//!
//! What a frame takes and does not write is not seen below the last octet that is written.

use std::ffi::{c_int, c_long, c_void};
use std::fs::{read_to_string, File};
use std::io::{Error, Result};
use std::os::unix::fs::FileExt;
use std::os::unix::process::CommandExt;
use std::process::{Command, ExitCode, Stdio};
use std::ptr::null_mut;

// requests of ptrace and places among its registers (sys/ptrace.h, sys/user.h)
const TRACE_ME: c_int = 0;
const CONTINUE: c_int = 7;
const STEP: c_int = 9;
const GET_REGISTERS: c_int = 12;
const SET_REGISTERS: c_int = 13;
const RIP: usize = 16;
const RSP: usize = 19;
const SIGTRAP: c_int = 5;

/// The instruction that stops the program.
const STOP: [u8; 1] = [0xcc];
/// How much of the stack is painted, in octets, and with what.
const DEPTH: u64 = 1 << 20;
const PAINT: u8 = 0xa5;

extern "C" {
    fn ptrace(request: c_int, id: c_int, address: *mut c_void, data: *mut c_void) -> c_long;
    fn waitpid(id: c_int, status: *mut c_int, options: c_int) -> c_int;
}

/// A process that is traced and stands still, and its memory.
struct Traced {
    id: c_int,
    memory: File,
}

fn done(answer: c_long) -> Result<()> {
    if answer < 0 {
        return Err(Error::last_os_error());
    }
    Ok(())
}

/// Waits until the process stops by a trap: true, or ends well: false.
fn stopped(id: c_int) -> Result<bool> {
    let mut status = 0;
    // SAFETY: the pointer is to a number that is written.
    done(unsafe { waitpid(id, &mut status, 0) }.into())?;
    match (status & 0x7f, status >> 8 & 0xff) {
        (0, 0) => Ok(false),
        (0x7f, SIGTRAP) => Ok(true),
        _ => Err(Error::other(format!("the program ended or stopped with {status:#x}"))),
    }
}

impl Traced {
    /// Starts the program, which stands still before its first instruction.
    fn start(program: &str, input: &str) -> Result<Traced> {
        let mut command = Command::new(program);
        command.stdin(File::open(input)?).stdout(Stdio::null());
        // SAFETY: the call between fork and exec takes no pointer and no lock.
        unsafe { command.pre_exec(|| done(ptrace(TRACE_ME, 0, null_mut(), null_mut()))) };
        let id = command.spawn()?.id() as c_int;
        stopped(id)?;
        let memory = File::options().read(true).write(true).open(format!("/proc/{id}/mem"))?;
        Ok(Traced { id, memory })
    }

    /// Goes on, by one instruction or to the next stop; false where the program has ended.
    fn go(&self, request: c_int) -> Result<bool> {
        // SAFETY: the request takes no pointer.
        done(unsafe { ptrace(request, self.id, null_mut(), null_mut()) })?;
        stopped(self.id)
    }

    fn registers(&self) -> Result<[u64; 27]> {
        let mut registers = [0; 27];
        // SAFETY: the array has the size of the registers that are written.
        done(unsafe { ptrace(GET_REGISTERS, self.id, null_mut(), registers.as_mut_ptr().cast()) })?;
        Ok(registers)
    }

    fn set(&self, mut registers: [u64; 27]) -> Result<()> {
        // SAFETY: the array has the size of the registers that are read.
        done(unsafe { ptrace(SET_REGISTERS, self.id, null_mut(), registers.as_mut_ptr().cast()) })
    }

    /// Goes on to the instruction at this address, which is there again afterwards; false where the program ends before.
    fn go_to(&self, at: u64) -> Result<bool> {
        let mut kept = [0];
        self.memory.read_exact_at(&mut kept, at)?;
        self.memory.write_all_at(&STOP, at)?;
        if !self.go(CONTINUE)? {
            return Ok(false);
        }
        self.memory.write_all_at(&kept, at)?;
        let mut registers = self.registers()?;
        registers[RIP] = at;
        self.set(registers)?;
        Ok(true)
    }

    /// Has the process touch the octets so far below its stack pointer, so that the system gives it the stack down to there.
    fn grow(&self, at: u64) -> Result<()> {
        // or qword ptr [rsp - DEPTH], 0
        let mut touch = [0x48, 0x83, 0x8c, 0x24, 0, 0, 0, 0, 0];
        touch[4..8].copy_from_slice(&(-(DEPTH as i32)).to_le_bytes());
        let mut kept = [0; 9];
        self.memory.read_exact_at(&mut kept, at)?;
        self.memory.write_all_at(&touch, at)?;
        let registers = self.registers()?;
        self.go(STEP)?;
        self.memory.write_all_at(&kept, at)?;
        self.set(registers)
    }

    /// The octets that the call takes at whose first instruction the process stands. The process stands behind it afterwards.
    fn depth(&self, at: u64) -> Result<u64> {
        let top = self.registers()?[RSP];
        self.grow(at)?;
        self.memory.write_all_at(&vec![PAINT; DEPTH as usize], top - DEPTH)?;
        let mut back = [0; 8];
        self.memory.read_exact_at(&mut back, top)?;
        if !self.go_to(u64::from_le_bytes(back))? {
            return Err(Error::other("the program ended in the call"));
        }
        let mut found = vec![0; DEPTH as usize];
        self.memory.read_exact_at(&mut found, top - DEPTH)?;
        let painted = found.iter().take_while(|octet| **octet == PAINT).count() as u64;
        Ok(DEPTH - painted + 8)
    }
}

/// Where the program's first octet is loaded.
fn base(id: c_int) -> Result<u64> {
    let maps = read_to_string(format!("/proc/{id}/maps"))?;
    let start = maps.split('-').next().unwrap_or_default();
    u64::from_str_radix(start, 16).map_err(Error::other)
}

/// The octets of each call.
fn depths(program: &str, address: &str, input: &str) -> Result<Vec<u64>> {
    let address = u64::from_str_radix(address, 16).map_err(Error::other)?;
    let traced = Traced::start(program, input)?;
    let at = base(traced.id)? + address;
    let mut depths = Vec::new();
    while traced.go_to(at)? {
        depths.push(traced.depth(at)?);
    }
    Ok(depths)
}

fn main() -> ExitCode {
    let words: Vec<String> = std::env::args().skip(1).collect();
    let [program, address, input] = words.as_slice() else {
        eprintln!("painted PROGRAM ADDRESS INPUT");
        return ExitCode::from(2);
    };
    match depths(program, address, input) {
        Ok(depths) => {
            depths.iter().for_each(|octets| println!("{octets}"));
            ExitCode::SUCCESS
        }
        Err(error) => {
            eprintln!("{program}: {error}");
            ExitCode::FAILURE
        }
    }
}
