#!/usr/bin/env python3
"""Measures what a step of a script costs, beside `mujs` where that is there.

usage: measure_scripts.py [--times N] [--rounds N] [--room FOLDER]

Each script is a loop that takes nearly the 100,000 steps of a handler. A program that runs it N times (50), with globals and objects of
its own each time, is built in a copy of this repository, over what earlier checks kept in it. `mujs`, an interpreter of ECMAScript (Debian's
package of that name), runs the same script as often in one go. What is printed of each is nanoseconds a step, a step being what
`es_eval` counts; the best of so many rounds (3) counts, less what a script of one statement costs. It also tells the steps, by halving what is
given until the script stops for want of them. Last it runs the worst scripts once each, and prints the seconds of each. The program is built in FOLDER, or in one that is removed again; where FOLDER has it, it is used as it is. Status: 0 where each script ended normally, 1 where one didn't.
"""

import argparse
import os
import shutil
import subprocess
import sys
import tempfile
from pathlib import Path

from measuring import least
from places import ROOT

BELOW = ["bml_bytes", "es_lexer", "es_expressions", "es_reader", "es_values", "es_date", "date_objects", "es_builtins", "es_frames", "es_shapes", "es_eval"]
NAME = "script_timer"

MAIN = """//! Runs the script on standard input as often as its word says, and tells how it ends, with how many steps.
#![tactic(auto)]

ghost use Rattle.std.specs.Prelude.{◌≤◌};

use bml_bytes::{NoMemory, Text};
use es_eval::{Globals, Outcome, StopCause, are_few_functions, run};
use es_reader::{Program, SyntaxFault, read_program};
use es_values::{Heap, RowHost};
use std::alloc::Global;
use std::env;
use std::io::{BufReader, Read};

fn once(alloc: Global, programs: &[Program], steps: u32) -> Result<Outcome, NoMemory>
    requires { steps ≤ 100000 }
{
    if programs.is_empty() || !are_few_functions(programs) {
        return Err(NoMemory);
    }
    let mut globals = Globals::new(alloc)?;
    let mut heap = Heap::new(alloc);
    let mut host = RowHost::new(alloc);
    run(programs, 0, &mut globals, &mut heap, &mut host, steps)
}

// The fewest steps with which the script isn't stopped for want of them.
fn fewest_steps(alloc: Global, programs: &[Program]) -> Result<u32, NoMemory> {
    let mut few = 0;
    let mut enough = 100_000;
    'halves: for _ in 0..17 {
        let middle = few + (enough - few) / 2;
        match once(alloc, programs, middle)? {
            Outcome::Stopped(StopCause::Budget) => few = middle,
            _ => enough = middle,
        }
    }
    Ok(enough)
}

fn word(outcome: Outcome) -> &'static str {
    match outcome {
        Outcome::Normal => "normal",
        Outcome::Ended => "ended",
        Outcome::Stopped(_) => "stopped",
    }
}

fn main(rt: HostRuntime) -> anyhow::Result<()> {
    let alloc = rt.alloc();
    let mut times: u32 = 0;
    for argument in env::args(&rt)? {
        times = argument.parse().unwrap_or(0);
    }
    let mut bytes = Vec::new(alloc);
    BufReader::new(alloc, rt.reader())?.read_to_end(&mut bytes)?;
    let text = Text::of_bytes(alloc, &bytes)?;
    let program = match read_program(alloc, &text) {
        Ok(program) => program,
        Err(SyntaxFault::NoMemory) => return Ok(Err::<(), NoMemory>(NoMemory)?),
        Err(_) => return Ok(println!(rt; "no program 0")?),
    };
    let programs = vec![in alloc; program]?;
    let mut outcome = once(alloc, &programs, 100_000)?;
    for _ in 1..times {
        outcome = once(alloc, &programs, 100_000)?;
    }
    let steps = if times == 0 { fewest_steps(alloc, &programs)? } else { 0 };
    println!(rt; "{} {steps}", word(outcome))?;
    Ok(())
}
"""

# What the proof of the loop in `fewest_steps` needs.
INVARIANT = """use Rattle.std.proofs.Common.{◌≤◌}
use Rattle.script_timer.proofs.fewest_steps.Given as goal

abbrev pub invariant-halves : goal.invariant-halves
invariant-halves l = record { order : l.few ≤ l.enough; most : l.enough ≤ 100000 }
"""

# Each takes nearly 100,000 steps.
SCRIPTS = [
    ("counting", ";;;;var i = 0; while (i < 16665) i++;"),
    ("sums and comparisons", "var s = 0; for (var i = 0; i < 5000; i++) { if (i % 3 == 1) s = s + i * 2 - 1; else s -= 1; }"),
    ("properties", "var o = new Object(); o.a = 0; o.b = 1; for (var i = 0; i < 4700; i++) { o.a = o.a + o.b; o.b = o.b; }"),
    ("new properties", "var o = new Object(); for (var i = 0; i < 7000; i++) o['p' + i] = i;"),
    ("array", "var l = new Array(); for (var i = 0; i < 4500; i++) l[i] = i; var s = 0; for (i = 0; i < 4500; i++) s += l[i];"),
    ("text that grows", "var s = ''; for (var i = 0; i < 850; i++) s += 'abcd';"),
    ("texts", "var s = 'abcdefgh'; var n = 0; for (var i = 0; i < 4900; i++) { n += s.charCodeAt(i & 7); }"),
    ("calls", "function f(a, b) { return a + b; } var s = 0; for (var i = 0; i < 5500; i++) s = f(s, i);"),
    ("nested calls", "function g(n) { return n == 0 ? 0 : g(n - 1) + 1; } var s = 0; for (var i = 0; i < 115; i++) s += g(60);"),
    ("locals", "function h() { var a = 0, b = 1, c = 2, d = 3; for (var i = 0; i < 6200; i++) { d = a + b + c; } return d; } var s = h();"),
    ("objects made", "function P(x) { this.x = x; } for (var i = 0; i < 6000; i++) { var p = new P(i); }"),
    ("delete in the order of insertion", "var o = new Object(); for (var i = 0; i < 3600; i++) o['p' + i] = i; for (i = 0; i < 3600; i++) delete o['p' + i];"),
    ("for in", "var o = new Object(); for (var i = 0; i < 4600; i++) o['p' + i] = i; var n = 0; for (var k in o) n += o[k];"),
    ("join and split", "var l = 'a,b,c,d,e,f,g,h'; for (var i = 0; i < 4500; i++) { l = l.split(',').join(','); }"),
    ("sort", "var s = 0; for (var i = 0; i < 800; i++) { var l = new Array(5, 3, 8, 1, 9, 2, 7); l.sort(); s += l[0]; }"),
]
EMPTY = ("one statement", ";")

# Each reads as much as it can without a charge, until its steps are at an end.
ELEMENTS = "var t = 'ab'; for (var i = 0; i < 17; i++) t += t; var a = t.split('');"
NAMED = "var a = new Array(); for (var i = 0; i < 3000; i++) a['p' + i] = i;"
WORST = [
    ("a.length = a.length, 2^18 elements", ELEMENTS + " while (true) a.length = a.length;"),
    ("a.length = a.length - 1", ELEMENTS + " while (true) a.length = a.length - 1;"),
    ("the same, elements in falling order", ELEMENTS + " a.length = 2 * a.length; a.reverse(); while (true) a.length = a.length - 1;"),
    ("an element far off comes and goes", ELEMENTS + " while (true) { a[300000] = 1; a.length = 262144; }"),
    ("a.length = 0", ELEMENTS + " a.length = 0;"),
    ("delete from the front", ELEMENTS + " for (i = 0; true; i++) delete a[i];"),
    ("reverse, 3,000 named properties", NAMED + " while (true) a.reverse();"),
    ("sort, 3,000 named properties", NAMED + " while (true) a.sort();"),
    ("reverse of 1,599,000 empty places", "new Array(1599000).reverse();"),
    ("sort of 1,599,000 empty places", "new Array(1599000).sort();"),
    ("join of 1,599,000 empty places", "new Array(1599000).join('');"),
    ("2^19 zeros as a number", "var t = '00'; for (var i = 0; i < 18; i++) t += t; while (true) +t;"),
    ("2^19 blanks as a number", "var t = '  '; for (var i = 0; i < 18; i++) t += t; while (true) +t;"),
    ("parseInt of 2^19 zeros", "var t = '00'; for (var i = 0; i < 18; i++) t += t; while (true) parseInt(t);"),
    ("2^19 codes as a name", "var t = 'ab'; for (var i = 0; i < 18; i++) t += t; var o = new Object(); while (true) o[t];"),
    ("the same of a property that is there", "var t = 'ab'; for (var i = 0; i < 18; i++) t += t; var o = new Object(); o[t] = 1; while (true) o[t];"),
    ("white of mixed kinds as a number", "var t = ' \\t '; for (var i = 0; i < 17; i++) t += t; while (true) +t;"),
    ("sort, 3,000 times one text of 2^18", "var t = 'ab'; for (var i = 0; i < 17; i++) t += t; var a = new Array(); for (i = 0; i < 3000; i++) a[i] = t; while (true) a.sort();"),
]


def built(room):
    """Builds the program in a copy of the crates that it stands on, unless it is there."""
    folder = f"{room}/crates/{NAME}"
    if os.path.isfile(f"{folder}/out/{NAME}"):
        return f"{folder}/out/{NAME}"
    os.makedirs(f"{room}/crates/{NAME}/src")
    for name in BELOW:
        shutil.copytree(ROOT / "crates" / name, f"{room}/crates/{name}", symlinks=True)
    lines = [it for it in (ROOT / "crates.txt").read_text().splitlines() if it.split(":")[0] in BELOW]
    below = " ".join(["anyhow", "bml_bytes", "es_reader", "es_values", "es_eval"])
    Path(f"{room}/crates.txt").write_text("\n".join([*lines, f"{NAME}: {below}"]) + "\n")
    Path(f"{room}/crates/{NAME}/src/main.rt").write_text(MAIN)
    os.makedirs(f"{room}/crates/{NAME}/proofs/fewest_steps")
    Path(f"{room}/crates/{NAME}/proofs/fewest_steps/Invariants.antt").write_text(INVARIANT)
    subprocess.run(["git", "init", "-q", room], check=True)
    ran = subprocess.run(["rt", "run", "--", "1"], cwd=folder, input=b";", stdout=subprocess.PIPE, stderr=subprocess.STDOUT, check=False)
    if not os.path.isfile(f"{folder}/out/{NAME}"):
        sys.exit(f"the program isn't built:\n{ran.stdout.decode(errors='replace')[-3000:]}")
    return f"{folder}/out/{NAME}"


def seconds(command, given, rounds):
    """Returns what the command wrote last, and its least processor seconds."""
    ran, _, processor = least(command, rounds, input=given, stdout=subprocess.PIPE, stderr=subprocess.DEVNULL, check=True)
    return ran.stdout, processor


def mujs_seconds(script, times, rounds, room):
    """Returns the same of mujs, or None."""
    if not shutil.which("mujs"):
        return None
    file = f"{room}/script.js"
    Path(file).write_text(f"for (var times_ = 0; times_ < {times}; times_++) {{ {script} }}\n")
    return seconds(["mujs", file], b"", rounds)[1]


def main():
    parser = argparse.ArgumentParser(usage="measure_scripts.py [--times N] [--rounds N] [--room FOLDER]")
    parser.add_argument("--times", type=int, default=50)
    parser.add_argument("--rounds", type=int, default=3)
    parser.add_argument("--room")
    asked = parser.parse_args()
    well = True
    with tempfile.TemporaryDirectory(prefix="script-timer-") as room:
        program = built(os.path.abspath(asked.room) if asked.room else room)
        times, rounds = max(1, asked.times), max(1, asked.rounds)
        ground = seconds([program, str(times)], EMPTY[1].encode(), rounds)[1]
        mujs_ground = mujs_seconds(EMPTY[1], times, rounds, room)
        print(f"{'script':34} {'steps':>7} {'ns a step':>10} {'mujs':>8} {'ratio':>6}")
        for name, script in SCRIPTS:
            steps = int(seconds([program, "0"], script.encode(), 1)[0].split()[1])
            wrote, took = seconds([program, str(times)], script.encode(), rounds)
            well = well and wrote.startswith(b"normal")
            nanos = (took - ground) / times / steps * 1e9
            other = mujs_seconds(script, times, rounds, room)
            theirs = (other - mujs_ground) / times / steps * 1e9 if other is not None else None
            columns = f"{theirs:8.1f} {nanos / theirs:6.2f}" if theirs else f"{'-':>8} {'-':>6}"
            print(f"{name:34} {steps:7} {nanos:10.1f} {columns}{'' if wrote.startswith(b'normal') else '  ' + wrote.decode().strip()}", flush=True)
        print(f"{'worst script':38} {'seconds':>8}")
        for name, script in WORST:
            print(f"{name:38} {seconds([program, '1'], script.encode(), 1)[1]:8.2f}", flush=True)
    return 0 if well else 1


if __name__ == "__main__":
    sys.exit(main())
