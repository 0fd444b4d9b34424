"""What the benchmarks share: a scratch repository with the crates that are measured and a program over them, the script
program proved and in plain Rust, and clocks."""

import os
import pathlib
import shutil
import statistics
import subprocess
import sys
import tempfile
import time

TOP = pathlib.Path(__file__).resolve().parent.parent


def lines_of_crates():
    """The lines of crates.txt, by crate."""
    lines = [line for line in (TOP / "crates.txt").read_text().splitlines() if line and not line.startswith("#")]
    return {line.split(":")[0].split(" ")[0]: line for line in lines}


def lay_out(folder, crates):
    """Copies the crates into a scratch repository, without their must-fail edits."""
    for name in crates:
        passed_over = shutil.ignore_patterns("out", "must-fail")
        shutil.copytree(TOP / "crates" / name, folder / "crates" / name, ignore=passed_over, dirs_exist_ok=True)
    shutil.copy(TOP / "HANDLES", folder / "HANDLES")
    lines = lines_of_crates()
    (folder / "crates.txt").write_text("".join(f"{lines[name]}\n" for name in crates))


def add_program(folder, here, program, stands_on):
    """Copies a program over crates that are laid out."""
    # Its files end in .txt here, since the gate requires that every file of code is of a crate that it proves.
    for file in (here / program).rglob("*.txt"):
        to = folder / "crates" / program / file.relative_to(here / program).with_suffix("")
        to.parent.mkdir(parents=True, exist_ok=True)
        shutil.copy(file, to)
    with open(folder / "crates.txt", "a") as lines:
        lines.write(f"{program}: {stands_on}\n")


def prove(folder, program):
    """The program, proved and built. The kit doesn't prove again what passed on this machine with the same files."""
    told = folder / "told"
    with open(told, "w") as target:
        done = subprocess.run(["rt", "ci"], cwd=folder, stdin=subprocess.DEVNULL, stdout=target, stderr=subprocess.STDOUT)
    if done.returncode != 0:
        sys.exit("".join(told.read_text().splitlines(keepends=True)[-20:]))
    return folder / "crates" / program / "out" / program


def build(folder, here, program, stands_on, crates):
    """The program, proved and built, and the one in plain Rust."""
    lay_out(folder, crates)
    add_program(folder, here, program, stands_on)
    proved = prove(folder, program)
    plain = folder / "plain"
    subprocess.run(["rustc", "--edition=2021", "-Copt-level=3", "-Ctarget-cpu=x86-64-v2", "-o", plain, here / "plain.rs"], check=True)
    return proved, plain


def seconds(program, line):
    """How long a run takes, and what it prints."""
    start = time.perf_counter()
    said = subprocess.run([program], input=line + "\n", capture_output=True, text=True, check=True).stdout
    return time.perf_counter() - start, said


def compare(here, program, crates, works, rounds, stands_on=None):
    """Builds a program and the one in plain Rust, runs both on each line of work in turn, and prints a table of their times.
    Without `stands_on` the program depends on all the crates."""
    folder = pathlib.Path(sys.argv[1] if len(sys.argv) > 1 else tempfile.mkdtemp(prefix=f"{program}_"))
    proved, plain = build(folder, here, program, stands_on or " ".join(crates), crates)
    print(f"{time.strftime('%Y-%m-%d')}, {os.cpu_count()} processors, {rounds} runs each, in turn")
    print("| Work | proved, best (s) | plain Rust, best (s) | ratio of the best | ratio of the medians |")
    print("|---|---|---|---|---|")
    for work in works:
        ours, theirs = [], []
        for _ in range(rounds):
            one, said = seconds(proved, work)
            other, told = seconds(plain, work)
            assert said == told, (said, told)
            ours.append(one)
            theirs.append(other)
        medians = statistics.median(theirs) / statistics.median(ours)
        print(f"| {work} | {min(ours):.3f} | {min(theirs):.3f} | {min(theirs) / min(ours):.2f} | {medians:.2f} |", flush=True)


def script_program():
    """The repository's program, proved and built, and its word for a script."""
    lines = lines_of_crates()
    crates = ["raid_bench"]
    for name in crates:
        crates += [each for each in lines[name].split(":")[1].split() if each in lines and each not in crates]
    folder = pathlib.Path(tempfile.mkdtemp(prefix="raid_bench_"))
    lay_out(folder, crates)
    return [prove(folder, "raid_bench"), "script"]


def plain_program(folder):
    """The script program in plain Rust, built in the folder."""
    plain = folder / "plain"
    source = TOP / "bench" / "script" / "plain.rs"
    subprocess.run(["rustc", "--edition=2024", "-Copt-level=3", "-Ctarget-cpu=x86-64-v2", "-o", plain, source], check=True)
    return [plain]


def processor_seconds(program, script, answers):
    """Processor seconds of one run, whose answers go to a file."""
    with open(script) as source, open(answers, "w") as target:
        child = subprocess.Popen(program, stdin=source, stdout=target)
        _, status, used = os.wait4(child.pid, 0)
    child.returncode = status
    if status != 0:
        sys.exit(f"{program}: status {status}")
    return used.ru_utime + used.ru_stime


def a_round(programs, made, rounds, times, folder, of):
    """Microseconds a round by each program: the difference of a script of `rounds` rounds and one of three times as many, each
    by its best run. The programs must give the same answers."""
    best = {program: {} for program in programs}
    script, answers = folder / "script", folder / "answers"
    for many in (rounds, 3 * rounds):
        script.write_text("\n".join(made(many)) + "\n")
        said = set()
        for _ in range(times):
            for program, words in programs.items():
                used = processor_seconds(words, script, answers)
                best[program][many] = min(used, best[program].get(many, used))
                said.add(answers.read_bytes())
        if len(said) != 1:
            sys.exit(f"{of}: the programs differ")
    return {program: (found[3 * rounds] - found[rounds]) / (2 * rounds) * 1e6 for program, found in best.items()}
