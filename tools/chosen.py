"""Runs modules of a folder over a program, and says how long each took."""
import importlib
import os
import subprocess
import sys
import time
import types
from concurrent.futures import ThreadPoolExecutor
from dataclasses import dataclass


@dataclass
class Module:
    """What a module needs besides python3, and the words after the program if no module is named; without such words it is then left out."""

    needs: str = ""
    words: tuple = None


def outcome(module, *words):
    """The status of a module's `main`, which gives it, or yields cases: of each what it is, and what is wrong with it, if something is."""
    told = importlib.import_module(module).main(*words)
    if not isinstance(told, types.GeneratorType):
        return told
    count = wrong = 0
    for what, fault in told:
        count, wrong = count + 1, wrong + bool(fault)
        print(*[f"{what}: {'it is otherwise' if fault is True else fault}\n"] * bool(fault), sep="", end="", flush=True)
    print(f"{count} cases, {wrong} not as they should be")
    return 0 if count and not wrong else 1


def run(folder, name, words, **how):
    """Runs a module in a process of its own: whether it failed, what it printed where that is caught, and how it ended."""
    begun = time.monotonic()
    ran = subprocess.run([sys.executable, "-m", "tools.chosen", f"{folder}.{name.replace('-', '_')}", *words], **how)
    ended = f"FAILED with status {ran.returncode}" if ran.returncode else "passed"
    return ran.returncode != 0, (ran.stdout or b"").decode(), f"{name}: {ended} after {time.monotonic() - begun:.0f} s"


def main(folder, modules, jobs, program, names="", *words):
    """Runs the modules of these names, with commas between them, one after the other with the words; or so many at a time of all that have words here.

    Of these, one that fails is run once more with nothing beside it, since some wait for sockets."""
    program, named = os.path.abspath(program), names.replace(",", " ").split()
    others = [it for it in named if it not in modules]
    if others:
        sys.exit(f"{folder}/ has no {', '.join(others)}; there are {', '.join(modules)}")
    chosen = named or [it for it, module in modules.items() if module.words is not None]
    how = {} if named or jobs == 1 else {"stdout": subprocess.PIPE, "stderr": subprocess.STDOUT}
    words_of = lambda it: [program, *(words if named else modules[it].words)]
    failed = []
    with ThreadPoolExecutor(1 if named else jobs) as pool:
        runs = pool.map(lambda it: run(folder, it, words_of(it), **how), chosen)
        for name, (is_failed, text, ended) in zip(chosen, runs):
            print(text + ended, flush=True)
            failed += [name] if is_failed else []
    for name in [] if named else list(failed):
        is_failed, text, ended = run(folder, name, words_of(name), **how)
        print(f"{text}again, alone: {ended}", flush=True)
        failed = failed if is_failed else [it for it in failed if it != name]
    for name, module in modules.items():
        if not named and name not in chosen:
            print(f"{name}: left out, as it {'needs ' + module.needs if module.needs else 'takes long'}; ONLY={name} runs it")
    if failed:
        print(f"of {folder}/ failed: {', '.join(failed)}")
    return 1 if failed else 0


if __name__ == "__main__":
    sys.exit(outcome(*sys.argv[1:]))
