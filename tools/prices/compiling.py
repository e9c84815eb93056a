#!/usr/bin/env -S python3 -B
"""The seconds of a processor that the Rust crate takes to compile without optimisation, beside tokio 1.24.2 with all features and its dependencies.

    tools/prices/compiling.py [CHECKOUT]

The crate is compiled as the command builds it, and with the feature `report`. All are compiled at the same time on one processor, so what else the
machine does slows down each. It prints a line, and fails if the crate takes more
than 1.2 times what the last row `price.compiling` of `docs/design/figures.csv` says. Where it does, all are compiled again, up to three times in all, and
the least counts: what else the machine does may begin while one of them is compiled. It needs Debian's librust-tokio-dev, and writes only into out/prices,
or into the folder that YOVANELUM_OUT names.
"""
import contextlib
import csv
import os
import shutil
import subprocess
import sys

TOP = os.path.dirname(os.path.dirname(os.path.dirname(os.path.realpath(__file__))))
REGISTRY = "/usr/share/cargo/registry"
TOKIO = 'tokio = { version = "=1.24.2", features = ["full"] }'
MARGIN = 1.2
TIMES = 3


def from_registry():
    return ["--config", "source.crates-io.replace-with='debian'", "--config", f"source.debian.directory='{REGISTRY}'"]


@contextlib.contextmanager
def compiler(dependency, settings, folder):
    """A package that has one dependency and nothing of its own, while cargo compiles it on the first processor that this process may use."""
    shutil.rmtree(folder, ignore_errors=True)
    os.makedirs(os.path.join(folder, "src"))
    open(os.path.join(folder, "src/lib.rs"), "w", encoding="utf-8").close()
    with open(os.path.join(folder, "Cargo.toml"), "w", encoding="utf-8") as file:
        file.write(f'[package]\nname = "compiled"\nedition = "2024"\n[dependencies]\n{dependency}\n[workspace]\n')
    variables = os.environ | settings | {"CARGO_INCREMENTAL": "0", "CARGO_TARGET_DIR": os.path.join(folder, "target"), "CARGO_NET_OFFLINE": "true"}
    processor = str(min(os.sched_getaffinity(0)))
    yield subprocess.Popen(["taskset", "-c", processor, "cargo", "build", "-q", "-j", "1", *from_registry()], cwd=folder, env=variables)
    shutil.rmtree(folder)


def seconds_of(started):
    """Waits for a process. Returns the seconds of a processor that it took with those that it started."""
    _, status, used = os.wait4(started.pid, 0)
    if status != 0:
        sys.exit(f"what is to be compiled isn't: {' '.join(started.args)}")
    return used.ru_utime + used.ru_stime


def compiled(checkout, settings, out):
    """What a turn takes for tokio and for the crate of a checkout."""
    with contextlib.ExitStack() as stack:
        started = {name: stack.enter_context(compiler(it, settings, os.path.join(out, f"compiled-{name}"))) for name, it in compared(checkout).items()}
        return {name: seconds_of(it) for name, it in started.items()}


def compared(checkout):
    """What is compiled: tokio, the recorder as the command builds it, and with the feature by which it makes reports itself."""
    ours = f'yovanelum = {{ path = "{os.path.join(os.path.abspath(checkout), "rust")}"'
    return {"tokio": TOKIO, "none": ours + ", default-features = false }", "report": ours + " }"}


def figure():
    with open(os.path.join(TOP, "docs/design/figures.csv"), encoding="utf-8") as file:
        return [float(row[4]) for row in csv.reader(file) if row[3] == "price.compiling"][-1]


def ratio_of_a_turn(most):
    """How many times as long as tokio the crate takes. It is printed, beside the most that it may."""
    out = os.path.join(os.environ.get("YOVANELUM_OUT") or os.path.join(TOP, "out"), "prices")
    took = compiled(sys.argv[1] if len(sys.argv) > 1 else TOP, {}, out)
    ratio = took["none"] / took["tokio"]
    print(f"to compile takes {took['none']:.1f} s of a processor, and tokio {took['tokio']:.1f} s: {ratio:.2f} times, and at most {most:.2f}. With the "
          f"feature `report` it takes {took['report']:.1f} s: {took['report'] / took['tokio']:.2f} times", flush=True)
    return ratio


def main():
    most = MARGIN * figure()
    return 0 if any(ratio_of_a_turn(most) <= most for _ in range(TIMES)) else 1


if __name__ == "__main__":
    sys.exit(main())
