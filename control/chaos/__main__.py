"""The command line: `run` plays and judges, `judge` judges a record again, `mutants` tests the judge."""

import asyncio
import shutil
import sys
import tempfile
from pathlib import Path

import click

from chaos import cage
from chaos.errors import ChaosError, NotHere
from chaos.mutants import Mutant, mutants
from chaos.play import Plan, play_and_read
from chaos.programs import ROOT
from chaos.runs import STORES, Run, check, ending_of, play_and_judge


@click.group()
def group() -> None:
    """Faults on a running control plane, and a judge of what it promised meanwhile."""


@group.command()
@click.option("--store", type=click.Choice([*STORES, "both"]), default="both")
@click.option("--seconds", default=60.0, show_default=True, help="How long faults are made.")
@click.option("--seed", default=1, show_default=True, help="Decides which faults come when.")
@click.option("--rate", default=3.0, show_default=True, help="Reports a second.")
@click.option("--only", multiple=True, help="A kind of fault; all kinds where none is named.")
@click.option("--root", type=Path, default=ROOT, help="The tree whose bwe-control is tried.")
@click.option("--keep", type=Path, help="A folder for the records, which else go if all is legal.")
def run(
    store: str,
    seconds: float,
    seed: int,
    rate: float,
    only: tuple[str, ...],
    root: Path,
    keep: Path | None,
) -> None:
    """Plays on a store, or on both side by side, and judges each run."""
    stores = STORES if store == "both" else (store,)
    check(stores)
    folder = Path(tempfile.mkdtemp(prefix="bwe-chaos-")) if keep is None else keep.resolve()
    endings = play_and_judge(Run(stores, seconds, seed, rate, root.resolve(), only), folder)
    for ending in endings:
        click.echo("\n".join(ending.lines()))
    is_legal = all(it.is_legal for it in endings)
    if is_legal and keep is None:
        shutil.rmtree(folder)
    else:
        click.echo(f"the records are in {folder}")
    sys.exit(0 if is_legal else 1)


@group.command(name="mutants")
@click.argument("names", nargs=-1)
@click.option("--root", type=Path, default=ROOT, help="The tree whose bwe-control is broken.")
def run_mutants(names: tuple[str, ...], root: Path) -> None:
    """Plays broken allocators, each of which the judge has to find."""
    found = [try_mutant(it, root.resolve()) for it in mutants(names)]
    click.echo(f"{sum(found)} of {len(found)} broken allocators were found")
    sys.exit(0 if found and all(found) else 1)


def try_mutant(mutant: Mutant, root: Path) -> bool:
    """Plays one; whether the judge found what is wrong with it."""
    check(mutant.stores)
    with tempfile.TemporaryDirectory(prefix="bwe-chaos-") as name:
        mutant.make(root, Path(name) / "root")
        endings = play_and_judge(mutant.run(Path(name) / "root"), Path(name))
    for ending in endings:
        faults = sorted(ending.verdict.faults) if ending.verdict else []
        for fault in faults:
            if fault.kind in mutant.finds:
                where = f"{ending.store}, seed {mutant.words['seed']}"
                seconds = ending.time_of(fault)
                click.echo(f"{mutant.name}: found after {seconds:.0f} s ({where}): {fault.line()}")
                return True
    click.echo(f"{mutant.name}: not found")
    for ending in endings:
        click.echo("\n".join(ending.lines()))
    return False


@group.command(hidden=True)
@click.argument("store")
@click.argument("seconds", type=float)
@click.argument("seed", type=int)
@click.argument("rate", type=float)
@click.argument("root", type=Path)
@click.argument("folder", type=Path)
@click.argument("only", nargs=-1)
def play(
    store: str,
    seconds: float,
    seed: int,
    rate: float,
    root: Path,
    folder: Path,
    only: tuple[str, ...],
) -> None:
    """Plays inside a cage."""
    cage.settle()
    asyncio.run(play_until_told(Plan(store, seconds, seed, folder, root, rate, only)))


async def play_until_told(plan: Plan) -> None:
    """Plays until the time is over or standard input has ended."""
    stop = asyncio.Event()
    reader = asyncio.StreamReader()
    loop = asyncio.get_running_loop()
    await loop.connect_read_pipe(lambda: asyncio.StreamReaderProtocol(reader), sys.stdin)

    async def listen() -> None:
        await reader.read()
        stop.set()

    listening = asyncio.create_task(listen())
    await play_and_read(plan, stop)
    listening.cancel()


@group.command()
@click.argument("folder", type=Path)
def judge(folder: Path) -> None:
    """Judges the record in a folder once more."""
    ending = ending_of(folder.name, 0, folder)
    click.echo("\n".join(ending.lines()))
    sys.exit(0 if ending.is_legal else 1)


def main() -> None:
    try:
        group.main(prog_name="chaos", standalone_mode=True)
    except NotHere as fault:
        click.echo(f"chaos: {fault}", err=True)
        sys.exit(3)
    except ChaosError as fault:
        click.echo(f"chaos: {fault}", err=True)
        sys.exit(2)


if __name__ == "__main__":
    main()
