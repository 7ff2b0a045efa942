#!/usr/bin/python3 -B
"""Random piles: rivals, names of any bytes, texts, repeated and absent sources, any order. For parallel, slurm and
staged.

    tests/scripts/random_pile.py FOLDER SEED

It writes the files to the folder, with 'list', the list of their names, and prints words of index, each on a line.
"""
import os
import pathlib
import random
import sys

from beside import image

TEXT = b"This is no image.\n"


def make(chance):
    """Files by their names, and the names in the order in which they are read."""
    files = {}
    for at in range(chance.randrange(3, 60)):
        what = chance.random()
        instance = chance.randrange(50) if what < 0.3 else 100 + at
        name = bytes(chance.choice(b"ABC ^=\xe4\xfc,\x1f") for _ in range(chance.randrange(6))).decode("latin-1")
        patient = chance.choice(["P1", "P2", "", "P\xfc"])
        # Now and then a study has two patients.
        study = f"1.2.{sum(map(ord, patient)) * (chance.random() > 0.01)}.{chance.randrange(3)}"
        files[f"{at:03}{chance.choice(['', ' x', chr(10), '*'])}"] = TEXT if what > 0.9 else image(
            f"1.2.3.{instance}", patient, name, study=study, series=f"{study}.{patient == 'P1':d}", more=str(at))
    return files, chance.choices(sorted(files), k=len(files) + 3) + ["absent"] * (chance.random() < 0.1)


def words(chance):
    """Options of index."""
    return chance.choice([[], ["--strict"], ["--uid", "2.25.7"], ["--max-bytes", "9000"]])


def keep(chance, names):
    """-k, or nothing. With it a name that is not UTF-8, which it adds to many, is a source that is skipped."""
    words_of = ["-k"] * (chance.random() < 0.4)
    if chance.random() < (0.5 if words_of else 0.03):
        names.insert(chance.randrange(len(names) + 1), "\udcff")
    return words_of


def main():
    chance, folder = random.Random(int(sys.argv[2])), pathlib.Path(sys.argv[1])
    files, names = make(chance)
    given = keep(chance, names) + words(chance)
    folder.mkdir()
    for name, data in files.items():
        (folder / name).write_bytes(data)
    (folder / "list").write_bytes(b"".join(os.fsencode(name) + b"\0" for name in names))
    print("\n".join(given))


if __name__ == "__main__":
    main()
