#!/usr/bin/python3
"""Chooses files for other writers of file-sets, and writes one by pydicom.

    others.py choose TAKEN       prints the paths of the files that every writer takes, one of each instance
    others.py half TAKEN 0|1     prints the paths of the files of every second patient
    others.py write FILES OUT    makes a file-set by pydicom of the files that it takes
"""
import pathlib
import sys
import warnings

import pydicom
from pydicom.fileset import FileSet

EXPLICIT = "1.2.840.10008.1.2.1"
# What some writer wants of each file. GDCM ends by an assertion where the Patient ID is empty.
WANTED = ["PatientID", "PatientName", "StudyDate", "StudyTime", "StudyID", "StudyInstanceUID", "Modality",
          "SeriesInstanceUID", "SeriesNumber", "InstanceNumber"]


def lines_of(path):
    """The lines of a file."""
    return pathlib.Path(path).read_text().splitlines()


def choose(taken):
    """Prints the paths of the files in Explicit VR that lack nothing, one of each instance."""
    known = set()
    for path in lines_of(taken):
        data = pydicom.dcmread(path)
        whole = all(str(data.get(keyword) or "") for keyword in WANTED)
        if whole and data.file_meta.TransferSyntaxUID == EXPLICIT and data.SOPInstanceUID not in known:
            known.add(data.SOPInstanceUID)
            print(path)


def half(taken, which):
    """Prints the paths of the files of every second patient, from the first or the second on."""
    patients = {path: str(pydicom.dcmread(path).get("PatientID") or "") for path in lines_of(taken)}
    chosen = sorted(set(patients.values()))[int(which)::2]
    for path, patient in patients.items():
        if patient in chosen:
            print(path)


def write(files, out):
    """Makes a file-set of the files that pydicom takes."""
    made = FileSet()
    for path in lines_of(files):
        try:
            made.add(path)
        except (AttributeError, ValueError, pydicom.errors.InvalidDicomError):
            pass
    made.write(out)


if __name__ == "__main__":
    # Many of pydicom's files are made to be warned of.
    warnings.simplefilter("ignore")
    {"choose": choose, "half": half, "write": write}[sys.argv[1]](*sys.argv[2:])
