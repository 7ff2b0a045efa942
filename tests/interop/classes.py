"""Compares the names of storage classes, dd_messages `src/class_names.rt`, with those of pydicom and dcmtk.

    classes.py FOLDER

dcmdump names the class of a file of each, which is made in FOLDER.
"""
import pathlib
import re
import subprocess
import sys

from pydicom._uid_dict import UID_dictionary

top = pathlib.Path(__file__).resolve().parents[2]
sys.path.insert(0, str(top / "bench"))
from dicom import EXPLICIT, head, text

# dcmtk's words where they are others than those of PS3.6.
OTHERS = {"12-lead ECG Waveform Storage": "TwelveLeadECGWaveformStorage",
          "Implantation Plan SR Storage": "ImplantationPlanSRDocumentStorage",
          "DICOS Quadrupole Resonance (QR) Storage": "DICOSQuadrupoleResonanceStorage"}


def letters(name):
    return re.sub(r"[^a-z0-9]", "", name.lower())


def main():
    folder = pathlib.Path(sys.argv[1])
    source = (top / "crates/dd_messages/src/class_names.rt").read_text(encoding="utf-8")
    named = dict(line.split(" ", 1) for line in re.findall(r"^(1\.2\.840\.\S+ .*?)\"?;?$", source, re.M))
    of_pydicom = {uid: name.removesuffix(" SOP Class") for uid, (name, kind, *_) in UID_dictionary.items()
                  if kind == "SOP Class" and "Storage" in name and "Commitment" not in name}
    if named != of_pydicom:
        sys.exit(f"pydicom names other storage classes: {sorted(named.items() ^ of_pydicom.items())}")
    files = []
    for uid in named:
        files.append(folder / uid)
        files[-1].write_bytes(head(uid.encode(), b"1.2.3", EXPLICIT) + text(8, 0x16, b"UI", uid.encode()))
    said = subprocess.run(["dcmdump", "+P", "0008,0016", *map(str, files)], check=True, capture_output=True,
                          encoding="ascii").stdout
    for (uid, name), of_dcmtk in zip(named.items(), re.findall(r"\(0008,0016\) UI (\S+)", said), strict=True):
        # dcmtk has words of its own for classes on trial.
        if not of_dcmtk.startswith("=DRAFT_"):
            short = re.sub(r"^=(?:RETIRED_|DICONDE_)?", "", of_dcmtk)
            if letters(OTHERS.get(name, name).removesuffix(" - Trial")) != letters(short):
                sys.exit(f"dcmtk names {uid} {of_dcmtk}, and not {name}")
    print(f"the names of {len(named)} storage classes are those of pydicom and dcmtk")


main()
