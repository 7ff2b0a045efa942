"""DICOMDIRs of any producer, read and made by proved functions.

    disc = dicomdir.read("/mnt")                            # a folder, a DICOMDIR, or its bytes
    for patient in disc.patients: ...                       # .studies, .series, .images
    disc.find(PatientID="P1", Modality="CT")                # as pydicom's FileSet.find
    dicomdir.FileSet.build(paths).write("OUT")              # as `dicomdir index`

What is refused raises Fault, with the number and words of docs/FAULTS.md. docs/EMBEDDING.md says what is proved.
"""
from ._building import Built, merge
from ._bytes import listing, of_image
from ._faults import FAULTS, Fault
from ._records import FileSet, Finding, Record, read

__version__ = "1.1.0"
__all__ = ["FAULTS", "Built", "Fault", "FileSet", "Finding", "Record", "listing", "merge", "of_image", "read"]
