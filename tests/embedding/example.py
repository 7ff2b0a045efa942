"""What the example in JavaScript prints of a file-set, by the Python package: example.py FOLDER."""
import sys

import dicomdir

disc = dicomdir.read(sys.argv[1])
for patient in disc.patients:
    print(patient.PatientID, patient.PatientName)
for finding in disc.check():
    print(finding)
paths = {image.path: "/".join(image.file_id) for image in disc.find(Modality="CT")}
built = dicomdir.FileSet.build(paths)
for path, record in built.images:
    print(paths[path], record.path)
print(len(built.directory))
try:
    dicomdir.read(built.directory[1:])
except dicomdir.Fault as fault:
    print(fault)
