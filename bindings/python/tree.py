"""Prints what is on a disc: tree.py FOLDER."""
import sys

import dicomdir

disc = dicomdir.read(sys.argv[1])
for patient in disc.patients:
    print(patient.PatientID, patient.PatientName)
    for study in patient.studies:
        print("  ", study.StudyDate, study.StudyDescription)
        for series in study.series:
            print("    ", series.Modality, len(series.images), "images")
for image in disc.find(Modality="CT"):
    print(image.path)
