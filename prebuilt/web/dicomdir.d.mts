/** Bytes of a file. They are not changed, and not kept. */
export type Bytes = ArrayBuffer | ArrayBufferView;

/** A refusal, in the words of docs/FAULTS.md, such as '51 File 27 Set 1 Truncated'. */
export class Fault extends Error {
  name: 'Fault';
  /** Its number. */
  status: number;
  /** The numbers of its causes; 0 where there is none. */
  within: number;
  cause: number;
  /** The offset of a record, and a tag as 0x00100020; 0 where they do not apply. */
  at: number;
  tag: number;
  /** The number of the input at fault, from 0. */
  source: number;
}

/** The keywords of elements that are read at once. */
export type Keyword =
  | 'DirectoryRecordType' | 'ReferencedFileID' | 'SpecificCharacterSet' | 'PatientID' | 'PatientName'
  | 'PatientBirthDate' | 'PatientSex' | 'StudyInstanceUID' | 'StudyDate' | 'StudyTime' | 'StudyDescription' | 'StudyID'
  | 'AccessionNumber' | 'SeriesInstanceUID' | 'Modality' | 'SeriesNumber' | 'SeriesDescription' | 'InstanceNumber'
  | 'ReferencedSOPClassUIDInFile' | 'ReferencedSOPInstanceUIDInFile' | 'ReferencedTransferSyntaxUIDInFile'
  | 'SOPClassUID' | 'SOPInstanceUID' | 'TransferSyntaxUID';

/** An element: its keyword, or its tag as 0x00100020. */
export type Element = Keyword | number;

/** The elements of a record as text: its own, or those of the records above it; null where none has a value. */
type Elements = { readonly [keyword in Keyword]: string | null };

export interface DirectoryRecord extends Elements {}

/** A directory record. */
export class DirectoryRecord {
  private constructor();
  readonly fileset: FileSet;
  /** Its number, depth first. */
  readonly row: number;
  /** Where it starts in the directory: the offset of its Item tag. */
  readonly offset: number;
  /** How many records stand above it. */
  readonly level: number;
  /** Is it in use (0004,1410)? One that is not is to be ignored. */
  readonly inUse: boolean;
  /** Its type (0004,1430), such as PATIENT or IMAGE. */
  readonly recordType: string;
  readonly parent: DirectoryRecord | null;
  /** The records right below it, of any type, in use or not. */
  readonly children: DirectoryRecord[];
  /** Those of this type that are in use. */
  readonly studies: DirectoryRecord[];
  readonly series: DirectoryRecord[];
  readonly images: DirectoryRecord[];
  /** The parts of its File ID (0004,1500), as recorded. */
  readonly fileId: string[];
  /** The same with '/'; null where it has no File ID, or one that could lead out of the folder. */
  readonly path: string | null;
  /** The text of an element, as the property of its keyword; `otherwise` where no record has a value. */
  get(element: Element): string | null;
  get<T>(element: Element, otherwise: T): string | T;
  /** The bytes of its own value, without padding. */
  raw(element: Element): Uint8Array;
}

/** The file-set of a DICOMDIR of any producer. */
export class FileSet {
  constructor(bytes: Bytes);
  readonly bytes: Uint8Array;
  /** The File-set ID (0004,1130) and the UID (0002,0003). */
  readonly id: string;
  readonly uid: string;
  /** The SOP Instance UIDs that are withdrawn for good. */
  readonly withdrawn: string[];
  /** How many records no offset reaches. */
  readonly unreached: number;
  /** All records, depth first, in use or not. */
  readonly records: DirectoryRecord[];
  /** Those with none above them. */
  readonly roots: DirectoryRecord[];
  /** The PATIENT records in use. */
  readonly patients: DirectoryRecord[];
  /** The records in use that name a file. */
  readonly files: DirectoryRecord[];
  /** Those of `files` whose text is this: find({ PatientID: 'P1', Modality: 'CT' }). */
  find(keys: { [keyword in Keyword]?: string | number }): DirectoryRecord[];
  /** The text that `dicomdir list` prints. */
  listing(): string;
}

/** The file-set of the bytes of a DICOMDIR. Throws Fault: 51 to 58, 91. */
export function read(bytes: Bytes): FileSet;

/** The names under which systems show a part of a File ID, in the order in which the program looks for them. */
export function spellings(name: string): string[];

/** What is found of a record's file, in a word of docs/FAULTS.md. Its text is a line of `dicomdir check`. */
export class Finding {
  private constructor();
  readonly record: DirectoryRecord;
  readonly kind: 'BADID' | 'MISSING' | 'UNREADABLE' | 'DIFFERS' | 'MISLABELLED' | 'NODIGEST';
  /** The tag that is another one in the file, or the fault of a file that is no DICOM file. */
  readonly words: string;
}

/**
 * What is known of a record's file: all its bytes; null where it can't be opened; an Error where a read failed. Of a
 * large one, its SHA-256, and its head: a DICOM file with its identifiers, such as its bytes before the Pixel Data.
 */
export type Known = Bytes | Blob | null | undefined | Error | { digest: Bytes; head?: Bytes };

/** What `dicomdir check` finds of the files: none where all are there, and as their records say. */
export function check(
  fileset: FileSet, known: (record: DirectoryRecord) => Known | Promise<Known>,
  options?: { keys?: boolean; strict?: boolean },
): Promise<Finding[]>;

/** The number of an input, from 0; of a file-set also the File ID there. */
export interface Place { source: number; file?: string }

/** A new directory, and of each of its images which file is to be copied to `record.path`. */
export class Built {
  private constructor();
  readonly directory: Uint8Array;
  readonly images: (Place & { record: DirectoryRecord })[];
  /** The files that are no images. */
  readonly skipped: { source: number; fault: Fault }[];
  /** Files of whose instance other bytes are kept. */
  readonly leftOut: { file: Place; kept: Place; uid: string }[];
  /** The names of each Patient ID that has several. */
  readonly names: Map<string, string[]>;
  /** How many files repeat one that is kept. */
  readonly repeated: number;
}

/** The File-set ID and the UID of a new directory. */
export interface Label { id?: string; uid?: string }

/**
 * The directory that `dicomdir index` makes of image files, of which each is read when its turn comes. Throws Fault: 41
 * to 43, 71, 72, 91, and with `strict` 98 where something is skipped or noted.
 */
export function build(
  files: Iterable<Bytes | Blob> | AsyncIterable<Bytes | Blob>, options?: Label & { strict?: boolean },
): Promise<Built>;

/** The directory that `dicomdir merge` makes of file-sets. Throws Fault: 41 to 43, 51 to 65, 71, 72, 91. */
export function merge(filesets: Iterable<FileSet>, options?: Label): Built;

/** The directory that `dicomdir withdraw` makes of a file-set. Throws Fault as `merge`. */
export function withdraw(fileset: FileSet, uids: Iterable<string>, options?: Label): Built;
