// Linux's numbers for errors, which the program tells apart, and glibc's words for them, which it prints as a cause:
// those that calls of files answer.
const ERRORS = {
  EPERM: [1, 'Operation not permitted'],
  ENOENT: [2, 'No such file or directory'],
  EINTR: [4, 'Interrupted system call'],
  EIO: [5, 'Input/output error'],
  ENXIO: [6, 'No such device or address'],
  EBADF: [9, 'Bad file descriptor'],
  EAGAIN: [11, 'Resource temporarily unavailable'],
  ENOMEM: [12, 'Cannot allocate memory'],
  EACCES: [13, 'Permission denied'],
  EBUSY: [16, 'Device or resource busy'],
  EEXIST: [17, 'File exists'],
  EXDEV: [18, 'Invalid cross-device link'],
  ENODEV: [19, 'No such device'],
  ENOTDIR: [20, 'Not a directory'],
  EISDIR: [21, 'Is a directory'],
  EINVAL: [22, 'Invalid argument'],
  ENFILE: [23, 'Too many open files in system'],
  EMFILE: [24, 'Too many open files'],
  ETXTBSY: [26, 'Text file busy'],
  EFBIG: [27, 'File too large'],
  ENOSPC: [28, 'No space left on device'],
  ESPIPE: [29, 'Illegal seek'],
  EROFS: [30, 'Read-only file system'],
  EMLINK: [31, 'Too many links'],
  EPIPE: [32, 'Broken pipe'],
  ENAMETOOLONG: [36, 'File name too long'],
  ENOSYS: [38, 'Function not implemented'],
  ELOOP: [40, 'Too many levels of symbolic links'],
  EOVERFLOW: [75, 'Value too large for defined data type'],
  EILSEQ: [84, 'Invalid or incomplete multibyte or wide character'],
  ENOTSUP: [95, 'Operation not supported'],
  ECONNRESET: [104, 'Connection reset by peer'],
  ETIMEDOUT: [110, 'Connection timed out'],
  EHOSTDOWN: [112, 'Host is down'],
  EHOSTUNREACH: [113, 'No route to host'],
  ESTALE: [116, 'Stale file handle'],
  EREMOTEIO: [121, 'Remote I/O error'],
  EDQUOT: [122, 'Disk quota exceeded'],
  // Names that Windows can't have (paths.mjs). Linux has no such numbers.
  DEVICE: [4001, 'Windows keeps this name for a device'],
  NAMESPACE: [4002, 'A path that begins with \\\\?\\ or \\\\.\\ is not taken'],
  CHARACTER: [4003, 'On Windows no name has < > : " | ? * or a control character'],
  ENDING: [4004, 'On Windows no name ends in a point or a space'],
};

/** The number of what node:fs has thrown. On Linux that is the system's own; elsewhere an unknown error is EIO. */
export function numberOf({ code, errno }) {
  if (process.platform === 'linux' && errno < 0) return -errno;
  return (ERRORS[code] ?? ERRORS.EIO)[0];
}

export function wordsOf(number) {
  const found = Object.values(ERRORS).find(([other]) => other === number);
  return found ? found[1] : `Unknown error ${number}`;
}
