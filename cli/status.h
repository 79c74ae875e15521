/* How `nos` ends. */
#ifndef STATUS_H
#define STATUS_H

enum status {
    STATUS_ACCEPTED = 0,
    STATUS_REFUSED = 1, /* by the library, by --strict, or as a line that `nos table make` cannot read */
    STATUS_USAGE = 2,   /* it was asked in a way that it does not know */
    STATUS_FILES = 3    /* a file, standard input or standard output could not be read or written, or memory ran out */
};

#endif
