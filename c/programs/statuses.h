/* How each program of c/programs and c/server ends, as docs/guide/PROGRAMS.md has it. */
#ifndef STATUSES_H
#define STATUSES_H

enum {
    STATUS_DONE = 0,
    STATUS_REFUSED = 1, /* an error response, or one that can't be used */
    STATUS_MISUSED = 2, /* the arguments are wrong */
    STATUS_BROKEN = 3,  /* the system refused to read, write or open, or a request can't be made */
    STATUS_SILENT = 4   /* no response in time, none that is authentic, or nobody to ask */
};

#endif
