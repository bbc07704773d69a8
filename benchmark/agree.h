// Whether the codecs that are measured side by side do the same work.
#ifndef AGREE_H
#define AGREE_H

// Holds the straight-line C against Knotsaffron, on every message, on the cases in two files and on changed messages, and the other
// archive on every message. The first difference ends the program.
void agree(const char *read_cases, const char *write_cases);

#endif
