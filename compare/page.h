/* The numbers of documents 01 and 02: how many there are of each thing, how
   many bytes each takes, and the kinds and sorts of record. */
#ifndef PAGE_H
#define PAGE_H

enum { PLACES = 128, TRANSITIONS = 64, MOST_RECORDS = 1024, MOST_WORDS = 512 };
enum { RECORD_BYTES = 8, WORD_BYTES = 8, CYCLE_BYTES = 24, IMAGE_BYTES = 768 };
enum { MOST_TOKENS = 65535, IMAGE_RECORDS = 192 };
enum { MOST_REPORT = 12288, SUMMARY_NUMBERS = 65 };
enum { PLACE = 1, TRANSITION, ARC, CONDITION, PRIORITY, ACTION, FUNCTION };
enum { UNTIMED, INTERVAL, OR_MORE };
enum { BASIC, TEST, INHIBITOR, POST };
enum { WANTED_TRUE, WANTED_FALSE };

#endif
