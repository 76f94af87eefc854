/* Elbomavund: reads what an IMAP server sends. The functions are proved: crates/reader/specs says what each returns and
 * writes, for every rule number, buffer, table and node. Nothing is asked of the caller but that the pointers are good:
 * not NULL (any address will do where the length is 0), aligned, valid for as many elements as is said, and what is
 * written overlaps nothing else. No function allocates, keeps a pointer, or calls anything outside the library but the C
 * library's memset and memcpy. A reading takes some 40 KB of stack.
 *
 * Link libreader.a (`oracle/lib` writes it to target/staticlib, for x86-64): cc -Iinclude main.c target/staticlib/libreader.a
 *
 * docs/RULES.md begins with what a caller must know: look at the byte after `taken`; ask rule 22 before rule 23; a bytes node was
 * quoted, and has backslashes to undo, if the byte before its start is a quote; how large a table must be.
 */
#ifndef ELBOMAVUND_H
#define ELBOMAVUND_H

#define ELBOMAVUND_VERSION "0.2.1"

#include <stddef.h>
#include <stdint.h>

#ifdef __cplusplus
extern "C" {
#endif

/* Answers. */
enum {
    ELBOMAVUND_ACCEPTED = 0,
    ELBOMAVUND_UNFINISHED = 1,      /* the buffer ends too early; call again with more bytes */
    ELBOMAVUND_NOT_THE_GRAMMAR = 2, /* no further byte can help */
    ELBOMAVUND_TOO_DEEP = 3,        /* a body or an extension list would open level 17 */
    ELBOMAVUND_NO_ROOM = 4,         /* the table has fewer than 4 * nodes words */
    ELBOMAVUND_UNKNOWN_RULE = 5,    /* the rule's number is not 1 to 25 */
    ELBOMAVUND_TOO_LONG = 6,        /* more than 16,777,216 bytes */
    ELBOMAVUND_NO_SUCH_CONTENT = 7  /* elbomavund_view only: the node names no bytes of the buffer */
};

/* Reads the beginning of buffer[0 .. length) by a rule, 1 to 25 (docs/RULES.md), and returns the answer, 0 to 6.
 *
 * out[0 .. 4) is answer, taken, nodes, wanted:
 *   taken   bytes that were read, where the answer is 0; else 0
 *   nodes   nodes of the reading, where the answer is 0 or 4; else 0
 *   wanted  bytes that a literal's content still lacks, where the answer is 1 and the buffer ends in one; else 0
 * Where out_length is less than 4, nothing is written to out.
 *
 * Where the answer is 0, table[0 .. 4 * nodes) holds the nodes, four words each: kind, a, b, nodes in this subtree.
 * No other word of the table is written, and none at all where the answer is not 0. 16 * length + 4 words are always enough;
 * where there are fewer and the answer is 4, a second call with 4 * nodes words is accepted. */
uint32_t elbomavund_read(uint32_t rule, const uint8_t *buffer, size_t length, uint32_t *table, size_t table_length,
                         uint64_t *out, size_t out_length);

/* Where the bytes stand that a node of the table names, in a buffer of `length` bytes. Returns 0, or 7 where there is no
 * such node in the table, it is not of kind 4, or its range does not lie in such a buffer.
 *
 * out[0 .. 2) is offset and length of the part; on 7 both are 0. Where out_length is less than 2, nothing is written. */
uint32_t elbomavund_view(size_t length, const uint32_t *table, size_t table_length, size_t node, uint64_t *out,
                         size_t out_length);

#ifdef __cplusplus
}
#endif

#endif
