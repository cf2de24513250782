/*
 * libmrt: fast-reroute tables of an OSPFv2 area, computed and checked by proved code (interface 1).
 *
 * Each call is an export of the crate mrt_c, and its contract there restates what the crates below it promise. What the
 * program `mrt` prints, its files and their faults are in docs/FORMATS.md; docs/LIBRARY.md begins with examples in C,
 * Rust and Python. SPDX-License-Identifier: Apache-2.0 OR MIT
 *
 * What holds of all calls
 * -----------------------
 *
 * - A call has no state: nothing outlives it. Any number of threads may call at once. No call may be made from a signal
 *   handler, nor in the child of a fork of a process with threads, as malloc may not be called there.
 * - All buffers are the caller's. What a call takes beside them it takes by malloc and realloc and gives back by free
 *   before it returns; where there is none it answers MRT_NO_MEMORY. A stack of 64 KiB serves. No call waits, starts a
 *   thread, writes to a stream, reads a file, a clock or a random number, or ends the process. The same arguments give
 *   the same answer, but for want of memory (proved).
 * - What the caller owes, and nothing checks: a pointer is never NULL, also where its length is 0; it is aligned as its
 *   type is; as many elements are there as the length says, which may be read, or written where the pointer is not to
 *   const, throughout the call, and which nothing else writes meanwhile; what a call writes overlaps with nothing else
 *   that it is given. What a call writes may hold anything before.
 * - A call but mrt_abi answers a status, one of the program's exit statuses. Those that a call can give are listed at
 *   it; there are no others. By status:
 *     - MRT_DONE: what the call gives is there.
 *     - MRT_WRITE_FAULT: there is no room for it. *count is how much room it takes; what the buffer holds is not said.
 *     - any other: there is none, and why. *count is 0 (but for mrt_run's and mrt_line's texts), and what else the call
 *       would have given is not said.
 *   `fault` is always written: the status again, with its numbers, all 0 on MRT_DONE. mrt_line reads it, and spells it.
 * - `room`, `*count` and lengths are in elements of what the pointer is to: bytes or rows. Numbers are in the
 *   processor's order; an address or a router ID is the number whose highest byte is written first (10.0.0.1 is
 *   0x0a000001). Bytes of LSAs and certificates are in network order, as in files.
 * - Fields and calls are added, never changed: a reserved field is 0 until an interface gives it a meaning, no struct
 *   grows, and a later interface has each call and each value of this one. It may have more calls, statuses and tags,
 *   and higher limits: take a status that is not here as a refusal, which mrt_line spells, and a tag that is not here
 *   as one of no use to you; and take room from the counts that a call gives where it has to serve a later library.
 *   Interface 1 is fixed with the first release that has it, and may change before.
 * - It runs on x86-64 alone, and needs x86-64-v2 (SSE4.2, POPCNT).
 */
#ifndef MRT_H
#define MRT_H

#include <stddef.h>
#include <stdint.h>

#if SIZE_MAX != UINT64_MAX
#error "libmrt is for x86-64: size_t has 64 bits"
#endif

#ifdef __cplusplus
extern "C" {
#endif

/* The number of this interface; mrt_abi() is that of the library. */
#define MRT_ABI 1u

/*
 * Statuses: the exit statuses of the program.
 */
/* What the call gives is there. */
#define MRT_DONE 0u
/* The certificate is not accepted. kind: the first rule that fails, from 1 to 14; at, other: its least place. */
#define MRT_NO 1u
/* The words are none of the forms; what is reserved in an area is not 0; of mrt_line: the fault is none; of a pair: its
   routers are one. */
#define MRT_USAGE 2u
/* A fault in the LSAs. kind: MRT_LSA_ and so on; at: the place of the LSA's first byte; other: of MRT_LSA_CONFLICT that
   of the LSA which it contradicts. */
#define MRT_BAD_DATABASE 3u
/* A fault in the profile. kind: MRT_PROFILE_ and so on; at: its line, from 1. */
#define MRT_BAD_PROFILE 4u
/* A fault in the certificate's bytes. kind: MRT_CERTIFICATE_ and so on; at: the place of the field's first byte. */
#define MRT_BAD_CERTIFICATE 5u
/* More than there may be. kind: what, MRT_LARGE_ and so on; size: of bytes the limit and 1, of an area how many. */
#define MRT_TOO_LARGE 6u
/* The area has no such router, or the profile says that it does not support the Default MRT Profile; or the island has
   no such node. at: its number. */
#define MRT_NOT_THERE 7u
/* mrt_run: there is no file of the name that a word says. at: which word, from 0. */
#define MRT_READ_FAULT 8u
/* There is no room for what the call gives. size: how much there is. */
#define MRT_WRITE_FAULT 9u
/* There was no memory. */
#define MRT_NO_MEMORY 10u
/* mrt_run: a fault in a script. at: its line, from 1. */
#define MRT_BAD_SCRIPT 11u
/* The certificate gives the two routers of a prefix no common block. */
#define MRT_NO_COMMON_BLOCK 13u
/* mrt_run: a fault in Link State Update packets. kind: MRT_UPDATE_ or MRT_LSA_ and so on; at: the place of its first
   byte. */
#define MRT_BAD_UPDATE 14u

/*
 * Kinds of faults.
 */
#define MRT_LSA_TRUNCATED 1u
#define MRT_LSA_LENGTH 2u
#define MRT_LSA_CHECKSUM 3u
#define MRT_LSA_RESERVED_SEQUENCE 4u
#define MRT_LSA_ID_MISMATCH 5u
#define MRT_LSA_BODY 6u
#define MRT_LSA_ZERO_METRIC 7u
#define MRT_LSA_CONFLICT 8u

#define MRT_PROFILE_BYTES 1u
#define MRT_PROFILE_WORDS 2u
#define MRT_PROFILE_ADDRESS 3u
#define MRT_PROFILE_NUMBER 4u
#define MRT_PROFILE_REPEATED 5u

#define MRT_CERTIFICATE_MAGIC 1u
#define MRT_CERTIFICATE_TRUNCATED 2u
#define MRT_CERTIFICATE_RANGE 3u
#define MRT_CERTIFICATE_TAG 4u
#define MRT_CERTIFICATE_TRAILING 5u
#define MRT_CERTIFICATE_HEADS 6u

#define MRT_LARGE_DATABASE 1u
#define MRT_LARGE_UPDATES 2u
#define MRT_LARGE_PROFILE 3u
#define MRT_LARGE_CERTIFICATE 4u
#define MRT_LARGE_SCRIPT 5u
#define MRT_LARGE_AREA_NODES 6u
#define MRT_LARGE_AREA_ARCS 7u

#define MRT_UPDATE_TRUNCATED 17u
#define MRT_UPDATE_HEADER 18u
#define MRT_UPDATE_LENGTH 19u
#define MRT_UPDATE_COUNT 20u

/*
 * Kinds of nodes.
 */
/* A router; its number is its router ID. */
#define MRT_ROUTER 1u
/* A transit network; its number is the interface address of its designated router. */
#define MRT_NETWORK 2u
/* Of a hop for a prefix: none, as the prefix is attached to the router itself; its number is 0. */
#define MRT_ATTACHED 3u

/*
 * How a row's two hops were chosen, as in a certificate's file (docs/FORMATS.md).
 */
#define MRT_TAG_SOLE 0u
#define MRT_TAG_HEAD 1u
#define MRT_TAG_TOP 2u
#define MRT_TAG_BELOW 3u
#define MRT_TAG_ABOVE 4u
#define MRT_TAG_UNORDERED 5u
#define MRT_TAG_CARRIED 6u

/*
 * Which color repairs a failure.
 */
/* The primary has no such element. */
#define MRT_NO_ELEMENT 0u
#define MRT_BLUE 1u
#define MRT_RED 2u
/* No color does: each way in the island from the router to the node uses the element, or the node is the element. */
#define MRT_NO_COLOR 3u

/* Bytes that are read. 16 bytes. */
struct mrt_bytes {
	const uint8_t *data;
	size_t size;
};

/* A file for mrt_run: its name, any bytes, and what it holds. 32 bytes. */
struct mrt_file {
	struct mrt_bytes name;
	struct mrt_bytes bytes;
};

/* An area: the bytes of its LSAs, as in a database file, at most 8,388,608, and those of a profile, at most 33,554,432;
   no bytes are the profile that says nothing. Where what is reserved is not 0 a call answers MRT_USAGE. 40 bytes. */
struct mrt_area {
	struct mrt_bytes lsas;
	struct mrt_bytes profile;
	uint64_t reserved;
};

/* What a call ended with: what each field is stands at the status; the others are 0. 32 bytes. */
struct mrt_fault {
	uint32_t status;
	uint32_t kind;
	uint32_t at;
	uint32_t other;
	uint64_t size;
	uint64_t reserved;
};

/* An island: the part of an area in which the Default MRT Profile is supported and that a router reaches. 32 bytes. */
struct mrt_island {
	/* the router ID of its GADAG root */
	uint32_t root;
	/* how many nodes and links it has, at most 4,096 and 16,384 */
	uint32_t nodes;
	uint32_t links;
	uint32_t reserved_1;
	/* how many bytes the file of its certificate has, at most 134,217,728: the room that mrt_certify takes */
	uint64_t certificate;
	uint64_t reserved_2;
};

/* A certificate that is accepted: the router ID of its root, how many nodes and links the island has. 16 bytes. */
struct mrt_verdict {
	uint32_t root;
	uint32_t nodes;
	uint32_t links;
	uint32_t reserved;
};

/* Where a packet goes. 12 bytes. */
struct mrt_hop {
	/* the far node of the link: MRT_ROUTER or MRT_NETWORK and its number */
	uint32_t kind;
	uint32_t number;
	/* the link data of the near end (RFC 2328, A.4.2): the interface's address, or its index where it has none */
	uint32_t link_data;
};

/* What a router installs for another node of its island: a line of the program's table. 64 bytes. */
struct mrt_row {
	/* the node: MRT_ROUTER or MRT_NETWORK, and its number */
	uint32_t kind;
	uint32_t number;
	/* how the two hops were chosen: MRT_TAG_ and so on */
	uint32_t tag;
	uint32_t reserved_1;
	/* the hops of both colors, by the row of the island's certificate, and that of the shortest path */
	struct mrt_hop blue;
	struct mrt_hop red;
	struct mrt_hop primary;
	/* which color repairs it after which failure: of the primary's link (to a network, of the router's interface to
	   it); of the node that it leads to; and where this is a network and not the node, of the link of the router
	   beyond it, and of that router. MRT_BLUE, MRT_RED, MRT_NO_COLOR or MRT_NO_ELEMENT */
	uint8_t repair_link;
	uint8_t repair_node;
	uint8_t repair_second_link;
	uint8_t repair_second_node;
	uint32_t reserved_2;
	uint32_t reserved_3;
};

/* A prefix that is attached to two routers: their router IDs. 8 bytes. */
struct mrt_pair {
	uint32_t first;
	uint32_t second;
};

/* What a router installs for a prefix at two routers, a named proxy-node (RFC 7811, 5.9): where it sends on each color.
   40 bytes. */
struct mrt_proxy_row {
	/* MRT_DONE; else there are no hops, which are 0, and why: MRT_USAGE, MRT_NOT_THERE or MRT_NO_COMMON_BLOCK */
	uint32_t status;
	/* of MRT_NOT_THERE: which of the two routers its island does not have; else 0 */
	uint32_t at;
	struct mrt_hop blue;
	struct mrt_hop red;
	uint32_t reserved_1;
	uint32_t reserved_2;
};

/*
 * The number of the library's interface, MRT_ABI or later.
 */
uint32_t mrt_abi(void);

/*
 * Does what the words ask for over these files, as the program: `words` are those after the program's name, and a word
 * that names a file names the first of `files` with this name. On MRT_DONE `text` holds what the program would write to
 * standard output, *count bytes. On MRT_WRITE_FAULT there is no room for it, and *count is how many bytes it has. On
 * any other status the text is the program's one line on standard error, which mrt_line spells too: *count is how many
 * bytes it has, at most 512, and `text` holds them, or as many of the first as there is room for.
 *
 * It takes the time and the memory of the program, less those of a process: the bytes of each file that is named but a
 * certificate, and what the form takes. Where there is no room it takes the time of the form twice or three times.
 *
 * Statuses: MRT_DONE, MRT_NO, MRT_USAGE, MRT_BAD_DATABASE, MRT_BAD_PROFILE, MRT_BAD_CERTIFICATE, MRT_TOO_LARGE,
 * MRT_NOT_THERE, MRT_READ_FAULT, MRT_WRITE_FAULT, MRT_NO_MEMORY, MRT_BAD_SCRIPT, MRT_NO_COMMON_BLOCK, MRT_BAD_UPDATE.
 */
uint32_t mrt_run(const struct mrt_bytes *words, size_t word_count, const struct mrt_file *files, size_t file_count,
		 uint8_t *text, size_t room, size_t *count, struct mrt_fault *fault);

/*
 * The program's one line on a fault, with its line feed, *count bytes; none for MRT_DONE. 512 bytes of room serve. It
 * takes no memory.
 *
 * Statuses: MRT_DONE; MRT_WRITE_FAULT; MRT_USAGE where the program has no line of these numbers, and *count is 0. What
 * has no meaning at the status, and what is reserved, has to be 0.
 */
uint32_t mrt_line(const struct mrt_fault *fault, uint8_t *text, size_t room, size_t *count);

/*
 * The island of a router: its root, how many nodes and links it has, and how long its certificate is. It makes the
 * whole certificate to count its bytes, so it takes the time of mrt_certify: who wants the certificate itself calls
 * that first, which counts too.
 *
 * Statuses: MRT_DONE, MRT_USAGE, MRT_BAD_DATABASE, MRT_BAD_PROFILE, MRT_TOO_LARGE, MRT_NOT_THERE, MRT_NO_MEMORY.
 */
uint32_t mrt_shape(const struct mrt_area *area, uint32_t router, struct mrt_island *island, struct mrt_fault *fault);

/*
 * The certificate of a router's island: the bytes of its file, *count of them, exactly those of `mrt certify`.
 *
 * Statuses: MRT_DONE, MRT_USAGE, MRT_BAD_DATABASE, MRT_BAD_PROFILE, MRT_TOO_LARGE, MRT_NOT_THERE, MRT_WRITE_FAULT,
 * MRT_NO_MEMORY.
 */
uint32_t mrt_certify(const struct mrt_area *area, uint32_t router, uint8_t *certificate, size_t room, size_t *count,
		     struct mrt_fault *fault);

/*
 * Whether a certificate's bytes, at most 134,217,728, are right for an area: the verdict of `mrt check`, whoever wrote
 * them. On MRT_DONE the certificate is accepted for the island of its root, so its rows keep what MRT promises; on
 * MRT_NO the fault is the first rule that fails, and its least place.
 *
 * Statuses: MRT_DONE, MRT_NO, MRT_USAGE, MRT_BAD_DATABASE, MRT_BAD_PROFILE, MRT_BAD_CERTIFICATE, MRT_TOO_LARGE,
 * MRT_NOT_THERE (the certificate's root), MRT_NO_MEMORY.
 */
uint32_t mrt_check(const struct mrt_area *area, const uint8_t *certificate, size_t size, struct mrt_verdict *verdict,
		   struct mrt_fault *fault);

/*
 * The table of a router: a row for each other node of its island, by ascending number, at one number the router before
 * the network. *count of them, one less than the island has nodes; 4,095 rows of room serve for each area.
 *
 * Statuses: MRT_DONE, MRT_USAGE, MRT_BAD_DATABASE, MRT_BAD_PROFILE, MRT_TOO_LARGE, MRT_NOT_THERE, MRT_WRITE_FAULT,
 * MRT_NO_MEMORY.
 */
uint32_t mrt_table(const struct mrt_area *area, uint32_t router, struct mrt_row *rows, size_t room, size_t *count,
		   struct mrt_fault *fault);

/*
 * The row of mrt_table for one node, MRT_ROUTER or MRT_NETWORK and its number (that it is the same one is tested). It
 * takes the time of one destination.
 *
 * Statuses: MRT_DONE, MRT_USAGE, MRT_BAD_DATABASE, MRT_BAD_PROFILE, MRT_TOO_LARGE, MRT_NOT_THERE, MRT_NO_MEMORY.
 * MRT_NOT_THERE is of the router; else of the node, where its island has no such node or it is the router itself.
 */
uint32_t mrt_row_for(const struct mrt_area *area, uint32_t router, uint32_t kind, uint32_t number, struct mrt_row *row,
		     struct mrt_fault *fault);

/*
 * The rows of a router for prefixes at two routers, one for each pair, in their order; *count is pair_count. The island
 * and what its certificate's rows come from are made once for all pairs, each of which then takes the time of one
 * destination. A pair that has no hops has a row that says so, and is no fault of the call.
 *
 * Statuses: MRT_DONE, MRT_USAGE, MRT_BAD_DATABASE, MRT_BAD_PROFILE, MRT_TOO_LARGE, MRT_NOT_THERE (the router),
 * MRT_WRITE_FAULT, MRT_NO_MEMORY.
 */
uint32_t mrt_proxy(const struct mrt_area *area, uint32_t router, const struct mrt_pair *pairs, size_t pair_count,
		   struct mrt_proxy_row *rows, size_t room, size_t *count, struct mrt_fault *fault);

#ifdef __cplusplus
}
#endif

#endif
