/*
 * A table of a router, or a check of a certificate, by libmrt; its output is that of the program:
 *
 *     mrt-example table DB PROFILE ROUTER
 *     mrt-example check DB PROFILE CERT
 *
 * PROFILE is - for none. SPDX-License-Identifier: Apache-2.0 OR MIT
 */
#include <mrt.h>

#include <arpa/inet.h>
#include <stdbool.h>
#include <stdio.h>
#include <stdlib.h>
#include <string.h>

/* As many rows as a table can have. */
enum { MOST_ROWS = 4095, LINE = 512 };

/* Ends the program with the library's line and its status. */
static void refuse(const struct mrt_fault *fault)
{
	uint8_t line[LINE];
	size_t count;

	if (mrt_line(fault, line, sizeof line, &count) == MRT_DONE)
		fwrite(line, 1, count, stderr);
	exit((int)fault->status);
}

/* The bytes of a file. The pointer is one to something also where there are none. */
static struct mrt_bytes contents(const char *name)
{
	struct mrt_bytes bytes = { (const uint8_t *)"", 0 };
	size_t room = 0;
	uint8_t *data = NULL;
	FILE *file;

	if (strcmp(name, "-") == 0)
		return bytes;
	file = fopen(name, "rb");
	while (file && !feof(file) && !ferror(file)) {
		if (bytes.size == room) {
			room = room ? 2 * room : 1 << 16;
			data = realloc(data, room);
			if (!data)
				break;
			bytes.data = data;
		}
		bytes.size += fread(data + bytes.size, 1, room - bytes.size, file);
	}
	if (!file || !data || ferror(file)) {
		perror(name);
		exit(MRT_READ_FAULT);
	}
	fclose(file);
	return bytes;
}

static const char *address(uint32_t number, char text[INET_ADDRSTRLEN])
{
	struct in_addr bytes = { htonl(number) };

	return inet_ntop(AF_INET, &bytes, text, INET_ADDRSTRLEN);
}

static uint32_t router(const char *text)
{
	struct in_addr bytes;

	if (inet_pton(AF_INET, text, &bytes) != 1) {
		fprintf(stderr, "mrt-example: %s is no router ID\n", text);
		exit(MRT_USAGE);
	}
	return ntohl(bytes.s_addr);
}

static void print_node(uint32_t kind, uint32_t number)
{
	char text[INET_ADDRSTRLEN];

	printf("%s%s", kind == MRT_NETWORK ? "net:" : "", address(number, text));
}

static void print_hop(const char *name, const struct mrt_hop *hop)
{
	char text[INET_ADDRSTRLEN];

	printf(" %s ", name);
	print_node(hop->kind, hop->number);
	printf("/%s", address(hop->link_data, text));
}

/* A later library may have more of them. */
static const char *tag(uint32_t number)
{
	static const char *const tags[] = { "sole", "head", "top", "below", "above", "unordered", "carried" };

	return number <= MRT_TAG_CARRIED ? tags[number] : "?";
}

static void print_row(const struct mrt_row *row)
{
	static const char *const letters[] = { "", "b", "r", "-" };

	print_node(row->kind, row->number);
	printf(" %s", tag(row->tag));
	print_hop("blue", &row->blue);
	print_hop("red", &row->red);
	print_hop("primary", &row->primary);
	printf(" repair %s%s%s%s\n", letters[row->repair_link], letters[row->repair_node],
	       letters[row->repair_second_link], letters[row->repair_second_node]);
}

static void table(const struct mrt_area *area, const char *name)
{
	static struct mrt_row rows[MOST_ROWS];
	char text[INET_ADDRSTRLEN];
	struct mrt_island island;
	struct mrt_fault fault;
	size_t count = 0;

	if (mrt_shape(area, router(name), &island, &fault) != MRT_DONE ||
	    mrt_table(area, router(name), rows, MOST_ROWS, &count, &fault) != MRT_DONE)
		refuse(&fault);
	printf("router %s root %s nodes %u links %u\n", name, address(island.root, text), island.nodes, island.links);
	for (size_t i = 0; i < count; i++)
		print_row(&rows[i]);
}

static void check(const struct mrt_area *area, const char *name)
{
	struct mrt_bytes certificate = contents(name);
	char text[INET_ADDRSTRLEN];
	struct mrt_verdict verdict;
	struct mrt_fault fault;

	if (mrt_check(area, certificate.data, certificate.size, &verdict, &fault) != MRT_DONE)
		refuse(&fault);
	printf("accepted root %s nodes %u links %u\n", address(verdict.root, text), verdict.nodes, verdict.links);
}

int main(int count, char **words)
{
	bool is_check = count == 5 && strcmp(words[1], "check") == 0;

	if (count != 5 || (!is_check && strcmp(words[1], "table") != 0)) {
		fprintf(stderr, "usage: mrt-example table DB PROFILE ROUTER, check DB PROFILE CERT\n");
		return MRT_USAGE;
	}
	struct mrt_area area = { .lsas = contents(words[2]), .profile = contents(words[3]) };

	if (is_check)
		check(&area, words[4]);
	else
		table(&area, words[4]);
	return 0;
}
