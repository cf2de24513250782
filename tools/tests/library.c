/*
 * Tries the library as C calls it: every call with every status that it has, buffers of every length around the right one with anything in them
 * before, nothing left after a call, each allocation refused in turn, eight threads at once, and a stack of 64 KiB.
 *
 *     library FOLDER [PART ..]    FOLDER has the files of crates/mrt/data; the parts are rooms, memory, threads and stack
 *
 * It prints each call with each status that it gave, and ends with 1 at the first thing that is not as mrt.h says. It is linked with libmrt.a and
 * --wrap for malloc, realloc and free.
 */
#define _GNU_SOURCE
#include <mrt.h>

#include <pthread.h>
#include <stdbool.h>
#include <stdio.h>
#include <stdlib.h>
#include <string.h>

#define LINES 512
#define COUNT(list) (sizeof(list) / sizeof *(list))

enum { CALLS = 8, STATUSES = 15, THREADS = 8, ROUNDS = 5, STACK = 64 * 1024 };

static const char *const names[CALLS] = { "mrt_run", "mrt_line", "mrt_shape", "mrt_certify", "mrt_check", "mrt_table", "mrt_row_for", "mrt_proxy" };
enum { RUN, LINE, SHAPE, CERTIFY, CHECK, TABLE, ROW_FOR, PROXY };

/* The memory that the library takes, of a thread: how many blocks there are, how many were asked for, and which request is refused. */
static __thread long blocks, asked, refused;

void *__real_malloc(size_t size);
void *__real_realloc(void *block, size_t size);
void __real_free(void *block);
void *__wrap_malloc(size_t size);
void *__wrap_realloc(void *block, size_t size);
void __wrap_free(void *block);

void *__wrap_malloc(size_t size)
{
	void *block = ++asked == refused ? NULL : __real_malloc(size);

	blocks += block != NULL;
	return block;
}

void *__wrap_realloc(void *block, size_t size)
{
	void *moved = ++asked == refused ? NULL : __real_realloc(block, size);

	blocks += moved != NULL && block == NULL;
	return moved;
}

void __wrap_free(void *block)
{
	blocks -= block != NULL;
	__real_free(block);
}

#define TRUE(said, what) ((said) ? (void)0 : wrong(what, __LINE__))

static void wrong(const char *what, int line)
{
	fprintf(stderr, "library.c:%d: not so: %s\n", line, what);
	exit(1);
}

/* A block of exactly so many bytes, with the same byte in each, so that what is written or read beside it is seen. */
static void *block_of(size_t size, int byte)
{
	void *block = __real_malloc(size ? size : 1);

	TRUE(block, "there is memory");
	memset(block, byte, size ? size : 1);
	return block;
}

static struct mrt_bytes of(const char *text)
{
	struct mrt_bytes bytes = { (const uint8_t *)text, strlen(text) };

	return bytes;
}

/* The bytes of a sample, in a block of their size. */
static struct mrt_bytes sample(const char *folder, const char *name)
{
	char path[4096];
	struct mrt_bytes bytes;
	FILE *file;
	long size;

	snprintf(path, sizeof path, "%s/%s", folder, name);
	file = fopen(path, "rb");
	TRUE(file && fseek(file, 0, SEEK_END) == 0, path);
	size = ftell(file);
	rewind(file);
	uint8_t *data = block_of((size_t)size, 0);
	TRUE(fread(data, 1, (size_t)size, file) == (size_t)size, path);
	fclose(file);
	bytes.data = data;
	bytes.size = (size_t)size;
	return bytes;
}

/* A call, and what it is to answer. */
struct task {
	int call;
	uint32_t status;
	const char *words[8];
	struct mrt_area area;
	uint32_t router;
	struct mrt_bytes certificate;
	uint32_t kind, number;
	const struct mrt_pair *pairs;
	size_t pair_count;
	struct mrt_fault fault;
};

static struct mrt_file files[16];
static size_t file_count;
static struct task tasks[128];
static size_t task_count;

/* What a call gave: its bytes in a buffer of its own, and the fault. */
struct answer {
	uint32_t status;
	size_t count, size;
	uint8_t *bytes;
	struct mrt_fault fault;
};

/* How many bytes an element has of what a call gives in a buffer, and of what it gives in a struct; 0 where it gives none so. */
static const size_t elements[CALLS] = { 1, 1, 0, 1, 0, sizeof(struct mrt_row), 0, sizeof(struct mrt_proxy_row) };
static const size_t structs[CALLS] = {
	[SHAPE] = sizeof(struct mrt_island), [CHECK] = sizeof(struct mrt_verdict), [ROW_FOR] = sizeof(struct mrt_row)
};

static uint32_t made(const struct task *task, void *buffer, size_t room, size_t *count, struct mrt_fault *fault)
{
	struct mrt_bytes words[COUNT(task->words)];
	size_t word_count = 0;

	switch (task->call) {
	case RUN:
		while (word_count < COUNT(words) && task->words[word_count]) {
			words[word_count] = of(task->words[word_count]);
			word_count++;
		}
		return mrt_run(words, word_count, files, file_count, buffer, room, count, fault);
	case LINE:
		return mrt_line(&task->fault, buffer, room, count);
	case SHAPE:
		return mrt_shape(&task->area, task->router, buffer, fault);
	case CERTIFY:
		return mrt_certify(&task->area, task->router, buffer, room, count, fault);
	case CHECK:
		return mrt_check(&task->area, task->certificate.data, task->certificate.size, buffer, fault);
	case TABLE:
		return mrt_table(&task->area, task->router, buffer, room, count, fault);
	case ROW_FOR:
		return mrt_row_for(&task->area, task->router, task->kind, task->number, buffer, fault);
	default:
		return mrt_proxy(&task->area, task->router, task->pairs, task->pair_count, buffer, room, count, fault);
	}
}

/* Makes a call with this room in elements and this byte in all that it may write. */
static struct answer answer(const struct task *task, size_t room, int byte)
{
	struct answer it = { 0 };
	long before = blocks;

	it.size = elements[task->call] ? room * elements[task->call] : structs[task->call];
	it.bytes = block_of(it.size, byte);
	memset(&it.count, byte, sizeof it.count);
	memset(&it.fault, byte, sizeof it.fault);
	it.status = made(task, it.bytes, room, &it.count, &it.fault);
	TRUE(blocks == before, "a call gives back what it takes");
	TRUE(it.status < STATUSES, "a status is one of the program's");
	if (task->call != LINE) {
		TRUE(it.fault.status == it.status, "the fault has the status");
		TRUE(it.fault.reserved == 0, "what is reserved is 0");
		if (it.status == MRT_DONE)
			TRUE(!it.fault.kind && !it.fault.at && !it.fault.other && !it.fault.size, "no fault has numbers on success");
	}
	return it;
}

static size_t room_for(const struct task *task)
{
	switch (task->call) {
	case RUN:
	case CERTIFY:
		return 1 << 16;
	case LINE:
		return LINES;
	default:
		return 4095;
	}
}

/* What the call is to answer: on success what it gives, of mrt_run the line of a refusal too, else the fault alone. */
static struct answer right(const struct task *task)
{
	struct answer it = answer(task, room_for(task), 0);

	if (it.status != task->status) {
		fprintf(stderr, "task %d: %s gives %u and not %u\n", (int)(task - tasks), names[task->call], it.status, task->status);
		exit(1);
	}
	return it;
}

static void same(const struct task *task, const struct answer *it, const struct answer *wanted)
{
	bool has_text = it->status == MRT_DONE || task->call == RUN;

	TRUE(it->status == wanted->status, "the same arguments give the same status");
	if (task->call != LINE)
		TRUE(memcmp(&it->fault, &wanted->fault, sizeof it->fault) == 0, "and the same fault");
	if (elements[task->call]) {
		TRUE(it->count == wanted->count, "and the same count");
		TRUE(!has_text || memcmp(it->bytes, wanted->bytes, it->count * elements[task->call]) == 0, "and the same elements");
	} else if (it->status == MRT_DONE) {
		TRUE(memcmp(it->bytes, wanted->bytes, it->size) == 0, "and the same struct");
	}
}

/* Each call once more, with anything before in what it may write. */
static void again(const struct task *task, const struct answer *wanted)
{
	struct answer it = answer(task, room_for(task), 0xff);

	same(task, &it, wanted);
	__real_free(it.bytes);
}

/* A call in a room that is too small or too large; each of the first ones, those around the right one, and others at random. */
static void in_room(const struct task *task, const struct answer *wanted, size_t room)
{
	struct answer it = answer(task, room, 0xa5);
	size_t size = elements[task->call];

	if (room >= wanted->count) {
		same(task, &it, wanted);
		for (size_t at = wanted->count * size; at < it.size && it.status == MRT_DONE; at++)
			TRUE(it.bytes[at] == 0xa5, "what there is no element for is not written");
	} else if (wanted->status == MRT_DONE) {
		TRUE(it.status == MRT_WRITE_FAULT, "there is no room");
		TRUE(it.count == wanted->count, "how much there has to be is told");
		if (task->call != LINE)
			TRUE(it.fault.size == room && !it.fault.kind && !it.fault.at && !it.fault.other, "so is how much there is");
	} else if (task->call == RUN) {
		TRUE(it.status == wanted->status && it.count == wanted->count, "a refusal has no need of room");
		TRUE(memcmp(it.bytes, wanted->bytes, room) == 0, "the first bytes of its line are there");
	}
	__real_free(it.bytes);
}

static void rooms(const struct task *task, const struct answer *wanted)
{
	for (size_t room = 0; elements[task->call] && room <= wanted->count + 9; room++)
		if (room < 70 || room + 70 > wanted->count || room % 97 == 0)
			in_room(task, wanted, room);
}

/* Each request for memory refused in turn: there is no answer then, and nothing is left. */
static void memory(const struct task *task, const struct answer *wanted)
{
	static bool was_refused[CALLS];
	long most;

	asked = 0;
	refused = 0;
	again(task, wanted);
	most = asked;
	for (long at = 1; at <= most; at++) {
		asked = 0;
		refused = at;
		struct answer it = answer(task, room_for(task), 0x5a);
		refused = 0;
		if (it.status == MRT_NO_MEMORY) {
			was_refused[task->call] = true;
			if (task->call == RUN)
				TRUE(it.count == 15 && memcmp(it.bytes, "mrt: no memory\n", 15) == 0, "want of memory has its line");
			if (task->call != LINE)
				TRUE(!it.fault.kind && !it.fault.at && !it.fault.other && !it.fault.size, "want of memory has no numbers");
			TRUE(task->call == RUN || !elements[task->call] || it.count == 0, "nothing is there then");
		} else {
			/* (what may have a piece of memory or another goes on; the answer is the same then) */
			same(task, &it, wanted);
		}
		__real_free(it.bytes);
	}
	TRUE(task->call != LINE || most == 0, "a line takes no memory");
	if (was_refused[task->call])
		printf("%s %u\n", names[task->call], MRT_NO_MEMORY);
}

static struct answer wanted[COUNT(tasks)];

static void *all(void *rounds)
{
	for (int round = 0; round < *(int *)rounds; round++)
		for (size_t at = 0; at < task_count; at++)
			again(&tasks[at], &wanted[at]);
	return NULL;
}

static void threads(void)
{
	pthread_t ids[THREADS];
	int rounds = ROUNDS;

	for (size_t at = 0; at < THREADS; at++)
		TRUE(pthread_create(&ids[at], NULL, all, &rounds) == 0, "there is a thread");
	for (size_t at = 0; at < THREADS; at++)
		pthread_join(ids[at], NULL);
}

static void stack(void)
{
	pthread_attr_t attributes;
	pthread_t id;
	int rounds = 1;

	pthread_attr_init(&attributes);
	TRUE(pthread_attr_setstacksize(&attributes, STACK) == 0, "a stack may have 64 KiB");
	TRUE(pthread_create(&id, &attributes, all, &rounds) == 0, "there is a thread");
	pthread_join(id, NULL);
	pthread_attr_destroy(&attributes);
}

static struct task *task(int call, uint32_t status)
{
	struct task *it = &tasks[task_count++];

	TRUE(task_count <= COUNT(tasks), "there is place for all tasks");
	it->call = call;
	it->status = status;
	return it;
}

static void file(const char *name, struct mrt_bytes bytes)
{
	files[file_count].name = of(name);
	files[file_count++].bytes = bytes;
}

static void run(uint32_t status, const char *words)
{
	struct task *it = task(RUN, status);
	char *text = strdup(words), *rest = text;

	for (size_t at = 0; rest; at++)
		it->words[at] = strsep(&rest, " ");
}

/* A fault of each kind in what an area is made of. */
struct fault_of_area {
	uint32_t status;
	struct mrt_area area;
	uint32_t router;
};

/* LSAs of a ring of routers, each with its checksum right: more of them than an area may have. */
static struct mrt_bytes large(uint32_t count)
{
	size_t size = 24 + 24;
	uint8_t *data = block_of(count * size, 0);

	for (uint32_t at = 0; at < count; at++) {
		uint8_t *lsa = data + at * size;
		uint32_t id = 0x0a000000 + at, next = 0x0a000000 + (at + 1) % count, last = 0x0a000000 + (at + count - 1) % count;
		uint32_t far[2] = { next, last };
		int first = 0, second = 0;

		lsa[1] = 1;
		lsa[2] = 2;
		lsa[3] = 1;
		for (int byte = 0; byte < 4; byte++) {
			lsa[4 + byte] = lsa[8 + byte] = (uint8_t)(id >> (24 - 8 * byte));
			for (int link = 0; link < 2; link++)
				lsa[24 + 12 * link + byte] = (uint8_t)(far[link] >> (24 - 8 * byte));
		}
		lsa[12] = 0x80;
		lsa[15] = 1;
		lsa[19] = (uint8_t)size;
		lsa[23] = 2;
		for (int link = 0; link < 2; link++) {
			lsa[24 + 12 * link + 7] = (uint8_t)(link + 1);
			lsa[24 + 12 * link + 8] = 1;
			lsa[24 + 12 * link + 11] = 1;
		}
		for (size_t place = 2; place < size; place++) {
			first = (first + lsa[place]) % 255;
			second = (second + first) % 255;
		}
		/* (RFC 905, annex B, over all but the age, the checksum standing 14 bytes into that) */
		int one = ((int)(size - 2 - 15) * first - second) % 255, two = (second - (int)(size - 2 - 14) * first) % 255;
		lsa[16] = (uint8_t)(one <= 0 ? one + 255 : one);
		lsa[17] = (uint8_t)(two <= 0 ? two + 255 : two);
	}
	struct mrt_bytes bytes = { data, count * size };

	return bytes;
}

static void tasks_of_run(const char *folder)
{
	static const char *const samples[] = { "lan.lsas", "lan.profile", "lan.cert", "triangle.lsas", "triangle.updates", "triangle.deliveries" };

	for (size_t at = 0; at < COUNT(samples); at++)
		file(samples[at], sample(folder, samples[at]));
	file("empty", of(""));
	file("long", (struct mrt_bytes){ block_of(8388609, 0), 8388609 });
	file("script", of("island 1.1.1.1 4\ninject 1.1.1.1 2.2.2.2 blue\nstep 0\nfail 3.3.3.3\nstep 0\n"));
	run(MRT_DONE, "table lan.lsas lan.profile 10.255.1.1");
	run(MRT_DONE, "certify lan.lsas lan.profile 10.255.1.4");
	run(MRT_DONE, "check lan.lsas lan.profile lan.cert");
	run(MRT_DONE, "upgrade lan.lsas lan.profile lan.cert");
	run(MRT_DONE, "trace triangle.lsas - 2.2.2.2 1.1.1.1 repair link:2.2.2.2/0.0.0.1");
	run(MRT_DONE, "fabric triangle.lsas empty script");
	run(MRT_DONE, "lfa lan.lsas 10.255.1.1");
	run(MRT_DONE, "order lan.lsas lan.profile 10.255.1.1");
	run(MRT_DONE, "proxy lan.lsas lan.profile 10.255.1.1 10.255.1.1 10.255.1.2");
	run(MRT_DONE, "flood triangle.updates - triangle.deliveries");
	run(MRT_DONE, "survey 1 8");
	run(MRT_NO, "check lan.lsas empty lan.cert");
	run(MRT_USAGE, "table lan.lsas");
	task(RUN, MRT_USAGE);
	run(MRT_BAD_DATABASE, "table lan.profile - 10.255.1.1");
	run(MRT_BAD_PROFILE, "table lan.lsas lan.lsas 10.255.1.1");
	run(MRT_BAD_CERTIFICATE, "check lan.lsas lan.profile lan.lsas");
	run(MRT_TOO_LARGE, "table long - 10.255.1.1");
	run(MRT_NOT_THERE, "table empty - 10.255.1.1");
	run(MRT_READ_FAULT, "table nothing - 10.255.1.1");
	run(MRT_BAD_SCRIPT, "fabric triangle.lsas - lan.profile");
	run(MRT_NO_COMMON_BLOCK, "proxy lan.lsas lan.profile 10.255.1.1 10.255.1.2 10.255.1.3");
	run(MRT_BAD_UPDATE, "flood lan.lsas - triangle.deliveries");
}

/* The lines of faults of each kind, and of two that no call gives. */
static void tasks_of_line(void)
{
	static const struct mrt_fault faults[] = {
		{ .status = MRT_DONE }, { MRT_NO, 14, 4095, 16383, 0, 0 }, { .status = MRT_USAGE }, { MRT_BAD_DATABASE, MRT_LSA_CHECKSUM, 7, 0, 0, 0 },
		{ MRT_BAD_DATABASE, MRT_LSA_CONFLICT, 8388607, 5, 0, 0 }, { MRT_BAD_PROFILE, MRT_PROFILE_REPEATED, 4294967295u, 0, 0, 0 },
		{ MRT_BAD_CERTIFICATE, MRT_CERTIFICATE_HEADS, 99, 0, 0, 0 }, { MRT_TOO_LARGE, MRT_LARGE_AREA_ARCS, 0, 0, 32769, 0 },
		{ MRT_NOT_THERE, 0, 0xffffffffu, 0, 0, 0 }, { MRT_READ_FAULT, 0, 3, 0, 0, 0 }, { MRT_WRITE_FAULT, 0, 0, 0, UINT64_MAX, 0 },
		{ .status = MRT_NO_MEMORY }, { MRT_BAD_SCRIPT, 0, 9, 0, 0, 0 }, { .status = MRT_NO_COMMON_BLOCK },
		{ MRT_BAD_UPDATE, MRT_UPDATE_COUNT, 8, 0, 0, 0 }, { MRT_BAD_UPDATE, MRT_LSA_BODY, 8, 0, 0, 0 },
	};

	for (size_t at = 0; at < COUNT(faults); at++)
		task(LINE, MRT_DONE)->fault = faults[at];
	task(LINE, MRT_USAGE)->fault = (struct mrt_fault){ .status = 12 };
	task(LINE, MRT_USAGE)->fault = (struct mrt_fault){ .status = MRT_BAD_DATABASE, .kind = 9 };
	task(LINE, MRT_USAGE)->fault = (struct mrt_fault){ .status = 4294967295u, .kind = 4294967295u };
}

/* The first router of lan.lsas. */
enum { FIRST = 0x0aff0101 };

static void tasks_of_area(void)
{
	struct mrt_bytes none = of(""), lsas = files[0].bytes, profile = files[1].bytes, cert = files[2].bytes;
	struct mrt_area lan = { lsas, profile, 0 };
	const uint32_t first = FIRST;
	const struct fault_of_area areas[] = {
		{ MRT_DONE, lan, first },
		{ MRT_DONE, lan, first + 3 },
		{ MRT_USAGE, { lsas, profile, 1 }, first },
		{ MRT_BAD_DATABASE, { profile, none, 0 }, first },
		{ MRT_BAD_PROFILE, { lsas, lsas, 0 }, first },
		{ MRT_TOO_LARGE, { files[7].bytes, none, 0 }, first },
		{ MRT_TOO_LARGE, { large(4097), none, 0 }, 0x0a000000 },
		{ MRT_NOT_THERE, lan, 9 },
		{ MRT_NOT_THERE, { none, none, 0 }, first },
	};
	static const struct mrt_pair pairs[] = { { FIRST, FIRST + 1 }, { FIRST + 1, FIRST }, { FIRST, FIRST }, { FIRST, 9 }, { FIRST + 1, FIRST + 2 } };

	for (size_t at = 0; at < COUNT(areas); at++) {
		static const int calls[] = { SHAPE, CERTIFY, TABLE, ROW_FOR, PROXY, CHECK };

		for (size_t call = 0; call < COUNT(calls); call++) {
			struct task *it = task(calls[call], areas[at].status);

			it->area = areas[at].area;
			it->router = areas[at].router;
			it->kind = MRT_ROUTER;
			it->number = first + 1;
			it->certificate = cert;
			it->pairs = pairs;
			it->pair_count = COUNT(pairs);
			/* (a certificate names its root itself) */
			if (calls[call] == CHECK && areas[at].router == 9)
				it->status = MRT_DONE;
		}
	}
	task(CHECK, MRT_NO)->area.lsas = lsas;
	tasks[task_count - 1].certificate = cert;
	tasks[task_count - 1].area.profile = none;
	task(CHECK, MRT_BAD_CERTIFICATE)->area = lan;
	tasks[task_count - 1].certificate = lsas;
	task(CHECK, MRT_TOO_LARGE)->area = lan;
	tasks[task_count - 1].certificate = (struct mrt_bytes){ calloc(134217729, 1), 134217729 };
	for (uint32_t kind = 0; kind < 4; kind++) {
		struct task *it = task(ROW_FOR, kind == MRT_NETWORK ? MRT_DONE : MRT_NOT_THERE);

		it->area = lan;
		it->router = first;
		it->kind = kind;
		it->number = kind == MRT_NETWORK ? 0xc6336404 : first;
	}
}

/* Of these pairs the last three have no hops: two routers that are one, one that is not there, two without a common block. */
static void pairs_are_told(const struct answer *it)
{
	static const uint32_t statuses[] = { MRT_DONE, MRT_DONE, MRT_USAGE, MRT_NOT_THERE, MRT_NO_COMMON_BLOCK };
	const struct mrt_proxy_row *rows = (const void *)it->bytes;

	TRUE(it->count == COUNT(statuses), "there is a row for each pair");
	for (size_t at = 0; at < COUNT(statuses); at++) {
		TRUE(rows[at].status == statuses[at], "a row says why it has no hops");
		TRUE(rows[at].at == (statuses[at] == MRT_NOT_THERE ? 9 : 0), "and which router is not there");
		TRUE((rows[at].blue.kind == 0) == (statuses[at] != MRT_DONE), "a row has hops or says why not");
		TRUE((rows[at].red.kind == 0) == (statuses[at] != MRT_DONE), "of both colors");
	}
}

int main(int count, char **words)
{
	TRUE(count >= 2, "a folder is named");
	TRUE(mrt_abi() >= MRT_ABI, "the library has this interface");
	tasks_of_run(words[1]);
	tasks_of_line();
	tasks_of_area();
	for (size_t at = 0; at < task_count; at++) {
		wanted[at] = right(&tasks[at]);
		printf("%s %u\n", names[tasks[at].call], wanted[at].status);
		if (tasks[at].call == PROXY && wanted[at].status == MRT_DONE)
			pairs_are_told(&wanted[at]);
		again(&tasks[at], &wanted[at]);
	}
	for (int part = 2; part < count; part++) {
		for (size_t at = 0; at < task_count; at++) {
			if (strcmp(words[part], "rooms") == 0)
				rooms(&tasks[at], &wanted[at]);
			else if (strcmp(words[part], "memory") == 0)
				memory(&tasks[at], &wanted[at]);
		}
		if (strcmp(words[part], "rooms") == 0)
			for (size_t call = 0; call < CALLS; call++)
				if (elements[call])
					printf("%s %u\n", names[call], MRT_WRITE_FAULT);
		if (strcmp(words[part], "threads") == 0)
			threads();
		else if (strcmp(words[part], "stack") == 0)
			stack();
	}
	return 0;
}
