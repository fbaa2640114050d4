/*
 * Times reading netlink dumps by this library and by libmnl, from C and within one export.
 *
 * Each dump is repeated in memory up to 1, 4 and 16 MB. Each reader walks the same bytes and adds up the
 * same numbers: the lengths that the messages state, or the types of the attributes and the lengths of their
 * payloads. A reader that finds a fault, or another sum than libmnl, ends the run with status 1.
 */
#include "neli.h"
#include <libmnl/libmnl.h>
#include <linux/rtnetlink.h>
#include <stdbool.h>
#include <stdint.h>
#include <stdio.h>
#include <stdlib.h>
#include <string.h>
#include <time.h>

#define MEGABYTE (1u << 20)
#define LARGEST (16 * MEGABYTE)
#define SIZES 3
#define READERS 7 /* of attributes; of headers one less */
#define COPIES 256 /* attributes of a message, at most, whose payloads are copied */
#define ROOM 16 /* messages or attributes that one call gives: what it fills stays in the nearest cache */
#ifndef ROUNDS
#define ROUNDS 40
#endif

/* The exports of crates/neli_bench. Each returns whether it read all the bytes without a fault. */
bool neli_bench_owned_headers(const uint8_t *bytes, size_t length, uint64_t *total);
bool neli_bench_owned_link_attributes(const uint8_t *bytes, size_t length, uint64_t *total);
bool neli_bench_owned_route_attributes(const uint8_t *bytes, size_t length, uint64_t *total);
bool neli_bench_lent_headers(const uint8_t *bytes, size_t length, uint64_t *total);
bool neli_bench_lent_link_attributes(const uint8_t *bytes, size_t length, uint64_t *total);
bool neli_bench_lent_route_attributes(const uint8_t *bytes, size_t length, uint64_t *total);

typedef bool walk(const uint8_t *bytes, size_t length, uint64_t *total);

struct reader {
	const char *name;
	walk *run;
	double nanoseconds[SIZES]; /* for one message, in the best round */
	double heap_calls; /* malloc and realloc, for one message */
};

struct subject {
	const char *what;
	struct reader readers[READERS]; /* libmnl is the first */
};

struct bytes {
	uint8_t *data;
	size_t length;
};

static const size_t sizes[SIZES] = { MEGABYTE, 4 * MEGABYTE, LARGEST };

/* The linker gives the calls of malloc and realloc to these (--wrap). */
void *__real_malloc(size_t size);
void *__real_realloc(void *piece, size_t size);

static size_t heap_calls;

void *__wrap_malloc(size_t size)
{
	heap_calls++;
	return __real_malloc(size);
}

void *__wrap_realloc(void *piece, size_t size)
{
	heap_calls++;
	return __real_realloc(piece, size);
}

static void fail(const char *what, const char *name)
{
	fprintf(stderr, "bench: %s: %s\n", name, what);
	exit(1);
}

/* ---- libmnl */

static bool mnl_headers(const uint8_t *bytes, size_t length, uint64_t *total)
{
	const struct nlmsghdr *message = (const struct nlmsghdr *)bytes;
	int left = (int)length;
	uint64_t sum = 0;

	while (mnl_nlmsg_ok(message, left)) {
		sum += message->nlmsg_len;
		message = mnl_nlmsg_next(message, &left);
	}
	*total = sum;
	return left == 0;
}

/* `header` is the size of the bytes before the attributes. */
static inline bool mnl_attributes(const uint8_t *bytes, size_t length, unsigned int header, uint64_t *total)
{
	const struct nlmsghdr *message = (const struct nlmsghdr *)bytes;
	int left = (int)length;
	uint64_t sum = 0;

	while (mnl_nlmsg_ok(message, left)) {
		const struct nlattr *attribute;

		mnl_attr_for_each(attribute, message, header) {
			sum += mnl_attr_get_type(attribute);
			sum += mnl_attr_get_payload_len(attribute);
		}
		message = mnl_nlmsg_next(message, &left);
	}
	*total = sum;
	return left == 0;
}

static bool mnl_link_attributes(const uint8_t *bytes, size_t length, uint64_t *total)
{
	return mnl_attributes(bytes, length, sizeof(struct ifinfomsg), total);
}

static bool mnl_route_attributes(const uint8_t *bytes, size_t length, uint64_t *total)
{
	return mnl_attributes(bytes, length, sizeof(struct rtmsg), total);
}

/* ---- libmnl, with each payload copied, as an owned reader does */

/* What was copied of one message: external, so that no copy can be left out. */
void *copies[COPIES];

static void free_copies(size_t count)
{
	for (size_t i = 0; i < count; i++)
		free(copies[i]);
}

/* Copies bytes into memory of their own; nothing for none. */
static bool copy(size_t *count, const void *bytes, size_t length)
{
	if (length == 0)
		return true;
	if (*count == COPIES || !(copies[*count] = malloc(length)))
		return false;
	memcpy(copies[(*count)++], bytes, length);
	return true;
}

static bool copied_headers(const uint8_t *bytes, size_t length, uint64_t *total)
{
	const struct nlmsghdr *message = (const struct nlmsghdr *)bytes;
	int left = (int)length;
	uint64_t sum = 0;

	while (mnl_nlmsg_ok(message, left)) {
		size_t count = 0;
		bool is_copied = copy(&count, mnl_nlmsg_get_payload(message), mnl_nlmsg_get_payload_len(message));

		sum += message->nlmsg_len;
		free_copies(count);
		if (!is_copied)
			return false;
		message = mnl_nlmsg_next(message, &left);
	}
	*total = sum;
	return left == 0;
}

/* `header` is the size of the bytes before the attributes. */
static inline bool copied_attributes(const uint8_t *bytes, size_t length, unsigned int header, uint64_t *total)
{
	const struct nlmsghdr *message = (const struct nlmsghdr *)bytes;
	int left = (int)length;
	uint64_t sum = 0;

	while (mnl_nlmsg_ok(message, left)) {
		const struct nlattr *attribute;
		bool is_copied = true;
		size_t count = 0;

		mnl_attr_for_each(attribute, message, header) {
			uint16_t size = mnl_attr_get_payload_len(attribute);

			is_copied = is_copied && copy(&count, mnl_attr_get_payload(attribute), size);
			sum += mnl_attr_get_type(attribute) + size;
		}
		free_copies(count);
		if (!is_copied)
			return false;
		message = mnl_nlmsg_next(message, &left);
	}
	*total = sum;
	return left == 0;
}

static bool copied_link_attributes(const uint8_t *bytes, size_t length, uint64_t *total)
{
	return copied_attributes(bytes, length, sizeof(struct ifinfomsg), total);
}

static bool copied_route_attributes(const uint8_t *bytes, size_t length, uint64_t *total)
{
	return copied_attributes(bytes, length, sizeof(struct rtmsg), total);
}

/* ---- libmnl, with each payload copied, and all attributes of a message in a list, as an owned message has them */

struct kept {
	uint16_t type, length;
	void *payload;
};

/* A list that doubles, from four attributes on. */
struct list {
	struct kept *attributes;
	size_t count, room;
};

/* External, so that no list can be left out. */
struct list kept;

static void keep(struct list *list, uint16_t type, const void *bytes, uint16_t length)
{
	void *payload = length ? malloc(length) : NULL;

	if (list->count == list->room) {
		size_t room = list->room ? 2 * list->room : 4;
		void *more = realloc(list->attributes, room * sizeof(struct kept));

		if (!more)
			fail("out of memory", "listed");
		list->attributes = more;
		list->room = room;
	}
	if (length && !payload)
		fail("out of memory", "listed");
	if (length)
		memcpy(payload, bytes, length);
	list->attributes[list->count++] = (struct kept){ type, length, payload };
}

static void free_list(struct list *list)
{
	for (size_t i = 0; i < list->count; i++)
		free(list->attributes[i].payload);
	free(list->attributes);
	*list = (struct list){ 0 };
}

/* `header` is the size of the bytes before the attributes. */
static inline bool listed_attributes(const uint8_t *bytes, size_t length, unsigned int header, uint64_t *total)
{
	const struct nlmsghdr *message = (const struct nlmsghdr *)bytes;
	int left = (int)length;
	uint64_t sum = 0;

	while (mnl_nlmsg_ok(message, left)) {
		const struct nlattr *attribute;

		mnl_attr_for_each(attribute, message, header)
			keep(&kept, mnl_attr_get_type(attribute), mnl_attr_get_payload(attribute),
			     mnl_attr_get_payload_len(attribute));
		for (size_t i = 0; i < kept.count; i++)
			sum += kept.attributes[i].type + kept.attributes[i].length;
		free_list(&kept);
		message = mnl_nlmsg_next(message, &left);
	}
	*total = sum;
	return left == 0;
}

static bool listed_link_attributes(const uint8_t *bytes, size_t length, uint64_t *total)
{
	return listed_attributes(bytes, length, sizeof(struct ifinfomsg), total);
}

static bool listed_route_attributes(const uint8_t *bytes, size_t length, uint64_t *total)
{
	return listed_attributes(bytes, length, sizeof(struct rtmsg), total);
}

/* ---- this library, by its calls for C that give several messages or attributes at once */

static bool call_headers(const uint8_t *bytes, size_t length, uint64_t *total)
{
	struct neli_walk walk = { 0, length };
	struct neli_message messages[ROOM];
	uint64_t sum = 0;
	size_t count;
	int32_t code;

	while ((code = neli_next_messages(bytes, length, &walk, messages, ROOM, &count)) == NELI_ITEM)
		for (size_t i = 0; i < count; i++)
			sum += messages[i].length;
	*total = sum;
	return code == NELI_END;
}

/* Adds up the attributes of a message after a header of this size. */
static inline bool add_attributes(const uint8_t *bytes, size_t length, const struct neli_message *message,
				  size_t header, uint64_t *sum)
{
	struct neli_attribute attributes[ROOM];
	struct neli_walk walk;
	size_t count;
	int32_t code;

	if (neli_attributes_of(message, header, &walk) != NELI_OK)
		return false;
	while ((code = neli_next_attributes(bytes, length, &walk, attributes, ROOM, &count)) == NELI_ITEM)
		for (size_t i = 0; i < count; i++)
			*sum += attributes[i].number + attributes[i].payload_length;
	return code == NELI_END;
}

/* One message at a time, so that its attributes are read while its bytes are at hand. */
static inline bool call_attributes(const uint8_t *bytes, size_t length, size_t header, uint64_t *total)
{
	struct neli_walk walk = { 0, length };
	struct neli_message message;
	uint64_t sum = 0;
	int32_t code;

	while ((code = neli_next_message(bytes, length, &walk, &message)) == NELI_ITEM)
		if (!add_attributes(bytes, length, &message, header, &sum))
			return false;
	*total = sum;
	return code == NELI_END;
}

static bool call_link_attributes(const uint8_t *bytes, size_t length, uint64_t *total)
{
	return call_attributes(bytes, length, sizeof(struct ifinfomsg), total);
}

static bool call_route_attributes(const uint8_t *bytes, size_t length, uint64_t *total)
{
	return call_attributes(bytes, length, sizeof(struct rtmsg), total);
}

/* ---- this library, by a call for each message and each attribute */

static bool single_headers(const uint8_t *bytes, size_t length, uint64_t *total)
{
	struct neli_walk walk = { 0, length };
	struct neli_message message;
	uint64_t sum = 0;
	int32_t code;

	while ((code = neli_next_message(bytes, length, &walk, &message)) == NELI_ITEM)
		sum += message.length;
	*total = sum;
	return code == NELI_END;
}

static inline bool single_attributes(const uint8_t *bytes, size_t length, size_t header, uint64_t *total)
{
	struct neli_walk walk = { 0, length };
	struct neli_message message;
	uint64_t sum = 0;
	int32_t code;

	while ((code = neli_next_message(bytes, length, &walk, &message)) == NELI_ITEM) {
		struct neli_walk attributes;
		struct neli_attribute attribute;

		if (neli_attributes_of(&message, header, &attributes) != NELI_OK)
			return false;
		while ((code = neli_next_attribute(bytes, length, &attributes, &attribute)) == NELI_ITEM)
			sum += attribute.number + attribute.payload_length;
		if (code != NELI_END)
			return false;
	}
	*total = sum;
	return code == NELI_END;
}

static bool single_link_attributes(const uint8_t *bytes, size_t length, uint64_t *total)
{
	return single_attributes(bytes, length, sizeof(struct ifinfomsg), total);
}

static bool single_route_attributes(const uint8_t *bytes, size_t length, uint64_t *total)
{
	return single_attributes(bytes, length, sizeof(struct rtmsg), total);
}

/* ---- the bytes */

static struct bytes read_file(const char *path)
{
	static uint8_t room[MEGABYTE];
	FILE *file = fopen(path, "rb");
	struct bytes dump = { room, 0 };

	if (!file)
		fail("cannot be opened", path);
	dump.length = fread(room, 1, sizeof(room), file);
	if (ferror(file) || dump.length == 0 || dump.length == sizeof(room))
		fail("is empty, too large or not readable", path);
	fclose(file);
	return dump;
}

/* Whole copies of the dump, of at least `size` bytes. */
static struct bytes repeat(struct bytes dump, size_t size)
{
	size_t copies = (size + dump.length - 1) / dump.length;
	struct bytes all = { malloc(copies * dump.length), copies * dump.length };

	if (!all.data)
		fail("out of memory", "repeat");
	for (size_t i = 0; i < copies; i++)
		memcpy(all.data + i * dump.length, dump.data, dump.length);
	return all;
}

static size_t count_messages(struct bytes all)
{
	const struct nlmsghdr *message = (const struct nlmsghdr *)all.data;
	int left = (int)all.length;
	size_t count = 0;

	for (; mnl_nlmsg_ok(message, left); message = mnl_nlmsg_next(message, &left))
		count++;
	return count;
}

static size_t count_attributes(struct bytes all, unsigned int header)
{
	const struct nlmsghdr *message = (const struct nlmsghdr *)all.data;
	int left = (int)all.length;
	size_t count = 0;

	for (; mnl_nlmsg_ok(message, left); message = mnl_nlmsg_next(message, &left)) {
		const struct nlattr *attribute;

		mnl_attr_for_each(attribute, message, header)
			count++;
	}
	return count;
}

/* ---- the clock */

/* The processor time of this process, in nanoseconds: other processes do not count. */
static double now(void)
{
	struct timespec time;

	clock_gettime(CLOCK_PROCESS_CPUTIME_ID, &time);
	return (double)time.tv_sec * 1e9 + (double)time.tv_nsec;
}

/* The sum that a reader returns. It ends the run if the reader returns a fault. */
static uint64_t sum_of(const struct reader *reader, struct bytes all)
{
	uint64_t total = 0;

	if (!reader->run(all.data, all.length, &total))
		fail("did not read all the bytes", reader->name);
	return total;
}

static bool has_reader(const struct subject *subject, int i)
{
	return i < READERS && subject->readers[i].run;
}

/* Each reader has to find libmnl's sum, and its heap calls are counted. */
static void check_sums(struct subject *subject, struct bytes all)
{
	uint64_t wanted = sum_of(&subject->readers[0], all);

	for (int i = 0; has_reader(subject, i); i++) {
		heap_calls = 0;
		if (sum_of(&subject->readers[i], all) != wanted)
			fail("found another sum than libmnl", subject->readers[i].name);
		subject->readers[i].heap_calls = (double)heap_calls / (double)count_messages(all);
	}
}

/* One round walks as many bytes at each size, after a walk that is not timed: it meets its own caches. */
static double time_round(const struct reader *reader, struct bytes all)
{
	size_t passes = (LARGEST + all.length - 1) / all.length;
	double start;

	sum_of(reader, all);
	start = now();
	for (size_t i = 0; i < passes; i++)
		sum_of(reader, all);
	return (now() - start) / (double)passes;
}

/* The readers take turns, so that a busy moment of the machine meets each of them. */
static void time_readers(struct subject *subject, struct bytes all, int size)
{
	double messages = (double)count_messages(all);

	check_sums(subject, all);
	for (int round = 0; round < ROUNDS; round++)
		for (int i = 0; has_reader(subject, i); i++) {
			double *best = &subject->readers[i].nanoseconds[size];
			double taken = time_round(&subject->readers[i], all) / messages;

			if (round == 0 || taken < *best)
				*best = taken;
		}
}

/* ---- the table */

static void print_reader(const char *what, const struct reader *reader, const struct reader *mnl)
{
	printf("%-11s %-8s", what, reader->name);
	for (int i = 0; i < SIZES; i++)
		printf(" %8.1f", reader->nanoseconds[i]);
	printf("   ");
	for (int i = 0; i < SIZES; i++)
		printf(" %7.2f", reader->nanoseconds[i] / mnl->nanoseconds[i]);
	printf("    %7.2f %10.1f\n", reader->nanoseconds[SIZES - 1] / reader->nanoseconds[0], reader->heap_calls);
}

static void print_subject(const struct subject *subject)
{
	for (int i = 0; has_reader(subject, i); i++)
		print_reader(i == 0 ? subject->what : "", &subject->readers[i], &subject->readers[0]);
}

static void print_heading(void)
{
	printf("%-20s %26s    %23s\n", "", "ns per message", "times libmnl");
	printf("%-20s %8s %8s %8s    %7s %7s %7s    %7s %10s\n", "",
	       "1 MB", "4 MB", "16 MB", "1 MB", "4 MB", "16 MB", "16:1 MB", "heap calls");
}

static void bench(const char *path, unsigned int header, struct subject *subjects, int count)
{
	struct bytes dump = read_file(path);

	printf("%s: %zu messages, %zu attributes, %zu bytes\n\n", path,
	       count_messages(dump), count_attributes(dump, header), dump.length);
	for (int size = 0; size < SIZES; size++) {
		struct bytes all = repeat(dump, sizes[size]);

		for (int i = 0; i < count; i++)
			time_readers(&subjects[i], all, size);
		free(all.data);
	}
	print_heading();
	for (int i = 0; i < count; i++)
		print_subject(&subjects[i]);
	printf("\n");
}

int main(int argc, char **argv)
{
	struct subject links[] = {
		{ "headers",
		  { { .name = "libmnl", .run = mnl_headers },
		    { .name = "calls", .run = call_headers },
		    { .name = "single", .run = single_headers },
		    { .name = "lent", .run = neli_bench_lent_headers },
		    { .name = "copied", .run = copied_headers },
		    { .name = "owned", .run = neli_bench_owned_headers } } },
		{ "attributes",
		  { { .name = "libmnl", .run = mnl_link_attributes },
		    { .name = "calls", .run = call_link_attributes },
		    { .name = "single", .run = single_link_attributes },
		    { .name = "lent", .run = neli_bench_lent_link_attributes },
		    { .name = "copied", .run = copied_link_attributes },
		    { .name = "listed", .run = listed_link_attributes },
		    { .name = "owned", .run = neli_bench_owned_link_attributes } } },
	};
	struct subject routes[] = {
		{ "headers",
		  { { .name = "libmnl", .run = mnl_headers },
		    { .name = "calls", .run = call_headers },
		    { .name = "single", .run = single_headers },
		    { .name = "lent", .run = neli_bench_lent_headers },
		    { .name = "copied", .run = copied_headers },
		    { .name = "owned", .run = neli_bench_owned_headers } } },
		{ "attributes",
		  { { .name = "libmnl", .run = mnl_route_attributes },
		    { .name = "calls", .run = call_route_attributes },
		    { .name = "single", .run = single_route_attributes },
		    { .name = "lent", .run = neli_bench_lent_route_attributes },
		    { .name = "copied", .run = copied_route_attributes },
		    { .name = "listed", .run = listed_route_attributes },
		    { .name = "owned", .run = neli_bench_owned_route_attributes } } },
	};

	if (argc != 3)
		fail("wants the dumps of links and of routes", argv[0]);
	bench(argv[1], sizeof(struct ifinfomsg), links, 2);
	bench(argv[2], sizeof(struct rtmsg), routes, 2);
	return 0;
}
