// A plain flow meter in C, the yardstick of the benchmark (see README.md).
//
//     cc -O2 -o out/meter meter.c && out/meter < capture.pcap
//
// It reads a classic capture of Ethernet frames, counts the packets and bytes of each flow, and
// prints one line per flow in the order of keys, and a total: the bytes of `rsspp report`. An input
// that is refused has the line and the status that rsspp has for it. It shares no code with rsspp,
// so that equal reports also speak for both.

#include <stdarg.h>
#include <stdbool.h>
#include <stdint.h>
#include <stdio.h>
#include <stdlib.h>
#include <string.h>
#include <unistd.h>

enum status { REFUSED = 3, READ_FAULT = 4, WRITE_FAULT = 5, NO_MEMORY = 6, TOO_MANY = 7 };

enum {
    BUFFER = 256 * 1024, // bytes, also the most that a record may have
    MOST_RECORDS = 100000000,
    CAPTURE_HEADER = 24,
    RECORD_HEADER = 16,
    ETHERNET_LINK = 1,
    TYPE_AT = 12, // of an Ethernet frame
    TAG = 4,
    MOST_TAGS = 2,
    TYPE_IPV4 = 0x0800,
    TYPE_TAG = 0x8100,
    TYPE_SERVICE_TAG = 0x88a8,
    IPV4_HEADER = 20,
    FRAGMENT = 0x3fff, // more fragments, or an offset
    PROTOCOL_TCP = 6,
    TCP_HEADER = 20,
    PROTOCOL_UDP = 17,
    UDP_HEADER = 8,
};

static const uint32_t MICRO = 0xa1b2c3d4, NANO = 0xa1b23c4d; // as a big-endian writer puts them

static _Noreturn void stop(enum status status, const char *form, ...)
{
    va_list values;
    va_start(values, form);
    fputs("rsspp: ", stderr);
    vfprintf(stderr, form, values);
    fputc('\n', stderr);
    exit(status);
}

// ---- Numbers in bytes

static uint16_t big16(const uint8_t *at) { return (uint16_t)(at[0] << 8 | at[1]); }

static uint32_t big32(const uint8_t *at) { return (uint32_t)big16(at) << 16 | big16(at + 2); }

// The byte order of the capture's own headers.
static bool is_big;

static uint16_t field16(const uint8_t *at)
{
    return is_big ? big16(at) : (uint16_t)(at[1] << 8 | at[0]);
}

static uint32_t field32(const uint8_t *at)
{
    return is_big ? big32(at) : (uint32_t)field16(at + 2) << 16 | field16(at);
}

// ---- Standard input, through one buffer

static uint8_t buffer[BUFFER];
static size_t taken, filled; // buffer[taken..filled] was read and isn't taken yet

// Whether so many bytes can be taken, at most BUFFER. Reads on where they aren't there.
static bool is_there(size_t count)
{
    if (filled - taken >= count)
        return true;
    filled -= taken;
    memmove(buffer, buffer + taken, filled);
    taken = 0;
    while (filled < count) {
        ssize_t got = read(STDIN_FILENO, buffer + filled, BUFFER - filled);
        if (got < 0)
            stop(READ_FAULT, "read fault");
        if (got == 0)
            return false;
        filled += (size_t)got;
    }
    return true;
}

static const uint8_t *take(size_t count)
{
    taken += count;
    return buffer + taken - count;
}

// ---- The key of a frame

enum class { TCP, UDP, IP, OTHER };

struct key {
    uint64_t addresses; // source, destination
    uint64_t ends;      // class, source port, destination port, protocol
};

static const struct key OTHER_KEY = {0, (uint64_t)OTHER << 40};

static struct key key_of_ipv4(const uint8_t *packet, size_t length)
{
    if (length == 0 || packet[0] >> 4 != 4)
        return OTHER_KEY;
    size_t header = 4 * (packet[0] & 15u);
    if (header < IPV4_HEADER || length < header)
        return OTHER_KEY;
    size_t total = big16(packet + 2);
    if (total >= header && total < length)
        length = total;
    bool is_whole = (big16(packet + 6) & FRAGMENT) == 0;
    uint8_t protocol = packet[9];
    enum class class = IP;
    if (protocol == PROTOCOL_TCP && is_whole && length >= header + TCP_HEADER)
        class = TCP;
    if (protocol == PROTOCOL_UDP && is_whole && length >= header + UDP_HEADER)
        class = UDP;
    uint64_t ports = class == IP ? 0 : big32(packet + header);
    uint64_t addresses = (uint64_t)big32(packet + 12) << 32 | big32(packet + 16);
    return (struct key){addresses, (uint64_t)class << 40 | ports << 8 | protocol};
}

static struct key key_of_frame(const uint8_t *frame, size_t length)
{
    for (size_t at = TYPE_AT; at <= TYPE_AT + MOST_TAGS * TAG && length >= at + 2; at += TAG) {
        uint16_t type = big16(frame + at);
        if (type == TYPE_IPV4)
            return key_of_ipv4(frame + at + 2, length - at - 2);
        if (type != TYPE_TAG && type != TYPE_SERVICE_TAG)
            break;
    }
    return OTHER_KEY;
}

// ---- The table of flows: open addressing, linear steps, never more than half full

struct flow {
    struct key key;
    uint64_t packets; // 0 in an empty slot
    uint64_t bytes;
};

static struct flow *slots;
static size_t slot_count = 1024; // a power of two
static size_t flow_count;

static struct flow *new_slots(size_t count)
{
    struct flow *made = calloc(count, sizeof *made);
    if (!made)
        stop(NO_MEMORY, "want of memory");
    return made;
}

static struct flow *slot_of(struct key key)
{
    uint64_t mixed = (key.addresses ^ key.ends * 0x9e3779b97f4a7c15u) * 0xd6e8feb86659fd93u;
    size_t at = mixed ^ mixed >> 32;
    for (;; at++) {
        struct flow *slot = &slots[at & (slot_count - 1)];
        bool is_same = slot->key.addresses == key.addresses && slot->key.ends == key.ends;
        if (is_same || slot->packets == 0)
            return slot;
    }
}

static void grow(void)
{
    struct flow *old = slots, *old_end = slots + slot_count;
    slot_count *= 2;
    slots = new_slots(slot_count);
    for (struct flow *flow = old; flow < old_end; flow++)
        if (flow->packets != 0)
            *slot_of(flow->key) = *flow;
    free(old);
}

static void count(struct key key, uint32_t original)
{
    struct flow *slot = slot_of(key);
    if (slot->packets == 0) {
        flow_count++;
        slot->key = key;
    }
    slot->packets++;
    slot->bytes += original;
    if (flow_count > slot_count / 2)
        grow();
}

// ---- The capture

static void read_header(void)
{
    if (!is_there(CAPTURE_HEADER))
        stop(REFUSED, "capture refused: header ends after %zu bytes", filled - taken);
    const uint8_t *header = take(CAPTURE_HEADER);
    is_big = big32(header) == MICRO || big32(header) == NANO;
    if (field32(header) != MICRO && field32(header) != NANO)
        stop(REFUSED, "capture refused: magic %08x", big32(header));
    unsigned major = field16(header + 4), minor = field16(header + 6);
    if (major != 2 || minor != 4)
        stop(REFUSED, "capture refused: version %u.%u", major, minor);
    if (field32(header + 20) != ETHERNET_LINK)
        stop(REFUSED, "capture refused: link %u", field32(header + 20));
}

static void read_records(void)
{
    for (uint32_t number = 0; is_there(1); number++) {
        if (!is_there(RECORD_HEADER))
            stop(REFUSED, "capture refused: record %u ends after %zu bytes", number, filled - taken);
        const uint8_t *header = take(RECORD_HEADER);
        uint32_t captured = field32(header + 8), original = field32(header + 12);
        if (captured > BUFFER)
            stop(REFUSED, "capture refused: record %u has length %u", number, captured);
        if (!is_there(captured))
            stop(REFUSED, "capture refused: record %u ends after %zu bytes", number,
                 RECORD_HEADER + filled - taken);
        if (number == MOST_RECORDS)
            stop(TOO_MANY, "more than %d packets", MOST_RECORDS);
        count(key_of_frame(take(captured), captured), original);
    }
}

// ---- The report

static int by_key(const void *left, const void *right)
{
    const struct key *a = &((const struct flow *)left)->key, *b = &((const struct flow *)right)->key;
    uint64_t a_class = a->ends >> 40, b_class = b->ends >> 40;
    if (a_class != b_class)
        return a_class < b_class ? -1 : 1;
    if (a->addresses != b->addresses)
        return a->addresses < b->addresses ? -1 : 1;
    return a->ends < b->ends ? -1 : a->ends > b->ends;
}

static void print_end(uint64_t address, uint64_t port, bool has_port)
{
    const unsigned a = (unsigned)address;
    printf("%u.%u.%u.%u", a >> 24 & 255, a >> 16 & 255, a >> 8 & 255, a & 255);
    if (has_port)
        printf(":%u", (unsigned)port & 65535);
}

static void print_flow(const struct flow *flow)
{
    static const char *const names[] = {"tcp ", "udp ", "ip ", "other"};
    uint64_t addresses = flow->key.addresses, ends = flow->key.ends;
    enum class class = (enum class)(ends >> 40);
    fputs(names[class], stdout);
    if (class != OTHER) {
        print_end(addresses >> 32, ends >> 24, class != IP);
        fputs(" > ", stdout);
        print_end(addresses, ends >> 8, class != IP);
    }
    if (class == IP)
        printf(" proto %u", (unsigned)ends & 255);
    printf(" packets %ju bytes %ju\n", (uintmax_t)flow->packets, (uintmax_t)flow->bytes);
}

static void print_report(void)
{
    struct flow *end = slots;
    for (struct flow *flow = slots; flow < slots + slot_count; flow++)
        if (flow->packets != 0)
            *end++ = *flow;
    qsort(slots, flow_count, sizeof *slots, by_key);
    uint64_t packets = 0, bytes = 0;
    for (struct flow *flow = slots; flow < end; flow++) {
        print_flow(flow);
        packets += flow->packets;
        bytes += flow->bytes;
    }
    printf("total flows %zu packets %ju bytes %ju\n", flow_count, (uintmax_t)packets, (uintmax_t)bytes);
    if (fflush(stdout) != 0 || ferror(stdout))
        stop(WRITE_FAULT, "write fault");
}

int main(void)
{
    slots = new_slots(slot_count);
    read_header();
    read_records();
    print_report();
    return 0;
}
