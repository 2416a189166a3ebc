/* eip.h: an EtherNet/IP class 1 adapter or scanner for programs in C and C++.
 *
 * A device has no socket, clock or thread in it. Its caller gives it each event: bytes that a peer sent, time that
 * passed, what the application writes. It answers with bytes to send. Each function below performs one call of a device
 * whose every step is proved; it ends, and it never touches memory beyond the ranges that it is given.
 *
 * What a caller keeps:
 *   - A handle is {NULL} until eip_new has made a device of it: `eip_device device = {0};`. One thread at a time uses it,
 *     it is freed once, and never used after that. A pointer that eip_new did not write cannot be recognized.
 *   - Two threads may use two handles at once: there is no global state. A handle that moves from one thread to another
 *     moves under a lock of the caller's, or as the other thread starts; the proofs speak of one thread.
 *   - A range (bytes, len) or (out, room) lies in readable or writable memory of the caller for the time of the call, and
 *     the ranges of one call do not overlap. A range of length 0 may have the pointer NULL.
 *   - No function is called from a signal handler. malloc, realloc and free are those of one allocator.
 *
 * Nodes are IPv4 addresses, their first byte the most significant: 192.168.1.10 is 0xC0A8010A.
 * Every size is in bytes. Nothing but the handle is to be freed.
 */
#ifndef EIP_H
#define EIP_H

#include <stdbool.h>
#include <stddef.h>
#include <stdint.h>

#ifdef __cplusplus
extern "C" {
#endif

/* The version of this header and of its library. Libraries whose versions have one first number offer what the older one of them
 * offers, with the same numbers, types and fields. */
#define EIP_VERSION "1.51.0"

/* The same as a number, which eip_version says of the library that a program runs with: a million times the first number, a
 * thousand times the second, and the third. */
#define EIP_VERSION_NUMBER 1051000

/* A device. The pointer is NULL before eip_new, which refuses any other, and after eip_free. */
typedef struct eip_device {
    void *at;
} eip_device;

/* STATUSES */

enum eip_status {
    /* The call was performed, and its bytes are written. */
    EIP_DONE = 0,
    /* Refused: the device and the answer that it keeps are unchanged, and nothing is written. */
    EIP_REFUSED_NO_MEMORY = 1, /* an allocation was refused */
    EIP_TICK_TOO_LONG = 2,     /* a tick of more than 60,000 ms */
    EIP_CLOCK_END = 3,         /* the clock would pass its end, 2^48 ms */
    EIP_NO_SUCH_POINT = 4,     /* no point of this number can be read or written */
    EIP_WRONG_LENGTH = 5,      /* the number of bytes is not the point's */
    EIP_NO_SUCH_SLOT = 6,      /* no slot has this number */
    EIP_NOT_ALLOWED_NOW = 7,   /* the event does not fit this kind of device, or its present state */
    /* Performed, and what it answers is kept: an event's answer for eip_answer, a value and the reply to an inquiry for
       another call. Nothing is written at out. */
    EIP_KEPT_NO_ROOM = 8,      /* *size is the room that the bytes need */
    /* 9 is no status, and is given to none. */
    /* eip_answer: the device keeps no answer. */
    EIP_NO_ANSWER = 10,
    /* eip_new: there is no device. */
    EIP_BAD_LINE = 11,         /* *number is that of the first bad line, from 1 */
    EIP_BAD_PROFILE = 12,      /* no line is bad, and *number is that of the first fault of the profile: 1 incarnation,
                                  2 address, 3 points, 4 the same instance twice, 5 length, 6 timing, 7 identity,
                                  8 description, 9 limits, 10 classes of own objects */
    /* eip_inquiry */
    EIP_NO_INQUIRY = 13,       /* the message is no inquiry: nothing is to be sent, and *size is 0 */
    EIP_LONG_NAME = 14,        /* the name has more than 32 bytes: nothing is written */
    /* eip_owner, eip_connection */
    EIP_NO_CONNECTION = 15,    /* there is none: nothing is written */
    /* Answered by this header, before the call: nothing has happened. */
    EIP_NULL = 20,             /* a pointer is NULL, or the device was freed */
    EIP_IN_USE = 21            /* eip_new: the handle has a device, which lives on. Free it first */
};

/* The deliveries of a datagram. Up to EIP_DUPLICATE it is accepted. */
enum eip_delivery {
    EIP_APPLIED = 0,     /* its run-mode data is applied to the output */
    EIP_IDLE = 1,        /* it is in idle mode, and the output takes its idle action */
    EIP_HEARTBEAT = 2,   /* its connection has no O->T data */
    EIP_DUPLICATE = 3,   /* its sequence count repeats that of the last accepted one: its data is not new. A message of a
                            class 3 connection: it is not executed again */
    EIP_OLD = 4,         /* its sequence number is not newer than the last accepted one */
    EIP_UNKNOWN_ID = 5,  /* no established connection of the peer, or of the stream, has its connection id */
    EIP_WRONG_SIZE = 6,  /* its size is not the connection's. A message is longer than its connection's */
    EIP_MALFORMED = 7    /* its bytes are no datagram */
};

/* The kinds of a connection, by its use of the application's points. */
enum eip_connection_kind {
    EIP_EXCLUSIVE_OWNER = 1,   /* it drives an output, and no other connection does */
    EIP_INPUT_ONLY = 2,        /* it consumes an input, and has no O->T data */
    EIP_LISTEN_ONLY = 3        /* the same, as long as another connection of the input supports it */
};

/* The mode of an originator, by the run/idle header of its newest data. A duplicate brings no new data. */
enum eip_originator_mode {
    EIP_NO_MODE = 0,           /* no data was accepted yet, or the connection has no O->T data */
    EIP_MODE_IDLE = 1,         /* the output took its idle action */
    EIP_MODE_RUN = 2           /* the output took the data */
};

/* The states of a scanner's slot, by their numbers in the standard. */
enum eip_slot_state {
    EIP_SLOT_IDLE = 0,         /* no connection */
    EIP_SLOT_OPENING = 2,      /* a Forward_Open waits for its reply */
    EIP_SLOT_ESTABLISHED = 3,  /* the connection is open */
    EIP_SLOT_TIMED_OUT = 4,    /* the connection timed out */
    EIP_SLOT_CLOSING = 6       /* a Forward_Close waits for its reply */
};

/* What an adapter knows of a connection. Intervals are the actual ones, in milliseconds. */
typedef struct eip_connection_state {
    uint64_t age_ms;           /* the time since the newest accepted datagram, or since the opening before the first one */
    uint32_t peer;             /* the originator */
    uint32_t kind;             /* enum eip_connection_kind */
    uint32_t consumed;         /* the output, or the heartbeat, that it drives */
    uint32_t produced;         /* the input that it consumes */
    uint32_t o_t_api_ms;       /* from originator to target */
    uint32_t t_o_api_ms;       /* from target to originator */
    uint32_t mode;             /* enum eip_originator_mode */
    uint32_t established;      /* 0 if it has timed out, else 1 */
    uint32_t accepted;         /* 0 if it has accepted no datagram yet, else 1 */
} eip_connection_state;

/* What a scanner knows of a slot. All but the state is 0 unless that is EIP_SLOT_ESTABLISHED. */
typedef struct eip_slot_report {
    uint64_t age_ms;           /* the time since the newest accepted datagram, or since the opening before the first one */
    uint32_t state;            /* enum eip_slot_state */
    uint32_t o_t_api_ms;       /* the actual packet interval from scanner to target, in milliseconds */
    uint32_t t_o_api_ms;       /* from target to scanner */
    uint32_t accepted;         /* 0 if no datagram of the target was accepted yet, else 1 */
} eip_slot_report;

/* What a device says of itself to who looks for devices: its Identity object, and where it is reached. Vendor, device
 * type, product and revision are those of its profile. A maker gets its vendor number from ODVA (odva.org), which keeps the
 * list of them; 0 is nobody's. */
typedef struct eip_identity {
    uint32_t address;    /* the IPv4 address under which who asks reaches the device */
    uint32_t serial;     /* the serial number, which no other device of the vendor has */
    uint16_t port;       /* the TCP port of encapsulation messages: 44818 */
    uint16_t vendor, device_type, product;
    uint16_t status;     /* the status word of the Identity object: 0 */
    uint8_t major, minor;
    uint8_t state;       /* the state of the Identity object: 3 is operational */
    const char *name;    /* at most 32 bytes, and a byte 0 behind them */
} eip_identity;

/* THE LIBRARY: what the proofs speak of. The inline functions below test pointers for NULL and call these. */

uint32_t eip_c_version(void);
uint32_t eip_c_new(const uint8_t *profile, size_t len, eip_device *device, uint64_t *number);
void eip_c_free(eip_device device);
uint32_t eip_c_answer(eip_device *device, uint8_t *out, size_t room, size_t *size);
uint32_t eip_c_request(eip_device *device, uint32_t peer, const uint8_t *bytes, size_t len, uint8_t *out, size_t room,
                       size_t *size);
uint32_t eip_c_stream(eip_device *device, uint16_t stream, uint32_t peer, uint8_t *out, size_t room, size_t *size);
uint32_t eip_c_frame(eip_device *device, uint16_t stream, const uint8_t *bytes, size_t len, uint8_t *out, size_t room,
                     size_t *size);
uint32_t eip_c_cut(eip_device *device, uint16_t stream, uint8_t *out, size_t room, size_t *size);
uint32_t eip_c_datagram(eip_device *device, uint32_t peer, const uint8_t *bytes, size_t len);
uint32_t eip_c_inquire(eip_device *device, uint32_t peer, const uint8_t *bytes, size_t len, uint8_t *out, size_t room,
                       size_t *size);
uint32_t eip_c_inquiry(const eip_identity *identity, const uint8_t *name, size_t name_len, const uint8_t *message,
                       size_t len, uint8_t *out, size_t room, size_t *size);
uint32_t eip_c_explicit(eip_device *device, uint32_t target, uint32_t number, const uint8_t *bytes, size_t len, uint8_t *out,
                        size_t room, size_t *size);
uint32_t eip_c_respond(eip_device *device, uint64_t number, uint8_t status, const uint8_t *bytes, size_t len, uint8_t *out,
                       size_t room, size_t *size);
uint32_t eip_c_counters(eip_device *device, const uint8_t *bytes, size_t len, uint8_t *out, size_t room, size_t *size);
uint32_t eip_c_ids(eip_device *device, uint32_t first, uint32_t count, uint8_t *out, size_t room, size_t *size);
uint32_t eip_c_ids_left(eip_device *device);
uint32_t eip_c_write(eip_device *device, uint32_t point, const uint8_t *bytes, size_t len, uint8_t *out, size_t room,
                     size_t *size);
uint32_t eip_c_read(eip_device *device, uint32_t point, uint8_t *out, size_t room, size_t *size);
uint32_t eip_c_tick(eip_device *device, uint32_t ms, uint8_t *out, size_t room, size_t *size);
uint32_t eip_c_next_wake(eip_device *device);
uint32_t eip_c_owner(eip_device *device, uint32_t output, eip_connection_state *connection);
uint32_t eip_c_connection(eip_device *device, uint32_t place, eip_connection_state *connection);
uint32_t eip_c_slot(eip_device *device, uint32_t number, eip_slot_report *slot);
uint32_t eip_c_mode(eip_device *device, bool run, uint8_t *out, size_t room, size_t *size);
uint32_t eip_c_start(eip_device *device, uint32_t slot, uint8_t *out, size_t room, size_t *size);
uint32_t eip_c_stop(eip_device *device, uint32_t slot, uint8_t *out, size_t room, size_t *size);

/* The version of the library, to be compared with EIP_VERSION_NUMBER. */
static inline uint32_t eip_version(void)
{
    return eip_c_version();
}

/* Memory for a range of length 0. */
static inline const uint8_t *eip_bytes(const void *bytes)
{
    static const uint8_t none = 0;
    return bytes ? (const uint8_t *)bytes : &none;
}

static inline bool eip_is_null(const eip_device *device, const void *bytes, size_t len, const void *out, size_t room,
                               const size_t *size)
{
    return !device || !device->at || (!bytes && len) || (!out && room) || !size;
}

#define EIP_CALL(BYTES, LEN, CALL)                                        \
    uint8_t none = 0;                                                     \
    if (eip_is_null(device, BYTES, LEN, out, room, size))                 \
        return EIP_NULL;                                                  \
    if (!out)                                                             \
        out = &none;                                                      \
    return CALL

/* DEVICES */

/* Makes a device from the lines of its profile, as they stand at the head of a trace: `adapter ..` or `scanner ..`. The
 * text ends with a line feed. Lines of events are read, and not performed.
 * The incarnation, its first number, is another one at each start of a program: ids of two lives are never the same.
 * Answers EIP_DONE, EIP_BAD_LINE or EIP_BAD_PROFILE with *number, EIP_REFUSED_NO_MEMORY, EIP_IN_USE or EIP_NULL.
 * With any other status than EIP_DONE, *device is left as it was. */
static inline uint32_t eip_new(eip_device *device, const char *profile, size_t len, uint64_t *number)
{
    if (!device || (!profile && len) || !number)
        return EIP_NULL;
    if (device->at)
        return EIP_IN_USE;
    return eip_c_new(eip_bytes(profile), len, device, number);
}

/* Frees a device, and makes its pointer NULL. Does nothing where that is NULL. */
static inline void eip_free(eip_device *device)
{
    if (!device || !device->at)
        return;
    eip_c_free(*device);
    device->at = NULL;
}

/* EVENTS
 *
 * Each performs one event. Its answer is kept until the next event that is not refused, and written at out: EIP_DONE, and
 * *size is its size. If it needs more room than there is, nothing is written: EIP_KEPT_NO_ROOM, *size is the room that it
 * needs, the event is performed all the same, and eip_answer writes its answer. Each other status leaves the device as it
 * was, and *size too. Writing an answer takes no memory, so EIP_REFUSED_NO_MEMORY is the only status that says that an
 * allocation was refused, and then the event has not happened. */

/* Writes the answer that is kept, again: EIP_DONE, EIP_KEPT_NO_ROOM, EIP_NO_ANSWER or EIP_NULL. Takes no memory. */
static inline uint32_t eip_answer(eip_device *device, uint8_t *out, size_t room, size_t *size)
{
    EIP_CALL(out, room, eip_c_answer(device, out, room, size));
}

/* A peer sends a request to the message router, as the data of a UCMM request. */
static inline uint32_t eip_request(eip_device *device, uint32_t peer, const uint8_t *bytes, size_t len, uint8_t *out,
                                   size_t room, size_t *size)
{
    EIP_CALL(bytes, len, eip_c_request(device, peer, eip_bytes(bytes), len, out, room, size));
}

/* A peer opens a stream (TCP), which the caller gives this number. EIP_NOT_ALLOWED_NOW if the number is in use, or the
 * device takes no more streams. */
static inline uint32_t eip_stream(eip_device *device, uint16_t stream, uint32_t peer, uint8_t *out, size_t room,
                                  size_t *size)
{
    EIP_CALL(out, room, eip_c_stream(device, stream, peer, out, room, size));
}

/* A stream brings one encapsulation message: its header of 24 bytes, and as many bytes as the header says. */
static inline uint32_t eip_frame(eip_device *device, uint16_t stream, const uint8_t *bytes, size_t len, uint8_t *out,
                                 size_t room, size_t *size)
{
    EIP_CALL(bytes, len, eip_c_frame(device, stream, eip_bytes(bytes), len, out, room, size));
}

/* A stream breaks, or its peer closes it. */
static inline uint32_t eip_cut(eip_device *device, uint16_t stream, uint8_t *out, size_t room, size_t *size)
{
    EIP_CALL(out, room, eip_c_cut(device, stream, out, room, size));
}

/* A peer sends an encapsulation message over no stream: a datagram at the encapsulation port, 44818, by which tools find
 * devices, many of them broadcast. If the profile has a line describe and the message is ListServices, ListIdentity or
 * ListInterfaces, the answer has one item EIP_ITEM_REPLY of at most EIP_INQUIRY_ROOM bytes, to be sent to the datagram's
 * sender; else it has none. */
static inline uint32_t eip_inquire(eip_device *device, uint32_t peer, const uint8_t *bytes, size_t len, uint8_t *out,
                                   size_t room, size_t *size)
{
    EIP_CALL(bytes, len, eip_c_inquire(device, peer, eip_bytes(bytes), len, out, room, size));
}

/* A peer sends a class 1 datagram (UDP). Answers its delivery at *delivery. Takes no memory. The answer that is kept
 * stays. EIP_DONE or EIP_NULL. */
static inline uint32_t eip_datagram(eip_device *device, uint32_t peer, const uint8_t *bytes, size_t len,
                                    enum eip_delivery *delivery)
{
    if (!device || !device->at || (!bytes && len) || !delivery)
        return EIP_NULL;
    *delivery = (enum eip_delivery)eip_c_datagram(device, peer, eip_bytes(bytes), len);
    return EIP_DONE;
}

/* The application sets the value of an adapter's input, or of the output of a scanner's slot. */
static inline uint32_t eip_write(eip_device *device, uint32_t point, const uint8_t *bytes, size_t len, uint8_t *out,
                                 size_t room, size_t *size)
{
    EIP_CALL(bytes, len, eip_c_write(device, point, eip_bytes(bytes), len, out, room, size));
}

/* Writes the value of an adapter's point, or of the image of a scanner's slot, at out as it is: EIP_DONE; EIP_KEPT_NO_ROOM
 * with *size; EIP_NO_SUCH_POINT or EIP_NO_SUCH_SLOT; EIP_NULL. Takes no memory, and changes nothing. */
static inline uint32_t eip_read(eip_device *device, uint32_t point, uint8_t *out, size_t room, size_t *size)
{
    EIP_CALL(out, room, eip_c_read(device, point, out, room, size));
}

/* Milliseconds pass, at most 60,000. EIP_TICK_TOO_LONG, EIP_CLOCK_END. Connections expire and cyclic data are sent in a
 * tick, and at no other time. eip_next_wake says when the next one is needed. */
static inline uint32_t eip_tick(eip_device *device, uint32_t ms, uint8_t *out, size_t room, size_t *size)
{
    EIP_CALL(out, room, eip_c_tick(device, ms, out, room, size));
}

/* Answers at *ms in how many milliseconds something is due at the device, at most 60,000: a tick of fewer milliseconds
 * answers EIP_ITEM_DONE alone, and moves the clock alone. Each event may change the time, so ask again behind it. Takes no
 * memory, and changes nothing. EIP_DONE or EIP_NULL. */
static inline uint32_t eip_next_wake(eip_device *device, uint32_t *ms)
{
    if (!device || !device->at || !ms)
        return EIP_NULL;
    *ms = eip_c_next_wake(device);
    return EIP_DONE;
}

/* STATES
 *
 * What the device knows now. These calls take no memory, and change nothing: neither the device nor the answer that it
 * keeps. With any other status than EIP_DONE nothing is written. */

/* Writes the owner of an adapter's output, its mode and the age of its newest data: EIP_DONE; EIP_NO_CONNECTION if no
 * connection owns it, and at a scanner; EIP_NULL. */
static inline uint32_t eip_owner(eip_device *device, uint32_t output, eip_connection_state *connection)
{
    if (!device || !device->at || !connection)
        return EIP_NULL;
    return eip_c_owner(device, output, connection);
}

/* Writes what an adapter knows of a connection, by its place in the order of the openings, from 0 on, timed-out ones
 * included: EIP_DONE; EIP_NO_CONNECTION behind the last one, and at a scanner; EIP_NULL. */
static inline uint32_t eip_connection(eip_device *device, uint32_t place, eip_connection_state *connection)
{
    if (!device || !device->at || !connection)
        return EIP_NULL;
    return eip_c_connection(device, place, connection);
}

/* Writes the state of a scanner's slot: EIP_DONE; EIP_NO_SUCH_SLOT, and at an adapter; EIP_NULL. */
static inline uint32_t eip_slot(eip_device *device, uint32_t number, eip_slot_report *slot)
{
    if (!device || !device->at || !slot)
        return EIP_NULL;
    return eip_c_slot(device, number, slot);
}

/* The application of a scanner starts to run, or becomes idle. */
static inline uint32_t eip_mode(eip_device *device, bool run, uint8_t *out, size_t room, size_t *size)
{
    EIP_CALL(out, room, eip_c_mode(device, run, out, room, size));
}

/* A scanner opens the connection of a slot, and keeps it open. */
static inline uint32_t eip_start(eip_device *device, uint32_t slot, uint8_t *out, size_t room, size_t *size)
{
    EIP_CALL(out, room, eip_c_start(device, slot, out, room, size));
}

/* A scanner closes the connection of a slot. */
static inline uint32_t eip_stop(eip_device *device, uint32_t slot, uint8_t *out, size_t room, size_t *size)
{
    EIP_CALL(out, room, eip_c_stop(device, slot, out, room, size));
}

/* The application of a scanner sends a message router request to a target: service, path words, path, data. The number is
 * the application's own, and is not that of another request that waits. The answer has the frame to send. Later an answer has
 * EIP_ITEM_REPLIED and EIP_ITEM_ADDITIONAL_STATUS, or one of EIP_ITEM_NO_REPLY_TIMED_OUT to EIP_ITEM_NO_REPLY_UNREADABLE, once.
 * EIP_NO_SUCH_SLOT if no slot has this target; EIP_WRONG_LENGTH if there are fewer than 2 or more than 504 bytes;
 * EIP_NOT_ALLOWED_NOW if no session with the target is registered, the request opens or closes a connection, 16 requests
 * wait, or one that waits has this number. */
static inline uint32_t eip_explicit(eip_device *device, uint32_t target, uint32_t number, const uint8_t *bytes, size_t len,
                                    uint8_t *out, size_t room, size_t *size)
{
    EIP_CALL(bytes, len, eip_c_explicit(device, target, number, eip_bytes(bytes), len, out, room, size));
}

/* OBJECTS OF THE MAKER'S OWN
 *
 * A profile names their classes in lines `object CLASS`. A request to such a class is answered by nothing at once: the answer
 * of the event that brings it has EIP_ITEM_ASKED and EIP_ITEM_ASKED_PATH. Within 10,000 ms the application answers it by its
 * number, else the device does, with general status 0x1F. At most 16 requests wait. */

/* The application of an adapter answers the request of this number: a general status, 0 for success, and the data of the
 * reply. The answer has what is to be sent: a frame over the stream of the request, or the reply to its peer, or nothing if a
 * class 3 connection has gone on since. EIP_NOT_ALLOWED_NOW if no request of this number waits; EIP_WRONG_LENGTH if there are
 * more than 1400 bytes. */
static inline uint32_t eip_respond(eip_device *device, uint64_t number, uint8_t status, const uint8_t *bytes, size_t len,
                                   uint8_t *out, size_t room, size_t *size)
{
    EIP_CALL(bytes, len, eip_c_respond(device, number, status, eip_bytes(bytes), len, out, room, size));
}

/* WHAT THE HOST COUNTS
 *
 * An adapter whose profile has a line `describe` answers attributes 4 and 5 of its Ethernet Link object with what its host said last:
 * eleven numbers of 32 bits of its interface, and twelve of its medium, little-endian. Before that they are zeros. Say them before
 * the frame or request that asks for them, or as often as they are to be new. */

/* The bytes of these numbers. */
#define EIP_COUNTERS 92

/* The host says what it has counted. EIP_NOT_ALLOWED_NOW without a line `describe`, EIP_WRONG_LENGTH for another number of bytes. */
static inline uint32_t eip_counters(eip_device *device, const uint8_t *bytes, size_t len, uint8_t *out, size_t room, size_t *size)
{
    EIP_CALL(bytes, len, eip_c_counters(device, eip_bytes(bytes), len, out, room, size));
}

/* CONNECTION IDS
 *
 * A device gives connection ids in order: those that begin with its incarnation, or those of a line `ids FROM COUNT` of its profile.
 * One that is to give no id twice, however often it starts, keeps on its disk from where on no id was ever given, and takes its ids
 * from there: a block is reserved on the disk before the device gets it, and a further one in time before its ids have ended. */

/* The device gets a further block of connection ids, to give when those that it has are used up: the first, and how many they
 * are. EIP_NOT_ALLOWED_NOW if the device has one of them already, the first is 0, the last is above 2^32 - 1, or the device holds 64
 * blocks. A block that begins where the last one ends continues that one. */
static inline uint32_t eip_ids(eip_device *device, uint32_t first, uint32_t count, uint8_t *out, size_t room, size_t *size)
{
    EIP_CALL(out, room, eip_c_ids(device, first, count, out, room, size));
}

/* Answers at *left how many connection ids the device has left. Takes no memory, and changes nothing. EIP_DONE or EIP_NULL. */
static inline uint32_t eip_ids_left(eip_device *device, uint32_t *left)
{
    if (!device || !device->at || !left)
        return EIP_NULL;
    *left = eip_c_ids_left(device);
    return EIP_DONE;
}

/* INQUIRIES
 *
 * A device whose profile has a line describe answers them itself: eip_inquire. For any other one this call answers them, of
 * what its caller states. */

/* No reply to an inquiry is longer. */
#define EIP_INQUIRY_ROOM 96

/* Writes the reply to a datagram that came at the encapsulation port, if it is ListServices, ListIdentity or
 * ListInterfaces, at out as it is, to be sent to the datagram's sender: EIP_DONE; EIP_NO_INQUIRY with *size 0;
 * EIP_KEPT_NO_ROOM with *size; EIP_LONG_NAME, EIP_REFUSED_NO_MEMORY or EIP_NULL. It needs no device. */
static inline uint32_t eip_inquiry(const eip_identity *identity, const uint8_t *message, size_t len, uint8_t *out,
                                   size_t room, size_t *size)
{
    uint8_t none = 0;
    size_t name_len = 0;
    if (!identity || !identity->name || (!message && len) || (!out && room) || !size)
        return EIP_NULL;
    while (name_len <= 32 && identity->name[name_len])
        name_len++;
    return eip_c_inquiry(identity, eip_bytes(identity->name), name_len, eip_bytes(message), len, out ? out : &none, room,
                         size);
}

/* ANSWERS
 *
 * The bytes of an answer are items, one after the other: the verdict, the frames, the datagrams, each before the nodes
 * that consume it, and the notices. An item is 28 bytes and its data; its numbers are little-endian:
 * kind, a, b, c and d of 4 bytes each, and the size of the data in 8. */

enum eip_kind {
    /* verdicts */
    EIP_ITEM_DONE = 1,              /* the device processed the event */
    EIP_ITEM_BAD_FRAME = 2,         /* too few bytes to be answered, or a wrong length where there is no reply */
    EIP_ITEM_IGNORED = 3,           /* a message that the scanner does not expect */
    EIP_ITEM_VALUE = 4,             /* data: the value of a point */
    EIP_ITEM_DELIVERED = 5,         /* a: enum eip_delivery */
    EIP_ITEM_REPLIED = 6,           /* the reply to explicit request a: general status b; data: those of the reply */
    EIP_ITEM_ADDITIONAL_STATUS = 7, /* behind EIP_ITEM_REPLIED; data: its additional status, two bytes a word */
    EIP_ITEM_ASKED = 8,             /* a request that the application is to answer: eip_asked; service c; data: its data */
    EIP_ITEM_ASKED_PATH = 9,        /* behind EIP_ITEM_ASKED; class a, instance b; if c is 1, attribute d */
    /* to send */
    EIP_ITEM_FRAME = 16,            /* data: bytes for stream a */
    EIP_ITEM_REPLY = 17,            /* data: the reply to the request or inquiry of node a */
    EIP_ITEM_DATAGRAM = 32,         /* data: a datagram to address a, which may be a multicast address */
    EIP_ITEM_CONSUMER = 33,         /* node a consumes the last datagram */
    /* notices of a connection: a serial number, b vendor number, c originator serial number */
    EIP_ITEM_OPENED = 48,           /* d: the O->T connection id */
    EIP_ITEM_CLOSED = 49,
    EIP_ITEM_EXPIRED = 50,
    EIP_ITEM_DROPPED = 51,          /* a listen-only connection that nothing supports any more, or one of class 3 whose stream
                                       ended */
    EIP_ITEM_REPLACED = 52,         /* a timed-out connection whose place was needed */
    EIP_ITEM_STREAM_CLOSED = 53,    /* close stream a after the frames */
    EIP_ITEM_SLOT = 54,             /* slot a is in state b */
    EIP_ITEM_NO_IDS = 55,           /* slot a needs an id, and none is left */
    EIP_ITEM_RESET = 56,            /* a peer requests a reset of type a: 0 as a power cycle, 1 to the factory's settings too */
    /* a reply did not open the connection of slot a */
    EIP_ITEM_REFUSED_ENCAP = 64,    /* encapsulation status b */
    EIP_ITEM_UNREADABLE = 65,       /* no readable reply */
    EIP_ITEM_REFUSED = 66,          /* general status b; if c is 1, extended status d */
    EIP_ITEM_OTHER_TRIAD = 67,      /* a reply for another connection */
    EIP_ITEM_OTHER_ID = 68,         /* another T->O id, or one in use */
    EIP_ITEM_OTHER_API = 69,        /* an actual packet interval out of range */
    EIP_ITEM_MISMATCH = 70,         /* as EIP_ITEM_REFUSED */
    /* explicit request a has no reply, and will have none */
    EIP_ITEM_NO_REPLY_TIMED_OUT = 72,
    EIP_ITEM_NO_REPLY_LOST = 73,    /* its stream ended */
    EIP_ITEM_NO_REPLY_ENCAP = 74,   /* encapsulation status b */
    EIP_ITEM_NO_REPLY_UNREADABLE = 75
};

/* An item of an answer. Its data stays where the answer lies. */
typedef struct eip_item {
    uint32_t kind, a, b, c, d;
    const uint8_t *bytes;
    size_t size;
} eip_item;

#define EIP_ITEM_HEAD 28

static inline uint32_t eip_number(const uint8_t *bytes)
{
    return bytes[0] | (uint32_t)bytes[1] << 8 | (uint32_t)bytes[2] << 16 | (uint32_t)bytes[3] << 24;
}

/* The number of the request of an EIP_ITEM_ASKED. */
static inline uint64_t eip_asked(const eip_item *item)
{
    return item->a | (uint64_t)item->b << 32;
}

/* Reads the item at *at of an answer, and moves *at behind it. False at the end, and where a pointer is NULL. Begin with
 * *at = 0. */
static inline bool eip_next(const uint8_t *answer, size_t size, size_t *at, eip_item *item)
{
    const uint8_t *head;
    uint64_t len;
    if (!answer || !at || !item || *at > size || size - *at < EIP_ITEM_HEAD)
        return false;
    head = answer + *at;
    len = eip_number(head + 20) | (uint64_t)eip_number(head + 24) << 32;
    if (len > size - *at - EIP_ITEM_HEAD)
        return false;
    item->kind = eip_number(head);
    item->a = eip_number(head + 4);
    item->b = eip_number(head + 8);
    item->c = eip_number(head + 12);
    item->d = eip_number(head + 16);
    item->bytes = head + EIP_ITEM_HEAD;
    item->size = (size_t)len;
    *at += EIP_ITEM_HEAD + (size_t)len;
    return true;
}

#ifdef __cplusplus
}
#endif

#endif
