/* Sirmjold: the data stream of Network MIDI 2.0 over UDP, with repeats and retransmits. Link with
 * -lsirmjold: tools/library makes the archive, and a folder where CMake and pkg-config find it.
 *
 *     static uint32_t history[256];
 *     static struct sirmjold_stream stream;
 *     const struct sirmjold_settings settings = SIRMJOLD_DEFAULTS;
 *     uint8_t refusal = sirmjold_start(&stream, &settings, 64, 4, history, 256);
 *
 * examples/c/first.c goes on from there, and docs/INTEGRATION.md.
 *
 * All memory is the caller's. A stream is a struct whose words only these functions write; its send
 * history is an array of 65 to 32768 words, which belongs to the stream from its start on; a payload
 * that is being written is a struct and a buffer of bytes. Times are the caller's, in ms.
 *
 * A stream is started, and a payload or a reader opened, before any other function is given it. The
 * functions of these structs are inline, and call the archive's own, which take arrays. Of a pointer
 * and a length, the pointer is that of an array of at least that many elements, aligned for its type,
 * and not NULL, even where the length is 0. Arrays of one call do not overlap, and no other thread uses
 * them during the call. Nothing else is asked: every value is tested, and a call that is refused
 * answers one of the numbers below. The settings are tested first, then the words of states, then what
 * the call itself refuses. A refused call changes nothing, but for one kind of number 3 of
 * sirmjold_write_data, and for a write that is refused behind words that were queued, where it is said.
 */
#ifndef SIRMJOLD_H
#define SIRMJOLD_H

#include <stddef.h>
#include <stdint.h>

#ifdef __cplusplus
extern "C" {
#endif

/* While the first number is 0, a new second one can ask callers to change something, a new third one
 * not. docs/CHANGELOG.md says what each brought. */
#define SIRMJOLD_VERSION_MAJOR 0
#define SIRMJOLD_VERSION_MINOR 3
#define SIRMJOLD_VERSION_PATCH 1
#define SIRMJOLD_VERSION "0.3.1"

/* The words of a stream, of a payload, of a window alone, and of the settings. */
#define SIRMJOLD_STREAM_WORDS 20
#define SIRMJOLD_PAYLOAD_WORDS 2
#define SIRMJOLD_WINDOW_WORDS 4
#define SIRMJOLD_SETTINGS_WORDS 8

/* ---- refusals */

/* Why a call is refused. Refusals, and nothing else, have names that begin with SIRMJOLD_REFUSED_. */
enum sirmjold_refusal {
    SIRMJOLD_OK = 0,
    SIRMJOLD_REFUSED_BAD_SIGNATURE = 1,
    SIRMJOLD_REFUSED_OVERFLOW = 2,
    SIRMJOLD_REFUSED_TOO_LARGE = 3,
    SIRMJOLD_REFUSED_INVALID_VALUE = 4,
    SIRMJOLD_REFUSED_INVALID_UMP_DATA = 5,
    SIRMJOLD_REFUSED_FULL = 6,
    SIRMJOLD_REFUSED_IDLE_INTERVAL = 7,
    SIRMJOLD_REFUSED_IDLE_GROWTH = 8,
    SIRMJOLD_REFUSED_COMMAND_WORDS = 9,
    SIRMJOLD_REFUSED_MALFORMED = 10,
    SIRMJOLD_REFUSED_REASON_NOT_ALLOWED = 11,
    SIRMJOLD_REFUSED_SIZE_NOT_ALLOWED = 12,
    SIRMJOLD_REFUSED_INVALID_STATE = 13, /* arrays of a wrong length, too */
    SIRMJOLD_REFUSED_INVALID_BLOCK = 16,
    SIRMJOLD_REFUSED_INVALID_RECORD = 17,
    SIRMJOLD_REFUSED_DIVISIONS_NOT_ALLOWED = 18
};

/* What a refusal's number means. */
static inline const char *sirmjold_refusal_text(uint8_t refusal)
{
    switch (refusal) {
    case SIRMJOLD_OK:
        return "not refused";
    case SIRMJOLD_REFUSED_BAD_SIGNATURE:
        return "the payload does not begin with the signature";
    case SIRMJOLD_REFUSED_OVERFLOW:
        return "the command does not fit in what is left of the payload";
    case SIRMJOLD_REFUSED_TOO_LARGE:
        return "the command does not fit in an empty payload, or a message has more words than a command may";
    case SIRMJOLD_REFUSED_INVALID_VALUE:
        return "the payload's limit is not 8 to 1400 bytes, or a raw command has more than 255 words";
    case SIRMJOLD_REFUSED_INVALID_UMP_DATA:
        return "the words end inside a message, or are too many";
    case SIRMJOLD_REFUSED_FULL:
        return "the send history has no room";
    case SIRMJOLD_REFUSED_IDLE_INTERVAL:
        return "the idle interval is not 1 to 300 ms";
    case SIRMJOLD_REFUSED_IDLE_GROWTH:
        return "the idle growth is 0";
    case SIRMJOLD_REFUSED_COMMAND_WORDS:
        return "the command size is not 1 to 64 words";
    case SIRMJOLD_REFUSED_MALFORMED:
        return "a Retransmit Request or Error has no word";
    case SIRMJOLD_REFUSED_REASON_NOT_ALLOWED:
        return "the reason is not defined";
    case SIRMJOLD_REFUSED_SIZE_NOT_ALLOWED:
        return "the size of a window, history, request queue, step budget or loss sheet is not taken, or the group is above 15";
    case SIRMJOLD_REFUSED_INVALID_STATE:
        return "no call has left this state";
    case SIRMJOLD_REFUSED_INVALID_BLOCK:
        return "the block is not whole records, or is longer than 65536 bytes or than its output";
    case SIRMJOLD_REFUSED_INVALID_RECORD:
        return "a record has a class above 2, or a zero byte that is not zero";
    case SIRMJOLD_REFUSED_DIVISIONS_NOT_ALLOWED:
        return "there are no divisions or more than 8, or the turn is not one of them";
    default:
        return "no refusal has this number";
    }
}

/* ---- settings */

/* Each call that uses them tests them before anything else: 9, 7 and 8, then 13 for K, R or M over 255
 * or `retransmit` over 1. */
struct sirmjold_settings {
    uint32_t idle_interval_ms;  /* T1: ms from the last command with words to the first idle command, and
                                 * between the first 1 + R of these; 1 to 300 */
    uint32_t idle_growth;       /* G: each further idle interval is this many times the one before */
    uint32_t idle_further;      /* K: how many further idle commands follow */
    uint32_t fec_repeats;       /* R: how many written commands a payload repeats before new ones, if they fit */
    uint32_t retransmit;        /* X, 1: Retransmit Requests are served and sent; 0: neither */
    uint32_t request_delay_ms;  /* D: ms before the first Retransmit Request */
    uint32_t max_requests;      /* M: how many requests are made for a gap */
    uint32_t max_command_words; /* SIZE: the most words of one data command, 1 to 64 */
};

/* Initialises settings: the ones that are taken where nothing else is known. */
#define SIRMJOLD_DEFAULTS {100, 2, 5, 2, 1, 10, 3, 64}

/* The settings as the archive's functions take them: an array of SIRMJOLD_SETTINGS_WORDS words, in
 * the order of the struct. */
static inline void sirmjold_settings_words(const struct sirmjold_settings *settings, uint32_t *cfg)
{
    cfg[0] = settings->idle_interval_ms;
    cfg[1] = settings->idle_growth;
    cfg[2] = settings->idle_further;
    cfg[3] = settings->fec_repeats;
    cfg[4] = settings->retransmit;
    cfg[5] = settings->request_delay_ms;
    cfg[6] = settings->max_requests;
    cfg[7] = settings->max_command_words;
}

/* ---- answers */

/* In every answer that has one, `refusal` is 0 or a number of enum sirmjold_refusal, and then all else
 * is 0, but that a 10 of sirmjold_command_next gives `next` and `len` too, and `queued` of
 * sirmjold_send_and_write tells which of its two calls was refused. */

enum sirmjold_outcome_kind {
    SIRMJOLD_QUEUED = 0,
    SIRMJOLD_PENDING = 1, /* ignored: a request with the same number waits */
    SIRMJOLD_NO_PLACE = 2, /* ignored: every place is taken */
    SIRMJOLD_ERROR = 3,   /* the caller writes this Retransmit Error: `seq` is the oldest number that
                           * the history holds (the next one if it holds none), not the one asked for */
    SIRMJOLD_NOT_SUPPORTED = 4
};

struct sirmjold_outcome {
    uint8_t refusal;
    uint8_t kind;
    uint8_t reason;
    uint16_t seq;
};

enum sirmjold_class {
    SIRMJOLD_NEW = 0,
    SIRMJOLD_LATE = 1,
    SIRMJOLD_DUPLICATE = 2
};

/* A data command: hand its messages on unless it is a duplicate. `skipped` numbers lie between it
 * and the highest before it: the gap. Lost: from the oldest to the newest number that left the window
 * unheard. A count of 0 is none.
 *
 * Commands are handed on as they arrive, so a late note-on can follow its own note-off. A pipe that is
 * held by it sounds on, with no loss reported and nothing missing. The rule for a chamber: a late
 * command releases notes and never holds one, and a reported loss, here or in an event, releases all
 * held notes, before the messages of the command that it came with. The functions for held notes, at the
 * end of this file, keep to it, and examples/c/console_and_chamber.c uses them. docs/CONTRACT.md says
 * more. */
struct sirmjold_delivery {
    uint8_t refusal;
    uint8_t class_;
    uint16_t skipped;
    uint16_t gap_first;
    uint16_t gap_count;
    uint16_t lost_first;
    uint16_t lost_count;
};

enum sirmjold_event_kind {
    SIRMJOLD_NOTHING = 0,
    SIRMJOLD_DATA_LOSS = 1,       /* the numbers of the range that were not heard are lost */
    SIRMJOLD_ERROR_LOSS = 2,      /* the same, told by a Retransmit Error */
    SIRMJOLD_RETRANSMIT_ERROR = 3 /* a Retransmit Error by which nothing was lost */
};

struct sirmjold_event {
    uint8_t refusal;
    uint8_t kind;
    uint8_t reason; /* of the error */
    uint16_t seq;   /* of the error */
    uint16_t first; /* of the range */
    uint16_t count;
};

enum sirmjold_request_kind {
    SIRMJOLD_NOT_DUE = 0,
    SIRMJOLD_WRITTEN = 1,
    SIRMJOLD_MORE = 2 /* it does not fit in what is left of the payload */
};

struct sirmjold_request {
    uint8_t refusal;
    uint8_t kind;
};

struct sirmjold_deadline {
    uint64_t time;
    uint8_t refusal;
    uint8_t kind; /* 1: `time` is the earliest due time; 0: nothing is due */
};

struct sirmjold_wants {
    uint8_t refusal;
    uint8_t wants;
};

struct sirmjold_written {
    uint64_t commands;
    uint8_t refusal;
    uint8_t more; /* the next command did not fit: send the payload, write again into a new one */
};

/* Of sirmjold_send_and_write. `queued` is 0: the words were refused by `refusal`, and nothing was written. It is
 * 1: they are queued, also where `refusal` is not 0, and all else is what sirmjold_write_data answers. */
struct sirmjold_sent_written {
    uint64_t commands;
    uint8_t refusal;
    uint8_t more;
    uint8_t queued;
};

/* Of sirmjold_hear: how many answers stand in `heard`, and the place of the first command that was not heard, for
 * want of room; 0 where the payload was heard to its end. */
struct sirmjold_heard {
    uint64_t next;
    uint64_t count;
    uint8_t refusal;
};

/* The words of one answer in `heard`, and as many as a payload of 1400 bytes can ask for. */
#define SIRMJOLD_ANSWER_WORDS 4
#define SIRMJOLD_ANSWERS_MAX 349

/* ---- the archive's functions of payloads and streams, over arrays: `s` has the words of a stream, `cfg`
 * those of the settings, `ring` the history, `p` the words of a payload, whose first is its length, and
 * `buf` its buffer. What each does stands at the inline function that calls it. */

uint8_t sirmjold_payload_new(uint64_t *p, size_t p_len, size_t max);
uint8_t sirmjold_payload_command(uint64_t *p, size_t p_len, uint8_t *buf, size_t buf_len,
                                 uint8_t code, uint8_t csd1, uint8_t csd2, const uint32_t *words,
                                 size_t words_len);
uint8_t sirmjold_ump_data_write(uint64_t *p, size_t p_len, uint8_t *buf, size_t buf_len,
                                uint16_t seq, const uint32_t *words, size_t words_len);
uint8_t sirmjold_retransmit_request_write(uint64_t *p, size_t p_len, uint8_t *buf, size_t buf_len,
                                          uint16_t seq, uint16_t count);
uint8_t sirmjold_retransmit_error_write(uint64_t *p, size_t p_len, uint8_t *buf, size_t buf_len,
                                        uint8_t reason, uint16_t seq);
uint8_t sirmjold_stream_new(uint64_t *s, size_t s_len, const uint32_t *cfg, size_t cfg_len,
                            uint32_t window, size_t places, uint32_t *ring, size_t ring_len);
uint8_t sirmjold_stream_reset(uint64_t *s, size_t s_len, uint32_t *ring, size_t ring_len);
uint8_t sirmjold_stream_send_ump(uint64_t *s, size_t s_len, const uint32_t *cfg, size_t cfg_len,
                                 uint32_t *ring, size_t ring_len, const uint32_t *words,
                                 size_t words_len);
struct sirmjold_outcome sirmjold_stream_on_retransmit_request(
    uint64_t *s, size_t s_len, const uint32_t *cfg, size_t cfg_len, const uint32_t *ring,
    size_t ring_len, uint16_t seq, uint16_t count);
struct sirmjold_delivery sirmjold_stream_on_ump_data(uint64_t *s, size_t s_len, const uint32_t *cfg,
                                                     size_t cfg_len, uint64_t time, uint16_t seq);
struct sirmjold_event sirmjold_stream_on_retransmit_error(uint64_t *s, size_t s_len, uint8_t reason,
                                                          uint16_t seq);
struct sirmjold_event sirmjold_stream_on_retransmit_nak(uint64_t *s, size_t s_len);
struct sirmjold_event sirmjold_stream_poll(uint64_t *s, size_t s_len, const uint32_t *cfg,
                                           size_t cfg_len, uint64_t time);
struct sirmjold_request sirmjold_stream_write_request(uint64_t *s, size_t s_len, const uint32_t *cfg,
                                                      size_t cfg_len, uint64_t *p, size_t p_len,
                                                      uint8_t *buf, size_t buf_len);
struct sirmjold_deadline sirmjold_stream_next_deadline(const uint64_t *s, size_t s_len,
                                                       const uint32_t *ring, size_t ring_len);
struct sirmjold_wants sirmjold_stream_wants_write(const uint64_t *s, size_t s_len,
                                                  const uint32_t *ring, size_t ring_len,
                                                  uint64_t time);
struct sirmjold_written sirmjold_stream_write_data(uint64_t *s, size_t s_len, const uint32_t *cfg,
                                                   size_t cfg_len, uint64_t time, uint64_t *p,
                                                   size_t p_len, uint8_t *buf, size_t buf_len,
                                                   uint32_t *ring, size_t ring_len);
struct sirmjold_sent_written sirmjold_stream_send_and_write(
    uint64_t *s, size_t s_len, const uint32_t *cfg, size_t cfg_len, uint64_t time, const uint32_t *words,
    size_t words_len, uint64_t *p, size_t p_len, uint8_t *buf, size_t buf_len, uint32_t *ring,
    size_t ring_len);
struct sirmjold_heard sirmjold_stream_hear(uint64_t *s, size_t s_len, const uint32_t *cfg, size_t cfg_len,
                                           uint64_t time, const uint32_t *ring, size_t ring_len,
                                           const uint8_t *payload, size_t payload_len, size_t at,
                                           uint64_t *heard, size_t heard_len);

/* ---- a payload that is being written */

struct sirmjold_payload {
    uint64_t words[SIRMJOLD_PAYLOAD_WORDS]; /* these functions' own */
    uint8_t *buf;
    size_t buf_len;
};

/* An empty payload in the first `max` bytes of `buf`; 4 when these are not 8 to 1400. */
static inline uint8_t sirmjold_payload_open(struct sirmjold_payload *payload, uint8_t *buf, size_t max)
{
    uint8_t refusal = sirmjold_payload_new(payload->words, SIRMJOLD_PAYLOAD_WORDS, max);
    if (refusal == SIRMJOLD_OK) {
        payload->buf = buf;
        payload->buf_len = max;
    }
    return refusal;
}

/* How many bytes of the buffer are to be sent: 0, or those of the signature and all commands. */
static inline size_t sirmjold_payload_length(const struct sirmjold_payload *payload)
{
    return payload->words[0];
}

/* Write one command after what the payload holds: 3 when it does not fit an empty payload, 2 when it
 * does not fit otherwise; 4 for over 255 words, 5 for words that are not whole messages or are over
 * 64, 11 for a reason that is not defined. */
static inline uint8_t sirmjold_put_command(struct sirmjold_payload *payload, uint8_t code, uint8_t csd1,
                                           uint8_t csd2, const uint32_t *words, size_t words_len)
{
    return sirmjold_payload_command(payload->words, SIRMJOLD_PAYLOAD_WORDS, payload->buf, payload->buf_len,
                                    code, csd1, csd2, words, words_len);
}

static inline uint8_t sirmjold_put_ump_data(struct sirmjold_payload *payload, uint16_t seq,
                                            const uint32_t *words, size_t words_len)
{
    return sirmjold_ump_data_write(payload->words, SIRMJOLD_PAYLOAD_WORDS, payload->buf, payload->buf_len,
                                   seq, words, words_len);
}

static inline uint8_t sirmjold_put_retransmit_request(struct sirmjold_payload *payload, uint16_t seq,
                                                      uint16_t count)
{
    return sirmjold_retransmit_request_write(payload->words, SIRMJOLD_PAYLOAD_WORDS, payload->buf,
                                             payload->buf_len, seq, count);
}

static inline uint8_t sirmjold_put_retransmit_error(struct sirmjold_payload *payload, uint8_t reason,
                                                    uint16_t seq)
{
    return sirmjold_retransmit_error_write(payload->words, SIRMJOLD_PAYLOAD_WORDS, payload->buf,
                                           payload->buf_len, reason, seq);
}

/* A payload with one data command, made in one call. */
struct sirmjold_made {
    uint64_t len; /* how many bytes of the buffer are to be sent */
    uint8_t refusal;
};

/* Opens a payload of at most `max` bytes in `buf` and writes UMP Data into it: 4 as for
 * sirmjold_payload_open, then 5 and 3 as for sirmjold_put_ump_data. */
struct sirmjold_made sirmjold_ump_data_payload(uint8_t *buf, size_t buf_len, size_t max, uint16_t seq,
                                               const uint32_t *words, size_t words_len);

/* ---- a payload that was received */

/* What sirmjold_command_next finds. */
enum sirmjold_read_kind {
    SIRMJOLD_READ_END = 0,
    SIRMJOLD_READ_TRUNCATED = 1, /* longer than the rest: reading ends */
    SIRMJOLD_READ_RAW = 2,
    SIRMJOLD_READ_UMP_DATA = 3,
    SIRMJOLD_READ_REQUEST = 4,
    SIRMJOLD_READ_ERROR = 5
};

struct sirmjold_read {
    uint64_t next; /* the place of the next command; 0 where reading ends */
    uint8_t refusal;
    uint8_t kind;
    uint8_t code; /* of a raw or a cut command; of an error its reason */
    uint8_t len;  /* the words of the command */
    uint16_t seq; /* the number; of a raw or a cut command its two specific bytes */
    uint16_t count; /* of data, the words of its whole messages; of a request, how many it asks for */
};

/* The longest command: `words` and `lens` below have room for so many. */
#define SIRMJOLD_COMMAND_WORDS_MAX 255

/* The command at a place, with its words in the machine's order at the front of `words`, and for data
 * the length of each whole message, in words, at the front of `lens`: one call for each command of a
 * payload. Begin with the place 0, where the signature is tested (1). Data whose `count` is less than
 * its `len` ends inside a message. 10 is a request or an error without its word: reading goes on at
 * `next`, and `len` is given too. 13 when `words` or `lens` is shorter than 255. Where fewer than four
 * bytes follow `next`, the next call tells the end: a caller that looks at that itself spares it. */
struct sirmjold_read sirmjold_command_next(const uint8_t *payload, size_t payload_len, size_t at,
                                           uint32_t *words, size_t words_len, uint8_t *lens,
                                           size_t lens_len);

/* A payload and the command that was last read of it. */
struct sirmjold_reader {
    const uint8_t *payload;
    size_t payload_len;
    size_t at;            /* the place of the next command */
    const uint8_t *body;  /* the bytes of the command's words, in the payload */
    size_t body_len;
    uint32_t words[SIRMJOLD_COMMAND_WORDS_MAX];
    uint8_t lens[SIRMJOLD_COMMAND_WORDS_MAX];
};

/* Before the first command. The payload stays as it is while it is read. */
static inline void sirmjold_reader_open(struct sirmjold_reader *reader, const uint8_t *payload,
                                        size_t payload_len)
{
    reader->payload = payload;
    reader->payload_len = payload_len;
    reader->at = 0;
    reader->body = payload;
    reader->body_len = 0;
}

/* The next command, by sirmjold_command_next; `next` is 0 where reading has ended. */
static inline struct sirmjold_read sirmjold_reader_next(struct sirmjold_reader *reader)
{
    struct sirmjold_read found =
        sirmjold_command_next(reader->payload, reader->payload_len, reader->at, reader->words,
                              SIRMJOLD_COMMAND_WORDS_MAX, reader->lens, SIRMJOLD_COMMAND_WORDS_MAX);
    reader->at = found.next != 0 ? found.next : reader->payload_len;
    reader->body_len = found.next != 0 ? sizeof *reader->words * found.len : 0;
    reader->body = reader->payload + (reader->at - reader->body_len);
    return found;
}

/* ---- a stream */

struct sirmjold_stream {
    uint64_t words[SIRMJOLD_STREAM_WORDS];      /* these functions' own, and so is all of the history */
    uint32_t settings[SIRMJOLD_SETTINGS_WORDS]; /* by sirmjold_settings_words */
    uint32_t *history;
    size_t history_len;
};

/* A fresh stream: a receive window of `window` numbers (1 to 128), a request queue of `places` places
 * (1 to 16), and the whole of `history` lent, which is zeroed; else 12. A start that is refused stores
 * nothing: a stream that runs goes on. */
static inline uint8_t sirmjold_start(struct sirmjold_stream *stream, const struct sirmjold_settings *settings,
                                     uint32_t window, size_t places, uint32_t *history, size_t history_len)
{
    uint32_t cfg[SIRMJOLD_SETTINGS_WORDS];
    uint8_t refusal;
    sirmjold_settings_words(settings, cfg);
    refusal = sirmjold_stream_new(stream->words, SIRMJOLD_STREAM_WORDS, cfg, SIRMJOLD_SETTINGS_WORDS, window,
                                  places, history, history_len);
    if (refusal == SIRMJOLD_OK) {
        sirmjold_settings_words(settings, stream->settings);
        stream->history = history;
        stream->history_len = history_len;
    }
    return refusal;
}

/* Other settings from the next call on, which tests them. */
static inline void sirmjold_change_settings(struct sirmjold_stream *stream,
                                            const struct sirmjold_settings *settings)
{
    sirmjold_settings_words(settings, stream->settings);
}

/* Back to the fresh stream of the same sizes; the history is zeroed. The peer has to be reset too, and
 * nothing written before may be heard after: a command with a number that was heard is a duplicate. */
static inline uint8_t sirmjold_reset(struct sirmjold_stream *stream)
{
    return sirmjold_stream_reset(stream->words, SIRMJOLD_STREAM_WORDS, stream->history, stream->history_len);
}

/* Queues whole messages to send: 5, 3 and 6 for words that are not queued. */
static inline uint8_t sirmjold_send_ump(struct sirmjold_stream *stream, const uint32_t *words,
                                        size_t words_len)
{
    return sirmjold_stream_send_ump(stream->words, SIRMJOLD_STREAM_WORDS, stream->settings,
                                    SIRMJOLD_SETTINGS_WORDS, stream->history, stream->history_len, words,
                                    words_len);
}

/* A Retransmit Request arrives; a count of 0 asks for all from `seq` on. */
static inline struct sirmjold_outcome sirmjold_on_retransmit_request(struct sirmjold_stream *stream,
                                                                     uint16_t seq, uint16_t count)
{
    return sirmjold_stream_on_retransmit_request(stream->words, SIRMJOLD_STREAM_WORDS, stream->settings,
                                                 SIRMJOLD_SETTINGS_WORDS, stream->history,
                                                 stream->history_len, seq, count);
}

/* A data command arrives. */
static inline struct sirmjold_delivery sirmjold_on_ump_data(struct sirmjold_stream *stream, uint64_t time,
                                                            uint16_t seq)
{
    return sirmjold_stream_on_ump_data(stream->words, SIRMJOLD_STREAM_WORDS, stream->settings,
                                       SIRMJOLD_SETTINGS_WORDS, time, seq);
}

/* A Retransmit Error arrives: what the unanswered request asked for and is missing is lost. The error's
 * own reason and number are handed back, and decide nothing. */
static inline struct sirmjold_event sirmjold_on_retransmit_error(struct sirmjold_stream *stream,
                                                                 uint8_t reason, uint16_t seq)
{
    return sirmjold_stream_on_retransmit_error(stream->words, SIRMJOLD_STREAM_WORDS, reason, seq);
}

/* A NAK to a Retransmit Request arrives: no requests until a reset. With one unanswered, all that is
 * missing is lost, and reported. What is missing otherwise, and every later gap, stays missing until
 * it arrives, or leaves the window and is reported then. */
static inline struct sirmjold_event sirmjold_on_retransmit_nak(struct sirmjold_stream *stream)
{
    return sirmjold_stream_on_retransmit_nak(stream->words, SIRMJOLD_STREAM_WORDS);
}

/* Runs the receiver's timer: makes a request due, or gives up and reports what is missing. Numbers above
 * the highest heard are not missing: that the last ones were lost shows when something newer is heard. */
static inline struct sirmjold_event sirmjold_poll(struct sirmjold_stream *stream, uint64_t time)
{
    return sirmjold_stream_poll(stream->words, SIRMJOLD_STREAM_WORDS, stream->settings,
                                SIRMJOLD_SETTINGS_WORDS, time);
}

/* Takes a due request into a payload, and writes nothing else. */
static inline struct sirmjold_request sirmjold_write_request(struct sirmjold_stream *stream,
                                                             struct sirmjold_payload *payload)
{
    return sirmjold_stream_write_request(stream->words, SIRMJOLD_STREAM_WORDS, stream->settings,
                                         SIRMJOLD_SETTINGS_WORDS, payload->words, SIRMJOLD_PAYLOAD_WORDS,
                                         payload->buf, payload->buf_len);
}

/* The earliest time at which `poll` or `write_data` has timed work. */
static inline struct sirmjold_deadline sirmjold_next_deadline(const struct sirmjold_stream *stream)
{
    return sirmjold_stream_next_deadline(stream->words, SIRMJOLD_STREAM_WORDS, stream->history,
                                         stream->history_len);
}

/* Whether `write_data` at this time has something to write, or a due request to drop. */
static inline struct sirmjold_wants sirmjold_wants_write(const struct sirmjold_stream *stream, uint64_t time)
{
    return sirmjold_stream_wants_write(stream->words, SIRMJOLD_STREAM_WORDS, stream->history,
                                       stream->history_len, time);
}

/* Writes into a payload: a due request, then the sender's commands. 3 when the payload is empty and
 * the due request, or else the first unwritten command, does not fit. Where it is the request, nothing
 * is changed. Where it is the command, the payload's words and bytes stay, but a due idle command is
 * queued, waiting requests that fit no payload are gone, and so is a due request that is no longer
 * needed: the one refusal that changes something. */
static inline struct sirmjold_written sirmjold_write_data(struct sirmjold_stream *stream, uint64_t time,
                                                          struct sirmjold_payload *payload)
{
    return sirmjold_stream_write_data(stream->words, SIRMJOLD_STREAM_WORDS, stream->settings,
                                      SIRMJOLD_SETTINGS_WORDS, time, payload->words, SIRMJOLD_PAYLOAD_WORDS,
                                      payload->buf, payload->buf_len, stream->history, stream->history_len);
}

/* sirmjold_send_ump, and where it queues the words sirmjold_write_data at this time, in one call that tests
 * settings and state once. Where the words are refused nothing is changed and nothing written; where the write
 * is refused they are queued all the same, and sirmjold_write_data writes them into a better payload. */
static inline struct sirmjold_sent_written sirmjold_send_and_write(struct sirmjold_stream *stream, uint64_t time,
                                                                   const uint32_t *words, size_t words_len,
                                                                   struct sirmjold_payload *payload)
{
    return sirmjold_stream_send_and_write(stream->words, SIRMJOLD_STREAM_WORDS, stream->settings,
                                          SIRMJOLD_SETTINGS_WORDS, time, words, words_len, payload->words,
                                          SIRMJOLD_PAYLOAD_WORDS, payload->buf, payload->buf_len,
                                          stream->history, stream->history_len);
}

/* A payload arrives: each of its commands, from the place `at` on (0: the first), is given to the function above
 * that takes it, data to sirmjold_on_ump_data, a request to sirmjold_on_retransmit_request, an error to
 * sirmjold_on_retransmit_error, any other to none, and has an answer of SIRMJOLD_ANSWER_WORDS words in `heard`.
 * Settings and state are tested once, no word is copied, and a call with room for SIRMJOLD_ANSWERS_MAX answers takes
 * any payload of 1400 bytes. Where the room ends earlier `next` is not 0, and a call with `at` = `next` goes on
 * there. At the place 0 the signature is tested (1). */
static inline struct sirmjold_heard sirmjold_hear(struct sirmjold_stream *stream, uint64_t time,
                                                  const uint8_t *payload, size_t payload_len, size_t at,
                                                  uint64_t *heard, size_t heard_len)
{
    return sirmjold_stream_hear(stream->words, SIRMJOLD_STREAM_WORDS, stream->settings,
                                SIRMJOLD_SETTINGS_WORDS, time, stream->history, stream->history_len, payload,
                                payload_len, at, heard, heard_len);
}

/* One answer of sirmjold_hear: the command, and what the function that took it answers. Of these that is
 * `delivery` for SIRMJOLD_READ_UMP_DATA, `outcome` for SIRMJOLD_READ_REQUEST, and `event` for SIRMJOLD_READ_ERROR;
 * the other two have 0 in every field but `refusal`. */
struct sirmjold_answer {
    uint64_t place; /* of the command in the payload: its words stand from place + 4 on */
    uint8_t refusal; /* of the function that took it; 10 for a request or an error without its word */
    uint8_t kind;   /* of enum sirmjold_read_kind; 0 where `refusal` is 10 */
    uint8_t code;   /* of a raw or a cut command; of an error its reason */
    uint8_t len;    /* the words of the command */
    uint16_t seq;   /* the number; of a raw or a cut command its two specific bytes */
    uint16_t count; /* of a request, how many it asks for */
    struct sirmjold_delivery delivery;
    struct sirmjold_outcome outcome;
    struct sirmjold_event event;
};

/* Answer `i` of those that stand in `heard`. */
static inline struct sirmjold_answer sirmjold_heard_answer(const uint64_t *heard, size_t i)
{
    const uint64_t *w = heard + SIRMJOLD_ANSWER_WORDS * i;
    struct sirmjold_answer a = {0, 0, 0, 0, 0, 0, 0, {0, 0, 0, 0, 0, 0, 0}, {0, 0, 0, 0}, {0, 0, 0, 0, 0, 0}};
    a.place = w[0];
    a.refusal = (uint8_t)w[2];
    a.kind = (uint8_t)w[1];
    a.code = (uint8_t)(w[1] >> 8);
    a.len = (uint8_t)(w[1] >> 16);
    a.seq = (uint16_t)(w[1] >> 32);
    a.count = (uint16_t)(w[1] >> 48);
    a.delivery.refusal = a.outcome.refusal = a.event.refusal = a.refusal;
    switch (a.kind) {
    case SIRMJOLD_READ_UMP_DATA:
        a.delivery.class_ = (uint8_t)(w[2] >> 8);
        a.delivery.skipped = (uint16_t)(w[2] >> 16);
        a.delivery.gap_first = (uint16_t)(w[2] >> 32);
        a.delivery.gap_count = (uint16_t)(w[2] >> 48);
        a.delivery.lost_first = (uint16_t)w[3];
        a.delivery.lost_count = (uint16_t)(w[3] >> 16);
        break;
    case SIRMJOLD_READ_REQUEST:
        a.outcome.kind = (uint8_t)(w[2] >> 8);
        a.outcome.reason = (uint8_t)(w[2] >> 16);
        a.outcome.seq = (uint16_t)(w[2] >> 32);
        break;
    case SIRMJOLD_READ_ERROR:
        a.event.kind = (uint8_t)(w[2] >> 8);
        a.event.reason = (uint8_t)(w[2] >> 16);
        a.event.seq = (uint16_t)(w[2] >> 32);
        a.event.first = (uint16_t)w[3];
        a.event.count = (uint16_t)(w[3] >> 16);
        break;
    default:
        break;
    }
    return a;
}

/* ---- a receive window alone: words `w`. Of a delivery, `skipped` alone tells the gap. */

/* A window of 1 to 128 numbers; `highest` and all before it are processed. A fresh window has the
 * highest 65535. 12 for another size. */
uint8_t sirmjold_window_starting_at(uint64_t *w, size_t w_len, uint32_t size, uint16_t highest);

/* A number arrives: it is processed now, unless it is a duplicate. */
struct sirmjold_delivery sirmjold_window_accept(uint64_t *w, size_t w_len, uint16_t seq);

/* ---- a load that can be made again: values drawn from a seed, and what each of them asks to send.
 * Nothing is lent and nothing refused: any `last` is a seed. */

struct sirmjold_load {
    uint32_t last; /* the last value drawn, at first the seed */
};

struct sirmjold_jumped {
    struct sirmjold_load load;
    uint32_t rounds; /* that it took: as many as `n` has binary digits, 0 to 16 */
};

/* Words for sirmjold_send_ump: the first `count`, 0 to 8; where `count` is 0, the value is idle. */
struct sirmjold_asked {
    uint32_t words[8];
    size_t count;
};

/* The next value: the last times 1664525 plus 1013904223, modulo 2^32. */
struct sirmjold_load sirmjold_load_draw(struct sirmjold_load load);

/* `n` draws at one step, which equals `n` single ones. A count above 65535 is none of this type: C takes
 * it modulo 65536. */
struct sirmjold_jumped sirmjold_load_jump(struct sirmjold_load load, uint16_t n);

/* What the last value asks to send: nothing where its top bit is 0, else 20903C40 once more often than
 * its next three bits say. */
struct sirmjold_asked sirmjold_load_words(struct sirmjold_load load);

/* ---- a pretend link, to try settings before a hire: a console, a line and a chamber in steps of 1 ms.
 * docs/LINK.md says what such a line is not. */

struct sirmjold_report {
    uint32_t steps;  /* done: the budget */
    uint32_t handed; /* commands that the chamber handed on, those without words too */
    uint32_t losses; /* that it reported, each once, however many numbers it has */
    uint8_t refusal;
};

/* A run of `budget` steps, at most 65536, from time 0. Both ends start fresh with the same settings: a receive window of
 * `window` numbers (1 to 128), a request queue of `places` places (1 to 16), and the whole of `ring` and of
 * `other` as the histories of console and chamber, 65 to 32768 words each. In each step the console queues the words of the
 * next value of `seed` and writes a payload, which is dropped when the next value of `drop`, modulo 256, is
 * below `figure`; the chamber hears it, polls and writes, and its payload reaches the console in that step. The
 * settings are tested first; then 12 for a size or a budget out of these bounds and for histories of two
 * lengths. A refused run leaves both histories as they were; another one zeroes them and leaves the words of its ends there. */
struct sirmjold_report sirmjold_link_run(const uint32_t *cfg, size_t cfg_len, uint32_t window, size_t places,
                                         uint32_t seed, uint32_t drop, uint16_t figure, uint32_t budget,
                                         uint32_t *ring, size_t ring_len, uint32_t *other, size_t other_len);

/* The same with a struct of settings, and two histories of `ring_len` words. */
static inline struct sirmjold_report sirmjold_link_try(const struct sirmjold_settings *settings, uint32_t window,
                                                       size_t places, uint32_t seed, uint32_t drop,
                                                       uint16_t figure, uint32_t budget, uint32_t *ring,
                                                       uint32_t *other, size_t ring_len)
{
    uint32_t cfg[SIRMJOLD_SETTINGS_WORDS];
    sirmjold_settings_words(settings, cfg);
    return sirmjold_link_run(cfg, SIRMJOLD_SETTINGS_WORDS, window, places, seed, drop, figure, budget, ring,
                             ring_len, other, ring_len);
}

/* ---- held notes: which notes of one group a chamber sounds, by the rule above. A state is a value that
 * only these functions make: give each call what the last one left. 12 in any call when the group is above
 * 15; then nothing is changed and no note given. */

struct sirmjold_held {
    uint8_t group;     /* 0 to 15 */
    uint64_t held[32]; /* note k is bit k % 64 of word k / 64 */
};

/* A note is its channel times 128 plus its note byte. The first `count` items, by channel, then note, each
 * once; the rest is 0. */
struct sirmjold_notes {
    size_t count;
    uint16_t items[2048];
};

struct sirmjold_given {
    struct sirmjold_held state;
    struct sirmjold_notes notes; /* on a loss or a restart, all that were held; else none */
    uint8_t refusal;
};

/* No note is held. */
struct sirmjold_given sirmjold_held_start(uint8_t group);

/* A data command was answered so: refusal, class_ and lost_count of its sirmjold_delivery. `body` has the
 * bytes of its words: after sirmjold_command_next, payload + next - 4 * len, and 4 * len of them. A refused
 * command changes nothing, and a class that is neither 0 nor 1 is a duplicate's. */
struct sirmjold_given sirmjold_held_delivered(struct sirmjold_held state, uint8_t refusal, uint8_t class_,
                                              uint16_t lost, const uint8_t *body, size_t body_len);

/* The same of the command that was last read. */
static inline struct sirmjold_given sirmjold_held_heard(struct sirmjold_held state,
                                                        struct sirmjold_delivery delivery,
                                                        const struct sirmjold_reader *reader)
{
    return sirmjold_held_delivered(state, delivery.refusal, delivery.class_, delivery.lost_count, reader->body,
                                   reader->body_len);
}

/* A poll, a Retransmit Error or a NAK was answered with an event of this kind. */
struct sirmjold_given sirmjold_held_told(struct sirmjold_held state, uint8_t kind);

/* The stream was started again. */
struct sirmjold_given sirmjold_held_restarted(struct sirmjold_held state);

/* ---- one uplink for up to eight divisions: how many words of a step each of them is granted. No state
 * but the turn, which the caller keeps, at first 0. */

#define SIRMJOLD_DIVISIONS_MAX 8

/* Grants come by value, in division order; places past the last division are 0. Where the call is
 * refused all of them are 0, and `turn` is the one that was given. */
struct sirmjold_grants {
    uint16_t grants[SIRMJOLD_DIVISIONS_MAX];
    uint16_t turn; /* of the next step */
    uint8_t refusal;
};

/* A step with `words` words to grant to `wants_len` divisions, each of which wants some: first the
 * smaller of its want and `words` divided by the number of divisions, rounded down; what is left goes
 * round from the turn on, each division taking all it still wants. 18 for no divisions, more than 8, or
 * a turn that is not one of them. */
struct sirmjold_grants sirmjold_uplink_grant(uint16_t words, uint16_t turn, const uint16_t *wants,
                                             size_t wants_len);

/* ---- the loss sheet: figures over the last `n` arrivals of a file, and its blocks stored by column. A
 * file is records of 16 bytes, big-endian: time (8), number (2), class (1: 0 New, 1 Late, 2 Duplicate), a
 * zero, loss count (2), loss first (2). A block is whole records, at most SIRMJOLD_SHEET_BLOCK bytes. A
 * call that is refused changes nothing. */

#define SIRMJOLD_SHEET_RECORD 16
#define SIRMJOLD_SHEET_BLOCK 65536
#define SIRMJOLD_SHEET_ARRIVALS 4096

/* With a ring of `n` words, which the caller lends to each call: both are written by these calls alone. */
struct sirmjold_sheet {
    size_t n;    /* how many arrivals the figures go over, 1 to 4096 */
    size_t head; /* the place of the oldest word held; 0 until `n` are held */
    size_t len;  /* how many words are held */
};

/* The sheet after a call, as it was where the call was refused. */
struct sirmjold_sheet_answer {
    struct sirmjold_sheet sheet;
    uint8_t refusal;
};

/* No arrivals yet, and the whole of `ring` zeroed. 12 when `n` is not 1 to 4096, or not `ring_len`. */
struct sirmjold_sheet_answer sirmjold_sheet_start(size_t n, uint32_t *ring, size_t ring_len);

/* The figures of each record, 16 bytes in `out`: how many of the last `n` arrivals, this one included,
 * are New, Late and Duplicate, and the sum of their loss counts, four bytes each, big-endian; over all
 * while there are fewer. They run on from block to block. Bytes of `out` past the block's length stay.
 * 12 when `n` is not 1 to 4096, then 13 for a sheet and ring that no calls have left, then 16, then 17. */
struct sirmjold_sheet_answer sirmjold_sheet_block(struct sirmjold_sheet sheet, uint32_t *ring,
                                                  size_t ring_len, const uint8_t *block,
                                                  size_t block_len, uint8_t *out, size_t out_len);

/* A block by column: the first bytes of all records, then their second. Answers 0 or 16. */
uint8_t sirmjold_sheet_columns(const uint8_t *block, size_t block_len, uint8_t *out, size_t out_len);

/* The block of which `stored` holds the columns: the inverse. Answers 0 or 16. */
uint8_t sirmjold_sheet_restore(const uint8_t *stored, size_t stored_len, uint8_t *out, size_t out_len);

#ifdef __cplusplus
}
#endif

#endif
