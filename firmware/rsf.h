// The ranked safety filter for the firmware of a controller, in C99 or later and in C++.
//
// Link libfirmware.a, which is for x86-64 Linux. It needs memcpy and memset and nothing else. It has no statics, takes no heap and does no
// floating point. Nothing is kept between calls, so that calls may run at the same time.
//
// A set is its file (docs/FORMAT.md), in memory that the caller owns and no call changes: flash will do. A state is the file and an rsf_past.
// rsf_start gives the first past and each scan the next: hand on what the last call gave, with the same file. After a power failure or a stop
// start again.
//
// Every answer begins with the number of a refusal, 0 for none. Values that an answer does not have are 0. docs/FORMAT.md, "Every refusal",
// says what each number means and what to do.
//
// Proved: for every file, past, word, name and length, and for every content of an rsf_prepared, the call returns with the answer that is
// defined for it. It reads no byte but those lent to it and writes none but those that are said below.
//
// The caller has to see to these, which no call can test. Where they do not hold nothing is promised:
// - No pointer is null, even where the length is 0.
// - As many bytes are there as the length says, and RSF_PREPARED_BYTES at an rsf_prepared.
// - What is lent for writing (scratch, the rsf_prepared of rsf_prepare) overlaps nothing else that is passed. While a call runs nobody else
//   writes what is lent to it, nor reads what it writes.
// - Calls go by the prototypes below, and structs lie as the compiler lays them out, not packed.
//
// These are answered all the same:
// - A past that is of another file, from before a stop, or was never set: a right scan from these past words, or 30 where one is too wide. But
//   the promise that 30 and 33 never come is for pasts that came from a start of an accepted set and went through scans alone.
// - A scan without a start, or of a set that was rejected: a right scan, or 33.
// - A file that was cut, damaged or changed: what the bytes say now, or the number of a file that does not load.
// But look at number first. Who ignores it sends vector 0 where a scan is refused: all outputs off, whether that is safe or not.
//
// A call needs at most RSF_STACK bytes of stack below its caller. That is tested (firmware/check) and not proved.
// Interrupts: the code uses SSE registers for whole numbers, and the 128 bytes below the stack pointer (the red zone). A handler that has not
// saved these registers must not call it, and one that runs on the stack of what it interrupted has to leave those bytes alone.
#ifndef RSF_H
#define RSF_H
#include <stddef.h>
#include <stdint.h>
#ifdef __cplusplus
extern "C" {
#endif

#define RSF_MOST_FILE 5117      // bytes of the longest file that loads
#define RSF_MOST_SCRATCH 512    // bytes of scratch that are enough for every set
#define RSF_PREPARED_BYTES 1837 // bytes of a prepared set
#define RSF_STACK 24576         // bytes of stack that are enough for every call: tested, not proved

// What a state has beside its set. accepted: 0 says no, any other byte yes; scans give 0 or 1.
typedef struct {
    uint16_t output;  // the vector that the last accepted scan sent; in a start's own the outputs that rest on
    uint8_t accepted; // whether a scan was accepted since the start
    uint32_t sensor;  // that scan's sensor word
} rsf_past;

// Refusals: 1 to 12, 54, 59.
typedef struct {
    uint8_t number, r, n, m; // the counts of read points, outputs and constraints
    size_t offset;           // with a refusal: where the field begins that is refused
} rsf_load_result;

// Refusals: 20 (the file does not load), 21 (too little scratch), 22, 23, 58.
typedef struct {
    uint8_t number, output; // with 58: the output that is forced both ways
    uint16_t request;       // with 23: the request whose walk never is safe
    uint32_t word;          // with 22, 23 and 58: the read word
} rsf_verdict;

typedef struct {
    rsf_verdict verdict;
    rsf_past past; // for the first scan; zeros where the set is refused
} rsf_start_result;

// Refusals: 30 (the file does not load, or a past word is too wide), 31 (sensor word), 32 (request), 33 (the walk never is safe).
typedef struct {
    uint8_t number;
    uint16_t vector, passes; // what is to be sent, and how many passes were made
    rsf_past past;           // for the next scan; with a refusal the past as it was
} rsf_scan_result;

// Refusals: 20 (the file does not load), 40 (no byte, or more than 8), 41 (no point has this name).
typedef struct {
    uint8_t number, output; // 1 for an output, 0 for a read point
    size_t point;           // the number of the output or of the read point
} rsf_find_result;

// A set that rsf_prepare has read. The bytes are for the same version of the library alone: do not store them.
typedef struct {
    uint8_t bytes[RSF_PREPARED_BYTES];
} rsf_prepared;

// Whether the file loads, and the counts of its set: r at most 20, n at most 12, r + n at most 24, m at most 64.
rsf_load_result rsf_load(const uint8_t *file, size_t len);

// The verdict on the file's set, at commissioning. It goes through every read word, and takes milliseconds to seconds. The scratch has to have one bit
// for each vector: 2^n / 8 bytes, or one byte where n is below 3. With 20 and 21 it is left as it was; else these bytes have any content afterwards,
// and those behind them are left as they were.
rsf_verdict rsf_judge(const uint8_t *file, size_t len, uint8_t *scratch, size_t room);

// The same verdict, and the past for the first scan. Scan only where verdict.number is 0.
rsf_start_result rsf_start(const uint8_t *file, size_t len, uint8_t *scratch, size_t room);

// One scan. Bit k of sensor is read point k, with bits at sensors only; bit k of request and of the vector is output k. Where number is 0 send the
// vector. A refused scan has none: what goes to the actuators then is decided by the controller's maker. Keep the past of the answer in both cases.
// From the past of an accepted start on, 30 and 33 never come.
rsf_scan_result rsf_scan(const uint8_t *file, size_t len, rsf_past past, uint32_t sensor, uint16_t request);

// The point of that name, of 1 to 8 bytes, without a zero byte behind it.
rsf_find_result rsf_find(const uint8_t *file, size_t len, const uint8_t *name, size_t name_len);

// Reads the file once for many scans, and answers what rsf_load answers. All bytes of prepared are written: zeros where the file does not load.
rsf_load_result rsf_prepare(const uint8_t *file, size_t len, rsf_prepared *prepared);

// One scan as by rsf_scan, in less time: of what rsf_prepare gave, exactly the answer that rsf_scan has of the file. Of any other bytes it is a right
// scan of the set that they say, or 30; zeros are 30.
rsf_scan_result rsf_scan_prepared(const rsf_prepared *prepared, rsf_past past, uint32_t sensor, uint16_t request);

// A compiler that lays the structs out otherwise than the library does stops here.
typedef char rsf_past_has_8_bytes[sizeof(rsf_past) == 8 ? 1 : -1];
typedef char rsf_load_result_has_16_bytes[sizeof(rsf_load_result) == 16 ? 1 : -1];
typedef char rsf_verdict_has_8_bytes[sizeof(rsf_verdict) == 8 ? 1 : -1];
typedef char rsf_start_result_has_16_bytes[sizeof(rsf_start_result) == 16 ? 1 : -1];
typedef char rsf_scan_result_has_16_bytes[sizeof(rsf_scan_result) == 16 ? 1 : -1];
typedef char rsf_find_result_has_16_bytes[sizeof(rsf_find_result) == 16 ? 1 : -1];
typedef char rsf_prepared_has_its_bytes[sizeof(rsf_prepared) == RSF_PREPARED_BYTES ? 1 : -1];

#ifdef __cplusplus
}
#endif
#endif
